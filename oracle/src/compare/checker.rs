//! The comparison of another checker program with this one's checker.
//!
//! Assumes that the other program takes the names of the list and the plan as
//! its arguments. Each worker keeps a directory of its own for the two files,
//! which is removed when the worker ends. For a few seeds a name is left out
//! or names nothing that can be read.

use std::ffi::OsString;
use std::os::unix::ffi::OsStringExt;
use std::path::PathBuf;
use std::process::{self, Command, Stdio};
use std::{env, fs, io};

use crate::checker::{self, Text};
use crate::compare::show::numbered_lines;
use crate::compare::{self, not_run, Findings, Outcome};
use crate::desk::lines::TAB;
use crate::generate::pairs::{pair, Pair};

/// What stands in the place of one of the two names.
#[derive(Clone, Copy, PartialEq, Eq)]
pub enum Name {
    /// The name of the file with the generated text.
    Generated,
    /// The name of no file.
    Missing,
    /// The name of no file, and not a text of whole characters either.
    Foreign,
    /// The name of a directory.
    Directory,
    /// No bytes at all.
    Empty,
    NotGiven,
}

/// How the program is called: with a name for the list and one for the plan.
pub struct Call {
    names: [Name; 2],
}

impl Call {
    /// Few seeds have another call than the good one.
    pub fn of(seed: u64) -> Call {
        let names = match seed % 120 {
            0 => [Name::NotGiven, Name::NotGiven],
            1 => [Name::Generated, Name::NotGiven],
            2 => [Name::Missing, Name::NotGiven],
            3 => [Name::Missing, Name::Generated],
            4 => [Name::Generated, Name::Missing],
            5 => [Name::Missing, Name::Missing],
            6 => [Name::Directory, Name::Generated],
            7 => [Name::Generated, Name::Directory],
            8 => [Name::Foreign, Name::Generated],
            9 => [Name::Generated, Name::Empty],
            _ => [Name::Generated, Name::Generated],
        };
        Call { names }
    }

    /// The first of the texts that cannot be read by this call.
    pub fn unread(&self) -> Option<Text> {
        [Text::Orders, Text::Plan]
            .into_iter()
            .find(|&text| self.names[text as usize] != Name::Generated)
    }
}

/// Compares the replies to so many pairs, from the first seed on.
pub fn compare_checker(count: u64, first_seed: u64, program: &str) -> io::Result<Findings> {
    compare::compare(count, first_seed, |worker| {
        let workplace = Workplace::make(worker)?;
        Ok(move |seed| workplace.try_pair(seed, program))
    })
}

/// A worker's directory with its two files.
struct Workplace {
    directory: PathBuf,
}

impl Workplace {
    fn make(worker: usize) -> io::Result<Workplace> {
        let name = format!("oracle-{}-{worker}", process::id());
        let directory = env::temp_dir().join(name);
        fs::create_dir(&directory)?;
        Ok(Workplace { directory })
    }

    /// An account of the difference, if the replies to this seed's pair differ.
    fn try_pair(&self, seed: u64, program: &str) -> io::Result<Option<String>> {
        let pair = pair(seed);
        fs::write(self.file(Text::Orders), &pair.list.text)?;
        fs::write(self.file(Text::Plan), &pair.plan.text)?;
        let names = self.names(&Call::of(seed));
        let expected = checker::reply(&names);
        let outcome = run(program, &names)?;
        if outcome.agrees(&expected) {
            return Ok(None);
        }
        let call = format!("seed {seed}, called with {names:?}\n");
        Ok(Some(call + &account(&pair, &expected, &outcome)))
    }

    fn names(&self, call: &Call) -> Vec<OsString> {
        [Text::Orders, Text::Plan]
            .into_iter()
            .filter_map(|text| self.name(call.names[text as usize], text))
            .collect()
    }

    fn name(&self, name: Name, text: Text) -> Option<OsString> {
        let foreign = OsString::from_vec(vec![0xff]);
        match name {
            Name::Generated => Some(self.file(text).into()),
            Name::Missing => Some(self.directory.join("missing").into()),
            Name::Foreign => Some(self.directory.join(foreign).into()),
            Name::Directory => Some(self.directory.clone().into()),
            Name::Empty => Some(OsString::new()),
            Name::NotGiven => None,
        }
    }

    fn file(&self, text: Text) -> PathBuf {
        self.directory.join(text.word())
    }
}

impl Drop for Workplace {
    fn drop(&mut self) {
        // What cannot be removed is left behind; no reply depends on it.
        let _ = fs::remove_dir_all(&self.directory);
    }
}

fn run(program: &str, names: &[OsString]) -> io::Result<Outcome> {
    let output = Command::new(program)
        .args(names)
        .stdin(Stdio::null())
        .stderr(Stdio::inherit())
        .output()
        .map_err(|trouble| not_run(program, trouble))?;
    Ok(Outcome {
        printed: output.stdout,
        status: output.status,
    })
}

/// Both texts with the line that matters marked, and what each program made of
/// them.
fn account(pair: &Pair, expected: &[u8], outcome: &Outcome) -> String {
    let mut account = String::new();
    for (text, made) in [(Text::Orders, &pair.list), (Text::Plan, &pair.plan)] {
        let marked = line_at_fault(expected, text)
            .or_else(|| line_at_fault(&outcome.printed, text))
            .unwrap_or(0);
        account += &format!("{}, kind {}, ", text.word(), made.kind);
        account += &numbered_lines(&made.text, marked);
    }
    account + &outcome.account(expected)
}

/// The number of the line that the reply finds at fault in this text.
fn line_at_fault(reply: &[u8], text: Text) -> Option<usize> {
    let words: Vec<&[u8]> = reply.trim_ascii_end().split(|&byte| byte == TAB).collect();
    match words[..] {
        [b"fault", _, word, line_number] if word == text.word().as_bytes() => {
            str::from_utf8(line_number).ok()?.parse().ok()
        }
        _ => None,
    }
}
