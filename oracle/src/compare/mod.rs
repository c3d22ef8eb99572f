//! The comparison of another program with this one over many seeds: the
//! turns, the findings and the account of two replies that differ.
//!
//! Assumes that the other program ends with success and prints its reply on
//! its standard output, and that the two replies must agree in every byte.

pub mod checker;
pub mod desk;
pub mod show;

use std::io;
use std::process::ExitStatus;
use std::sync::atomic::{AtomicU64, Ordering};
use std::thread;

use crate::compare::show::readable_line;
use crate::desk::lines::lines;

/// So many inputs are tried side by side.
const WORKERS: usize = 2;

/// How many of all inputs differ, and the one with the least turn of them.
#[derive(Default)]
pub struct Findings {
    pub differing: u64,
    pub first: Option<Difference>,
}

pub struct Difference {
    turn: u64,
    pub account: String,
}

impl Findings {
    fn add(&mut self, difference: Difference) {
        self.differing += 1;
        self.keep_first(Some(difference));
    }

    fn join(&mut self, other: Findings) {
        self.differing += other.differing;
        self.keep_first(other.first);
    }

    fn keep_first(&mut self, difference: Option<Difference>) {
        let known = self.first.take();
        self.first = known
            .into_iter()
            .chain(difference)
            .min_by_key(|difference| difference.turn);
    }
}

/// The reply of the other program to one input, and how it ended.
pub struct Outcome {
    pub printed: Vec<u8>,
    pub status: ExitStatus,
}

/// Tries so many seeds from the first on. Each worker is made ready first, and
/// then tries one seed after another; a try gives an account if the replies
/// differ.
pub fn compare<Try>(
    count: u64,
    first_seed: u64,
    make_ready: impl Fn(usize) -> io::Result<Try> + Sync,
) -> io::Result<Findings>
where
    Try: FnMut(u64) -> io::Result<Option<String>>,
{
    let next_turn = AtomicU64::new(0);
    let work = |worker| take_turns(count, &next_turn, first_seed, make_ready(worker)?);
    thread::scope(|scope| {
        let work = &work;
        let workers: Vec<_> = (0..WORKERS)
            .map(|worker| scope.spawn(move || work(worker)))
            .collect();
        let mut findings = Findings::default();
        for worker in workers {
            findings.join(worker.join().expect("a worker does not panic")?);
        }
        Ok(findings)
    })
}

/// Takes turns until all are taken.
fn take_turns(
    count: u64,
    next_turn: &AtomicU64,
    first_seed: u64,
    mut try_seed: impl FnMut(u64) -> io::Result<Option<String>>,
) -> io::Result<Findings> {
    let mut findings = Findings::default();
    loop {
        let turn = next_turn.fetch_add(1, Ordering::Relaxed);
        if turn >= count {
            return Ok(findings);
        }
        if let Some(account) = try_seed(first_seed.wrapping_add(turn))? {
            findings.add(Difference { turn, account });
        }
    }
}

impl Outcome {
    /// Whether the program did as this one does.
    pub fn agrees(&self, expected: &[u8]) -> bool {
        self.printed == expected && self.status.success()
    }

    /// The first line in which the replies differ, as each has it, and how the
    /// program ended if not with success.
    pub fn account(&self, expected: &[u8]) -> String {
        let mut account = String::new();
        if self.printed != expected {
            let place = first_differing_line(expected, &self.printed);
            account += &format!("line {} of the reply\n", place + 1);
            account += &format!("  oracle: {}\n", shown_line(expected, place));
            account += &format!("  other:  {}\n", shown_line(&self.printed, place));
        }
        if !self.status.success() {
            account += &format!("the other program failed: {}\n", self.status);
        }
        account
    }
}

/// Says which program it was that could not be run.
pub fn not_run(program: &str, trouble: io::Error) -> io::Error {
    io::Error::new(trouble.kind(), format!("{program}: {trouble}"))
}

/// The place, counted from 0, of the first line that the replies do not share.
pub fn first_differing_line(expected: &[u8], printed: &[u8]) -> usize {
    lines(expected)
        .zip(lines(printed))
        .take_while(|(ours, theirs)| ours == theirs)
        .count()
}

fn shown_line(reply: &[u8], place: usize) -> String {
    match lines(reply).nth(place) {
        Some(line) => readable_line(line),
        None => "(no such line)".to_string(),
    }
}
