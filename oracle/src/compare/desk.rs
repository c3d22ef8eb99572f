//! The comparison of another desk program with this one's desk.
//!
//! Assumes that the other program reads a list from its standard input until
//! it ends; it may stop reading early. Every generated list is answered by
//! both.

use std::io::{self, Read, Write};
use std::process::{ChildStdin, Command, Stdio};
use std::thread;
use std::time::Duration;

use crate::compare::show::numbered_lines;
use crate::compare::{self, first_differing_line, not_run, Findings, Outcome};
use crate::desk;
use crate::generate::lists::list;

/// How a list is handed to the other program.
#[derive(Clone, Copy)]
struct Feeding {
    chunk: usize,
    /// After so many of the first chunks there is a pause, as the program
    /// would otherwise find them all waiting and read them at once.
    pauses: usize,
}

/// Compares the replies to so many lists, from the first seed on.
pub fn compare_desk(count: u64, first_seed: u64, program: &str) -> io::Result<Findings> {
    compare::compare(count, first_seed, |_| Ok(|seed| try_list(seed, program)))
}

/// An account of the difference, if the replies to this seed's list differ.
fn try_list(seed: u64, program: &str) -> io::Result<Option<String>> {
    let made = list(seed);
    let expected = desk::reply(&made.text);
    let feeding = feeding_of(seed, made.text.len());
    let outcome = run(program, &made.text, feeding)?;
    if outcome.agrees(&expected) {
        return Ok(None);
    }
    let mut account = format!("seed {seed}, kind {}, ", made.kind);
    account += &format!("handed over in chunks of {} bytes\n", feeding.chunk);
    let place = first_differing_line(&expected, &outcome.printed);
    // Behind a good first line the reply begins with the answer to line 2.
    let first_answered = if expected.starts_with(b"1\t") { 1 } else { 2 };
    account += &numbered_lines(&made.text, place + first_answered);
    account += &outcome.account(&expected);
    Ok(Some(account))
}

/// Small chunks only for short lists, as each costs time.
fn feeding_of(seed: u64, length: usize) -> Feeding {
    let (chunk, pauses) = match seed % 8 {
        0 if length <= 300 => (1, 24),
        1 if length <= 8_000 => (7, 24),
        2 | 3 if length > 4_095 => (4_095, 24),
        _ => (length.max(1), 0),
    };
    Feeding { chunk, pauses }
}

/// Runs the program with the list on its standard input. A thread of its own
/// writes the list, because the program may print before it has read all.
fn run(program: &str, list: &[u8], feeding: Feeding) -> io::Result<Outcome> {
    let mut child = Command::new(program)
        .stdin(Stdio::piped())
        .stdout(Stdio::piped())
        .spawn()
        .map_err(|trouble| not_run(program, trouble))?;
    let input = child.stdin.take().expect("standard input is a pipe");
    let mut output = child.stdout.take().expect("standard output is a pipe");
    let mut printed = Vec::new();
    thread::scope(|scope| {
        scope.spawn(|| feed(input, list, feeding));
        output.read_to_end(&mut printed)
    })?;
    let status = child.wait()?;
    Ok(Outcome { printed, status })
}

/// Writes the list and closes the pipe. A program that has read enough may
/// close it sooner; its reply shows whether it had.
fn feed(mut input: ChildStdin, list: &[u8], feeding: Feeding) {
    for (place, chunk) in list.chunks(feeding.chunk).enumerate() {
        if input.write_all(chunk).is_err() {
            return;
        }
        if place < feeding.pauses {
            thread::sleep(Duration::from_micros(100));
        }
    }
}
