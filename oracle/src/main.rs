//! The second program: a desk and a checker written from the paper alone, a
//! generator of order lists and plans, and the comparison of another desk or
//! checker with this one's. It also answers case files, which hold single
//! questions about any part of the desk and the checker.
//!
//! Assumes that seeds and counts are plain whole numbers of up to 64 bits. It
//! ends with 0 if all went well, 1 if two programs differ or something could
//! not be read or run, and 2 if the arguments make no sense. The checker ends
//! with 0 whatever its arguments are, as its reply tells what was not read.

mod cases;
mod checker;
mod compare;
mod desk;
mod generate;

use std::env;
use std::ffi::OsString;
use std::io::{self, Read, Write};
use std::process::ExitCode;

use compare::checker::compare_checker;
use compare::desk::compare_desk;
use compare::Findings;
use generate::chance::Chance;
use generate::pairs::pair;
use generate::{coverage, coverage_checker, lists, noise, plans};

const USAGE: &str = "\
oracle desk                           answers the order list on standard input
oracle checker LIST PLAN              judges the plan by the list, two files
oracle cases                          answers the case file on standard input
oracle list SEED                      writes the order list of this seed
oracle plan SEED                      writes the plan of this seed, made for that list
oracle pair-list SEED                 writes the list of this seed's pair for checkers
oracle pair-plan SEED                 writes the plan of that pair
oracle pair-cases N SEED              writes a case file of the short pairs of N seeds
oracle noise LENGTH SEED              writes so many bytes of any value
oracle coverage N SEED                counts what the lists of N seeds bring about
oracle coverage-checker N SEED        counts what the pairs of N seeds bring about
oracle compare N SEED DESK            compares the desk program at DESK over N seeds
oracle compare-checker N SEED CHECKER compares the checker program at CHECKER
";

fn main() -> ExitCode {
    let arguments: Vec<OsString> = env::args_os().skip(1).collect();
    let texts: Vec<_> = arguments
        .iter()
        .map(|name| name.to_string_lossy())
        .collect();
    let words: Vec<&str> = texts.iter().map(AsRef::as_ref).collect();
    let done = match words[..] {
        ["desk"] => answer_standard_input(desk::reply),
        ["cases"] => answer_standard_input(cases::reply),
        ["checker", ..] => print(&checker::reply(&arguments[1..])),
        ["list", seed] => on_number(seed, |seed| print(&lists::list(seed).text)),
        ["plan", seed] => on_number(seed, |seed| print(&plans::plan(seed).text)),
        ["pair-list", seed] => on_number(seed, |seed| print(&pair(seed).list.text)),
        ["pair-plan", seed] => on_number(seed, |seed| print(&pair(seed).plan.text)),
        ["pair-cases", count, seed] => on_numbers(count, seed, |count, seed| {
            print(&cases::generated(count, seed))
        }),
        ["noise", length, seed] => on_numbers(length, seed, |length, seed| {
            print(&noise::any_bytes(
                &mut Chance::from_seed(seed),
                length as usize,
            ))
        }),
        ["coverage", count, seed] => on_numbers(count, seed, |count, seed| {
            print(coverage::coverage(count, seed).as_bytes())
        }),
        ["coverage-checker", count, seed] => on_numbers(count, seed, |count, seed| {
            print(coverage_checker::coverage(count, seed).as_bytes())
        }),
        ["compare", count, seed, program] => on_numbers(count, seed, |count, seed| {
            tell(count, compare_desk(count, seed, program)?)
        }),
        ["compare-checker", count, seed, program] => on_numbers(count, seed, |count, seed| {
            tell(count, compare_checker(count, seed, program)?)
        }),
        _ => misused(),
    };
    done.unwrap_or_else(|trouble| {
        eprintln!("oracle: {trouble}");
        ExitCode::FAILURE
    })
}

fn answer_standard_input(reply: impl Fn(&[u8]) -> Vec<u8>) -> io::Result<ExitCode> {
    let mut input = Vec::new();
    io::stdin().lock().read_to_end(&mut input)?;
    print(&reply(&input))
}

/// Shows the first difference and says how many there are.
fn tell(count: u64, findings: Findings) -> io::Result<ExitCode> {
    if let Some(difference) = &findings.first {
        println!("{}", difference.account);
    }
    println!("{count} inputs, {} differ", findings.differing);
    Ok(match findings.differing {
        0 => ExitCode::SUCCESS,
        _ => ExitCode::FAILURE,
    })
}

fn print(text: &[u8]) -> io::Result<ExitCode> {
    let mut output = io::stdout().lock();
    output.write_all(text)?;
    output.flush()?;
    Ok(ExitCode::SUCCESS)
}

fn on_number(text: &str, act: impl Fn(u64) -> io::Result<ExitCode>) -> io::Result<ExitCode> {
    match text.parse() {
        Ok(number) => act(number),
        Err(_) => misused(),
    }
}

fn on_numbers(
    count: &str,
    seed: &str,
    act: impl Fn(u64, u64) -> io::Result<ExitCode>,
) -> io::Result<ExitCode> {
    match (count.parse(), seed.parse()) {
        (Ok(count), Ok(seed)) => act(count, seed),
        _ => misused(),
    }
}

fn misused() -> io::Result<ExitCode> {
    eprint!("{USAGE}");
    Ok(ExitCode::from(2))
}
