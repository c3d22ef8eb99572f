//! A table of what the generated lists bring about: how many there are of
//! each kind, and how often the desk prints each answer.
//!
//! Assumes the shape of the desk's own reply, from which it is counted.

use crate::desk;
use crate::desk::lines::{lines, TAB};
use crate::generate::lists::{self, Program};
use crate::generate::plans;

/// The answers counted, as the first words after the line number.
const ANSWERS: [&str; 9] = ["yes", "no", "1", "2", "3", "4", "5", "6", "9"];

type Counts = [u64; ANSWERS.len()];

#[derive(Clone)]
struct Row {
    name: &'static str,
    inputs: u64,
    answers: Counts,
}

/// The table for so many seeds from the first on.
pub fn coverage(count: u64, first_seed: u64) -> String {
    let mut rows: Vec<Row> = lists::kind_names(Program::Desk).map(empty_row).collect();
    let mut all = empty_row("answers in all");
    let mut met = empty_row("inputs with it");
    let mut longest = 0;
    for turn in 0..count {
        let made = lists::list(first_seed.wrapping_add(turn));
        let answers = count_answers(&desk::reply(&made.text));
        longest = longest.max(made.text.len());
        for row in rows.iter_mut().filter(|row| row.name == made.kind) {
            add(row, answers);
        }
        add(&mut all, answers);
        add(&mut met, answers.map(|count| count.min(1)));
    }
    rows.extend([all, met]);
    let mut table = heading();
    for row in &rows {
        table += &line_of(row);
    }
    table += &format!("longest input: {longest} bytes\n\n");
    table + &plan_table(count, first_seed)
}

fn empty_row(name: &'static str) -> Row {
    Row {
        name,
        inputs: 0,
        answers: [0; ANSWERS.len()],
    }
}

fn add(row: &mut Row, answers: Counts) {
    row.inputs += 1;
    for (sum, count) in row.answers.iter_mut().zip(answers) {
        *sum += count;
    }
}

/// How often each answer stands in the reply. The last line, the sum, is none.
fn count_answers(reply: &[u8]) -> Counts {
    let mut answers = [0; ANSWERS.len()];
    for line in lines(reply).filter(|line| !line.starts_with(b"sum")) {
        let mut words = line.trim_ascii_end().split(|&byte| byte == TAB).skip(1);
        let word = match words.next() {
            Some(b"bad") => words.next(),
            word => word,
        };
        let place = ANSWERS
            .iter()
            .position(|answer| Some(answer.as_bytes()) == word);
        answers[place.expect("the desk gives no other answer")] += 1;
    }
    answers
}

fn heading() -> String {
    let mut heading = format!("{:16}{:>8}", "lists", "inputs");
    for answer in ANSWERS {
        heading += &format!("{:>9}", answer);
    }
    heading + "\n"
}

fn line_of(row: &Row) -> String {
    let mut line = format!("{:16}{:8}", row.name, row.inputs);
    for count in row.answers {
        line += &format!("{count:9}");
    }
    line + "\n"
}

fn plan_table(count: u64, first_seed: u64) -> String {
    let kinds: Vec<&str> = (0..count)
        .map(|turn| plans::plan(first_seed.wrapping_add(turn)).kind)
        .collect();
    kind_table("plans", plans::kind_names(), &kinds)
}

/// How many inputs there are of each kind by name.
pub fn kind_table(
    title: &str,
    names: impl Iterator<Item = &'static str>,
    kinds: &[&str],
) -> String {
    let mut table = format!("{title:16}{:>8}\n", "inputs");
    for name in names {
        let inputs = kinds.iter().filter(|kind| **kind == name).count();
        table += &format!("{name:16}{inputs:8}\n");
    }
    table
}
