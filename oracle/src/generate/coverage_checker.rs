//! A table of what the generated pairs bring about: how often the checker
//! finds each outcome, and how many pairs there are of each kind.
//!
//! Assumes that the program is called for each seed as in the comparison, so a
//! pair whose list or plan cannot be read counts only as that.

use crate::checker::{judge, overlap, Fault, Judgement, Text};
use crate::compare::checker::Call;
use crate::desk::book::MOST_TAKEN;
use crate::desk::lines::{lines, read_load, Load, LONGEST_TEXT};
use crate::desk::refusal::Refusal;
use crate::generate::coverage::kind_table;
use crate::generate::lists::{self, Program};
use crate::generate::pairs::{pair, Pair};
use crate::generate::plans::{self, season_of, Season};

/// The outcomes counted. What stands behind a comma is counted once more.
const OUTCOMES: [&str; 30] = [
    "right with 0",
    "right with lines",
    "right with lines, touching loads",
    "right with lines, last order named",
    "right with lines, 512 of them",
    "orders 1",
    "orders 1, no line",
    "orders 2",
    "orders 3",
    "orders 4",
    "orders 5",
    "orders 6",
    "orders 9",
    "orders 9, plan too long as well",
    "plan 1",
    "plan 2",
    "plan 3",
    "plan 4",
    "plan 9",
    "plan 11",
    "plan 11, order line 0",
    "plan 11, order line 1",
    "plan 11, first past the end",
    "plan 12",
    "plan 13",
    "plan 14",
    "plan 15",
    "plan 15, line before is clear",
    "unread orders",
    "unread plan",
];

/// The table for so many seeds from the first on.
pub fn coverage(count: u64, first_seed: u64) -> String {
    let mut counts = [0; OUTCOMES.len()];
    let mut list_kinds = Vec::new();
    let mut plan_kinds = Vec::new();
    for turn in 0..count {
        let seed = first_seed.wrapping_add(turn);
        let pair = pair(seed);
        for outcome in outcomes(seed, &pair) {
            let place = OUTCOMES.iter().position(|known| *known == outcome);
            counts[place.expect("the checker finds no other outcome")] += 1;
        }
        list_kinds.push(pair.list.kind);
        plan_kinds.push(pair.plan.kind);
    }
    let mut table = format!("{:36}{:>8}\n", "outcomes", "pairs");
    for (outcome, count) in OUTCOMES.iter().zip(counts) {
        table += &format!("{outcome:36}{count:8}\n");
    }
    table += "\n";
    table += &kind_table("lists", lists::kind_names(Program::Checker), &list_kinds);
    table += "\n";
    table + &kind_table("plans", plans::kind_names(), &plan_kinds)
}

fn outcomes(seed: u64, pair: &Pair) -> Vec<String> {
    if let Some(text) = Call::of(seed).unread() {
        return vec![format!("unread {}", text.word())];
    }
    match judge(&pair.list.text, &pair.plan.text) {
        Judgement::Right { lines: 0 } => vec!["right with 0".to_string()],
        Judgement::Right { .. } => with_details("right with lines", right_details(pair)),
        Judgement::Fault(fault) => {
            let outcome = format!("{} {}", fault.text.word(), fault.refusal.number());
            with_details(&outcome, fault_details(pair, fault))
        }
    }
}

fn with_details(outcome: &str, details: Vec<&str>) -> Vec<String> {
    let mut outcomes = vec![outcome.to_string()];
    outcomes.extend(details.iter().map(|detail| format!("{outcome}, {detail}")));
    outcomes
}

/// What is worth knowing of a right plan.
fn right_details(pair: &Pair) -> Vec<&'static str> {
    let season = season_of(&pair.list.text);
    let loads: Vec<Load> = lines(&pair.plan.text)
        .filter_map(|line| read_load(line, season.heading.chambers).ok())
        .collect();
    let end = |load: &Load| load.start + season.heading.run;
    let follows =
        |one: &Load, other: &Load| one.chamber == other.chamber && one.start == end(other);
    let touches = |one: &Load| loads.iter().any(|other| follows(one, other));
    let mut details = Vec::new();
    if loads.iter().any(touches) {
        details.push("touching loads");
    }
    if loads.iter().any(|load| load.order_line == season.last_line) {
        details.push("last order named");
    }
    if loads.len() == MOST_TAKEN as usize {
        details.push("512 of them");
    }
    details
}

/// What is worth knowing of a fault.
fn fault_details(pair: &Pair, fault: Fault) -> Vec<&'static str> {
    let season = season_of(&pair.list.text);
    let detail = match fault.refusal {
        Refusal::Shape => fault.line.is_empty().then_some("no line"),
        Refusal::TextTooLong => {
            let both = fault.text == Text::Orders && pair.plan.text.len() > LONGEST_TEXT;
            both.then_some("plan too long as well")
        }
        Refusal::NoSuchOrder => match read_load(fault.line, season.heading.chambers) {
            Ok(load) if load.order_line == 0 => Some("order line 0"),
            Ok(load) if load.order_line == 1 => Some("order line 1"),
            Ok(load) if load.order_line == season.last_line + 1 => Some("first past the end"),
            _ => None,
        },
        Refusal::Overlap => {
            let clear = !overlaps_line_before(&season, &pair.plan.text, fault);
            clear.then_some("line before is clear")
        }
        _ => None,
    };
    detail.into_iter().collect()
}

/// Whether the load at fault overlaps that of the line just before. There is
/// one, since the load overlaps that of some earlier line.
fn overlaps_line_before(season: &Season, plan: &[u8], fault: Fault) -> bool {
    let before = lines(plan).nth(fault.line_number as usize - 2);
    let load = |line| read_load(line, season.heading.chambers).ok();
    match (before.and_then(load), load(fault.line)) {
        (Some(one), Some(other)) => {
            one.chamber == other.chamber && overlap(season.heading.run, one.start, other.start)
        }
        _ => false,
    }
}
