//! The cases that the paper gives for the checker, each fault by itself and
//! against the next in the order of checks.
//!
//! Assumes that `→` in a test's text stands for one tab, as in the paper.

use std::env;
use std::ffi::OsString;

use crate::checker::{judge, reply, Judgement};
use crate::desk::book::MOST_TAKEN;
use crate::desk::lines::{LINE_END, LONGEST_TEXT};
use crate::desk::tests::bytes;
use crate::generate::pairs::pair;

const LIST: &str = "steam→2→3\n7→0→20\n7→0→20\n7→0→20\n12→1→11\n12→1→11\n\
                    3→2→8\n3→2→8\n3→2→8\n3→2→8\n";
const PLAN: &str = "7→1→2\n8→2→2\n9→1→5\n10→2→5\n5→1→8\n6→2→8\n2→1→11\n3→2→11\n4→1→14\n";

/// The judgement in short, as `right→N` or number, text, line number and line,
/// after a look at where the line shown stands.
fn shown(list: &[u8], plan: &[u8]) -> String {
    let fault = match judge(list, plan) {
        Judgement::Right { lines } => return format!("right→{lines}"),
        Judgement::Fault(fault) => fault,
    };
    let text = match fault.text.word() {
        "orders" => list,
        _ => plan,
    };
    let place = fault.line.as_ptr() as usize - text.as_ptr() as usize;
    assert_eq!(&text[place..][..fault.line.len()], fault.line);
    if fault.line.is_empty() {
        assert_eq!(place, 0);
    } else {
        let line_ends = text[..place].iter().filter(|&&byte| byte == LINE_END);
        assert_eq!(line_ends.count() + 1, fault.line_number as usize);
    }
    format!(
        "{}→{}→{}→{}",
        fault.refusal.number(),
        fault.text.word(),
        fault.line_number,
        String::from_utf8_lossy(fault.line).replace('\t', "→"),
    )
}

fn check(list: &str, plan: &str, expected: &str) {
    let judgement = shown(&bytes(list), &bytes(plan));
    assert_eq!(judgement, expected, "{list:?} {plan:?}");
}

/// Checks the fault that one plan line brings behind another. There are two
/// chambers with a run of 3, orders from 5 to 11 and from 6 to 12, and a short
/// order from 7 to 9.
fn check_second_line(line: &str, number: u32) {
    let list = "steam→2→3\n1→5→11\n1→6→12\n1→7→9\n";
    let plan = format!("2→1→6\n{line}");
    let expected = match number {
        0 => "right→2".to_string(),
        _ => format!("{number}→plan→2→{line}"),
    };
    check(list, &plan, &expected);
}

#[test]
fn whole_example_is_right() {
    check(LIST, PLAN, "right→9");
    check(LIST, "", "right→0");
    check("steam→2→3\n", "", "right→0");
}

#[test]
fn the_desk_plan_is_right() {
    check(LIST, "2→1→0\n3→1→3\n4→1→6\n5→2→1\n6→2→4\n", "right→5");
}

#[test]
fn list_faults_come_first() {
    for (list, fault) in [
        ("", "1→orders→1→"),
        ("\n", "1→orders→1→\n"),
        ("steam→2→3", "1→orders→1→steam→2→3"),
        ("Steam→2→3\n", "1→orders→1→Steam→2→3\n"),
        ("steam→9→x\n", "4→orders→1→steam→9→x\n"),
        ("steam→2→3\n1→0→9\n1→0→9", "1→orders→3→1→0→9"),
        ("steam→2→3\n01→0→9\n1→0\n", "2→orders→2→01→0→9\n"),
        ("steam→2→3\n1→0→9\n1→0→x\n", "3→orders→3→1→0→x\n"),
        ("steam→2→3\n0→0→x\n", "4→orders→2→0→0→x\n"),
        ("steam→1→3\n1→5→0\n1→4,99→9\n", "5→orders→3→1→4,99→9\n"),
    ] {
        check(list, "x", fault);
    }
    check("steam→1→3\n1→5→0\n1→5→9\n", "x", "1→plan→1→x");
    let full = format!("steam→1→1\n{}", "1→5→0\n".repeat(MOST_TAKEN as usize));
    check(&full, "", "right→0");
    for (line, number) in [("1→5→9\n", 6), ("1→4→9\n", 6), ("0→5→9\n", 4)] {
        check(
            &(full.clone() + line),
            "x",
            &format!("{number}→orders→514→{line}"),
        );
    }
}

#[test]
fn plan_lines_are_read_from_the_left() {
    for (line, number) in [
        ("3→2→6", 1),
        ("\n", 1),
        ("x→9\n", 1),
        ("3→1→6→\n", 1),
        ("x→9→x\n", 2),
        ("03→9→x\n", 2),
        ("10000→0→x\n", 2),
        ("0→x→x\n", 2),
        ("0→02→x\n", 2),
        ("0→3→x\n", 4),
        ("0→0→x\n", 4),
        ("0→2→x\n", 3),
        ("0→2→6.5\n", 3),
        ("3→2→6\r\n", 3),
    ] {
        check_second_line(line, number);
    }
}

#[test]
fn loads_are_checked_in_order() {
    for (line, number) in [
        // Beside the lines of the list's orders.
        ("0→1→6\n", 11),
        ("1→1→6\n", 11),
        ("5→1→6\n", 11),
        ("9999→1→6\n", 11),
        // The same order, wherever it is put.
        ("2→1→4,99\n", 12),
        ("2→2→9\n", 12),
        ("2→1→6\n", 12),
        // Before ready, and also after due or upon the other load.
        ("3→2→5,99\n", 13),
        ("3→1→5,99\n", 13),
        ("4→1→6,99\n", 13),
        // After due, and also upon the other load.
        ("3→2→9,01\n", 14),
        ("4→2→7\n", 14),
        ("4→1→7\n", 14),
        // Upon the other load, or only just not.
        ("3→1→6\n", 15),
        ("3→1→8,99\n", 15),
        ("3→1→9\n", 0),
        ("3→2→6\n", 0),
        ("3→2→9\n", 0),
    ] {
        check_second_line(line, number);
    }
}

#[test]
fn loads_that_touch_do_not_overlap() {
    let list = "steam→2→3\n1→0→20\n1→0→20\n1→0→20\n";
    check(list, "2→1→3\n3→1→6\n4→1→0\n", "right→3");
    check(list, "2→1→3\n3→1→6\n4→1→0,01\n", "15→plan→3→4→1→0,01\n");
    check(list, "2→1→3\n3→1→5,99\n4→1→x\n", "15→plan→2→3→1→5,99\n");
}

#[test]
fn overlap_is_looked_for_on_every_earlier_line() {
    let list = "steam→2→3\n1→0→20\n1→0→20\n1→0→20\n1→0→20\n";
    check(list, "2→1→3\n3→1→9\n4→2→3\n5→1→4\n", "15→plan→4→5→1→4\n");
    check(
        list,
        "2→1→3\n3→1→9\n4→2→3\n5→1→6,01\n",
        "15→plan→4→5→1→6,01\n",
    );
    check(list, "2→1→3\n3→1→9\n4→2→3\n5→1→6\n", "right→4");
}

#[test]
fn short_orders_do_not_fall_below_0() {
    check("steam→1→3\n1→0→2\n", "2→1→0\n", "14→plan→1→2→1→0\n");
    let last = "steam→1→3\n1→0→9999,99\n";
    check(last, "2→1→9996,99\n", "right→1");
    check(last, "2→1→9999,99\n", "14→plan→1→2→1→9999,99\n");
}

#[test]
fn long_texts_are_seen_before_all_else() {
    let of_length = |length| vec![LINE_END; length];
    let (longest, too_long) = (of_length(LONGEST_TEXT), of_length(LONGEST_TEXT + 1));
    let clean = bytes(LIST);
    for (list, plan, expected) in [
        (&longest, &longest, "1→orders→1→\n"),
        (&too_long, &longest, "9→orders→0→"),
        (&too_long, &too_long, "9→orders→0→"),
        (&longest, &too_long, "9→plan→0→"),
        (&clean, &longest, "1→plan→1→\n"),
        (&clean, &too_long, "9→plan→0→"),
        (&Vec::new(), &too_long, "9→plan→0→"),
    ] {
        assert_eq!(shown(list, plan), expected);
    }
}

#[test]
fn names_are_tried_from_the_left() {
    let missing = OsString::from("no such directory/no such file");
    // This very program is a file that can be read, though no list.
    let readable = OsString::from(env::current_exe().unwrap());
    for (names, expected) in [
        (vec![], "unread\torders\n"),
        (vec![missing.clone()], "unread\torders\n"),
        (vec![missing.clone(), readable.clone()], "unread\torders\n"),
        (vec![readable.clone()], "unread\tplan\n"),
        (vec![readable.clone(), missing], "unread\tplan\n"),
        (vec![readable.clone(), readable], "fault\t9\torders\t0\n"),
    ] {
        assert_eq!(String::from_utf8(reply(&names)).unwrap(), expected);
    }
}

#[test]
fn seeds_decide_pairs_alone() {
    for seed in 0..300 {
        let (one, other) = (pair(seed), pair(seed));
        assert_eq!(one.list.text, other.list.text);
        assert_eq!(one.plan.text, other.plan.text);
    }
}
