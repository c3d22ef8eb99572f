//! The cases that the paper gives, and a few more about its borders.
//!
//! Assumes that `→` in a test's text stands for one tab, as in the paper.

use crate::desk::book::{Answer, Book, MOST_TAKEN};
use crate::desk::hours::{read_hour, write_hour, LAST_HOUR};
use crate::desk::lines::{LINE_END, LONGEST_TEXT};
use crate::desk::refusal::Refusal;
use crate::desk::reply;
use crate::generate::lists::list;
use crate::generate::plans::plan;

pub fn bytes(text: &str) -> Vec<u8> {
    text.replace('→', "\t").into_bytes()
}

fn check_reply(list: &str, expected: &str) {
    let printed = String::from_utf8(reply(&bytes(list))).unwrap();
    assert_eq!(printed.replace('\t', "→"), expected, "{list:?}");
}

/// Checks the answer to one line behind a good first line of two chambers.
fn check_line(line: &str, answer: &str) {
    let taken = u32::from(!answer.starts_with("bad"));
    let kept = u32::from(answer.starts_with("yes"));
    check_reply(
        &format!("steam→2→3\n{line}"),
        &format!("2→{answer}\nsum→{taken}→{kept}\n"),
    );
}

fn book(free: [u32; 2]) -> Book {
    let mut book = Book::fresh(2, 300);
    book.free[..2].copy_from_slice(&free);
    book
}

fn yes(chamber: u32, start: u32) -> Answer {
    Answer::Yes { chamber, start }
}

#[test]
fn whole_example() {
    check_reply(
        "steam→2→3\n7→0→20\n7→0→20\n7→0→20\n12→1→11\n12→1→11\n\
         3→2→8\n3→2→8\n3→2→8\n3→2→8\n",
        "2→yes→1→0,00\n3→yes→1→3,00\n4→yes→1→6,00\n5→yes→2→1,00\n6→yes→2→4,00\n\
         7→no\n8→no\n9→no\n10→no\nsum→9→5\n",
    );
}

#[test]
fn hours_either_side_of_the_line() {
    for (text, hour) in [
        ("18,5", 1_850),
        ("0,05", 5),
        ("9999,99", 999_999),
        ("185", 18_500),
        ("0", 0),
        ("0,0", 0),
        ("9999", 999_900),
        ("10,01", 1_001),
    ] {
        assert_eq!(read_hour(text.as_bytes()), Some(hour), "{text}");
    }
    for text in [
        "18.5", "1.850", "18,", ",5", "18,500", "08,5", "10000", "", ",", "00", "00,5", "0,",
        "1,,5", "1,5,", " 1", "1 ", "1\r", "1\0", "-1", "+1", "9999,990", "1,/", "1,:", "/", ":",
    ] {
        assert_eq!(read_hour(text.as_bytes()), None, "{text:?}");
    }
}

#[test]
fn written_hours_read_back() {
    for hour in 0..=LAST_HOUR {
        let mut text = Vec::new();
        write_hour(&mut text, hour);
        assert_eq!(read_hour(&text), Some(hour));
    }
    let mut text = Vec::new();
    write_hour(&mut text, 1_850);
    assert_eq!(text, b"18,50");
}

#[test]
fn orders_either_side_of_the_line() {
    for (free, ready, due, answer) in [
        ([0, 0], 0, 300, yes(1, 0)),
        ([0, 0], 0, 299, Answer::No),
        ([300, 0], 100, 600, yes(1, 300)),
        ([300, 0], 100, 599, yes(2, 100)),
        ([300, 0], 300, 900, yes(1, 300)),
        ([300, 400], 700, 1_000, yes(1, 700)),
        ([300, 400], 700, 999, Answer::No),
        ([300, 400], 100, 700, yes(2, 400)),
        ([0, 0], 999_699, 999_999, yes(1, 999_699)),
        ([0, 0], 999_700, 999_999, Answer::No),
        ([0, 0], 500, 0, Answer::No),
    ] {
        let mut after = book(free);
        assert_eq!(after.take(ready, due), answer, "{free:?} {ready} {due}");
        let mut expected = Book {
            clock: ready,
            taken: 1,
            ..book(free)
        };
        if let Answer::Yes { chamber, start } = answer {
            expected.kept = 1;
            expected.free[chamber as usize - 1] = start + 300;
        }
        assert_eq!(after, expected);
    }
}

#[test]
fn orders_as_numbers_are_checked_in_order() {
    let past = LAST_HOUR + 1;
    let full = |clock| Book {
        clock,
        taken: MOST_TAKEN,
        ..book([0, 0])
    };
    let mut unsound = full(500);
    unsound.free[2] = 1;
    let mut waiting = book([0, 0]);
    waiting.clock = 500;
    for (before, ready, due, refusal) in [
        (unsound, past, past, Refusal::BookUnsound),
        (full(500), past, 0, Refusal::OutOfRange),
        (full(500), 0, past, Refusal::OutOfRange),
        (full(500), 0, 900, Refusal::BookFull),
        (full(500), 500, 900, Refusal::BookFull),
        (waiting.clone(), 499, 900, Refusal::BelowClock),
    ] {
        let mut after = before.clone();
        assert_eq!(after.take(ready, due), Answer::Refused(refusal));
        assert_eq!(after, before);
    }
    assert_eq!(waiting.take(500, 800), yes(1, 500));
}

#[test]
fn sound_books_have_borders() {
    let sound = book([0, 0]);
    for unsound in [
        Book {
            chambers: 0,
            ..sound.clone()
        },
        Book {
            chambers: 9,
            ..sound.clone()
        },
        Book {
            run: 0,
            ..sound.clone()
        },
        Book {
            run: 10_000,
            ..sound.clone()
        },
        Book {
            clock: LAST_HOUR + 1,
            ..sound.clone()
        },
        Book {
            kept: 1,
            ..sound.clone()
        },
        Book {
            taken: 513,
            ..sound.clone()
        },
        book([0, LAST_HOUR + 1]),
    ] {
        let answer = unsound.clone().take(0, 300);
        assert_eq!(answer, Answer::Refused(Refusal::BookUnsound), "{unsound:?}");
    }
}

#[test]
fn order_lines_are_refused_from_the_left() {
    for (line, answer) in [
        ("7→0→20\n", "yes→1→0,00"),
        ("9999→0→2,99\n", "no"),
        ("1→0,0→3,0\n", "yes→1→0,00"),
        ("7→0→20", "bad→1"),
        ("7→0→2", "bad→1"),
        ("x", "bad→1"),
        ("\n", "bad→1"),
        ("7→0\n", "bad→1"),
        ("0→x→1→\n", "bad→1"),
        ("→→→\n", "bad→1"),
        ("7 0 20\n", "bad→1"),
        ("→→\n", "bad→2"),
        ("07→x→x\n", "bad→2"),
        ("00→0→20\n", "bad→2"),
        ("10000→0→20\n", "bad→2"),
        ("7,0→0→20\n", "bad→2"),
        ("0→x→x\n", "bad→4"),
        ("7→→20\n", "bad→3"),
        ("7→x→20\n", "bad→3"),
        ("7→0→20\r\n", "bad→3"),
        ("7→0→18.5\n", "bad→3"),
        ("7→0→10000\n", "bad→3"),
    ] {
        check_line(line, answer);
    }
}

#[test]
fn bad_first_lines_end_the_reply() {
    for (line, number) in [
        ("", 1),
        ("steam→2→3", 1),
        ("steam→2\n", 1),
        ("steam→2→3→0\n", 1),
        ("steam→2→\n", 3),
        ("Steam→2→3\n", 1),
        ("steam2→2→3\n", 1),
        ("→x→x\n", 1),
        ("steam→x→x\n", 2),
        ("steam→08→x\n", 2),
        ("steam→0→x\n", 4),
        ("steam→9→x\n", 4),
        ("steam→8→3.5\n", 3),
        ("steam→8→0\n", 4),
        ("steam→8→0,00\n", 4),
        ("steam→8→100\n", 4),
    ] {
        let expected = format!("1→bad→{number}\n");
        check_reply(line, &expected);
        if line.ends_with('\n') {
            check_reply(&format!("{line}7→0→20\n"), &expected);
        }
    }
    check_reply("steam→1→0,01\n", "sum→0→0\n");
    check_reply("steam→8→99,99\n", "sum→0→0\n");
}

#[test]
fn refused_lines_change_nothing() {
    check_reply(
        "steam→1→1\n1→5→5\n1→4,99→9\n1→5→9\n0→6→9\n1→6→x\n1→5→9\n1→5→7\n1→5→7,",
        "2→no\n3→bad→5\n4→yes→1→5,00\n5→bad→4\n6→bad→3\n7→yes→1→6,00\n8→no\n9→bad→1\n\
         sum→4→2\n",
    );
}

#[test]
fn full_book_is_seen_after_the_line_and_before_the_clock() {
    let mut list = "steam→1→1\n".to_string() + &"1→5→0\n".repeat(511);
    list += "1→4→9\n1→5→0\n1→4→9\n1→6→9\n1→4\n0→4→9\n1→,→9\n";
    let printed = String::from_utf8(reply(&bytes(&list))).unwrap();
    let (_, tail) = printed.split_once("\n512\tno\n").unwrap();
    assert_eq!(
        tail.replace('\t', "→"),
        "513→bad→5\n514→no\n515→bad→6\n516→bad→6\n517→bad→1\n518→bad→4\n519→bad→3\n\
         sum→512→0\n",
    );
}

#[test]
fn texts_about_the_limit() {
    let mut text = bytes("steam→1→1\n");
    text.resize(LONGEST_TEXT, LINE_END);
    let printed = reply(&text);
    assert!(printed.ends_with(b"\n65526\tbad\t1\n65527\tbad\t1\nsum\t0\t0\n"));
    text.push(LINE_END);
    assert_eq!(reply(&text), b"0\tbad\t9\n");
    assert_eq!(reply(&[b'x'; LONGEST_TEXT]), b"1\tbad\t1\n");
    assert_eq!(reply(&[b'x'; LONGEST_TEXT + 1]), b"0\tbad\t9\n");
}

#[test]
fn seeds_decide_alone() {
    for seed in 0..300 {
        assert_eq!(list(seed).text, list(seed).text);
        assert_eq!(plan(seed).text, plan(seed).text);
    }
}
