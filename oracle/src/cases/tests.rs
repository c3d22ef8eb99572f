//! The cases that the paper gives, asked through the case format, and the
//! format itself.
//!
//! Assumes that `→` in a test's text stands for `\t` and `¶` for `\n`, so that
//! lists and plans look much as in the paper.

use crate::cases::reply;
use crate::cases::texts::{read_case_text, write_case_text};

const LIST: &str = "steam→2→3¶7→0→20¶7→0→20¶7→0→20¶12→1→11¶12→1→11¶3→2→8¶3→2→8¶3→2→8¶3→2→8¶";
const PLAN: &str = "7→1→2¶8→2→2¶9→1→5¶10→2→5¶5→1→8¶6→2→8¶2→1→11¶3→2→11¶4→1→14¶";

/// The free hours of chambers 3 to 8 where there are only two.
const NO_MORE: &str = "0 0 0 0 0 0";

fn escaped(text: &str) -> String {
    text.replace('→', "\\t").replace('¶', "\\n")
}

fn check(case: &str, results: &str) {
    let case = escaped(case);
    let written = String::from_utf8(reply(format!("{case}\n").as_bytes())).unwrap();
    assert_eq!(written, format!("{case} = {}\n", escaped(results)));
}

fn check_unread(cases: &[&str]) {
    for case in cases {
        check(case, "unread");
    }
}

/// The word for these bytes.
fn shown(text: &[u8]) -> String {
    let mut word = Vec::new();
    write_case_text(&mut word, text);
    String::from_utf8(word).unwrap()
}

#[test]
fn hours_and_numbers() {
    for (text, hour) in [
        ("18,5", 1_850),
        ("0,05", 5),
        ("9999,99", 999_999),
        ("185", 18_500),
        ("0", 0),
    ] {
        check(&format!("hour {text}"), &format!("hour {hour}"));
    }
    for text in [
        "18.5", "1.850", "18,", ",5", "18,500", "08,5", "10000", "\\e", "1→", "1¶", "\\s1",
    ] {
        check(&format!("hour {text}"), "bad 3");
    }
    check("number 0", "number 0");
    check("number 9999", "number 9999");
    for text in ["\\e", "00", "07", "10000", "7,0", "7→", "-1", "\\xff"] {
        check(&format!("number {text}"), "bad 2");
    }
}

#[test]
fn hours_are_written_where_there_is_room() {
    for (case, results) in [
        ("1850 5", "length 5 18,50"),
        ("1850 7", "length 5 18,50.."),
        ("1850 4", "bad 7 ...."),
        ("0 4", "length 4 0,00"),
        ("0 3", "bad 7 ..."),
        ("0 0", "bad 7 \\e"),
        ("999999 7", "length 7 9999,99"),
        ("1000000 8", "bad 4 ........"),
        ("1000000 0", "bad 4 \\e"),
        ("4294967295 1", "bad 4 ."),
    ] {
        check(&format!("write-hour {case}"), results);
    }
    let wide = format!("length 4 0,05{}", ".".repeat(60));
    check("write-hour 5 64", &wide);
}

#[test]
fn plan_lines_are_written_where_there_is_room() {
    for (case, results) in [
        ("2 1 0 9", "length 9 2→1→0,00¶"),
        ("2 1 0 11", "length 9 2→1→0,00¶.."),
        ("2 1 0 8", "bad 7 ........"),
        ("513 8 999999 14", "length 14 513→8→9999,99¶"),
        ("513 8 999999 13", "bad 7 ............."),
        // Out of range is seen before the room.
        ("1 1 0 0", "bad 4 \\e"),
        ("514 1 0 3", "bad 4 ..."),
        ("2 0 0 3", "bad 4 ..."),
        ("2 9 0 3", "bad 4 ..."),
        ("2 8 1000000 3", "bad 4 ..."),
    ] {
        check(&format!("write-load {case}"), results);
    }
}

#[test]
fn lines_keep_their_line_ends() {
    check("lines \\e", "0");
    check("lines ¶", "1 ¶");
    check("lines ¶¶x", "3 ¶ ¶ x");
    check("lines a→b¶\\sc", "2 a→b¶ \\sc");
}

#[test]
fn a_walk_takes_any_length() {
    check("walk \\e", "0 0");
    check("walk a¶b", "2 3");
    check("walk ¶\\{65530}abcdefghij¶xy", "65532 65543");
    check("line 1 a¶b", "¶ 2");
    check("line 65536 ¶\\{65530}abcdefghij¶xy", "ghij¶ 65541");
    // At or past the end none is left, and the walk stays.
    check("line 3 a¶b", "\\e 3");
    check("line 4 a¶b", "\\e 4");
}

#[test]
fn lines_are_read_from_the_left() {
    for (case, results) in [
        ("heading steam→2→3¶", "heading 2 300"),
        ("heading steam→8→99,99¶", "heading 8 9999"),
        ("heading steam→2→3", "bad 1"),
        ("heading \\e", "bad 1"),
        ("heading Steam→x→x¶", "bad 1"),
        ("heading steam→x→x¶", "bad 2"),
        ("heading steam→9→x¶", "bad 4"),
        ("heading steam→8→x¶", "bad 3"),
        ("heading steam→8→100¶", "bad 4"),
        ("order 9999→0→2,99¶", "order 9999 0 299"),
        ("order 7→20→0¶", "order 7 2000 0"),
        ("order 7→0¶", "bad 1"),
        ("order 07→x→x¶", "bad 2"),
        ("order 0→x→x¶", "bad 4"),
        ("order 7→0→18.5¶", "bad 3"),
        ("load 2 7→1→2¶", "load 7 1 200"),
        ("load 2 0→2→0,05¶", "load 0 2 5"),
        ("load 2 9999→3→x¶", "bad 4"),
        ("load 8 9999→8→9999,99¶", "load 9999 8 999999"),
        ("load 2 2→0→x¶", "bad 4"),
        ("load 2 2→x→x¶", "bad 2"),
        ("load 2 2→1→18,¶", "bad 3"),
        ("load 0 2→1→2¶", "bad 4"),
    ] {
        check(case, results);
    }
}

#[test]
fn books_are_opened_in_range() {
    check("open 2 300", &format!("0 2 300 0 0 0 0 0 {NO_MORE}"));
    check("open 1 1", &format!("0 1 1 0 0 0 0 0 {NO_MORE}"));
    check("open 8 9999", &format!("0 8 9999 0 0 0 0 0 {NO_MORE}"));
    for numbers in ["0 300", "9 300", "2 0", "2 10000", "4294967295 4294967295"] {
        let refused = format!("4 0 0 0 0 0 0 0 {NO_MORE}");
        check(&format!("open {numbers}"), &refused);
    }
}

#[test]
fn orders_either_side_of_the_line() {
    for (free, order, answer, free_after) in [
        ("0 0", "0 300", "yes 1 0", "300 0"),
        ("0 0", "0 299", "no", "0 0"),
        ("300 0", "100 600", "yes 1 300", "600 0"),
        ("300 0", "100 599", "yes 2 100", "300 400"),
        ("300 0", "300 900", "yes 1 300", "600 0"),
        ("300 400", "700 1000", "yes 1 700", "1000 400"),
        ("300 400", "700 999", "no", "300 400"),
    ] {
        let (ready, _) = order.split_once(' ').unwrap();
        let kept = u32::from(answer != "no");
        check(
            &format!("take 2 300 0 0 0 {free} {NO_MORE} {order}"),
            &format!("{answer} 2 300 {ready} 1 {kept} {free_after} {NO_MORE}"),
        );
    }
}

#[test]
fn refused_orders_leave_any_book_as_it_was() {
    for (book, order, number) in [
        ("2 300 500 512 0 0 0 1 0 0 0 0 0", "1000000 0", 8),
        ("2 300 500 513 0 0 0 0 0 0 0 0 0", "500 900", 8),
        ("2 300 500 3 4 0 0 0 0 0 0 0 0", "500 900", 8),
        ("0 300 0 0 0 0 0 0 0 0 0 0 0", "0 900", 8),
        ("9 300 0 0 0 0 0 0 0 0 0 0 0", "0 900", 8),
        ("2 0 0 0 0 0 0 0 0 0 0 0 0", "0 900", 8),
        ("2 10000 0 0 0 0 0 0 0 0 0 0 0", "0 900", 8),
        ("2 300 1000000 0 0 0 0 0 0 0 0 0 0", "0 900", 8),
        ("2 300 0 0 0 0 1000000 0 0 0 0 0 0", "0 900", 8),
        ("2 300 500 512 0 0 0 0 0 0 0 0 0", "1000000 0", 4),
        ("2 300 500 512 0 0 0 0 0 0 0 0 0", "0 1000000", 4),
        ("2 300 500 512 0 0 0 0 0 0 0 0 0", "0 900", 6),
        ("2 300 500 511 511 0 0 0 0 0 0 0 0", "499 900", 5),
    ] {
        let refused = format!("bad {number} {book}");
        check(&format!("take {book} {order}"), &refused);
    }
    let largest = ["4294967295"; 13].join(" ");
    check(&format!("take {largest} 0 0"), &format!("bad 8 {largest}"));
}

#[test]
fn desk_and_checker_answer_the_whole_example() {
    check(
        &format!("desk {LIST}"),
        "2→yes→1→0,00¶3→yes→1→3,00¶4→yes→1→6,00¶5→yes→2→1,00¶6→yes→2→4,00¶\
         7→no¶8→no¶9→no¶10→no¶sum→9→5¶",
    );
    check("desk \\e", "1→bad→1¶");
    check(&format!("checker {LIST} {PLAN}"), "right 9");
    check(&format!("checker {LIST} \\e"), "right 0");
}

#[test]
fn the_line_at_fault_is_shown() {
    check("checker \\e x", "fault 1 orders 1 \\e");
    check("checker steam→2→3 x", "fault 1 orders 1 steam→2→3");
    check("checker steam→2→3¶1→0→x¶ x", "fault 3 orders 2 1→0→x¶");
    check("checker steam→2→3¶ 2→1\\s", "fault 1 plan 1 2→1\\s");
    let list = "steam→2→3¶1→0→20¶1→0→20¶";
    for (plan, fault) in [
        ("2→1→3¶3→1→6¶", "right 2"),
        ("2→1→3¶3→1→5,99¶x", "fault 15 plan 2 3→1→5,99¶"),
        ("2→1→3¶2→2→3¶", "fault 12 plan 2 2→2→3¶"),
        ("1→1→3¶", "fault 11 plan 1 1→1→3¶"),
        ("2→1→17,01¶", "fault 14 plan 1 2→1→17,01¶"),
    ] {
        check(&format!("checker {list} {plan}"), fault);
    }
    check(
        "checker steam→1→3¶1→1→20¶ 2→1→0,99¶",
        "fault 13 plan 1 2→1→0,99¶",
    );
}

#[test]
fn texts_about_the_limits() {
    check("desk x\\{65536}", "1→bad→1¶");
    check("desk x\\{65537}", "0→bad→9¶");
    check("desk \\n\\{65600}", "0→bad→9¶");
    check("checker x\\{65537} \\e", "fault 9 orders 0 \\e");
    check("checker x\\{65537} x\\{65537}", "fault 9 orders 0 \\e");
    check("checker \\e x\\{65537}", "fault 9 plan 0 \\e");
    check("checker ¶\\{65536} x\\{65536}", "fault 1 orders 1 ¶");
    check_unread(&[
        "desk \\n\\{65601}",
        "desk xx\\{65600}",
        "desk x\\{65600}x",
        "desk x\\{4294967295}",
        "desk x\\{4294967296}",
    ]);
    check(&format!("desk {}", "x".repeat(65_600)), "0→bad→9¶");
    check_unread(&[&format!("desk {}", "x".repeat(65_601))]);
}

#[test]
fn texts_are_read_and_shown() {
    for (word, text) in [
        ("!a~", b"!a~".as_slice()),
        ("a\\tb\\nc\\sd\\\\e", b"a\tb\nc d\\e"),
        ("\\x00\\x1f\\x7f\\x80\\xff", b"\0\x1f\x7f\x80\xff"),
        ("\\e", b""),
    ] {
        assert_eq!(read_case_text(word.as_bytes()).as_deref(), Some(text));
        assert_eq!(shown(text), word);
    }
    let every_byte: Vec<u8> = (0..=255).collect();
    let word = shown(&every_byte);
    assert_eq!(read_case_text(word.as_bytes()), Some(every_byte));
}

#[test]
fn texts_have_other_spellings() {
    for (word, text) in [
        ("\\x41\\x20\\x09\\x5c", "A \t\\"),
        ("a\\eb\\e", "ab"),
        ("ab\\{3}c", "abbbc"),
        ("a\\{1}", "a"),
        ("\\n\\{2}\\x00\\{2}", "\n\n\0\0"),
        ("a\\e\\{2}", "aa"),
        ("{}", "{}"),
        // The backslash is one byte, so it is the one that is repeated.
        ("\\\\\\{2}", "\\\\"),
        ("\\\\{2}", "\\{2}"),
    ] {
        let read = read_case_text(word.as_bytes());
        assert_eq!(read.as_deref(), Some(text.as_bytes()), "{word}");
    }
}

#[test]
fn words_that_are_no_texts() {
    check_unread(&[
        "lines \\",
        "lines \\a",
        "lines \\T",
        "lines \\x",
        "lines \\x4",
        "lines \\xFF",
        "lines \\x4g",
        "lines \\{2}",
        "lines \\e\\{2}",
        "lines a\\{0}",
        "lines a\\{}",
        "lines a\\{2",
        "lines a\\{-1}",
        "lines a\\{+2}",
        "lines a\t",
        "lines \r",
        "lines \x7f",
        "lines é",
    ]);
}

#[test]
fn cases_that_make_no_sense() {
    check_unread(&[
        " ",
        " hour 1",
        "hour",
        "hour ",
        "hour  1",
        "hour 1 ",
        "hour 1 2",
        "Hour 1",
        "hours 1",
        "x",
        " #",
        "number",
        "write-hour 1",
        "write-hour 1 2 3",
        "write-hour 1 65",
        "write-hour x 5",
        "write-hour -1 5",
        "write-hour +1 5",
        "write-hour 4294967296 5",
        "write-hour 1 4294967296",
        "write-load",
        "write-load 9",
        "write-load 2 1 0",
        "write-load 2 1 0 9 9",
        "write-load 2 1 0 65",
        "load 2→1→0¶",
        "load x 2→1→0¶",
        "open 2",
        "open 2 300 0",
        "open \\e 300",
        "take",
        "take 2 300 0 0 0 0 0 0 0 0 0 0 0 0",
        "take 2 300 0 0 0 0 0 0 0 0 0 0 0 0 300 0",
        "take 2 300 0 0 0 0 0 0 0 0 0 0 x 0 300",
        "desk",
        "desk \\e \\e",
        "checker \\e",
        "checker \\e \\e \\e",
        "= unread",
    ]);
}

#[test]
fn other_lines_come_back_as_they_are() {
    let file = "# hours = 3\n\nhour 1\n#\nhour\nopen 0 1";
    let written = "# hours = 3\n\nhour 1 = hour 100\n#\nhour = unread\n\
                   open 0 1 = 4 0 0 0 0 0 0 0 0 0 0 0 0 0\n";
    assert_eq!(reply(file.as_bytes()), written.as_bytes());
    assert_eq!(reply(b""), b"");
    assert_eq!(reply(b"\n\n"), b"\n\n");
    assert_eq!(reply(b"#\xff\0\r\n"), b"#\xff\0\r\n");
    assert_eq!(reply(b"\xff \r\n"), b"\xff \r = unread\n");
}
