//! Case files: single questions about any part of the desk and the checker,
//! one on each line, so that another program can be compared with this one
//! in places that whole lists and plans do not reach.
//!
//! Assumes that a case is words parted by single spaces: first the kind of
//! the case, then numbers and texts. It is written as it is, then ` = ` and
//! its results. Empty lines, and lines that begin with `#`, come back as they
//! are, and a case that makes no sense has the one result `unread`.

#[cfg(test)]
mod tests;
mod texts;

use crate::cases::texts::{read_case_number, read_case_text, write_case_text};
use crate::checker::{judge, Judgement};
use crate::desk;
use crate::desk::book::{Answer, Book};
use crate::desk::hours::put_hour;
use crate::desk::lines::{hour_field, lines, number_field, put_load};
use crate::desk::lines::{read_heading, read_load, read_order, Load, LINE_END};
use crate::desk::numbers::write_number;
use crate::desk::refusal::Refusal;
use crate::generate::pairs::{pair, Pair};

/// The largest buffer that a case may ask for.
const MOST_ROOM: u32 = 64;

/// What stands in a buffer before anything is written to it.
const UNTOUCHED: u8 = b'.';

/// A generated list and its plan are taken for a case up to so many bytes.
const LONGEST_GENERATED: usize = 400;

/// A case file has at most so many bytes.
const LARGEST_FILE: usize = 131_072;

/// What is written for this case file. The last line gets a line end even if
/// it came without one.
pub fn reply(file: &[u8]) -> Vec<u8> {
    let mut reply = Vec::new();
    for line in lines(file) {
        let line = line.strip_suffix(&[LINE_END]).unwrap_or(line);
        reply.extend_from_slice(line);
        if !matches!(line, [] | [b'#', ..]) {
            let results = answer(line).unwrap_or_else(|| Results::of("unread"));
            reply.extend_from_slice(b" =");
            reply.extend_from_slice(&results.line);
        }
        reply.push(LINE_END);
    }
    reply
}

/// A case file of generated pairs: for each of so many seeds the checker's
/// case of its list and plan, as long as both are short, since a case file is
/// read whole. Its results have the line shown, which the checker program
/// does not print.
pub fn generated(count: u64, seed: u64) -> Vec<u8> {
    let mut file = Vec::new();
    for seed in seed..seed.saturating_add(count) {
        let Pair { list, plan } = pair(seed);
        if list.text.len() + plan.text.len() > LONGEST_GENERATED {
            continue;
        }
        let mut case = b"checker ".to_vec();
        write_case_text(&mut case, &list.text);
        case.push(b' ');
        write_case_text(&mut case, &plan.text);
        case.push(LINE_END);
        if file.len() + case.len() > LARGEST_FILE {
            break;
        }
        file.extend_from_slice(&case);
    }
    file
}

/// The results of a case, or none if it is not as it should be.
fn answer(case: &[u8]) -> Option<Results> {
    let words: Vec<&[u8]> = case.split(|&byte| byte == b' ').collect();
    let number = read_case_number;
    let text = read_case_text;
    Some(match words[..] {
        [b"hour", field] => one_number("hour", hour_field(&text(field)?)),
        [b"number", field] => one_number("number", number_field(&text(field)?)),
        [b"write-hour", hour, room] => write_hour_case(number(hour)?, buffer(room)?),
        [b"lines", lines] => lines_case(&text(lines)?),
        [b"walk", lines] => walk_case(&text(lines)?),
        [b"line", place, lines] => line_case(number(place)? as usize, &text(lines)?),
        [b"heading", line] => heading_case(&text(line)?),
        [b"order", line] => order_case(&text(line)?),
        [b"load", count, line] => load_case(number(count)?, &text(line)?),
        [b"write-load", ref load @ .., room] => write_load_case(read_numbers(load)?, buffer(room)?),
        [b"open", chambers, run] => open_case(number(chambers)?, number(run)?),
        [b"take", ref numbers @ ..] => take_case(read_numbers(numbers)?),
        [b"desk", list] => Results::default().text(&desk::reply(&text(list)?)),
        [b"checker", list, plan] => checker_case(&text(list)?, &text(plan)?),
        _ => return None,
    })
}

/// Exactly so many numbers, or none.
fn read_numbers<const COUNT: usize>(words: &[&[u8]]) -> Option<[u32; COUNT]> {
    let numbers: Option<Vec<u32>> = words.iter().map(|word| read_case_number(word)).collect();
    numbers?.try_into().ok()
}

/// A buffer with the room that the word asks for.
fn buffer(room: &[u8]) -> Option<Vec<u8>> {
    let room = read_case_number(room)?;
    (room <= MOST_ROOM).then(|| vec![UNTOUCHED; room as usize])
}

fn one_number(word: &str, field: Result<u32, Refusal>) -> Results {
    match field {
        Ok(number) => Results::of(word).number(number),
        Err(refusal) => Results::bad(refusal),
    }
}

fn write_hour_case(hour: u32, mut buffer: Vec<u8>) -> Results {
    let written = put_hour(&mut buffer, hour);
    written_results(written, &buffer)
}

fn write_load_case([order_line, chamber, start]: [u32; 3], mut buffer: Vec<u8>) -> Results {
    let load = Load {
        order_line,
        chamber,
        start,
    };
    let written = put_load(&mut buffer, load);
    written_results(written, &buffer)
}

/// The buffer is shown whole, so that a byte touched without need is seen.
fn written_results(written: Result<usize, Refusal>, buffer: &[u8]) -> Results {
    let results = match written {
        Ok(length) => Results::of("length").number(length as u32),
        Err(refusal) => Results::bad(refusal),
    };
    results.text(buffer)
}

fn lines_case(text: &[u8]) -> Results {
    let count = Results::default().number(lines(text).count() as u32);
    lines(text).fold(count, Results::text)
}

/// The number of lines, and the place behind the last.
fn walk_case(text: &[u8]) -> Results {
    Results::default()
        .number(lines(text).count() as u32)
        .number(text.len() as u32)
}

/// The line from this place on, empty if there is none, and the place behind it.
fn line_case(place: usize, text: &[u8]) -> Results {
    let left = text.get(place..).unwrap_or_default();
    let line = lines(left).next().unwrap_or_default();
    Results::default()
        .text(line)
        .number((place + line.len()) as u32)
}

fn heading_case(line: &[u8]) -> Results {
    match read_heading(line) {
        Ok(heading) => Results::of("heading")
            .number(heading.chambers)
            .number(heading.run),
        Err(refusal) => Results::bad(refusal),
    }
}

fn order_case(line: &[u8]) -> Results {
    match read_order(line) {
        Ok(order) => Results::of("order")
            .number(order.grower)
            .number(order.ready)
            .number(order.due),
        Err(refusal) => Results::bad(refusal),
    }
}

fn load_case(count: u32, line: &[u8]) -> Results {
    match read_load(line, count) {
        Ok(load) => Results::of("load")
            .number(load.order_line)
            .number(load.chamber)
            .number(load.start),
        Err(refusal) => Results::bad(refusal),
    }
}

fn open_case(chambers: u32, run: u32) -> Results {
    let (refusal, book) = Book::open(chambers, run);
    Results::default()
        .number(refusal.map_or(0, Refusal::number))
        .book(&book)
}

/// The numbers are the thirteen of the book, then ready and due.
fn take_case(numbers: [u32; 15]) -> Results {
    let [chambers, run, clock, taken, kept, free @ .., ready, due] = numbers;
    let mut book = Book {
        chambers,
        run,
        clock,
        taken,
        kept,
        free,
    };
    let answered = match book.take(ready, due) {
        Answer::Yes { chamber, start } => Results::of("yes").number(chamber).number(start),
        Answer::No => Results::of("no"),
        Answer::Refused(refusal) => Results::bad(refusal),
    };
    answered.book(&book)
}

fn checker_case(list: &[u8], plan: &[u8]) -> Results {
    match judge(list, plan) {
        Judgement::Right { lines } => Results::of("right").number(lines),
        Judgement::Fault(fault) => Results::of("fault")
            .number(fault.refusal.number())
            .word(fault.text.word())
            .number(fault.line_number)
            .text(fault.line),
    }
}

/// The results of one case, each with a space in front.
#[derive(Default)]
struct Results {
    line: Vec<u8>,
}

impl Results {
    fn of(word: &str) -> Results {
        Results::default().word(word)
    }

    fn bad(refusal: Refusal) -> Results {
        Results::of("bad").number(refusal.number())
    }

    fn word(mut self, word: &str) -> Results {
        self.line.push(b' ');
        self.line.extend_from_slice(word.as_bytes());
        self
    }

    fn number(mut self, number: u32) -> Results {
        self.line.push(b' ');
        write_number(&mut self.line, number);
        self
    }

    fn text(mut self, text: &[u8]) -> Results {
        self.line.push(b' ');
        write_case_text(&mut self.line, text);
        self
    }

    fn book(self, book: &Book) -> Results {
        let results = self
            .number(book.chambers)
            .number(book.run)
            .number(book.clock)
            .number(book.taken)
            .number(book.kept);
        book.free.into_iter().fold(results, Results::number)
    }
}
