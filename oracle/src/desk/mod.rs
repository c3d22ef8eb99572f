//! The desk: an order list in, the whole printed reply out.
//!
//! Assumes that the list is handed over whole, so that its length is known
//! before the first line is read.

pub mod book;
pub mod buffer;
pub mod hours;
pub mod lines;
pub mod numbers;
pub mod refusal;
#[cfg(test)]
pub mod tests;

use crate::desk::book::{Answer, Book};
use crate::desk::hours::write_hour;
use crate::desk::lines::{lines, read_heading, read_order, LINE_END, LONGEST_TEXT, TAB};
use crate::desk::numbers::write_number;
use crate::desk::refusal::Refusal;

/// What the desk program prints for this list.
pub fn reply(list: &[u8]) -> Vec<u8> {
    // A reply is seldom more than twice as long as its list.
    let mut reply = Vec::with_capacity(2 * list.len().min(LONGEST_TEXT) + 32);
    if list.len() > LONGEST_TEXT {
        write_answer(&mut reply, 0, Answer::Refused(Refusal::TextTooLong));
        return reply;
    }
    let mut walk = lines(list);
    let heading = walk.next().ok_or(Refusal::Shape).and_then(read_heading);
    let mut book = match heading {
        Ok(heading) => Book::fresh(heading.chambers, heading.run),
        Err(refusal) => {
            write_answer(&mut reply, 1, Answer::Refused(refusal));
            return reply;
        }
    };
    for (line_number, line) in (2..).zip(walk) {
        let answer = match read_order(line) {
            Ok(order) => book.take(order.ready, order.due),
            Err(refusal) => Answer::Refused(refusal),
        };
        write_answer(&mut reply, line_number, answer);
    }
    write_sum(&mut reply, &book);
    reply
}

fn write_answer(reply: &mut Vec<u8>, line_number: u32, answer: Answer) {
    write_number(reply, line_number);
    match answer {
        Answer::Yes { chamber, start } => {
            reply.extend_from_slice(b"\tyes\t");
            write_number(reply, chamber);
            reply.push(TAB);
            write_hour(reply, start);
        }
        Answer::No => reply.extend_from_slice(b"\tno"),
        Answer::Refused(refusal) => {
            reply.extend_from_slice(b"\tbad\t");
            write_number(reply, refusal.number());
        }
    }
    reply.push(LINE_END);
}

fn write_sum(reply: &mut Vec<u8>, book: &Book) {
    reply.extend_from_slice(b"sum\t");
    write_number(reply, book.taken);
    reply.push(TAB);
    write_number(reply, book.kept);
    reply.push(LINE_END);
}
