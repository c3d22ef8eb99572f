//! The checker: an order list and a plan in, the first fault or none out, and
//! what the checker program prints about them.
//!
//! Assumes that both texts are handed over whole, so that their lengths are
//! known before the first line is read. A book is kept beside the list only
//! for the refusals that the desk would give; its yes and no do not matter,
//! since a plan may be made by anybody.

#[cfg(test)]
mod tests;

use std::ffi::OsString;
use std::fs;

use crate::desk::book::{Answer, Book, MOST_CHAMBERS};
use crate::desk::lines::{lines, read_heading, read_load, read_order};
use crate::desk::lines::{Heading, Order, FIRST_ORDER_LINE, LINE_END, LONGEST_TEXT, TAB};
use crate::desk::numbers::write_number;
use crate::desk::refusal::Refusal;

/// One of the two texts, in the order of the program's arguments.
#[derive(Clone, Copy, Debug, PartialEq, Eq)]
pub enum Text {
    Orders,
    Plan,
}

#[derive(Clone, Copy, Debug, PartialEq, Eq)]
pub enum Judgement<'texts> {
    Right { lines: u32 },
    Fault(Fault<'texts>),
}

#[derive(Clone, Copy, Debug, PartialEq, Eq)]
pub struct Fault<'texts> {
    pub refusal: Refusal,
    pub text: Text,
    pub line_number: u32,
    /// The line at fault as a part of its text, or the empty front of the
    /// text where there is no line.
    pub line: &'texts [u8],
}

impl Text {
    /// The word that the program prints for this text.
    pub fn word(self) -> &'static str {
        match self {
            Text::Orders => "orders",
            Text::Plan => "plan",
        }
    }
}

/// Whether the plan is right for the list, or else the first fault.
pub fn judge<'texts>(list: &'texts [u8], plan: &'texts [u8]) -> Judgement<'texts> {
    match judge_texts(list, plan) {
        Ok(lines) => Judgement::Right { lines },
        Err(fault) => Judgement::Fault(fault),
    }
}

fn judge_texts<'texts>(list: &'texts [u8], plan: &'texts [u8]) -> Result<u32, Fault<'texts>> {
    check_length(list, Text::Orders)?;
    check_length(plan, Text::Plan)?;
    let mut floor = read_list(list)?;
    let mut line_count = 0;
    for (line_number, line) in (1..).zip(lines(plan)) {
        let place_fault = |refusal| Fault {
            refusal,
            text: Text::Plan,
            line_number,
            line,
        };
        floor.place_load(line).map_err(place_fault)?;
        line_count = line_number;
    }
    Ok(line_count)
}

fn check_length(bytes: &[u8], text: Text) -> Result<(), Fault<'_>> {
    if bytes.len() <= LONGEST_TEXT {
        return Ok(());
    }
    Err(Fault {
        refusal: Refusal::TextTooLong,
        text,
        line_number: 0,
        line: &bytes[..0],
    })
}

/// The floor with every order of the list and no load yet.
fn read_list(list: &[u8]) -> Result<Floor, Fault<'_>> {
    // The front of an empty list stands for the first line that it lacks, and
    // is refused for its shape like any line without a line end.
    let mut walk = (1..).zip(lines(list));
    let first = walk.next().unwrap_or((1, &list[..0]));
    let fault = |(line_number, line), refusal| Fault {
        refusal,
        text: Text::Orders,
        line_number,
        line,
    };
    let heading = read_heading(first.1).map_err(|refusal| fault(first, refusal))?;
    let mut book = Book::fresh(heading.chambers, heading.run);
    let mut floor = Floor::empty(heading);
    for numbered in walk {
        let order = read_order(numbered.1).map_err(|refusal| fault(numbered, refusal))?;
        if let Answer::Refused(refusal) = book.take(order.ready, order.due) {
            return Err(fault(numbered, refusal));
        }
        floor.orders.push(order);
        floor.placed.push(false);
    }
    Ok(floor)
}

/// The steaming floor: a clean list and the loads of the plan lines so far.
struct Floor {
    heading: Heading,
    orders: Vec<Order>,
    /// For each order, whether an earlier plan line names it.
    placed: Vec<bool>,
    /// For each chamber, the starts of its loads.
    starts: [Vec<u32>; MOST_CHAMBERS as usize],
}

impl Floor {
    fn empty(heading: Heading) -> Floor {
        Floor {
            heading,
            orders: Vec::new(),
            placed: Vec::new(),
            starts: Default::default(),
        }
    }

    /// Adds the load of a plan line, unless one of the checks refuses it.
    fn place_load(&mut self, line: &[u8]) -> Result<(), Refusal> {
        let run = self.heading.run;
        let load = read_load(line, self.heading.chambers)?;
        let (place, order) = self.named(load.order_line).ok_or(Refusal::NoSuchOrder)?;
        let starts = &mut self.starts[load.chamber as usize - 1];
        if self.placed[place] {
            return Err(Refusal::SameOrder);
        }
        if load.start < order.ready {
            return Err(Refusal::BeforeReady);
        }
        if load.start + run > order.due {
            return Err(Refusal::AfterDue);
        }
        if starts.iter().any(|&start| overlap(run, start, load.start)) {
            return Err(Refusal::Overlap);
        }
        self.placed[place] = true;
        starts.push(load.start);
        Ok(())
    }

    /// The order on this line of the list, with its place among the orders.
    fn named(&self, order_line: u32) -> Option<(usize, Order)> {
        let place = order_line.checked_sub(FIRST_ORDER_LINE)? as usize;
        Some((place, *self.orders.get(place)?))
    }
}

/// Whether two loads in one chamber overlap: each starts before the other
/// ends. Loads that touch do not.
pub fn overlap(run: u32, one_start: u32, other_start: u32) -> bool {
    one_start < other_start + run && other_start < one_start + run
}

/// What the checker program prints, called with these names.
pub fn reply(names: &[OsString]) -> Vec<u8> {
    let mut reply = Vec::new();
    match read_texts(names) {
        Ok((list, plan)) => write_judgement(&mut reply, judge(&list, &plan)),
        Err(text) => {
            reply.extend_from_slice(b"unread\t");
            reply.extend_from_slice(text.word().as_bytes());
        }
    }
    reply.push(LINE_END);
    reply
}

/// The list and the plan, or the first of them that cannot be read.
fn read_texts(names: &[OsString]) -> Result<(Vec<u8>, Vec<u8>), Text> {
    let read = |text: Text| {
        let name = names.get(text as usize).ok_or(text)?;
        fs::read(name).map_err(|_| text)
    };
    Ok((read(Text::Orders)?, read(Text::Plan)?))
}

fn write_judgement(reply: &mut Vec<u8>, judgement: Judgement) {
    match judgement {
        Judgement::Right { lines } => {
            reply.extend_from_slice(b"right\t");
            write_number(reply, lines);
        }
        Judgement::Fault(fault) => {
            reply.extend_from_slice(b"fault\t");
            write_number(reply, fault.refusal.number());
            reply.push(TAB);
            reply.extend_from_slice(fault.text.word().as_bytes());
            reply.push(TAB);
            write_number(reply, fault.line_number);
        }
    }
}
