//! The lines of a text, the reading of a list's and a plan's lines, and the
//! writing of a plan's.
//!
//! Assumes that fields are parted by one tab (byte 9) and that a line ends
//! with byte 10. A line is handed about with its line end, so that the last
//! line can be seen to lack one.

use crate::desk::book::{LONGEST_RUN, MOST_CHAMBERS, MOST_TAKEN};
use crate::desk::buffer::put_in_front;
use crate::desk::hours::{read_hour, write_hour, LAST_HOUR};
use crate::desk::numbers::{read_plain_number, write_number};
use crate::desk::refusal::{within, Refusal};

pub const TAB: u8 = 9;
pub const LINE_END: u8 = 10;

/// The most bytes that a list or a plan handed over whole may have.
pub const LONGEST_TEXT: usize = 65_536;

/// The line of a list on which its first order stands.
pub const FIRST_ORDER_LINE: u32 = 2;

/// The last line of a list without faults, whose orders a book all takes.
const LAST_ORDER_LINE: u32 = FIRST_ORDER_LINE + MOST_TAKEN - 1;

/// The highest grower number.
const LAST_GROWER: u32 = 9_999;

#[derive(Clone, Copy, Debug, PartialEq, Eq)]
pub struct Heading {
    pub chambers: u32,
    pub run: u32,
}

#[derive(Clone, Copy, Debug, PartialEq, Eq)]
pub struct Order {
    pub grower: u32,
    pub ready: u32,
    pub due: u32,
}

/// What a plan line asks for.
#[derive(Clone, Copy, Debug, PartialEq, Eq)]
pub struct Load {
    pub order_line: u32,
    pub chamber: u32,
    pub start: u32,
}

/// The lines from the top, each with its line end. An empty text has none,
/// and bytes after the last line end come as one more line.
pub fn lines(text: &[u8]) -> impl Iterator<Item = &[u8]> {
    text.split_inclusive(|&byte| byte == LINE_END)
}

/// Reads the first line of an order list.
pub fn read_heading(line: &[u8]) -> Result<Heading, Refusal> {
    let [word, chambers, run] = three_fields(line)?;
    if word != b"steam" {
        return Err(Refusal::Shape);
    }
    Ok(Heading {
        chambers: within(number_field(chambers)?, 1, MOST_CHAMBERS)?,
        run: within(hour_field(run)?, 1, LONGEST_RUN)?,
    })
}

/// Reads any further line of an order list.
pub fn read_order(line: &[u8]) -> Result<Order, Refusal> {
    let [grower, ready, due] = three_fields(line)?;
    Ok(Order {
        grower: within(number_field(grower)?, 1, LAST_GROWER)?,
        ready: hour_field(ready)?,
        due: hour_field(due)?,
    })
}

/// Reads a line of a plan whose list has so many chambers. The order line may
/// be any plain number: whether it names an order is no matter of the line.
pub fn read_load(line: &[u8], chambers: u32) -> Result<Load, Refusal> {
    let [order_line, chamber, start] = three_fields(line)?;
    Ok(Load {
        order_line: number_field(order_line)?,
        chamber: within(number_field(chamber)?, 1, chambers)?,
        start: hour_field(start)?,
    })
}

/// Writes a plan line to the front of the buffer and gives its length, the
/// line end included. The chamber may be any that a list can have, since no
/// list is at hand here.
pub fn put_load(buffer: &mut [u8], load: Load) -> Result<usize, Refusal> {
    let order_line = within(load.order_line, FIRST_ORDER_LINE, LAST_ORDER_LINE)?;
    let chamber = within(load.chamber, 1, MOST_CHAMBERS)?;
    let start = within(load.start, 0, LAST_HOUR)?;
    let mut line = Vec::new();
    write_number(&mut line, order_line);
    line.push(TAB);
    write_number(&mut line, chamber);
    line.push(TAB);
    write_hour(&mut line, start);
    line.push(LINE_END);
    put_in_front(buffer, &line)
}

/// The three fields of an ended line. Empty fields count.
fn three_fields(line: &[u8]) -> Result<[&[u8]; 3], Refusal> {
    let Some((&LINE_END, content)) = line.split_last() else {
        return Err(Refusal::Shape);
    };
    let mut fields = content.split(|&byte| byte == TAB);
    match (fields.next(), fields.next(), fields.next(), fields.next()) {
        (Some(first), Some(second), Some(third), None) => Ok([first, second, third]),
        _ => Err(Refusal::Shape),
    }
}

/// The field as a plain number of any size that one can have.
pub fn number_field(field: &[u8]) -> Result<u32, Refusal> {
    read_plain_number(field).ok_or(Refusal::NotPlainNumber)
}

/// The field as an hour.
pub fn hour_field(field: &[u8]) -> Result<u32, Refusal> {
    read_hour(field).ok_or(Refusal::NotHour)
}
