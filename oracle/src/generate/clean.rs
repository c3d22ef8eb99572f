//! Clean order lists: a good first line and orders that none of the refusals
//! meets, as long as there are no more than the book takes.
//!
//! Assumes that the interesting orders are those that only just fit or only
//! just do not. So a book is kept beside the list, and ready and due hours are
//! laid about the hours at which its chambers become free.

use crate::desk::book::{Book, LONGEST_RUN, MOST_CHAMBERS};
use crate::desk::hours::LAST_HOUR;
use crate::desk::lines::Heading;
use crate::generate::chance::Chance;
use crate::generate::spelling::{join_fields, spell_hour, spell_number, Spelling};

/// How the orders of a list lie.
pub struct Manner {
    pub heading: Heading,
    /// No order is ready before this hour.
    pub opening: u32,
    /// The most that ready rises from one order to the next.
    pub step: u32,
    /// Ready and due hours are rounded to this many hundredths.
    pub grain: u32,
    /// Of ten due hours, so many lie about the end of a possible load.
    pub edges: u32,
    /// Every order is due late enough for at least one chamber.
    pub roomy: bool,
    pub spelling: Spelling,
}

/// Orders as a nursery might send them.
pub fn plain_manner(chance: &mut Chance) -> Manner {
    let grain = chance.pick(&[100, 100, 50, 25, 10, 1]);
    let run = match chance.below(4) {
        0 => 100 * chance.between(1, 99),
        1 => 50 * chance.between(1, 40),
        2 => 300,
        _ => chance.between(1, LONGEST_RUN),
    };
    Manner {
        heading: Heading {
            chambers: chance.between(1, MOST_CHAMBERS),
            run,
        },
        opening: chance.pick(&[0, 0, 600, 12_345, 500_000]),
        step: run / chance.pick(&[1, 2, 4, 8]),
        grain,
        edges: 3,
        roomy: false,
        spelling: chance.pick(&[Spelling::Shortest, Spelling::Written, Spelling::Any]),
    }
}

/// Orders that crowd: equal hours, touching loads and short orders abound.
pub fn tight_manner(chance: &mut Chance) -> Manner {
    let run = match chance.below(5) {
        0 => 1,
        1 => chance.between(2, 12),
        2 => chance.pick(&[100, 300, 1_000]),
        3 => chance.pick(&[LONGEST_RUN - 1, LONGEST_RUN]),
        _ => chance.between(1, LONGEST_RUN),
    };
    let chambers = match chance.below(3) {
        0 => chance.between(1, MOST_CHAMBERS),
        1 => chance.pick(&[1, MOST_CHAMBERS]),
        _ => chance.between(2, 4),
    };
    Manner {
        heading: Heading { chambers, run },
        opening: chance.pick(&[0, 0, 0, 1, 700]),
        step: run / chance.pick(&[1, 2, 4, 8, 16]),
        grain: 1,
        edges: 8,
        roomy: false,
        spelling: chance.pick(&[Spelling::Shortest, Spelling::Any]),
    }
}

/// Orders up to the last hour, where start plus run can come to rest on it.
pub fn late_manner(chance: &mut Chance) -> Manner {
    let mut manner = tight_manner(chance);
    let remaining = manner.heading.run * chance.between(0, 4) + chance.between(0, 40);
    manner.opening = LAST_HOUR.saturating_sub(remaining);
    manner.step = chance.pick(&[0, 1, 3, manner.heading.run / 4]);
    manner
}

/// Orders of which a desk keeps every one, as many as the book takes.
pub fn roomy_manner(chance: &mut Chance) -> Manner {
    let mut manner = tight_manner(chance);
    // 512 such runs in one chamber, one behind the other, end by the last
    // hour, and ready never leaps over a whole run.
    manner.heading.run = chance.pick(&[1, 7, 300, 1_000, 1_900]);
    manner.step = manner.heading.run / chance.pick(&[2, 4, 16]);
    manner.opening = 0;
    manner.roomy = true;
    manner
}

/// The first line and so many orders, each line ended.
pub fn clean_lines(chance: &mut Chance, manner: &Manner, orders: u32) -> Vec<Vec<u8>> {
    let mut book = Book::fresh(manner.heading.chambers, manner.heading.run);
    let mut lines = vec![join_fields(&[
        b"steam".to_vec(),
        spell_number(manner.heading.chambers),
        spell_hour(chance, manner.spelling, manner.heading.run),
    ])];
    let last_grower = chance.pick(&[3, 40, 9_999]);
    for _ in 0..orders {
        let ready = ready_hour(chance, manner, &book);
        let due = due_hour(chance, manner, &book, ready);
        // The answer does not matter here, only the book that it leaves.
        book.take(ready, due);
        let any_grower = chance.between(1, last_grower);
        let grower = chance.pick(&[1, last_grower, any_grower]);
        lines.push(join_fields(&[
            spell_number(grower),
            spell_hour(chance, manner.spelling, ready),
            spell_hour(chance, manner.spelling, due),
        ]));
    }
    lines
}

fn ready_hour(chance: &mut Chance, manner: &Manner, book: &Book) -> u32 {
    let least = book.clock.max(manner.opening);
    let free = free_hour(chance, book);
    let wanted = match chance.below(8) {
        0..=2 => least,
        // Just before, at and just after the hour a chamber becomes free.
        3 if free < least + 2 * manner.step => free.saturating_sub(1),
        4 if free < least + 2 * manner.step => free + chance.below(2),
        _ => least + chance.between(0, manner.step),
    };
    let rounded = wanted.div_ceil(manner.grain) * manner.grain;
    rounded.max(least).min(LAST_HOUR)
}

fn due_hour(chance: &mut Chance, manner: &Manner, book: &Book, ready: u32) -> u32 {
    let run = manner.heading.run;
    let end = free_hour(chance, book).max(ready) + run;
    if manner.roomy {
        let spare = chance.pick(&[0, 0, 1, run, 3 * run]);
        return (end + spare).min(LAST_HOUR);
    }
    let due = if chance.below(10) < manner.edges {
        match chance.below(6) {
            0 | 1 => end - manner.grain.min(end),
            2 => end + manner.grain,
            _ => end,
        }
    } else {
        match chance.below(12) {
            // Too short for any chamber, and even before ready.
            0 => ready + chance.below(run),
            1 => chance.between(0, ready),
            2 => LAST_HOUR,
            3 => ready + run,
            _ => ready + run + chance.between(0, 3 * run + 4),
        }
    };
    let rounded = due / manner.grain * manner.grain;
    if due == LAST_HOUR {
        due
    } else {
        rounded.min(LAST_HOUR)
    }
}

/// The free hour of one of the book's chambers.
fn free_hour(chance: &mut Chance, book: &Book) -> u32 {
    book.free[chance.place(book.chambers as usize)]
}
