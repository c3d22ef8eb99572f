//! The book and its answers: the booking rule for one order.
//!
//! Assumes that hours, the run and the clock are hundredths. Sums of an hour
//! and a run stay far below the limit of 32 bits, because a book that is not
//! sound and an hour out of range are refused before anything is added.

use crate::desk::hours::LAST_HOUR;
use crate::desk::refusal::{within, Refusal};

pub const MOST_CHAMBERS: u32 = 8;
pub const MOST_TAKEN: u32 = 512;
pub const LONGEST_RUN: u32 = 9_999;

#[derive(Clone, Debug, PartialEq, Eq)]
pub struct Book {
    pub chambers: u32,
    pub run: u32,
    pub clock: u32,
    pub taken: u32,
    pub kept: u32,
    pub free: [u32; MOST_CHAMBERS as usize],
}

#[derive(Clone, Copy, Debug, PartialEq, Eq)]
pub enum Answer {
    Yes { chamber: u32, start: u32 },
    No,
    Refused(Refusal),
}

impl Book {
    /// Opens a book for numbers that may be out of range. A refused opening
    /// comes with a book that has every field 0.
    pub fn open(chambers: u32, run: u32) -> (Option<Refusal>, Book) {
        let in_range = within(chambers, 1, MOST_CHAMBERS).and(within(run, 1, LONGEST_RUN));
        match in_range {
            Ok(_) => (None, Book::fresh(chambers, run)),
            Err(refusal) => (Some(refusal), Book::fresh(0, 0)),
        }
    }

    /// A book with every chamber free from hour 0, for numbers in range.
    pub fn fresh(chambers: u32, run: u32) -> Book {
        Book {
            chambers,
            run,
            clock: 0,
            taken: 0,
            kept: 0,
            free: [0; MOST_CHAMBERS as usize],
        }
    }

    /// Answers one order. A refused order leaves the book as it was.
    pub fn take(&mut self, ready: u32, due: u32) -> Answer {
        if let Some(refusal) = self.refusal(ready, due) {
            return Answer::Refused(refusal);
        }
        self.taken += 1;
        self.clock = ready;
        let Some((chamber, start)) = self.fullest_fitting(ready, due) else {
            return Answer::No;
        };
        self.kept += 1;
        self.free[chamber] = start + self.run;
        Answer::Yes {
            chamber: chamber as u32 + 1,
            start,
        }
    }

    fn refusal(&self, ready: u32, due: u32) -> Option<Refusal> {
        if !self.is_sound() {
            Some(Refusal::BookUnsound)
        } else if ready > LAST_HOUR || due > LAST_HOUR {
            Some(Refusal::OutOfRange)
        } else if self.taken == MOST_TAKEN {
            Some(Refusal::BookFull)
        } else if ready < self.clock {
            Some(Refusal::BelowClock)
        } else {
            None
        }
    }

    /// The place of the chamber that can start last and still end by due, with
    /// that start. A later chamber must start strictly later to be preferred,
    /// so the lowest number wins among equals.
    fn fullest_fitting(&self, ready: u32, due: u32) -> Option<(usize, u32)> {
        let mut best = None;
        for (chamber, &free) in self.free[..self.chambers as usize].iter().enumerate() {
            let start = free.max(ready);
            let fits = start + self.run <= due;
            if fits && best.is_none_or(|(_, latest)| start > latest) {
                best = Some((chamber, start));
            }
        }
        best
    }

    fn is_sound(&self) -> bool {
        (1..=MOST_CHAMBERS).contains(&self.chambers)
            && (1..=LONGEST_RUN).contains(&self.run)
            && self.clock <= LAST_HOUR
            && self.free.iter().all(|&free| free <= LAST_HOUR)
            && self.kept <= self.taken
            && self.taken <= MOST_TAKEN
            && self.free[self.chambers as usize..]
                .iter()
                .all(|&free| free == 0)
    }
}
