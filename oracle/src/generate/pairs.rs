//! Generated pairs of a list and a plan for the checker, one for each seed.
//!
//! Assumes that the seed alone decides: the list is drawn first, and the plan
//! is made for it.

use crate::desk::lines::LONGEST_TEXT;
use crate::generate::chance::Chance;
use crate::generate::lists::{list_for, Made, Program};
use crate::generate::noise::{length_about_limit, stretch};
use crate::generate::plans::plan_for;

pub struct Pair {
    pub list: Made,
    pub plan: Made,
}

/// The pair of this seed.
pub fn pair(seed: u64) -> Pair {
    let mut chance = Chance::from_seed(seed);
    let list = list_for(Program::Checker, &mut chance);
    let mut plan = plan_for(&list.text, &mut chance);
    // Drawn apart, the two would seldom both be too long; which is looked at
    // first shows only then.
    if list.text.len() > LONGEST_TEXT && chance.one_in(2) {
        let length = length_about_limit(&mut chance);
        stretch(&mut chance, &mut plan.text, b"2\t1\t0\n", length);
    }
    Pair { list, plan }
}
