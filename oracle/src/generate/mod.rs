//! What the programs are compared on: order lists and plans from seeds, and
//! how often each kind of thing comes about in them.
//!
//! Assumes that a seed alone decides what is made of it.

pub mod chance;
pub mod clean;
pub mod coverage;
pub mod coverage_checker;
pub mod faults;
pub mod lists;
pub mod noise;
pub mod pairs;
pub mod plans;
pub mod spelling;
