//! Generated order lists, for the desk one for each seed.
//!
//! Assumes that the seed alone decides: the kind of the list is drawn first,
//! then everything in it. Most kinds are short, so that many lists can be
//! tried; the weights keep the long ones few.

use crate::desk::book::MOST_TAKEN;
use crate::generate::chance::Chance;
use crate::generate::clean::{clean_lines, late_manner, plain_manner, roomy_manner, tight_manner};
use crate::generate::faults::{damage, earlier_ready, HEADING, ORDER};
use crate::generate::noise::{any_bytes, hour_noise_line, length_about_limit, line_bytes, stretch};
use crate::generate::spelling::Spelling;

/// A generated text and the name of its kind.
pub struct Made {
    pub kind: &'static str,
    pub text: Vec<u8>,
}

/// The program that a list is made for.
#[derive(Clone, Copy)]
pub enum Program {
    Desk,
    Checker,
}

struct Kind {
    name: &'static str,
    /// How often the kind is drawn for each program. The checker looks at a
    /// plan only behind a clean list, so about three of its four are clean.
    weights: [u32; 2],
    make: fn(&mut Chance) -> Vec<u8>,
}

const KINDS: [Kind; 16] = [
    kind("clean", [100, 200], clean),
    kind("nearly clean", [150, 60], nearly_clean),
    kind("damaged", [180, 30], damaged),
    kind("tight", [155, 230], tight),
    kind("late", [80, 110], late),
    kind("spelled", [60, 90], spelled),
    kind("noise", [30, 10], noise),
    kind("headed noise", [70, 10], headed_noise),
    kind("first line", [100, 45], first_line),
    kind("over 512", [40, 15], over_full),
    kind("at the limit", [30, 45], about_limit),
    kind("empty", [5, 15], empty),
    kind("512 orders", [0, 30], just_full),
    kind("512 kept", [0, 90], all_kept),
    kind("one too many", [0, 25], one_too_many),
    kind("below the clock", [0, 35], below_clock),
];

/// An order that is mostly below the clock behind others.
const EARLY_ORDER: &[u8] = b"6\t0\t9999,99\n";

/// An order that is never below the clock.
const LATE_ORDER: &[u8] = b"8\t9999,99\t9999,99\n";

const fn kind(name: &'static str, weights: [u32; 2], make: fn(&mut Chance) -> Vec<u8>) -> Kind {
    Kind {
        name,
        weights,
        make,
    }
}

/// The names of all kinds that are made for this program.
pub fn kind_names(program: Program) -> impl Iterator<Item = &'static str> {
    KINDS
        .iter()
        .filter(move |kind| kind.weights[program as usize] > 0)
        .map(|kind| kind.name)
}

/// The desk's list of this seed.
pub fn list(seed: u64) -> Made {
    list_for(Program::Desk, &mut Chance::from_seed(seed))
}

/// A list for this program.
pub fn list_for(program: Program, chance: &mut Chance) -> Made {
    let weights = KINDS.each_ref().map(|kind| kind.weights[program as usize]);
    let kind = &KINDS[chance.weighted(&weights)];
    Made {
        kind: kind.name,
        text: (kind.make)(chance),
    }
}

fn clean(chance: &mut Chance) -> Vec<u8> {
    let manner = plain_manner(chance);
    let orders = order_count(chance);
    clean_lines(chance, &manner, orders).concat()
}

fn tight(chance: &mut Chance) -> Vec<u8> {
    let manner = tight_manner(chance);
    let orders = chance.between(4, 60);
    clean_lines(chance, &manner, orders).concat()
}

fn late(chance: &mut Chance) -> Vec<u8> {
    let manner = late_manner(chance);
    let orders = order_count(chance);
    clean_lines(chance, &manner, orders).concat()
}

/// Hours of whole hours, tenths and hundredths, each spelled in any way.
fn spelled(chance: &mut Chance) -> Vec<u8> {
    let mut manner = plain_manner(chance);
    manner.spelling = Spelling::Any;
    manner.grain = chance.pick(&[100, 10, 10, 1]);
    let orders = order_count(chance);
    clean_lines(chance, &manner, orders).concat()
}

fn nearly_clean(chance: &mut Chance) -> Vec<u8> {
    let mut lines = some_lines(chance);
    for _ in 0..chance.between(1, 3) {
        damage_one(chance, &mut lines);
    }
    with_any_end(chance, lines)
}

/// About every second order is damaged, the first line seldom.
fn damaged(chance: &mut Chance) -> Vec<u8> {
    let mut lines = some_lines(chance);
    for _ in 0..lines.len().div_ceil(2) {
        damage_one(chance, &mut lines);
    }
    if chance.one_in(12) {
        damage(chance, &mut lines[0], &HEADING);
    }
    with_any_end(chance, lines)
}

fn noise(chance: &mut Chance) -> Vec<u8> {
    let length = chance.pick(&[1, 10, 100, 400]);
    let length = chance.place(length) + 1;
    if chance.one_in(2) {
        any_bytes(chance, length)
    } else {
        line_bytes(chance, length)
    }
}

/// Noise behind a good first line, so that each of its lines is judged.
fn headed_noise(chance: &mut Chance) -> Vec<u8> {
    let mut text = good_first_line(chance);
    match chance.below(4) {
        0 => text.extend(any_bytes(chance, 200)),
        1 => text.extend(line_bytes(chance, 400)),
        _ => {
            for _ in 0..chance.between(1, 40) {
                text.extend(hour_noise_line(chance));
            }
        }
    }
    text
}

/// A first line, more often bad than good, sometimes with orders behind it.
fn first_line(chance: &mut Chance) -> Vec<u8> {
    let mut lines = some_lines(chance);
    if chance.one_in(2) {
        lines.truncate(1);
    }
    if !chance.one_in(5) {
        damage(chance, &mut lines[0], &HEADING);
    }
    lines.concat()
}

/// More orders than the book takes, or just as many, with faulty lines
/// between them and orders ready below the clock where the book is full.
fn over_full(chance: &mut Chance) -> Vec<u8> {
    let mut manner = tight_manner(chance);
    // The clock must not come to rest at the last hour.
    manner.step = manner.step.min(1_000);
    let orders = match chance.below(3) {
        0 => chance.between(MOST_TAKEN - 1, MOST_TAKEN + 1),
        1 => chance.between(MOST_TAKEN + 1, MOST_TAKEN + 40),
        _ => chance.between(MOST_TAKEN + 1, MOST_TAKEN + 400),
    };
    let mut lines = clean_lines(chance, &manner, orders);
    if !chance.one_in(4) {
        for _ in 0..chance.between(1, 40) {
            damage_added(chance, &mut lines);
        }
    }
    for _ in 0..chance.below(4) {
        lines.push(EARLY_ORDER.to_vec());
    }
    with_any_end(chance, lines)
}

/// As many orders as the book takes.
fn just_full(chance: &mut Chance) -> Vec<u8> {
    crowded_lines(chance, MOST_TAKEN).concat()
}

/// As many orders as the book takes, and a load for each of them.
fn all_kept(chance: &mut Chance) -> Vec<u8> {
    let manner = roomy_manner(chance);
    clean_lines(chance, &manner, MOST_TAKEN).concat()
}

/// The book is full before the end; what comes then may be below the clock.
fn one_too_many(chance: &mut Chance) -> Vec<u8> {
    let mut lines = crowded_lines(chance, MOST_TAKEN);
    for _ in 0..chance.pick(&[1, 1, 2, 20]) {
        lines.push(chance.pick(&[LATE_ORDER, EARLY_ORDER]).to_vec());
    }
    lines.concat()
}

/// One order or two are ready earlier than the one before, if that is not
/// ready at 0, and all else is clean.
fn below_clock(chance: &mut Chance) -> Vec<u8> {
    let mut lines = some_lines(chance);
    for _ in 0..chance.between(1, 2) {
        let place = chance.between(1, lines.len() as u32 - 1) as usize;
        earlier_ready(chance, &mut lines[place], &ORDER);
    }
    lines.concat()
}

fn about_limit(chance: &mut Chance) -> Vec<u8> {
    let length = length_about_limit(chance);
    let mut text = good_first_line(chance);
    let filler = match chance.below(9) {
        0 => {
            text = some_lines(chance).concat();
            b"1\t0\t0\n".to_vec()
        }
        1 => b"3\t9999,99\t9999,99\n".to_vec(),
        2 => crowded_orders(chance),
        3 => line_bytes(chance, 5_000),
        4 => b"\n".to_vec(),
        5 => b"1".to_vec(),
        6 => any_bytes(chance, 5_000),
        7 => damaged_orders(chance),
        _ => {
            text.clear();
            chance.pick(&[b"\n" as &[u8], b"steam", b"\t"]).to_vec()
        }
    };
    stretch(chance, &mut text, &filler, length);
    text
}

fn empty(_: &mut Chance) -> Vec<u8> {
    Vec::new()
}

fn order_count(chance: &mut Chance) -> u32 {
    let most = chance.pick(&[3, 12, 30, 60]);
    chance.between(0, most)
}

/// The lines of a short clean list of any manner.
fn some_lines(chance: &mut Chance) -> Vec<Vec<u8>> {
    let manner = match chance.below(5) {
        0 | 1 => plain_manner(chance),
        2 | 3 => tight_manner(chance),
        _ => late_manner(chance),
    };
    let orders = chance.between(1, 30);
    clean_lines(chance, &manner, orders)
}

/// More orders than the book takes, without a first line.
fn crowded_orders(chance: &mut Chance) -> Vec<u8> {
    crowded_lines(chance, MOST_TAKEN + 88)[1..].concat()
}

fn crowded_lines(chance: &mut Chance, orders: u32) -> Vec<Vec<u8>> {
    let manner = tight_manner(chance);
    clean_lines(chance, &manner, orders)
}

/// Damaged orders without a first line, and one that is surely ended.
fn damaged_orders(chance: &mut Chance) -> Vec<u8> {
    let mut lines = some_lines(chance);
    for line in &mut lines[1..] {
        damage(chance, line, &ORDER);
    }
    lines.push(LATE_ORDER.to_vec());
    lines[1..].concat()
}

fn good_first_line(chance: &mut Chance) -> Vec<u8> {
    let manner = plain_manner(chance);
    clean_lines(chance, &manner, 0).concat()
}

/// Damages one order in its place. The list has a first line; without orders
/// it is that line which is damaged.
fn damage_one(chance: &mut Chance, lines: &mut [Vec<u8>]) {
    let place = chance.place(lines.len()).max(1);
    match lines.get_mut(place) {
        Some(line) => damage(chance, line, &ORDER),
        None => damage(chance, &mut lines[0], &HEADING),
    }
}

/// Adds a damaged copy of an order behind it, so that no order is lost. The
/// list has at least one order.
fn damage_added(chance: &mut Chance, lines: &mut Vec<Vec<u8>>) {
    let place = chance.place(lines.len()).max(1);
    let mut line = lines[place].clone();
    damage(chance, &mut line, &ORDER);
    lines.insert(place + 1, line);
}

/// The lines as one text, now and then without the last line end or with
/// bytes behind it.
fn with_any_end(chance: &mut Chance, lines: Vec<Vec<u8>>) -> Vec<u8> {
    let mut text = lines.concat();
    match chance.below(12) {
        0 => drop(text.pop()),
        1 => text.extend_from_slice(chance.pick(&[b"7" as &[u8], b"7\t1", b"\t\t", b"\0"])),
        _ => {}
    }
    text
}
