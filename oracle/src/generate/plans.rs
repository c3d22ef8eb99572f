//! Generated plans, each made for a list.
//!
//! Assumes that the list may be of any kind: lines of it that do not read are
//! passed over, and a list whose first line does not read has no orders. A
//! plan is right only if the list is clean and nothing was spoiled.

use crate::desk::book::{Answer, Book, MOST_TAKEN};
use crate::desk::hours::LAST_HOUR;
use crate::desk::lines::{lines, read_heading, read_order, Heading, Load, Order};
use crate::generate::chance::Chance;
use crate::generate::faults::{damage, damage_fields, PLAN};
use crate::generate::lists::{list, Made};
use crate::generate::noise::{any_bytes, length_about_limit, line_bytes, stretch};
use crate::generate::spelling::{join_fields, spell_hour, spell_number, Spelling};

/// What a plan has to know of its list, which may be a bad one.
pub struct Season {
    pub heading: Heading,
    /// The orders that read, each with its line number.
    orders: Vec<(u32, Order)>,
    /// The number of the list's last line.
    pub last_line: u32,
}

struct Kind {
    name: &'static str,
    weight: u32,
    make: fn(&mut Chance, &Season) -> Vec<u8>,
}

const KINDS: [Kind; 13] = [
    kind("kept by the desk", 130, kept_by_desk),
    kind("packed", 140, packed),
    kind("one load spoiled", 230, one_load_spoiled),
    kind("loads spoiled", 80, loads_spoiled),
    kind("border named", 70, border_named),
    kind("laid over", 80, laid_over),
    kind("order added", 110, order_added),
    kind("lines damaged", 140, lines_damaged),
    kind("fields damaged", 80, fields_damaged),
    kind("not ended", 20, not_ended),
    kind("noise", 35, noise),
    kind("at the limit", 45, about_limit),
    kind("empty", 15, empty),
];

const fn kind(name: &'static str, weight: u32, make: fn(&mut Chance, &Season) -> Vec<u8>) -> Kind {
    Kind { name, weight, make }
}

/// The names of all kinds.
pub fn kind_names() -> impl Iterator<Item = &'static str> {
    KINDS.iter().map(|kind| kind.name)
}

/// The plan of this seed, made for the desk's list of this seed.
pub fn plan(seed: u64) -> Made {
    // Another stream than the list's, or the two would be drawn alike.
    plan_for(&list(seed).text, &mut Chance::from_seed(!seed))
}

/// A plan for this list.
pub fn plan_for(list: &[u8], chance: &mut Chance) -> Made {
    let season = season_of(list);
    let kind = &KINDS[chance.weighted(&KINDS.each_ref().map(|kind| kind.weight))];
    Made {
        kind: kind.name,
        text: (kind.make)(chance, &season),
    }
}

/// What a plan has to know of this list.
pub fn season_of(list: &[u8]) -> Season {
    let mut walk = lines(list);
    let heading = walk.next().and_then(|line| read_heading(line).ok());
    let mut season = Season {
        heading: heading.unwrap_or(Heading {
            chambers: 2,
            run: 300,
        }),
        orders: Vec::new(),
        last_line: 1,
    };
    if heading.is_none() {
        return season;
    }
    for (line_number, line) in (2..).zip(walk) {
        season.last_line = line_number;
        if let Ok(order) = read_order(line) {
            season.orders.push((line_number, order));
        }
    }
    // A clean list has no more orders, and packing takes long for many.
    season.orders.truncate(MOST_TAKEN as usize);
    season
}

fn kept_by_desk(chance: &mut Chance, season: &Season) -> Vec<u8> {
    let mut loads = desk_loads(season);
    if chance.one_in(2) {
        chance.shuffle(&mut loads);
    }
    text_of(chance, &loads)
}

fn packed(chance: &mut Chance, season: &Season) -> Vec<u8> {
    let loads = packed_loads(chance, season);
    text_of(chance, &loads)
}

fn one_load_spoiled(chance: &mut Chance, season: &Season) -> Vec<u8> {
    let mut loads = spoilable_loads(chance, season);
    spoil(chance, season, &mut loads);
    text_of(chance, &loads)
}

fn loads_spoiled(chance: &mut Chance, season: &Season) -> Vec<u8> {
    let mut loads = spoilable_loads(chance, season);
    for _ in 0..chance.between(2, 6) {
        spoil(chance, season, &mut loads);
    }
    text_of(chance, &loads)
}

/// One order line is the first or the last good one or just beside them.
fn border_named(chance: &mut Chance, season: &Season) -> Vec<u8> {
    let mut loads = spoilable_loads(chance, season);
    let place = chance.place(loads.len());
    let last = season.last_line;
    loads[place].order_line = chance.pick(&[0, 1, 2, last, last + 1]).min(9_999);
    text_of(chance, &loads)
}

/// One load lies upon that of an earlier line, with nothing else wrong.
fn laid_over(chance: &mut Chance, season: &Season) -> Vec<u8> {
    let mut loads = spoilable_loads(chance, season);
    // The hours of the two orders drawn do not always allow it.
    for _ in 0..40 {
        let later = chance.place(loads.len());
        if later == 0 {
            continue;
        }
        let earlier = loads[chance.place(later)];
        let order_line = loads[later].order_line;
        if let Some(start) = overlapping_start(chance, season, earlier.start, order_line) {
            loads[later].chamber = earlier.chamber;
            loads[later].start = start;
            break;
        }
    }
    text_of(chance, &loads)
}

/// A load is added for any order, kept or not, beside the bounds of its start,
/// so that its line meets several refusals. Orders too short for any load are
/// preferred, as their loads are both too early and too late.
fn order_added(chance: &mut Chance, season: &Season) -> Vec<u8> {
    let mut loads = spoilable_loads(chance, season);
    let mut added = loads[chance.place(loads.len())];
    let mut named = season.orders.clone();
    if chance.one_in(2) {
        named.retain(|(_, order)| order.due < order.ready + season.heading.run);
    }
    if !named.is_empty() {
        added.order_line = chance.pick(&named).0;
    }
    move_about_bounds(chance, season, &mut added);
    loads.insert(chance.place(loads.len() + 1), added);
    text_of(chance, &loads)
}

fn lines_damaged(chance: &mut Chance, season: &Season) -> Vec<u8> {
    let loads = spoilable_loads(chance, season);
    let mut lines = lines_of(chance, &loads);
    for _ in 0..chance.between(1, 3) {
        let place = chance.place(lines.len());
        damage(chance, &mut lines[place], &PLAN);
    }
    let mut text = lines.concat();
    if chance.one_in(8) {
        text.pop();
    }
    text
}

/// Several fields of one line are bad.
fn fields_damaged(chance: &mut Chance, season: &Season) -> Vec<u8> {
    let loads = spoilable_loads(chance, season);
    let mut lines = lines_of(chance, &loads);
    let place = chance.place(lines.len());
    damage_fields(chance, &mut lines[place], &PLAN);
    lines.concat()
}

/// Nothing is wrong but that the last line, if there is one, is not ended.
fn not_ended(chance: &mut Chance, season: &Season) -> Vec<u8> {
    let mut text = packed(chance, season);
    text.pop();
    text
}

fn noise(chance: &mut Chance, _: &Season) -> Vec<u8> {
    let length = chance.place(300) + 1;
    if chance.one_in(2) {
        any_bytes(chance, length)
    } else {
        line_bytes(chance, length)
    }
}

fn about_limit(chance: &mut Chance, season: &Season) -> Vec<u8> {
    let length = length_about_limit(chance);
    let mut text = kept_by_desk(chance, season);
    let filler = match chance.below(4) {
        0 => b"\n".to_vec(),
        1 => b"2\t1\t0\n".to_vec(),
        2 => line_bytes(chance, 5_000),
        _ => b"9".to_vec(),
    };
    stretch(chance, &mut text, &filler, length);
    text
}

fn empty(_: &mut Chance, _: &Season) -> Vec<u8> {
    Vec::new()
}

/// Right loads, or a single one of no right if the list allows none.
fn spoilable_loads(chance: &mut Chance, season: &Season) -> Vec<Load> {
    let mut loads = if chance.one_in(2) {
        desk_loads(season)
    } else {
        packed_loads(chance, season)
    };
    if loads.is_empty() {
        loads.push(Load {
            order_line: season.last_line,
            chamber: 1,
            start: 0,
        });
    }
    loads
}

fn desk_loads(season: &Season) -> Vec<Load> {
    let mut book = Book::fresh(season.heading.chambers, season.heading.run);
    let mut loads = Vec::new();
    for &(order_line, order) in &season.orders {
        if let Answer::Yes { chamber, start } = book.take(order.ready, order.due) {
            loads.push(Load {
                order_line,
                chamber,
                start,
            });
        }
    }
    loads
}

/// Orders in any order, each at the earliest start left in a chamber drawn
/// for it, so that later loads fill the gaps between earlier ones.
fn packed_loads(chance: &mut Chance, season: &Season) -> Vec<Load> {
    let mut orders = season.orders.clone();
    chance.shuffle(&mut orders);
    let mut loads = Vec::new();
    for (order_line, order) in orders {
        let chamber = chance.between(1, season.heading.chambers);
        if let Some(start) = earliest_start(season.heading.run, &loads, chamber, order) {
            loads.push(Load {
                order_line,
                chamber,
                start,
            });
        }
    }
    loads
}

/// The earliest start at which the order's load overlaps none in the chamber.
/// It is the ready hour or the end of one of those loads.
fn earliest_start(run: u32, loads: &[Load], chamber: u32, order: Order) -> Option<u32> {
    let starts: Vec<u32> = loads
        .iter()
        .filter(|load| load.chamber == chamber)
        .map(|load| load.start)
        .collect();
    let ends = starts.iter().map(|start| start + run);
    ends.chain([order.ready])
        .filter(|&start| start >= order.ready && start + run <= order.due)
        .filter(|&start| starts.iter().all(|other| start.abs_diff(*other) >= run))
        .min()
}

/// Spoils one load in a way that one of the refusals 4 and 11 to 15 names, or
/// moves it only just so far that it is still right. There is one at least.
fn spoil(chance: &mut Chance, season: &Season, loads: &mut Vec<Load>) {
    let place = chance.place(loads.len());
    match chance.below(7) {
        0 => loads[place].order_line = strange_line(chance, season),
        1 => loads[place].chamber = strange_chamber(chance, season),
        2 | 3 => repeat_load(chance, loads, place),
        4 => move_about_bounds(chance, season, &mut loads[place]),
        _ => move_about_load(chance, season, loads, place),
    }
}

/// A line number that names no order, or just barely one.
fn strange_line(chance: &mut Chance, season: &Season) -> u32 {
    let last = season.last_line;
    chance
        .pick(&[0, 1, 2, last, last + 1, last + 2, 513, 514, 9_999])
        .min(9_999)
}

fn strange_chamber(chance: &mut Chance, season: &Season) -> u32 {
    let chambers = season.heading.chambers;
    chance.pick(&[0, 1, chambers, chambers + 1, 8, 9])
}

/// Adds a line for the same order further down, in the same place or another.
fn repeat_load(chance: &mut Chance, loads: &mut Vec<Load>, place: usize) {
    let mut again = loads[place];
    if chance.one_in(2) {
        again.start = (again.start + chance.below(1_000)).min(LAST_HOUR);
    }
    let further = place + 1 + chance.place(loads.len() - place);
    loads.insert(further, again);
}

/// Moves the start to one side or the other of ready and of due less run.
fn move_about_bounds(chance: &mut Chance, season: &Season, load: &mut Load) {
    let Some(order) = order_on(season, load.order_line) else {
        return;
    };
    let latest = order.due.saturating_sub(season.heading.run);
    let start = match chance.below(6) {
        0 | 1 => order.ready.saturating_sub(1),
        2 => order.ready,
        3 | 4 => latest + 1,
        _ => latest,
    };
    load.start = start.min(LAST_HOUR);
}

/// A start that the hours of the order allow and at which its load overlaps
/// that of another start.
fn overlapping_start(
    chance: &mut Chance,
    season: &Season,
    overlapped: u32,
    order_line: u32,
) -> Option<u32> {
    let order = order_on(season, order_line)?;
    let run = season.heading.run;
    let least = order.ready.max((overlapped + 1).saturating_sub(run));
    let most = order.due.checked_sub(run)?.min(overlapped + run - 1);
    (least <= most).then(|| {
        let any = chance.between(least, most);
        chance.pick(&[least, any, most])
    })
}

/// The order on this line of the list, if it is one that reads.
fn order_on(season: &Season, order_line: u32) -> Option<Order> {
    let named = |line: &&(u32, Order)| line.0 == order_line;
    season.orders.iter().find(named).map(|(_, order)| *order)
}

/// Moves the load beside another of the plan, so that the two only just
/// touch, only just overlap or lie wholly on each other.
fn move_about_load(chance: &mut Chance, season: &Season, loads: &mut [Load], place: usize) {
    let run = season.heading.run;
    let other = loads[chance.place(loads.len())];
    let start = match chance.below(6) {
        0 => other.start + run,
        1 | 2 => other.start + run - 1,
        3 => other.start.saturating_sub(run),
        4 => other.start.saturating_sub(run - 1),
        _ => other.start,
    };
    loads[place].chamber = other.chamber;
    loads[place].start = start.min(LAST_HOUR);
}

fn text_of(chance: &mut Chance, loads: &[Load]) -> Vec<u8> {
    lines_of(chance, loads).concat()
}

fn lines_of(chance: &mut Chance, loads: &[Load]) -> Vec<Vec<u8>> {
    loads
        .iter()
        .map(|load| {
            join_fields(&[
                spell_number(load.order_line),
                spell_number(load.chamber),
                spell_hour(chance, Spelling::Any, load.start),
            ])
        })
        .collect()
}
