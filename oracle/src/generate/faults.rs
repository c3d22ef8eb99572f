//! Damage to single lines, in every way that the paper's refusals name.
//!
//! Assumes nothing of the line, which may have been damaged before: several
//! faults on one line are wanted, because they show the order of the checks.
//! A fault may by chance leave the line good.

use crate::desk::lines::{read_order, LINE_END, TAB};
use crate::generate::chance::Chance;
use crate::generate::spelling::{join_fields, spell_hour, Spelling};

#[derive(Clone, Copy)]
pub enum Field {
    Word,
    Number,
    Hour,
}

/// The fields of a line from the left.
pub type Shape = [Field; 3];

pub const HEADING: Shape = [Field::Word, Field::Number, Field::Hour];
pub const ORDER: Shape = [Field::Number, Field::Hour, Field::Hour];
pub const PLAN: Shape = [Field::Number, Field::Number, Field::Hour];

type Fault = fn(&mut Chance, &mut Vec<u8>, &Shape);

/// The faults of orders and plan lines; the commoner stand more than once.
const FAULTS: &[Fault] = &[
    bad_field,
    bad_field,
    bad_field,
    bad_field,
    edge_field,
    edge_field,
    outside_number,
    outside_number,
    earlier_ready,
    earlier_ready,
    earlier_ready,
    missing_field,
    extra_field,
    empty_field,
    swapped_fields,
    missing_line_end,
    extra_line_end,
    blank_line,
    carriage_return,
    spaces_for_tabs,
    foreign_byte,
    foreign_byte,
    changed_byte,
    overlong_field,
];

/// The faults of first lines. A list has but one, so those of its fields are
/// brought about the more often.
const HEADING_FAULTS: &[Fault] = &[
    bad_field,
    bad_field,
    bad_field,
    bad_field,
    bad_field,
    bad_field,
    edge_field,
    edge_field,
    edge_field,
    edge_field,
    edge_field,
    edge_field,
    edge_field,
    edge_field,
    outside_number,
    outside_number,
    outside_number,
    missing_field,
    extra_field,
    empty_field,
    swapped_fields,
    missing_line_end,
    extra_line_end,
    blank_line,
    carriage_return,
    spaces_for_tabs,
    foreign_byte,
    changed_byte,
];

const BAD_WORDS: &[&[u8]] = &[
    b"",
    b"Steam",
    b"STEAM",
    b"stea",
    b"steam2",
    b"steamsteam",
    b" steam",
    b"steam ",
    b"steam\0",
    b"\xef\xbb\xbfsteam",
    b"damp",
    b"7",
];

const BAD_NUMBERS: &[&[u8]] = &[
    b"",
    b"00",
    b"01",
    b"08",
    b"007",
    b"0000",
    b"00001",
    b"10000",
    b"12345",
    b"99999",
    b"65537",
    b"4294967297",
    b"18446744073709551617",
    b"1,0",
    b"1,",
    b",1",
    b"1.0",
    b"-1",
    b"+1",
    b" 1",
    b"1 ",
    b"1\r",
    b"1\0",
    b"0x1",
    b"1e1",
    b"x",
    b"1a",
    b"a1",
    b"1/",
    b"1:",
    b"\xb1",
    b"\xff",
    b"\xef\xbc\x91",
];

const BAD_HOURS: &[&[u8]] = &[
    b"",
    b",",
    b",,",
    b"18,",
    b",5",
    b",50",
    b"18.5",
    b"1.850",
    b"18,500",
    b"08,5",
    b"00",
    b"00,5",
    b"000",
    b"0,",
    b"0,000",
    b"1,,5",
    b"1,5,",
    b"1,2,3",
    b"10000",
    b"10000,0",
    b"99999,9",
    b"9999,990",
    b"9999,999",
    b"12345678",
    b"01234,56",
    b"-1",
    b"+1",
    b" 1",
    b"1 ",
    b"1, 5",
    b"1,5\r",
    b"1\r",
    b"1,a",
    b"1,5a",
    b"1,a5",
    b"a,5",
    b"1a,5",
    b"1,5h",
    b"1;5",
    b"1-5",
    b"1/5",
    b"1,/",
    b"1,:",
    b"1'000",
    b"0\0",
    b"\0",
    b"1\xac5",
    b"\xb1,5",
    b"\xff",
    b"\xd9\xa3",
];

/// Plain numbers at the borders of their ranges.
const EDGE_NUMBERS: &[&[u8]] = &[
    b"0", b"0", b"1", b"2", b"8", b"9", b"9", b"10", b"513", b"9999",
];

/// Plain numbers outside one range or another; 0 is outside every one.
const OUTSIDE_NUMBERS: &[&[u8]] = &[b"0", b"0", b"0", b"9", b"9999"];

/// Hours at the borders of their ranges.
const EDGE_HOURS: &[&[u8]] = &[
    b"0", b"0", b"0,0", b"0,00", b"0,01", b"99,99", b"100", b"100", b"100,00", b"9999", b"9999,9",
    b"9999,99",
];

/// Bytes that belong nowhere: neighbours of the good bytes, good bytes with
/// the high bit set, letters, blanks and the ends of the range.
const FOREIGN_BYTES: &[u8] = &[
    0, 1, 8, 11, 12, 13, 32, 39, 43, 45, 46, 47, 58, 59, 65, 83, 97, 115, 127, 128, 137, 138, 160,
    172, 176, 185, 255,
];

/// Puts one fault on the line; now and then another on top of it.
pub fn damage(chance: &mut Chance, line: &mut Vec<u8>, shape: &Shape) {
    let faults = match shape[0] {
        Field::Word => HEADING_FAULTS,
        _ => FAULTS,
    };
    loop {
        chance.pick(faults)(chance, line, shape);
        if !chance.one_in(4) {
            return;
        }
    }
}

/// Makes most fields bad or strange, so that one line meets several refusals.
pub fn damage_fields(chance: &mut Chance, line: &mut Vec<u8>, shape: &Shape) {
    for (place, field) in shape.iter().enumerate() {
        if chance.one_in(3) {
            continue;
        }
        let texts = match field {
            Field::Word => BAD_WORDS,
            Field::Number if chance.one_in(2) => OUTSIDE_NUMBERS,
            Field::Number => BAD_NUMBERS,
            Field::Hour => BAD_HOURS,
        };
        replace_field(line, place, chance.pick(texts).to_vec());
    }
}

fn bad_field(chance: &mut Chance, line: &mut Vec<u8>, shape: &Shape) {
    let place = chance.place(shape.len());
    let texts = match shape[place] {
        Field::Word => BAD_WORDS,
        Field::Number => BAD_NUMBERS,
        Field::Hour => BAD_HOURS,
    };
    replace_field(line, place, chance.pick(texts).to_vec());
}

fn edge_field(chance: &mut Chance, line: &mut Vec<u8>, shape: &Shape) {
    let place = chance.place(shape.len());
    let texts = match shape[place] {
        Field::Word => return,
        Field::Number => EDGE_NUMBERS,
        Field::Hour => EDGE_HOURS,
    };
    replace_field(line, place, chance.pick(texts).to_vec());
}

fn outside_number(chance: &mut Chance, line: &mut Vec<u8>, shape: &Shape) {
    for (place, field) in shape.iter().enumerate() {
        if matches!(field, Field::Number) && !chance.one_in(3) {
            replace_field(line, place, chance.pick(OUTSIDE_NUMBERS).to_vec());
        }
    }
}

/// Brings the ready hour forward, so that it may fall below the clock. Orders
/// are often ready at the clock, so one hundredth is often enough.
pub fn earlier_ready(chance: &mut Chance, line: &mut Vec<u8>, _: &Shape) {
    if let Ok(order) = read_order(line) {
        let earlier = match chance.below(3) {
            0 => chance.between(0, order.ready),
            1 => 0,
            _ => order.ready.saturating_sub(1),
        };
        let text = spell_hour(chance, Spelling::Any, earlier);
        replace_field(line, 1, text);
    }
}

fn missing_field(chance: &mut Chance, line: &mut Vec<u8>, _: &Shape) {
    let mut fields = fields_of(line);
    fields.remove(chance.place(fields.len()));
    *line = join_fields(&fields);
}

fn extra_field(chance: &mut Chance, line: &mut Vec<u8>, _: &Shape) {
    let mut fields = fields_of(line);
    let text: &[u8] = chance.pick(&[b"" as &[u8], b"1", b"0,25", b"x"]);
    fields.insert(chance.place(fields.len() + 1), text.to_vec());
    *line = join_fields(&fields);
}

fn empty_field(chance: &mut Chance, line: &mut Vec<u8>, shape: &Shape) {
    replace_field(line, chance.place(shape.len()), Vec::new());
}

fn swapped_fields(chance: &mut Chance, line: &mut Vec<u8>, _: &Shape) {
    let mut fields = fields_of(line);
    chance.shuffle(&mut fields);
    *line = join_fields(&fields);
}

fn missing_line_end(_: &mut Chance, line: &mut Vec<u8>, _: &Shape) {
    if line.last() == Some(&LINE_END) {
        line.pop();
    }
}

fn extra_line_end(chance: &mut Chance, line: &mut Vec<u8>, _: &Shape) {
    line.insert(chance.place(line.len() + 1), LINE_END);
}

fn blank_line(chance: &mut Chance, line: &mut Vec<u8>, _: &Shape) {
    *line = chance
        .pick(&[
            b"\n" as &[u8],
            b"\t\n",
            b"\t\t\n",
            b"\t\t\t\n",
            b"\r\n",
            b" \n",
        ])
        .to_vec();
}

fn carriage_return(_: &mut Chance, line: &mut Vec<u8>, _: &Shape) {
    let place = line.len().saturating_sub(1);
    line.insert(place, b'\r');
}

fn spaces_for_tabs(chance: &mut Chance, line: &mut Vec<u8>, _: &Shape) {
    let all = chance.one_in(2);
    let spaced = |&byte: &u8| match byte {
        TAB if all || chance.one_in(2) => b' ',
        other => other,
    };
    *line = line.iter().map(spaced).collect();
}

fn foreign_byte(chance: &mut Chance, line: &mut Vec<u8>, _: &Shape) {
    let place = chance.place(line.len() + 1);
    let foreign = chance.pick(FOREIGN_BYTES);
    if place < line.len() && chance.one_in(2) {
        line[place] = foreign;
    } else {
        line.insert(place, foreign);
    }
}

fn changed_byte(chance: &mut Chance, line: &mut Vec<u8>, _: &Shape) {
    if line.is_empty() {
        return;
    }
    let place = chance.place(line.len());
    match chance.below(3) {
        0 => line[place] = chance.byte(),
        1 => line[place] = chance.pick(b"0123456789,\t\n"),
        _ => drop(line.remove(place)),
    }
}

fn overlong_field(chance: &mut Chance, line: &mut Vec<u8>, shape: &Shape) {
    let length = chance.pick(&[5, 7, 8, 9, 20, 300]);
    let filler = chance.pick(b"0159,x");
    let mut text = chance.pick(&[b"" as &[u8], b"1", b"1,"]).to_vec();
    text.resize(length, filler);
    replace_field(line, chance.place(shape.len()), text);
}

/// The fields of a line without its line end; always at least one.
fn fields_of(line: &[u8]) -> Vec<Vec<u8>> {
    let content = line.strip_suffix(&[LINE_END]).unwrap_or(line);
    content
        .split(|&byte| byte == TAB)
        .map(<[u8]>::to_vec)
        .collect()
}

/// Puts the text in the place of a field, if the line still has that field.
fn replace_field(line: &mut Vec<u8>, place: usize, text: Vec<u8>) {
    let mut fields = fields_of(line);
    if let Some(field) = fields.get_mut(place) {
        *field = text;
    }
    *line = join_fields(&fields);
}
