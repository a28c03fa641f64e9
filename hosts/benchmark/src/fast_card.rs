//! Cards by hand in plain Rust, for speed: a field is tested whole, and the place is looked for only
//! in the field that failed.

use crate::fast_meter;
use crate::fast_post::tables_of;
use model::meter::Meter;

const ACCOUNT_FIELD: usize = 13;
const TABLE_FIELD: usize = 28;
const ACCOUNT_FRAME: usize = 19;
const TABLE_FRAME: usize = 36;

#[inline(always)]
fn account_column(column: usize, byte: u8) -> bool {
    match column {
        0 => byte == 1,
        1 => byte == 0,
        2 => byte == 10,
        _ => byte.is_ascii_alphanumeric() | (byte == b' ') | (byte == b'_'),
    }
}

#[inline(always)]
fn zone(byte: u8) -> bool {
    byte.wrapping_sub(b'1') < 4
}

fn table_column(highest: u8, column: usize, byte: u8, above: u8) -> bool {
    match column {
        0 => (byte == 2) & (above < highest),
        1 => byte == 0,
        2 => byte == 25,
        3 => (above < byte) & (byte <= highest),
        _ => zone(byte),
    }
}

#[inline(always)]
fn stands(highest: u8, field: &[u8; TABLE_FIELD], above: u8) -> bool {
    let head = (field[0] == 2) & (field[1] == 0) & (field[2] == 25);
    let follows = (above < field[3]) & (field[3] <= highest);
    head & follows & field[4..].iter().fold(true, |all, &byte| all & zone(byte))
}

/// Whether a text is a card: the number, and the place.
pub fn check(edition: u8, text: &[u8]) -> (u8, usize) {
    let Some(highest) = tables_of(edition) else {
        return (16, 0);
    };
    let front = &text[..text.len().min(ACCOUNT_FIELD)];
    let account = front
        .iter()
        .enumerate()
        .position(|(column, &byte)| !account_column(column, byte));
    match account {
        Some(place) => return (40, place),
        None if front.len() < ACCOUNT_FIELD => return (40, front.len()),
        None => {}
    }
    let (fields, rest) = text[ACCOUNT_FIELD..].as_chunks::<TABLE_FIELD>();
    let mut above = 0;
    for (number, field) in fields.iter().enumerate() {
        if !stands(highest, field, above) {
            let start = ACCOUNT_FIELD + TABLE_FIELD * number;
            return (40, start + place(highest, field, above));
        }
        above = field[3];
    }
    match rest.len() {
        0 => (1, 0),
        _ => (40, text.len() - rest.len() + place(highest, rest, above)),
    }
}

fn place(highest: u8, field: &[u8], above: u8) -> usize {
    field
        .iter()
        .enumerate()
        .position(|(column, &byte)| !table_column(highest, column, byte, above))
        .unwrap_or(field.len())
}

#[inline(always)]
fn wire(byte: u8) -> u8 {
    let four = byte ^ byte >> 4;
    let two = four ^ four >> 2;
    byte | (two ^ two >> 1) << 7
}

#[inline(always)]
fn frame<const SIZE: usize>(front: &[u8], content: &[u8]) -> [u8; SIZE] {
    let mut frame = [0; SIZE];
    frame[..front.len()].copy_from_slice(front);
    frame[front.len()..SIZE - 3].copy_from_slice(content);
    frame[SIZE - 3] = b')';
    frame[SIZE - 2] = 3;
    frame[SIZE - 1] = frame[1..SIZE - 1].iter().fold(0, |sum, byte| sum ^ byte);
    frame.map(wire)
}

/// The frames of a card: the number, their length, and the place.
pub fn read(edition: u8, text: &[u8], out: &mut [u8]) -> (u8, usize, usize) {
    let (number, place) = check(edition, text);
    if number != 1 {
        return (number, 0, place);
    }
    let (fields, _) = text[ACCOUNT_FIELD..].as_chunks::<TABLE_FIELD>();
    let length = ACCOUNT_FRAME + TABLE_FRAME * fields.len();
    if out.len() < length {
        return (41, 0, 0);
    }
    let (first, tables) = out[..length].split_at_mut(ACCOUNT_FRAME);
    first.copy_from_slice(&frame::<ACCOUNT_FRAME>(
        b"\x01W1\x02K(",
        &text[3..ACCOUNT_FIELD],
    ));
    let (tables, _) = tables.as_chunks_mut::<TABLE_FRAME>();
    for (table, field) in tables.iter_mut().zip(fields) {
        let (tens, unit) = (b'0' + field[3] / 10, b'0' + field[3] % 10);
        let front = [1, b'W', b'1', 2, b'Z', b'(', tens, unit, b';'];
        *table = frame(&front, &field[4..]);
    }
    (1, length, 0)
}

/// The card of a state: the number, and its length.
pub fn write(meter: &Meter, out: &mut [u8]) -> (u8, usize) {
    let (number, _) = fast_meter::total(meter);
    let Some(highest) = tables_of(meter.edition).filter(|_| number == 1) else {
        return (number, 0);
    };
    let length = ACCOUNT_FIELD + usize::from(highest) * TABLE_FIELD;
    let Some(card) = out.get_mut(..length) else {
        return (41, 0);
    };
    let (account, tables) = card.split_at_mut(ACCOUNT_FIELD);
    account[..3].copy_from_slice(&[1, 0, 10]);
    account[3..].copy_from_slice(&meter.account);
    let (fields, _) = tables.as_chunks_mut::<TABLE_FIELD>();
    for ((field, row), number) in fields.iter_mut().zip(&meter.tables).zip(1..) {
        field[..4].copy_from_slice(&[2, 0, 25, number]);
        field[4..].copy_from_slice(row);
    }
    (1, length)
}
