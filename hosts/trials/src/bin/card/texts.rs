//! Cards and texts that are almost cards, and meters to take them from and to bring them to.

use model::card::{field, text_of, Card};
use model::meter::{Meter, PROGRAMMING};
use model::post::{Row, Table};
use trials::chance::Chance;
use trials::words::{family, of_edition_2, of_family, totalled};

const ACCOUNT: &[u8] = b"azAZ09 _mM";

fn account(chance: &mut Chance) -> [u8; 10] {
    [(); 10].map(|()| chance.one_of(ACCOUNT))
}

fn row(chance: &mut Chance) -> Row {
    let flat = chance.between(49, 52) as u8;
    match chance.percent(50) {
        true => [flat; 24],
        false => [(); 24].map(|()| chance.between(49, 52) as u8),
    }
}

/// A good card: its tables rise.
fn card(chance: &mut Chance) -> Card {
    let share = chance.one_of(&[0, 5, 20, 60, 100]);
    let mut tables = Vec::new();
    for number in 1..=chance.one_of(&[24, 25]) {
        if chance.percent(share) {
            tables.push(Table {
                number,
                row: row(chance),
            });
        }
    }
    Card {
        account: account(chance),
        tables,
    }
}

/// A card with one thing wrong in what it says, or with fields of another kind.
fn almost(chance: &mut Chance) -> Vec<u8> {
    let mut card = card(chance);
    let last = card.tables.last().map_or(1, |table| table.number);
    let more = Table {
        number: chance.one_of(&[
            0,
            1,
            last,
            last.saturating_sub(1),
            last + 1,
            24,
            25,
            26,
            255,
        ]),
        row: row(chance),
    };
    match chance.below(8) {
        0 | 1 => card.tables.push(more),
        2 => card.tables.insert(0, more),
        3 => card.tables.reverse(),
        4 => card.account[chance.below(10)] = chance.one_of(b"@[`{/:^!\x00\xff"),
        5 => {
            let mut text = text_of(&card);
            text.extend(field(chance.one_of(&[0, 1, 2, 3]), &account(chance)));
            return text;
        }
        6 => {
            let mut text = text_of(&card);
            text.extend(field(2, &row(chance)));
            return text;
        }
        _ => {
            let mut text = field(1, &account(chance)[..chance.below(10)]);
            text.extend(field(2, &row(chance)));
            return text;
        }
    }
    text_of(&card)
}

/// The edition that a text is read for: at times one that there is not.
pub fn edition(chance: &mut Chance) -> u8 {
    match chance.below(16) {
        0 => chance.byte(),
        1 => chance.one_of(&[0, 3]),
        2..=7 => 1,
        _ => 2,
    }
}

/// A card, something like one, or any bytes.
pub fn text(chance: &mut Chance) -> Vec<u8> {
    let mut text = match chance.below(10) {
        0..=4 => text_of(&card(chance)),
        5..=8 => almost(chance),
        _ => (0..chance.below(80))
            .map(|_| chance.byte() & 0x3f)
            .collect(),
    };
    if chance.percent(30) && !text.is_empty() {
        let place = match chance.percent(50) {
            true => chance.below(text.len().min(44)),
            false => chance.below(text.len()),
        };
        text[place] = match chance.below(3) {
            0 => chance.byte(),
            1 => text[place].wrapping_add(1),
            _ => text[place] ^ 1 << chance.below(8),
        };
    }
    // The two bytes of a length the other way about.
    if chance.percent(5) {
        let start = match text.len() {
            0..=15 => 1,
            _ => chance.one_of(&[1, 14]),
        };
        if start + 1 < text.len() {
            text.swap(start, start + 1);
        }
    }
    if chance.percent(10) {
        text.truncate(chance.below(text.len() + 1));
    }
    if chance.percent(5) {
        text.push(chance.one_of(&[0, 1, 2, 3]));
    }
    if chance.one_in(500) {
        text.extend((0..700).map(|_| chance.byte()));
    }
    text
}

/// A meter with settings of its own; once in a while malformed.
pub fn meter(chance: &mut Chance) -> Meter {
    let mut meter = Meter::blank();
    meter.account = account(chance);
    for table in &mut meter.tables[..24] {
        *table = row(chance);
    }
    if chance.percent(50) {
        meter = of_edition_2(meter, row(chance));
    }
    let decimals = family(chance);
    meter = of_family(chance, meter, decimals);
    match chance.below(16) {
        6 => meter.decimals = chance.one_of(&[1, 5, 255]),
        7 => {
            meter.decimals = 0;
            meter.exported[chance.below(4)] = 1;
            meter = totalled(meter);
        }
        0 => meter.mode = 5,
        1 => meter.account[chance.below(10)] = b'-',
        2 => meter.tables[chance.below(24)][chance.below(24)] = chance.one_of(b"05\x00"),
        3 => meter.total ^= 1,
        4 => meter.tables[24] = [chance.one_of(b"05\x01"); 24],
        5 => {
            meter.edition = chance.one_of(&[0, 3, 128, 255]);
            meter.mode = chance.one_of(&[0, 9]);
        }
        _ => {}
    }
    meter
}

/// A meter of an edition in programming mode, with an empty receiver, at either speed.
pub fn ready(chance: &mut Chance, edition: u8) -> Meter {
    let mut meter = loop {
        let meter = meter(chance);
        if meter.well_formed() && meter.edition == edition {
            break meter;
        }
    };
    meter.mode = PROGRAMMING;
    meter.speed = chance.one_of(&[0, 5]);
    meter.attempts = chance.below(4) as u8;
    meter
}
