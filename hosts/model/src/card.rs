//! Settings cards, from document 02, request [11]: what a card is, where another text leaves the
//! cards, the frames that a card becomes, and the card of a state. Written to be believed.

use crate::line;
use crate::meter::Meter;
use crate::post::{self, tables_of, Row, Table, HOURS, TABLES_MOST};

/// The numbers returned.
pub const DONE: u8 = 1;
pub const MALFORMED: u8 = 14;
pub const NO_EDITION: u8 = 16;
pub const NOT_A_CARD: u8 = 40;
pub const NO_ROOM: u8 = 41;

/// Characters of an account.
const ACCOUNT: usize = 10;
/// Tag, two bytes of length.
const HEAD: usize = 3;
/// Bytes of the account's field and of a table's.
const ACCOUNT_FIELD: usize = HEAD + ACCOUNT;
const TABLE_FIELD: usize = HEAD + 1 + HOURS;
/// Bytes of a card with all tables of edition 2.
pub const LONGEST: usize = ACCOUNT_FIELD + TABLES_MOST as usize * TABLE_FIELD;

/// What a card says.
#[derive(Clone, Debug, PartialEq, Eq)]
pub struct Card {
    pub account: [u8; ACCOUNT],
    pub tables: Vec<Table>,
}

/// A field: tag, length with the high byte first, content.
pub fn field(tag: u8, content: &[u8]) -> Vec<u8> {
    let length = u16::try_from(content.len()).expect("contents are short");
    let mut bytes = vec![tag];
    bytes.extend(length.to_be_bytes());
    bytes.extend(content);
    bytes
}

/// The bytes that a card's parts make, good or not.
pub fn text_of(card: &Card) -> Vec<u8> {
    let mut text = field(1, &card.account);
    for table in &card.tables {
        text.extend(table_field(table));
    }
    text
}

fn table_field(table: &Table) -> Vec<u8> {
    let mut content = vec![table.number];
    content.extend(table.row);
    field(2, &content)
}

fn is_account_character(character: u8) -> bool {
    character.is_ascii_alphanumeric() || character == b' ' || character == b'_'
}

fn is_row_character(character: u8) -> bool {
    (b'1'..=b'4').contains(&character)
}

/// Whether the parts are those that cards have, for meters with tables up to the highest.
pub fn is_good(highest: u8, card: &Card) -> bool {
    let numbers: Vec<u8> = card.tables.iter().map(|table| table.number).collect();
    card.account.iter().all(|&c| is_account_character(c))
        && card
            .tables
            .iter()
            .all(|table| table.row.iter().all(|&c| is_row_character(c)))
        && numbers.iter().all(|number| (1..=highest).contains(number))
        && numbers.is_sorted_by(|low, high| low < high)
}

/// What a card says, or nothing for any other text.
pub fn read(highest: u8, text: &[u8]) -> Option<Card> {
    let account = text.get(HEAD..ACCOUNT_FIELD)?.try_into().ok()?;
    let tables = text[ACCOUNT_FIELD..]
        .chunks(TABLE_FIELD)
        .map(|field| {
            let number = *field.get(HEAD)?;
            let row: Row = field.get(HEAD + 1..)?.try_into().ok()?;
            Some(Table { number, row })
        })
        .collect::<Option<Vec<Table>>>()?;
    let card = Card { account, tables };
    // Whatever was picked out, it counts only if it makes that very text.
    (is_good(highest, &card) && text_of(&card) == text).then_some(card)
}

/// Whether some card begins with these bytes: what they lack is made up for by the plainest
/// account or row, and by each number that a table could have.
pub fn begins_some_card(highest: u8, bytes: &[u8]) -> bool {
    let plain = field(1, &[b' '; ACCOUNT]);
    if bytes.len() < ACCOUNT_FIELD {
        return read(highest, &completed(bytes, &plain)).is_some();
    }
    let whole = (bytes.len() - ACCOUNT_FIELD) / TABLE_FIELD * TABLE_FIELD + ACCOUNT_FIELD;
    if whole == bytes.len() {
        return read(highest, bytes).is_some();
    }
    let rest = &bytes[whole..];
    (1..=highest).any(|number| {
        let plain = table_field(&Table {
            number,
            row: [b'1'; HOURS],
        });
        let mut text = bytes[..whole].to_vec();
        text.extend(completed(rest, &plain));
        read(highest, &text).is_some()
    })
}

/// The bytes, and behind them those of a sample.
fn completed(bytes: &[u8], sample: &[u8]) -> Vec<u8> {
    let mut whole = bytes.to_vec();
    whole.extend(&sample[bytes.len()..]);
    whole
}

/// The place: the length of the longest beginning of the text that some card shares.
pub fn place(highest: u8, text: &[u8]) -> usize {
    // Every card shares the empty beginning, and a shared beginning's beginnings are shared.
    let (mut shared, mut beyond) = (0, text.len().min(LONGEST) + 1);
    while beyond - shared > 1 {
        let middle = shared + (beyond - shared) / 2;
        if begins_some_card(highest, &text[..middle]) {
            shared = middle;
        } else {
            beyond = middle;
        }
    }
    shared
}

/// The frame that writes the account, as it goes over the line.
fn account_frame(account: &[u8; ACCOUNT]) -> Vec<u8> {
    let mut message = vec![line::SOH, b'W', b'1', line::STX, b'K', b'('];
    message.extend(account);
    message.extend([b')', line::ETX]);
    line::wires(&line::with_bcc(&message))
}

/// The frames of a card: the account's, then each table's.
pub fn frames_of(card: &Card) -> Vec<u8> {
    let mut frames = account_frame(&card.account);
    frames.extend(card.tables.iter().flat_map(post::frame_of));
    frames
}

/// What the check answers: the number, and the place.
pub fn check(edition: u8, text: &[u8]) -> (u8, usize) {
    let Some(highest) = tables_of(edition) else {
        return (NO_EDITION, 0);
    };
    match read(highest, text) {
        Some(_) => (DONE, 0),
        None => (NOT_A_CARD, place(highest, text)),
    }
}

/// What the reader answers: the number, the length and the place. Only what is done writes, and
/// only its own bytes.
pub fn export(edition: u8, text: &[u8], out: &mut [u8]) -> (u8, usize, usize) {
    let Some(highest) = tables_of(edition) else {
        return (NO_EDITION, 0, 0);
    };
    let Some(card) = read(highest, text) else {
        return (NOT_A_CARD, 0, place(highest, text));
    };
    let frames = frames_of(&card);
    let Some(front) = out.get_mut(..frames.len()) else {
        return (NO_ROOM, 0, 0);
    };
    front.copy_from_slice(&frames);
    (DONE, frames.len(), 0)
}

/// The card of a state: its account and all of its edition's tables.
pub fn card_of(meter: &Meter) -> Card {
    let highest = tables_of(meter.edition).unwrap_or(0);
    let tables = (1..=highest)
        .zip(meter.tables)
        .map(|(number, row)| Table { number, row })
        .collect();
    Card {
        account: meter.account,
        tables,
    }
}

/// What the writer answers: the number and the length.
pub fn write(meter: &Meter, out: &mut [u8]) -> (u8, usize) {
    if tables_of(meter.edition).is_none() {
        return (NO_EDITION, 0);
    }
    if !meter.well_formed() {
        return (MALFORMED, 0);
    }
    let text = text_of(&card_of(meter));
    let Some(front) = out.get_mut(..text.len()) else {
        return (NO_ROOM, 0);
    };
    front.copy_from_slice(&text);
    (DONE, text.len())
}

#[cfg(test)]
mod tests {
    use super::*;

    fn sample() -> Card {
        Card {
            account: *b"STUDIO_7  ",
            tables: vec![
                Table {
                    number: 1,
                    row: [b'1'; HOURS],
                },
                Table {
                    number: 24,
                    row: [b'4'; HOURS],
                },
            ],
        }
    }

    #[test]
    fn a_card_by_hand() {
        let text = text_of(&sample());
        assert_eq!(&text[..4], b"\x01\x00\x0aS");
        assert_eq!(&text[13..18], b"\x02\x00\x19\x011");
        assert_eq!(text.len(), 13 + 2 * 28);
        assert_eq!(read(24, &text), Some(sample()));
        assert_eq!(check(1, &text), (DONE, 0));
    }

    #[test]
    fn places_by_hand() {
        let text = text_of(&sample());
        assert_eq!(check(1, b""), (NOT_A_CARD, 0));
        assert_eq!(check(1, b"\x02"), (NOT_A_CARD, 0));
        assert_eq!(check(1, b"\x01\x0a\x00"), (NOT_A_CARD, 1));
        assert_eq!(check(1, &text[..20]), (NOT_A_CARD, 20));
        // Behind table 24 no table can follow, and a second account nowhere.
        for tag in [1, 2] {
            let mut more = text.clone();
            more.push(tag);
            assert_eq!(check(1, &more), (NOT_A_CARD, text.len()));
        }
        // Equal numbers part at the number.
        let mut equal = text.clone();
        equal[13 + 28 + 3] = 1;
        assert_eq!(check(1, &equal), (NOT_A_CARD, 13 + 28 + 3));
    }

    #[test]
    fn the_card_of_the_blank_meter() {
        let mut out = [0; 685];
        assert_eq!(write(&Meter::blank(), &mut out), (DONE, 685));
        assert_eq!(read(24, &out), Some(card_of(&Meter::blank())));
        assert_eq!(write(&Meter::blank(), &mut out[1..]), (NO_ROOM, 0));
    }

    #[test]
    fn edition_2_has_a_table_25() {
        let mut meter = Meter::blank();
        meter.edition = 2;
        let mut out = [0; LONGEST];
        assert_eq!(write(&meter, &mut out), (MALFORMED, 0));
        meter.tables[24] = [b'3'; HOURS];
        assert_eq!(write(&meter, &mut out), (DONE, 713));
        assert_eq!(out[685..689], [2, 0, 25, 25]);
        assert_eq!(read(25, &out), Some(card_of(&meter)));
        assert_eq!(check(2, &out), (DONE, 0));
        // A reader of edition 1 takes the tables up to 24.
        assert_eq!(check(1, &out), (NOT_A_CARD, 685));
        assert_eq!(export(2, &out, &mut [0; 919]), (DONE, 919, 0));
    }

    #[test]
    fn other_editions_come_before_all_else() {
        let mut meter = Meter::blank();
        for edition in (0..=255).filter(|edition| ![1, 2].contains(edition)) {
            meter.edition = edition;
            meter.mode = 9;
            assert_eq!(write(&meter, &mut []), (NO_EDITION, 0));
            assert_eq!(check(edition, b"1"), (NO_EDITION, 0));
            assert_eq!(export(edition, b"1", &mut []), (NO_EDITION, 0, 0));
        }
    }
}
