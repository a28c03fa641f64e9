//! What the trial has to have reached.

use crate::Meter;
use std::collections::BTreeMap;

#[derive(Default)]
pub struct Reached(BTreeMap<&'static str, u64>);

/// Each has to be met so often at least.
const OFTEN: u64 = 20;
const AIMS: [&str; 41] = [
    "read: 1",
    "read: 40",
    "read: 41",
    "read: 40 with no room for it either",
    "read: no table",
    "read: all tables",
    "read: all tables of edition 2",
    "read: 16",
    "read: 16 with no card and no room",
    "read: 16 with a card",
    "read: table 25 for edition 1",
    "read: a room of just the frames",
    "read: a byte less",
    "read: a byte more",
    "place: 0",
    "place: high byte of the account's length",
    "place: low byte of the account's length",
    "place: in the account",
    "place: the end of a beginning",
    "place: a tag behind the account",
    "place: a tag behind table 24",
    "place: a tag behind table 25",
    "place: high byte of a table's length",
    "place: low byte of a table's length",
    "place: a number",
    "place: in a row",
    "write: 1",
    "write: 14",
    "write: 41",
    "write: 16",
    "write: 16 with no room for it either",
    "write: 14 with no room for it either",
    "write: room 684",
    "write: room 712 of edition 2",
    "brought to another meter",
    "brought to another meter of edition 2",
    "brought from an EQM meter",
    "brought to an EQM meter",
    "write: 14 for decimals that are none",
    "write: 14 for exported counters of document 01's family",
    "read: for edition 2",
];

impl Reached {
    fn met(&mut self, aim: &'static str, met: bool) {
        if met {
            *self.0.entry(aim).or_default() += 1;
        }
    }

    pub fn read(
        &mut self,
        edition: u8,
        text: &[u8],
        room: usize,
        frames: usize,
        (number, length, place): (u8, usize, usize),
    ) {
        self.met("read: 1", number == 1);
        self.met("read: 40", number == 40);
        self.met("read: 41", number == 41);
        self.met(
            "read: 40 with no room for it either",
            number == 40 && room < 19,
        );
        self.met("read: no table", number == 1 && length == 19);
        self.met("read: for edition 2", edition == 2);
        self.met("read: all tables", edition == 1 && length == 883);
        self.met("read: all tables of edition 2", length == 919);
        self.met("read: 16", number == 16);
        let none = number == 16 && room < 19 && !text.starts_with(&[1, 0, 10]);
        self.met("read: 16 with no card and no room", none);
        let card = number == 16 && model::card::check(2, text).0 == 1;
        self.met("read: 16 with a card", card);
        let other = edition == 1 && number == 40 && model::card::check(2, text).0 == 1;
        self.met("read: table 25 for edition 1", other);
        self.met(
            "read: a room of just the frames",
            number == 1 && room == frames,
        );
        self.met("read: a byte less", number == 41 && room + 1 == frames);
        self.met("read: a byte more", number == 1 && room == frames + 1);
        if number == 40 {
            self.place(edition, text, place);
        }
    }

    fn place(&mut self, edition: u8, text: &[u8], place: usize) {
        let ends = place == text.len();
        let in_field = place.checked_sub(13).map(|behind| behind % 28);
        self.met("place: 0", place == 0);
        self.met("place: the end of a beginning", ends);
        if ends {
            return;
        }
        self.met("place: high byte of the account's length", place == 1);
        self.met("place: low byte of the account's length", place == 2);
        self.met("place: in the account", (3..13).contains(&place));
        self.met("place: a tag behind the account", place == 13);
        let last = place.checked_sub(25).map(|at| text[at]);
        self.met(
            "place: a tag behind table 24",
            edition == 1 && in_field == Some(0) && last == Some(24) && text[place] == 2,
        );
        self.met(
            "place: a tag behind table 25",
            edition == 2 && in_field == Some(0) && last == Some(25) && text[place] == 2,
        );
        self.met("place: high byte of a table's length", in_field == Some(1));
        self.met("place: low byte of a table's length", in_field == Some(2));
        self.met("place: a number", in_field == Some(3));
        self.met("place: in a row", in_field > Some(3));
    }

    pub fn written(&mut self, meter: &Meter, room: usize, (number, _): (u8, usize)) {
        let edition = meter.edition;
        let none = !matches!(meter.decimals, 0 | 2 | 3 | 4);
        self.met("write: 14 for decimals that are none", none && number == 14);
        self.met(
            "write: 14 for exported counters of document 01's family",
            meter.decimals == 0 && meter.exported != [0; 4] && number == 14,
        );
        self.met("write: 1", number == 1);
        self.met("write: 14", number == 14);
        self.met("write: 41", number == 41);
        self.met(
            "write: 14 with no room for it either",
            number == 14 && room < 685,
        );
        self.met("write: room 684", number == 41 && room == 684);
        self.met("write: 16", number == 16);
        self.met(
            "write: 16 with no room for it either",
            number == 16 && room < 685,
        );
        self.met(
            "write: room 712 of edition 2",
            edition == 2 && number == 41 && room == 712,
        );
    }

    pub fn brought(&mut self, from: &Meter, to: &Meter) {
        let edition = from.edition;
        self.met("brought from an EQM meter", from.decimals != 0);
        self.met("brought to an EQM meter", to.decimals != 0);
        self.met("brought to another meter", edition == 1);
        self.met("brought to another meter of edition 2", edition == 2);
    }

    /// Fails with the aims that were not reached.
    pub fn missed(&self) -> Result<(), String> {
        let often = |aim: &&str| self.0.get(*aim).copied().unwrap_or(0) >= OFTEN;
        let missed: Vec<&str> = AIMS.into_iter().filter(|aim| !often(aim)).collect();
        match missed.is_empty() {
            true => Ok(()),
            false => Err(format!("not reached: {}", missed.join(", "))),
        }
    }

    pub fn said(&self) -> String {
        let said: Vec<String> = AIMS
            .iter()
            .map(|aim| format!("{aim} {}", self.0[aim]))
            .collect();
        said.join("; ")
    }
}
