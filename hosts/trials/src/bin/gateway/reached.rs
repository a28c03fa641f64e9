//! What the trial has to have reached.

use model::meter::{data_bits, Answer, Meter, ETX, PASSWORD, SOH};
use std::collections::BTreeMap;

#[derive(Default)]
pub struct Reached(BTreeMap<&'static str, u64>);

/// Each has to be met so often at least.
const OFTEN: u64 = 20;
const AIMS: [&str; 41] = [
    "1",
    "1 in mode 2",
    "1 in mode 3",
    "1 in mode 4",
    "3",
    "3 at place 1",
    "3 at the BCC",
    "4",
    "5",
    "5 after a restart",
    "6",
    "7",
    "8",
    "9",
    "10",
    "11",
    "12",
    "14",
    "16",
    "16 before 17",
    "1 of edition 2",
    "table 25 of edition 2, done",
    "table 25 of edition 1, 9",
    "1 of an EQM meter",
    "E of an EQM meter, done",
    "G of an EQM meter, done",
    "G of document 01's family, 9",
    "14 for decimals that are none",
    "14 for exported counters of document 01's family",
    "17 in mode 0",
    "17 in mode 1",
    "17 with something held",
    "17 at speed 5",
    "17: none given",
    "17: a damaged SOH",
    "17: no SOH",
    "17: ends early",
    "a restart inside",
    "over 64 bytes, and done",
    "a BCC that is ETX, and done",
    "a BCC that is SOH, and done",
];

impl Reached {
    fn met(&mut self, aim: &'static str, met: bool) {
        if met {
            *self.0.entry(aim).or_default() += 1;
        }
    }

    pub fn met_by(&mut self, before: &Meter, slice: &[u8], told: Answer) {
        let Answer {
            number,
            speed,
            place,
            ..
        } = told;
        let done = number == 1;
        let characters: Vec<Option<u8>> = slice.iter().map(|&byte| data_bits(byte)).collect();
        let body = &characters[..slice.len().saturating_sub(1)];
        let restart = body.iter().skip(1).any(|&got| got == Some(SOH));
        let named = [
            "1", "3", "4", "5", "6", "7", "8", "9", "10", "11", "12", "14", "16",
        ];
        for name in named {
            self.met(name, name.parse() == Ok(number));
        }
        let no_start = characters.first() != Some(&Some(SOH));
        self.met("16 before 17", number == 16 && no_start);
        self.met("1 of edition 2", done && before.edition == 2);
        let (first, second) = (before.edition == 1, before.edition == 2);
        let saturday = body.get(4..8) == Some(&b"Z(25".map(Some));
        self.met("table 25 of edition 2, done", saturday && second && done);
        self.met("table 25 of edition 1, 9", saturday && first && number == 9);
        let eqm = before.decimals != 0;
        self.met("1 of an EQM meter", done && eqm);
        let exports = body.get(4) == Some(&Some(b'G'));
        let energy = body.get(4) == Some(&Some(b'E'));
        self.met("E of an EQM meter, done", energy && eqm && done);
        self.met("G of an EQM meter, done", exports && eqm && done);
        self.met(
            "G of document 01's family, 9",
            exports && !eqm && number == 9,
        );
        let family = matches!(before.decimals, 0 | 2 | 3 | 4);
        self.met("14 for decimals that are none", number == 14 && !family);
        self.met(
            "14 for exported counters of document 01's family",
            number == 14 && !eqm && before.exported != [0; 4],
        );
        self.met("1 in mode 2", done && before.mode == 2);
        self.met("1 in mode 3", done && before.mode == 3);
        self.met("1 in mode 4", done && before.mode == 4);
        self.met("3 at place 1", number == 3 && place == 1);
        let at_bcc = usize::from(place) + 1 == slice.len() && !restart;
        self.met("3 at the BCC", number == 3 && at_bcc);
        self.met("5 after a restart", number == 5 && restart);
        let none = number == 17;
        self.met("17 in mode 0", none && before.mode == 0);
        self.met("17 in mode 1", none && before.mode == 1);
        let session = before.mode >= PASSWORD;
        self.met(
            "17 with something held",
            none && session && before.count != 0,
        );
        let empty = none && session && before.count == 0;
        self.met("17 at speed 5", empty && speed == 5);
        self.met("17: none given", empty && slice.is_empty());
        let first = slice.first().copied();
        let damaged = first.is_some_and(|byte| data_bits(byte).is_none() && byte & 0x7F == SOH);
        self.met("17: a damaged SOH", empty && damaged);
        self.met(
            "17: no SOH",
            empty && first.is_some_and(|byte| byte & 0x7F != SOH),
        );
        let starts = characters.first() == Some(&Some(SOH));
        let ended = body.contains(&Some(ETX));
        self.met(
            "17: ends early",
            empty && starts && !ended && slice.len() < 64,
        );
        self.met(
            "a restart inside",
            !none && number > 0 && session && restart,
        );
        self.met("over 64 bytes, and done", done && slice.len() > 64);
        let last = characters.last().copied().flatten();
        self.met("a BCC that is ETX, and done", done && last == Some(ETX));
        self.met("a BCC that is SOH, and done", done && last == Some(SOH));
    }

    /// Fails with the aims that were not reached.
    pub fn missed(&self) -> Result<(), String> {
        let often = |aim: &&str| self.0.get(*aim).copied().unwrap_or(0) >= OFTEN;
        let missed: Vec<&str> = AIMS.into_iter().filter(|aim| !often(aim)).collect();
        match missed.is_empty() {
            true => Ok(()),
            false => Err(format!("not reached: {}", missed.join(", "))),
        }
    }

    pub fn said(&self) -> String {
        let said: Vec<String> = AIMS
            .iter()
            .map(|aim| format!("{aim}: {}", self.0[aim]))
            .collect();
        said.join("; ")
    }
}
