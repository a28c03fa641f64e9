//! What the trial has to have reached.

use dirgemist::mercury::Told;
use std::collections::BTreeMap;

#[derive(Default)]
pub struct Reached(BTreeMap<&'static str, u64>);

/// Each has to be met so often at least.
const OFTEN: u64 = 20;
const AIMS: [&str; 24] = [
    "ask: 1",
    "ask: 54",
    "ask: 55",
    "ask: 54 with no room for it either",
    "ask: array D hex",
    "ask: month 12 of B hex",
    "ask: month 1 of 3",
    "ask: month 13 of 3",
    "ask: month 0 of 3",
    "ask: a month with array 4",
    "ask: tariff 4",
    "ask: tariff 5",
    "ask: room 5",
    "ask: room 6",
    "ask: room over 6",
    "read: 1",
    "read: 50",
    "read: 51",
    "read: 52",
    "read: 53 with code 0",
    "read: 53 with another code",
    "read: 51 of another address",
    "read: none measured",
    "read: FF FF FF FE",
];

impl Reached {
    fn met(&mut self, aim: &'static str, met: bool) {
        if met {
            *self.0.entry(aim).or_default() += 1;
        }
    }

    pub fn asked(&mut self, [_, array, month, tariff]: [u8; 4], room: usize, number: u8) {
        self.met("ask: 1", number == 1);
        self.met("ask: 54", number == 54);
        self.met("ask: 55", number == 55);
        self.met(
            "ask: 54 with no room for it either",
            number == 54 && room < 6,
        );
        self.met("ask: array D hex", number == 1 && array == 13);
        self.met(
            "ask: month 12 of B hex",
            number == 1 && (array, month) == (11, 12),
        );
        self.met("ask: month 1 of 3", number == 1 && (array, month) == (3, 1));
        self.met("ask: month 13 of 3", (array, month) == (3, 13));
        self.met("ask: month 0 of 3", (array, month) == (3, 0));
        self.met(
            "ask: a month with array 4",
            array == 4 && (1..=12).contains(&month),
        );
        self.met("ask: tariff 4", number == 1 && tariff == 4);
        self.met("ask: tariff 5", tariff == 5);
        self.met("ask: room 5", number == 55 && room == 5);
        self.met("ask: room 6", number == 1 && room == 6);
        self.met("ask: room over 6", number == 1 && room > 6);
    }

    pub fn read(&mut self, address: u8, answer: &[u8], (number, status, measured, numbers): Told) {
        self.met("read: 1", number == 1);
        self.met("read: 50", number == 50);
        self.met("read: 51", number == 51);
        self.met("read: 52", number == 52);
        self.met("read: 53 with code 0", number == 53 && status == 0);
        self.met("read: 53 with another code", number == 53 && status != 0);
        self.met(
            "read: 51 of another address",
            number == 51 && answer[0] != address,
        );
        self.met("read: none measured", number == 1 && measured == 0);
        self.met("read: FF FF FF FE", numbers.contains(&(u32::MAX - 1)));
    }

    /// Fails with the aims that were not reached.
    pub fn missed(&self) -> Result<(), String> {
        let often = |aim: &&str| self.0.get(*aim).copied().unwrap_or(0) >= OFTEN;
        let missed: Vec<&str> = AIMS.into_iter().filter(|aim| !often(aim)).collect();
        match missed.is_empty() {
            true => Ok(()),
            false => Err(format!("not reached: {}", missed.join(", "))),
        }
    }

    pub fn said(&self) -> String {
        let said: Vec<String> = AIMS
            .iter()
            .map(|aim| format!("{aim} {}", self.0[aim]))
            .collect();
        said.join("; ")
    }
}
