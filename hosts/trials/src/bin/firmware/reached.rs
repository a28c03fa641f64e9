//! Counts what the events reached, from the states around them and not from what was meant.

use crate::{Answer, Facts, Meter};
use model::meter::{data_bits, Period, ACK, BLOCK, OPTICAL, PERIODS, ROOM, WIRED};
use std::collections::{BTreeMap, BTreeSet};
use trials::words::wired_line;

/// What must have happened at least once.
pub const AIMS: [&str; 230] = [
    "character: 0",
    "character: 1",
    "character: 2",
    "character: 3",
    "character: 4",
    "character: 5",
    "character: 6",
    "character: 7",
    "character: 8",
    "character: 9",
    "character: 10",
    "character: 11",
    "character: 12",
    "character: 14",
    "silence: 0",
    "silence: 1",
    "silence: 12",
    "silence: 14",
    "tick: 1",
    "tick: 14",
    "pulse: 1",
    "pulse: 13",
    "pulse: 14",
    "power-up: 1",
    "power-up: 14",
    "no event: 99",
    "character over 255",
    "kind over 5",
    "99 before 14",
    "13 before 14",
    "12 before 14",
    "make: 1",
    "make: 15",
    "make, serial of another length",
    "make, account of another length",
    "make, password of another length",
    "make, empty serial",
    "make, bad character in the serial",
    "make, bad character in the account",
    "make, bad character in the password",
    "make, no real clock",
    "check: 1",
    "check: 14",
    "mode 0",
    "mode 1",
    "mode 2",
    "mode 3",
    "mode 4",
    "mode over 4",
    "attempts over 3",
    "speed that is none",
    "speed 5 outside a session",
    "a slow session",
    "half a million events of slow sessions",
    "a fast session",
    "mark of 2",
    "mark over 2",
    "mark with nothing held",
    "damaged character held",
    "damaged BCC",
    "mark cleared by a new start",
    "place of a damaged BCC",
    "place of the first of several",
    "place 1",
    "place 62",
    "place 63",
    "place cleared by a new start",
    "place beyond what is held",
    "place just behind what is held",
    "place without a mark",
    "half a million events with a place",
    "bad character held",
    "count over its limit",
    "bad clock",
    "bad counter",
    "total off by one",
    "total not rolled over",
    "bad table",
    "bad serial",
    "bad account",
    "bad password",
    "data block sent",
    "row written",
    "account written",
    "clock written",
    "session entered",
    "locked",
    "attempts cleared by power-up",
    "NAK after silence",
    "line dropped by silence",
    "no buffer for a tick",
    "room exact",
    "room greater",
    "counter rolls over",
    "total rolls over",
    "zone 1 to 4 counted",
    "leap day reached",
    "end of a year",
    "end of 2099",
    "any bytes in the record",
    "closed by /C!",
    "closed by a tick in mode 0",
    "closed by a tick in mode 1",
    "closed by a tick in mode 2",
    "closed by a tick in mode 3",
    "closed by a tick in mode 4",
    "closed where none was kept",
    "closed where twelve were kept",
    "closed with counters that are not 0",
    "a midnight that closes nothing",
    "the second after a first's midnight",
    "a first's midnight told by a write",
    "/C! with the mark",
    "block with no period",
    "block with one period",
    "block with twelve periods",
    "slow block with periods",
    "half a million cases of closed months",
    "more than twelve periods",
    "bad date of a period",
    "bad hour of a period",
    "bad counter of a period",
    "period in an unused place",
    "half a million cases of the wired link",
    "link that is none",
    "speed 0 on the wired link",
    "make: 16",
    "make: 18",
    "make, link that is none",
    "make on the wired link",
    "wired: called by its serial",
    "wired: called by zeros",
    "wired: another serial",
    "wired: the optical sign-on",
    "wired: /C!",
    "wired: 2 for the digit 0",
    "wired: block",
    "wired: session",
    "wired: silence in mode 1",
    "wired: silence in a session",
    "wired: refused in mode 2",
    "wired: refused in mode 3",
    "wired: refused in mode 4",
    "wired: power-up",
    "wired: a month closed by a tick",
    "wired: 3",
    "wired: 4",
    "wired: 5",
    "wired: 6",
    "wired: 7",
    "wired: 8",
    "wired: 9",
    "wired: 10",
    "wired: 11",
    "half a million cases of edition 2",
    "edition 2: identified",
    "edition 2: block",
    "edition 2: block with twelve periods",
    "edition 2: table 25 read",
    "edition 2: table 25 written",
    "edition 2: Saturday",
    "edition 2: Sunday",
    "edition 2: neither",
    "edition 2: Saturday in a zone that month's tables don't name",
    "edition 1: Saturday",
    "edition 1: table 25 refused",
    "edition 2: table 26 refused",
    "character: 16",
    "silence: 16",
    "tick: 16",
    "pulse: 16",
    "power-up: 16",
    "no event: 16",
    "check: 16",
    "16 before 12",
    "16 before 13",
    "16 before 14",
    "row 25 of edition 1",
    "row 25 of edition 2 with zeros",
    "make of edition 2",
    "make: 16 before 18",
    "pulse out: 1",
    "pulse out: 13",
    "pulse out: 14",
    "pulse out: 16",
    "make: 18 before 15",
    "make of an EQM meter",
    "make of an EQM meter of edition 2 on the wired link",
    "half a million cases of EQM meters",
    "pulse out of document 01's family",
    "pulse out of document 01's family, malformed: 13 before 14",
    "pulse out of decimals that are none: 14",
    "eqm: pulse out of 0",
    "eqm: pulse out of 1,000,000",
    "eqm: pulse out of 1,000,001",
    "eqm: exported zone 1 to 4 counted",
    "eqm: counter rolls over",
    "eqm: exported counter rolls over",
    "eqm: total rolls over",
    "eqm: exported total rolls over",
    "eqm: Saturday of edition 2, out",
    "eqm: block of 2 decimals",
    "eqm: block of 3 decimals",
    "eqm: block of 4 decimals",
    "eqm: block of edition 2",
    "eqm: block on the wired link",
    "eqm: block with twelve periods",
    "eqm: longest block",
    "eqm: read E0",
    "eqm: read E1",
    "eqm: read E2",
    "eqm: read E3",
    "eqm: read E4",
    "eqm: read G0",
    "eqm: read G1",
    "eqm: read G2",
    "eqm: read G3",
    "eqm: read G4",
    "eqm: G5 refused",
    "G refused in document 01's family",
    "eqm: closed with exported counters that are not 0",
    "decimals that are none",
    "exported counter in document 01's family",
    "exported total in document 01's family",
    "exported counter of a period in document 01's family",
    "exported counter of nine digits",
    "exported total off by one",
    "exported total not rolled over",
    "exported counter of a period of nine digits",
    "counter of nine digits in an EQM meter",
];

#[derive(Default)]
pub struct Reached {
    pub events: u64,
    pub made: u64,
    pub checks: u64,
    pub slow: u64,
    /// Events of a session that left damage held, or answered 3.
    pub hurt: u64,
    /// Midnights, closing lines, blocks with periods and archives out of their ranges.
    pub months: u64,
    pub closed: u64,
    pub blocks: u64,
    /// Events of a good meter on the wired link.
    pub wired: u64,
    /// Events of a good meter of edition 2.
    pub second: u64,
    /// Energy of either direction, counters shown and periods closed of an EQM meter, what another
    /// does not count, and records that are no family's.
    pub eqm: u64,
    pub pulses_out: u64,
    numbers: BTreeMap<u8, u64>,
    zones: [bool; 4],
    zones_out: [bool; 4],
    met: BTreeSet<String>,
}

fn name_of(kind: u8) -> &'static str {
    match kind {
        0 => "character",
        1 => "silence",
        2 => "tick",
        3 => "pulse",
        5 => "pulse out",
        _ => "power-up",
    }
}

impl Reached {
    pub fn reach(&mut self, aim: impl Into<String>) {
        self.met.insert(aim.into());
    }

    fn when(&mut self, met: bool, aim: &str) {
        if met {
            self.reach(aim);
        }
    }

    pub fn missed(&self) -> Vec<&'static str> {
        let mut missed = AIMS.to_vec();
        missed.retain(|&aim| !self.met.contains(aim));
        missed
    }

    /// Each number with how often it came.
    pub fn answers(&self) -> String {
        let told = |(number, times)| format!("{number}: {times}");
        let shown: Vec<String> = self.numbers.iter().map(told).collect();
        shown.join(", ")
    }

    pub fn made(&mut self, facts: &Facts, number: u8) {
        self.made += 1;
        *self.numbers.entry(number).or_default() += 1;
        self.reach(format!("make: {number}"));
        let digits = |text: &[u8]| text.iter().all(u8::is_ascii_digit);
        let lengths = (
            facts.serial.len(),
            facts.account.len(),
            facts.password.len(),
        );
        let link = facts.kind[1] == OPTICAL || facts.kind[1] == WIRED;
        let [edition, _, decimals] = facts.kind;
        self.when(edition == 2 && number == 1, "make of edition 2");
        let none = !matches!(decimals, 0 | 2 | 3 | 4);
        self.when(number == 16 && none, "make: 16 before 18");
        let bad = !facts.serial.iter().all(u8::is_ascii_digit);
        self.when(
            number == 18 && (!link || bad || lengths != (10, 10, 8)),
            "make: 18 before 15",
        );
        let eqm = number == 1 && decimals != 0;
        self.when(eqm, "make of an EQM meter");
        self.when(
            eqm && edition == 2 && facts.kind[1] == WIRED,
            "make of an EQM meter of edition 2 on the wired link",
        );
        self.when(!link && number == 15, "make, link that is none");
        self.when(
            facts.kind[1] == WIRED && number == 1,
            "make on the wired link",
        );
        self.when(lengths.0 != 10, "make, serial of another length");
        self.when(lengths.0 == 0, "make, empty serial");
        self.when(lengths.1 != 10, "make, account of another length");
        self.when(lengths.2 != 8, "make, password of another length");
        if lengths == (10, 10, 8) {
            self.when(!digits(&facts.serial), "make, bad character in the serial");
            self.when(
                !digits(&facts.password),
                "make, bad character in the password",
            );
            let good = |c: &u8| c.is_ascii_alphanumeric() || b" _".contains(c);
            let account = facts.account.iter().all(good);
            self.when(!account, "make, bad character in the account");
            self.when(!facts.clock.is_real(), "make, no real clock");
        }
    }

    pub fn checked(&mut self, number: u8) {
        self.checks += 1;
        self.reach(format!("check: {number}"));
    }

    pub fn event(
        &mut self,
        before: &Meter,
        event: (u8, u32, usize),
        answer: Answer,
        after: &Meter,
    ) {
        let (kind, value, room) = event;
        self.events += 1;
        *self.numbers.entry(answer.number).or_default() += 1;
        let good = before.well_formed();
        match answer.number {
            99 => {
                self.reach("no event: 99");
                self.when(kind == 0, "character over 255");
                self.when(kind > 5, "kind over 5");
                self.when(!good, "99 before 14");
                return;
            }
            16 if kind > 5 => self.reach("no event: 16"),
            number => self.reach(format!("{}: {number}", name_of(kind))),
        }
        self.when(answer.number == 13 && !good, "13 before 14");
        self.when(answer.number == 12 && !good, "12 before 14");
        self.when(kind < 2 && room == ROOM, "room exact");
        self.when(kind < 2 && room > ROOM, "room greater");
        self.when(kind == 2 && room == 0, "no buffer for a tick");
        if answer.number == 16 {
            self.when(kind < 2 && room < ROOM, "16 before 12");
            self.when(kind == 3 && value > 1_000_000, "16 before 13");
            self.when(before.mode > 4, "16 before 14");
            return;
        }
        if kind == 5 {
            self.out(before, good, answer.number, value);
        }
        if good && before.decimals != 0 {
            self.of_eqm(before, kind, answer, after);
        }
        if good && before.edition == 2 {
            self.of_edition_2(before, kind, answer, after);
        }
        if good && before.link == WIRED && !matches!(answer.number, 12 | 13) {
            self.on_the_wire(before, (kind, value), answer, after);
        }
        match answer.number {
            12 | 13 => {}
            14 => self.malformed(before),
            _ => self.happened(before, (kind, value), answer, after),
        }
    }

    /// One more case of request [10].
    fn eqm_case(&mut self) {
        self.eqm += 1;
        self.when(self.eqm == 500_000, "half a million cases of EQM meters");
    }

    /// A pulse out of any meter.
    fn out(&mut self, before: &Meter, good: bool, number: u8, value: u32) {
        let ours = before.decimals == 0 && value <= 1_000_000 && number == 13;
        self.when(ours && good, "pulse out of document 01's family");
        self.when(
            ours && !good,
            "pulse out of document 01's family, malformed: 13 before 14",
        );
        let none = !matches!(before.decimals, 0 | 2 | 3 | 4);
        self.when(
            none && number == 14,
            "pulse out of decimals that are none: 14",
        );
        if good && before.decimals != 0 {
            self.when(value == 0, "eqm: pulse out of 0");
            self.when(value == 1_000_000, "eqm: pulse out of 1,000,000");
            self.when(value == 1_000_001, "eqm: pulse out of 1,000,001");
        }
    }

    fn of_eqm(&mut self, before: &Meter, kind: u8, answer: Answer, after: &Meter) {
        let rolled = |after: &[u32; 4], before: &[u32; 4]| {
            after
                .iter()
                .zip(before)
                .any(|(after, before)| after < before)
        };
        match kind {
            0 if before.mode == 1 && answer.length >= before.block_length() => {
                self.eqm_case();
                self.reach(format!("eqm: block of {} decimals", before.decimals));
                let second = before.edition == 2;
                self.when(second, "eqm: block of edition 2");
                self.when(before.link == WIRED, "eqm: block on the wired link");
                let twelve = before.block_length() + 12 * before.period_length();
                let whole = answer.length == twelve;
                self.when(whole, "eqm: block with twelve periods");
                self.when(whole && second, "eqm: longest block");
            }
            0 if before.mode > 2 => {
                if let Some(&[letter @ (b'E' | b'G'), zone, b'(', b')']) = before.held().get(4..8) {
                    let asked = format!("{}{}", char::from(letter), char::from(zone));
                    let read = answer.number == 1 && before.held().starts_with(b"\x01R1");
                    if read {
                        self.eqm_case();
                    }
                    self.when(read, &format!("eqm: read {asked}"));
                    self.when(answer.number == 9 && asked == "G5", "eqm: G5 refused");
                }
            }
            3 if answer.number == 1 => {
                self.eqm_case();
                self.when(
                    rolled(&after.counters, &before.counters),
                    "eqm: counter rolls over",
                );
                self.when(after.total < before.total, "eqm: total rolls over");
            }
            5 if answer.number == 1 => {
                self.eqm_case();
                self.pulses_out += 1;
                self.when(
                    rolled(&after.exported, &before.exported),
                    "eqm: exported counter rolls over",
                );
                self.when(
                    after.exported_total < before.exported_total,
                    "eqm: exported total rolls over",
                );
                for zone in 0..4 {
                    self.zones_out[zone] |= after.exported[zone] != before.exported[zone];
                }
                self.when(
                    self.zones_out == [true; 4],
                    "eqm: exported zone 1 to 4 counted",
                );
                self.when(
                    before.edition == 2 && before.clock.saturday(),
                    "eqm: Saturday of edition 2, out",
                );
            }
            _ => {}
        }
        let closed = after.periods != before.periods;
        if closed {
            self.eqm_case();
        }
        self.when(
            closed && after.periods[0].exported != [0; 4],
            "eqm: closed with exported counters that are not 0",
        );
    }

    /// What of either direction a malformed record has out of its ranges.
    fn bad_counters(&mut self, meter: &Meter) {
        let kept = usize::from(meter.closed).min(PERIODS);
        let periods = &meter.periods[..kept];
        let sum: u64 = meter.exported.iter().map(|&units| u64::from(units)).sum();
        let (total, rest) = (u64::from(meter.exported_total), sum % 100_000_000);
        let over = |counters: &[u32; 4]| counters.iter().any(|&units| units > 99_999_999);
        match meter.decimals {
            0 => {
                self.when(
                    meter.exported != [0; 4],
                    "exported counter in document 01's family",
                );
                self.when(
                    meter.exported == [0; 4] && total > 0,
                    "exported total in document 01's family",
                );
                self.when(
                    periods.iter().any(|period| period.exported != [0; 4]),
                    "exported counter of a period in document 01's family",
                );
            }
            2..=4 => {
                self.when(over(&meter.exported), "exported counter of nine digits");
                self.when(
                    total + 1 == rest || rest + 1 == total,
                    "exported total off by one",
                );
                self.when(
                    total == sum && sum != rest,
                    "exported total not rolled over",
                );
                self.when(
                    periods.iter().any(|period| over(&period.exported)),
                    "exported counter of a period of nine digits",
                );
                self.when(
                    over(&meter.counters),
                    "counter of nine digits in an EQM meter",
                );
            }
            _ => {
                self.eqm_case();
                self.reach("decimals that are none");
            }
        }
    }

    fn of_edition_2(&mut self, before: &Meter, kind: u8, answer: Answer, after: &Meter) {
        self.second += 1;
        self.when(self.second == 500_000, "half a million cases of edition 2");
        let done = answer.number == 1;
        match kind {
            0 => {
                let optical = before.link == OPTICAL && before.mode == 0;
                self.when(optical && answer.length == 19, "edition 2: identified");
                let block = before.mode == 1 && answer.length >= before.block_length();
                self.when(
                    block && answer.length == before.block_length(),
                    "edition 2: block",
                );
                let twelve = before.block_length() + 12 * before.period_length();
                self.when(
                    block && answer.length == twelve,
                    "edition 2: block with twelve periods",
                );
                let asked = before.held().get(4..9);
                let saturday = asked == Some(b"Z(25)");
                self.when(saturday && done, "edition 2: table 25 read");
                let over = asked == Some(b"Z(26)") && answer.number == 9;
                self.when(over, "edition 2: table 26 refused");
                let written = after.tables[24] != before.tables[24];
                self.when(written, "edition 2: table 25 written");
            }
            3 if done => {
                let (clock, rows) = (before.clock, before.tables);
                let (month, hour) = (usize::from(clock.month), usize::from(clock.hour));
                let day = match (clock.saturday(), clock.sunday()) {
                    (true, _) => "Saturday",
                    (_, true) => "Sunday",
                    _ => "neither",
                };
                self.reach(format!("edition 2: {day}"));
                let zone = rows[24][hour];
                self.when(
                    clock.saturday()
                        && ![rows[month - 1], rows[month + 11]]
                            .iter()
                            .any(|row| row[hour] == zone),
                    "edition 2: Saturday in a zone that month's tables don't name",
                );
            }
            _ => {}
        }
    }

    fn on_the_wire(&mut self, before: &Meter, event: (u8, u32), answer: Answer, after: &Meter) {
        self.wired += 1;
        self.when(
            self.wired >= 500_000,
            "half a million cases of the wired link",
        );
        let (kind, value) = event;
        let line = [before.held(), b"\n"].concat();
        let ended = kind == 0 && before.mode == 0 && value == 0x0A && before.mark == 0;
        if ended {
            let called = |serial: &[u8]| line == wired_line(b'A', serial);
            let own = called(&before.serial);
            self.when(
                own && (answer.number, answer.length, answer.speed) == (1, 15, 5),
                "wired: called by its serial",
            );
            let zeros = called(b"0000000000") && !own;
            self.when(zeros && answer.length == 15, "wired: called by zeros");
            let other = line.starts_with(b"/A") && line.len() == 15 && !own && !zeros;
            self.when(other && answer.number == 0, "wired: another serial");
            let plain = line == b"/?!\r\n" && answer.number == 0;
            self.when(plain, "wired: the optical sign-on");
            self.when(line == b"/C!\r\n" && answer.number == 0, "wired: /C!");
        }
        if kind == 0 && before.mode == 1 {
            let slow = before.held().starts_with(&[ACK, b'0', b'0']);
            self.when(slow && answer.number == 2, "wired: 2 for the digit 0");
            let block = answer.length == before.block_length();
            self.when(block, "wired: block");
            self.when(after.mode == 2 && answer.speed == 5, "wired: session");
        }
        if let refused @ 3..=11 = answer.number {
            if answer.length == 0 && after.mode == 0 && answer.speed == 5 {
                self.reach(format!("wired: {refused}"));
                self.reach(format!("wired: refused in mode {}", before.mode));
            }
        }
        let quiet = kind == 1 && answer.number == 1 && answer.length == 0;
        self.when(quiet && before.mode == 1, "wired: silence in mode 1");
        self.when(quiet && before.mode > 1, "wired: silence in a session");
        self.when(kind == 4 && after.speed == 5, "wired: power-up");
        let closed = after.periods != before.periods;
        self.when(kind == 2 && closed, "wired: a month closed by a tick");
    }

    fn malformed(&mut self, meter: &Meter) {
        let link = meter.link == OPTICAL || meter.link == WIRED;
        self.when(!link, "link that is none");
        self.when(
            meter.link == WIRED && meter.speed == 0,
            "speed 0 on the wired link",
        );
        self.when(meter.mode > 4, "mode over 4");
        self.when(meter.attempts > 3, "attempts over 3");
        self.when(meter.speed != 0 && meter.speed != 5, "speed that is none");
        self.when(
            meter.speed == 5 && meter.mode < 2,
            "speed 5 outside a session",
        );
        self.when(meter.mark == 2, "mark of 2");
        self.when(meter.mark > 2, "mark over 2");
        self.when(
            meter.mark == 1 && meter.count == 0,
            "mark with nothing held",
        );
        if meter.mark == 1 && meter.count > 0 {
            self.when(meter.place > meter.count, "place beyond what is held");
            self.when(meter.place == meter.count, "place just behind what is held");
        }
        self.when(meter.mark == 0 && meter.place > 0, "place without a mark");
        self.when(meter.held[0] > 127, "bad character held");
        self.when(meter.count > 63, "count over its limit");
        self.when(!meter.clock.is_real(), "bad clock");
        self.when(
            meter.counters.iter().any(|&c| c > 999_999_999),
            "bad counter",
        );
        let sum: u64 = meter.counters.iter().map(|&wh| u64::from(wh)).sum();
        let (total, rest) = (u64::from(meter.total), sum % u64::from(meter.counter_end()));
        self.when(total + 1 == rest || rest + 1 == total, "total off by one");
        self.when(total == sum && sum != rest, "total not rolled over");
        let spare = meter.tables[24];
        self.when(
            meter.edition == 1 && spare != [0; 24],
            "row 25 of edition 1",
        );
        self.when(
            meter.edition == 2 && spare == [0; 24],
            "row 25 of edition 2 with zeros",
        );
        let zones = meter.tables[..24].as_flattened();
        self.when(
            zones.iter().any(|zone| !b"1234".contains(zone)),
            "bad table",
        );
        self.when(!meter.serial.iter().all(u8::is_ascii_digit), "bad serial");
        self.when(
            !meter.password.iter().all(u8::is_ascii_digit),
            "bad password",
        );
        self.when(meter.account.contains(&b'-'), "bad account");
        self.bad_counters(meter);
        self.bad_archive(meter);
    }

    fn bad_archive(&mut self, meter: &Meter) {
        let count = usize::from(meter.closed);
        let (kept, unused) = meter.periods.split_at(count.min(PERIODS));
        let real = |period: &Period| {
            let last = match (period.month, period.year % 4) {
                (2, 0) => 29,
                (2, _) => 28,
                (4 | 6 | 9 | 11, _) => 30,
                _ => 31,
            };
            (2000..=2099).contains(&period.year)
                && (1..=12).contains(&period.month)
                && (1..=last).contains(&period.day)
        };
        let found = [
            (count > PERIODS, "more than twelve periods"),
            (!kept.iter().all(real), "bad date of a period"),
            (
                kept.iter().any(|p| p.hour > 23 || p.minute > 59),
                "bad hour of a period",
            ),
            (
                kept.iter()
                    .any(|p| p.counters.iter().any(|&wh| wh > 999_999_999)),
                "bad counter of a period",
            ),
            (
                unused.iter().any(|&p| p != Period::default()),
                "period in an unused place",
            ),
        ];
        for (bad, aim) in found {
            self.when(bad, aim);
        }
        if found.iter().any(|&(bad, _)| bad) {
            self.month();
        }
    }

    /// One more case of closed months.
    fn month(&mut self) {
        self.months += 1;
        self.when(
            self.months == 500_000,
            "half a million cases of closed months",
        );
    }

    fn archive(&mut self, before: &Meter, kind: u8, answer: Answer, after: &Meter) {
        let clock = after.clock;
        let time = (clock.hour, clock.minute, clock.second);
        let closed = after.closed != before.closed || after.periods != before.periods;
        if closed {
            self.closed += 1;
            self.month();
            self.when(before.closed == 0, "closed where none was kept");
            self.when(before.closed == 12, "closed where twelve were kept");
            let counted = after.counters != [0; 4];
            self.when(counted, "closed with counters that are not 0");
        }
        match kind {
            0 => {
                let line = before.mode == 0 && before.count == 4 && after.count == 0;
                self.when(closed, "closed by /C!");
                self.when(
                    line && before.mark == 1 && before.held().ends_with(b"!\r"),
                    "/C! with the mark",
                );
                let told = after.clock != before.clock && clock.day == 1 && time == (0, 0, 0);
                self.when(told, "a first's midnight told by a write");
                let choice = before.held().get(3) == Some(&b'6');
                if before.mode == 1 && answer.length > 0 && choice {
                    self.blocks += 1;
                    self.month();
                    let periods = (answer.length - before.block_length()) / before.period_length();
                    self.when(periods == 0, "block with no period");
                    self.when(periods == 1, "block with one period");
                    self.when(periods == 12, "block with twelve periods");
                    self.when(periods > 0 && answer.speed == 0, "slow block with periods");
                }
            }
            2 => {
                if closed {
                    self.reach(format!("closed by a tick in mode {}", before.mode));
                } else if time == (0, 0, 0) {
                    self.month();
                    self.reach("a midnight that closes nothing");
                }
                let after_it = clock.day == 1 && time == (0, 0, 1);
                self.when(after_it, "the second after a first's midnight");
            }
            _ => {}
        }
    }

    fn happened(&mut self, before: &Meter, event: (u8, u32), answer: Answer, after: &Meter) {
        let (kind, value) = event;
        self.reach(format!("mode {}", before.mode));
        self.archive(before, kind, answer, after);
        let slow = before.mode >= 2 && before.speed == 0;
        self.slow += u64::from(slow);
        self.when(slow, "a slow session");
        self.when(
            self.slow == 500_000,
            "half a million events of slow sessions",
        );
        self.when(before.speed == 5, "a fast session");
        match kind {
            0 => {
                let damaged = data_bits(value as u8).is_none();
                self.when(
                    damaged && after.count > before.count,
                    "damaged character held",
                );
                self.when(damaged && answer.number == 3, "damaged BCC");
                let restarted = before.mark == 1 && after.mark == 0 && after.count == 1;
                self.when(restarted, "mark cleared by a new start");
                self.when(
                    restarted && before.place > 0,
                    "place cleared by a new start",
                );
                let hurt = before.mode >= 2 && (after.mark == 1 || answer.number == 3);
                self.hurt += u64::from(hurt);
                self.when(self.hurt == 500_000, "half a million events with a place");
                if answer.number == 3 {
                    let last = answer.place == before.count;
                    self.when(last, "place of a damaged BCC");
                    let zeros = before.held().iter().filter(|&&c| c == 0).count();
                    self.when(!last && zeros > 1, "place of the first of several");
                    for place in [1, 62, 63] {
                        self.when(answer.place == place, &format!("place {place}"));
                    }
                }
                self.when(answer.length == BLOCK, "data block sent");
                let exports = before.held().get(4) == Some(&b'G') && answer.number == 9;
                self.when(
                    exports && before.decimals == 0,
                    "G refused in document 01's family",
                );
                let other = before.edition == 1 && answer.number == 9;
                let table = before.held().get(4..8) == Some(b"Z(25");
                self.when(other && table, "edition 1: table 25 refused");
                self.when(after.tables != before.tables, "row written");
                self.when(after.account != before.account, "account written");
                self.when(after.clock != before.clock, "clock written");
                self.when(after.mode == 4 && before.mode == 2, "session entered");
                self.when(answer.number == 11, "locked");
            }
            1 => {
                self.when(answer.length == 1, "NAK after silence");
                self.when(
                    before.mode == 0 && before.count > 0,
                    "line dropped by silence",
                );
            }
            2 => {
                let leap = (after.clock.month, after.clock.day) == (2, 29);
                self.when(leap && before.clock.day == 28, "leap day reached");
                let years = (before.clock.year, after.clock.year);
                self.when(years.0 != years.1, "end of a year");
                self.when(years == (2099, 2000), "end of 2099");
            }
            3 => {
                let first = before.edition == 1 && before.clock.saturday();
                self.when(first, "edition 1: Saturday");
                for zone in 0..4 {
                    self.zones[zone] |= after.counters[zone] != before.counters[zone];
                    let rolled = after.counters[zone] < before.counters[zone];
                    self.when(rolled, "counter rolls over");
                }
                self.when(self.zones == [true; 4], "zone 1 to 4 counted");
                self.when(after.total < before.total, "total rolls over");
            }
            4 => self.when(before.attempts > 0, "attempts cleared by power-up"),
            _ => {}
        }
    }
}
