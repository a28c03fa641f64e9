//! Counts what the scripts reached, from the states around each event and not from what was meant,
//! so that a script that misses its aim is seen.

use model::bench::Event;
use model::meter::{
    data_bits, days_in_month, Answer, Meter, Period, Way, COUNTER_END, EQM_END, ETX, LF, PERIODS,
    PULSE_MOST, ROOM, SOH, STX, WIRED,
};
use std::collections::BTreeMap;

/// What must have happened at least once, in the order it is printed.
const AIMS: &[&str] = &[
    "new, good facts",
    "new, bad facts",
    "new, no edition",
    "new, no decimals",
    "new, no decimals before bad facts",
    "card of no edition",
    "pulse of edition 2, Saturday",
    "pulse of edition 2, Sunday",
    "pulse of edition 2, Monday to Friday",
    "16",
    "set",
    "dump",
    "card written",
    "card of a malformed state",
    "card without room",
    "frame",
    "script line that is an error",
    // Mode 0.
    "sign-on by /?!",
    "sign-on by our serial",
    "sign-on by the zero serial",
    "sign-on by the zero serial that is ours",
    "sign-on by /C!",
    "/C! with the mark",
    "line not ours, unmarked",
    "line with the mark",
    "line of 31 characters",
    "line of 32 characters",
    "32nd character empties the line",
    "32nd character is damaged",
    "32nd character is '/'",
    "'/' clears the mark",
    // Mode 1.
    "confirmation '0'",
    "confirmation '7'",
    "confirmation '1'",
    "confirmation '6'",
    "slow confirmation '6'",
    "slow confirmation '0'",
    "slow confirmation '7'",
    "slow confirmation '1'",
    "speed digit 1 to 4",
    "another speed digit",
    "confirmation wrong, unmarked",
    "confirmation with the mark",
    "confirmation that starts damaged",
    "'/' or SOH first in mode 1",
    // Modes 2 to 4.
    "SOH clears the mark",
    "SOH clears a place",
    "damaged BCC",
    "3 with the place of the BCC",
    "3 with a place before the BCC",
    "3 with the first place of several",
    "NUL held without the mark",
    "damaged character dropped, mode 0",
    "damaged character dropped, modes 2 to 4",
    "accepted frame, BCC is SOH",
    "accepted frame, BCC is STX",
    "accepted frame, BCC is ETX",
    "accepted frame, BCC is CR",
    "accepted frame, BCC is LF",
    "refused frame, SOH in the BCC's place",
    "refused frame, ETX in the BCC's place",
    "whole frame of 63 characters",
    "whole frame of 64 characters",
    "64th character is too long",
    "64th character is ETX (frame of 65)",
    "64th character is damaged",
    "64th character, mark set",
    "64th character is SOH and restarts",
    "64th character is SOH and the BCC",
    "P1 ()",
    "P1 () while locked",
    "right password",
    "right password after a failed attempt",
    "wrong password, first",
    "wrong password, second",
    "wrong password, third",
    "locked, right password",
    "locked, wrong password",
    "malformed password",
    "malformed password while locked",
    "read T",
    "read L",
    "read K",
    "read E0",
    "read E1",
    "read E2",
    "read E3",
    "read E4",
    "read E0 of an EQM meter",
    "read E1 to E4 of an EQM meter",
    "read G0",
    "read G1",
    "read G2",
    "read G3",
    "read G4",
    "exported total over 100,000,000",
    "G of document 01's family refused with 9",
    "G5 of an EQM meter refused with 9",
    "read Z",
    "read refused with 9",
    "total over 1,000,000,000",
    "write T",
    "write K",
    "write Z",
    "write T refused with 9",
    "write K refused with 9",
    "write Z refused with 9",
    "write of another letter refused with 9",
    "B0 in mode 2",
    "B0 in mode 3",
    "B0 in mode 4",
    // Other events.
    "silence with something held, mode 0",
    "silence with something held, mode 1",
    "silence with something held, modes 2 to 4",
    "power-up clears attempts",
    "power-up with something held",
    "tick over a minute",
    "tick over an hour",
    "tick over a month's end",
    "tick 28 February, leap year",
    "tick 29 February",
    "tick 28 February, other year",
    "tick over a year's end",
    "tick over the end of 2099",
    "tick to a midnight that closes nothing",
    "tick after the first second of a month",
    "write of the first second of a month closes nothing",
    "closed with other periods out of order",
    "closed where none was kept",
    "closed where twelve were kept",
    "pulse of 0",
    "pulse of 1,000,000",
    "pulse of 1,000,001",
    "pulse of 4,294,967,295",
    "pulse over the roll-over",
    "total over the roll-over",
    "pulse to exactly 0",
    "pulse out of 0",
    "pulse out of 1,000,000",
    "pulse out of 1,000,001",
    "pulse out of 4,294,967,295",
    "pulse out of document 01's family",
    "pulse out of an EQM meter",
    "pulse in of an EQM meter",
    "pulse out over the roll-over",
    "exported total over the roll-over",
    "pulse in over the roll-over of an EQM meter",
    "total over the roll-over of an EQM meter",
    "pulse out of edition 2, Saturday",
    "EQM of edition 1, optical",
    "EQM of edition 2, optical",
    "EQM of edition 1, wired",
    "EQM of edition 2, wired",
    "EQM block of 2 decimals",
    "EQM block of 3 decimals",
    "EQM block of 4 decimals",
    "EQM block with twelve periods",
    "closed with exported counters that are not 0",
    "pulse, Monday to Friday",
    "pulse, Saturday",
    "pulse, Sunday",
    // Well-formed states that no history reaches.
    "unreachable: LF held in mode 0",
    "unreachable: second '/' held",
    "unreachable: SOH inside a frame",
    "unreachable: ETX inside a frame",
    "unreachable: mark with no 0 held",
    // Malformed states.
    "14 to a character",
    "14 to silence",
    "14 to a tick",
    "14 to power-up",
    "14 to a pulse",
    "14 to a pulse out",
    "13 before 14, pulse out of document 01's family",
    "12 before 14, character",
    "12 before 14, silence",
    "13 before 14",
    "several ranges broken",
];

/// The ranges of a state; each must have been broken alone.
const RANGES: &[&str] = &[
    "mode",
    "count, mode 0",
    "count, mode 1",
    "count, modes 2 to 4",
    "held above 127",
    "unused place",
    "mark of an empty receiver",
    "mark",
    "place with the mark",
    "place without the mark",
    "first of mode 0",
    "first of mode 2",
    "first of mode 3",
    "first of mode 4",
    "serial",
    "account",
    "password",
    "attempts",
    "speed",
    "speed 5 outside a session",
    "speed 0 on the wired link",
    "link",
    "year below",
    "year above",
    "month 0",
    "month above",
    "day 0",
    "day above",
    "hour",
    "minute",
    "second",
    "counter 1",
    "counter 2",
    "counter 3",
    "counter 4",
    "total",
    "total not rolled over",
    "decimals",
    "counter of an EQM meter",
    "exported counter",
    "exported total",
    "exported total not rolled over",
    "exported counter of document 01's family",
    "exported total of document 01's family",
    "table",
    "edition",
    "table 25 of edition 1",
    "table 25 of edition 2",
    "number of periods",
    "period's year below",
    "period's year above",
    "period's month 0",
    "period's month above",
    "period's day 0",
    "period's day above",
    "period's hour",
    "period's minute",
    "period's counter",
    "period's counter of an EQM meter",
    "period's exported counter",
    "period's exported counter of document 01's family",
    "period in an unused place",
];

/// Rooms that must have been lent, to a character and to silence.
const ROOMS: [usize; 6] = [0, 1, ROOM - 1, ROOM, ROOM + 1, 8_192];

/// Names of the events in print.
const EVENTS: [&str; 6] = [
    "character",
    "silence",
    "tick",
    "power-up",
    "pulse",
    "pulse out",
];

pub struct Reached {
    pub events: u64,
    /// Of a good meter of edition 2.
    pub second: u64,
    /// Of a good EQM meter.
    pub eqm: u64,
    answers: [u64; 17],
    /// Answers to characters by mode.
    modes: [[u64; 17]; 5],
    /// Events by kind and mode.
    kinds: [[u64; 5]; 6],
    aims: BTreeMap<&'static str, u64>,
    broken: BTreeMap<&'static str, u64>,
    rooms: [[u64; 6]; 2],
    /// Damage by the place it is held at: of a line, a confirmation and a frame.
    line_places: [u64; 31],
    confirmation_places: [u64; 6],
    frame_places: [u64; 63],
    /// Damaged BCC by the characters held before it.
    check_places: [u64; 64],
    /// Pulses and accepted reads and writes by table.
    tables_used: [u64; 25],
    tables_read: [u64; 25],
    tables_written: [u64; 25],
    zones: [u64; 4],
    zones_out: [u64; 4],
    /// Periods closed by a tick, by mode, and by the sign-on, by how many were kept before.
    closed_by_tick: [u64; 5],
    closed_by_line: [u64; PERIODS + 1],
    /// Blocks with periods, by how many these are.
    blocks: [u64; PERIODS + 1],
}

impl Reached {
    pub fn new() -> Reached {
        Reached {
            events: 0,
            second: 0,
            eqm: 0,
            answers: [0; 17],
            modes: [[0; 17]; 5],
            kinds: [[0; 5]; 6],
            aims: BTreeMap::new(),
            broken: BTreeMap::new(),
            rooms: [[0; 6]; 2],
            line_places: [0; 31],
            confirmation_places: [0; 6],
            frame_places: [0; 63],
            check_places: [0; 64],
            tables_used: [0; 25],
            tables_read: [0; 25],
            tables_written: [0; 25],
            zones: [0; 4],
            zones_out: [0; 4],
            closed_by_tick: [0; 5],
            closed_by_line: [0; PERIODS + 1],
            blocks: [0; PERIODS + 1],
        }
    }

    /// A period has been closed: what there was before.
    fn closed(&mut self, before: &Meter) {
        let kept = &before.periods[..usize::from(before.closed)];
        let age = |period: &Period| {
            let Period {
                year,
                month,
                day,
                hour,
                minute,
                ..
            } = *period;
            (year, month, day, hour, minute)
        };
        if kept.windows(2).any(|pair| age(&pair[0]) < age(&pair[1])) {
            self.reach("closed with other periods out of order");
        }
        if before.exported != [0; 4] {
            self.reach("closed with exported counters that are not 0");
        }
        match kept.len() {
            0 => self.reach("closed where none was kept"),
            PERIODS => self.reach("closed where twelve were kept"),
            _ => {}
        }
    }

    pub fn reach(&mut self, aim: &'static str) {
        debug_assert!(AIMS.contains(&aim), "{aim}");
        *self.aims.entry(aim).or_default() += 1;
    }

    /// A `new` and its answer line.
    pub fn made(&mut self, line: &[u8], answer: &str) {
        if answer == "1\n" {
            self.answers[1] += 1;
            self.reach("new, good facts");
        } else if answer == "16\n" {
            self.answers[16] += 1;
            self.reach("new, no edition");
        } else if answer == "18\n" {
            self.reach("new, no decimals");
            let link = line.split(|&byte| byte == b' ').nth(11);
            if matches!(link, Some(b"0" | b"3")) {
                self.reach("new, no decimals before bad facts");
            }
        } else {
            self.answers[15] += 1;
            self.reach("new, bad facts");
        }
    }

    /// A `card` and its answer line.
    pub fn card(&mut self, answer: &str) {
        match answer.split(' ').next() {
            Some("1") => self.reach("card written"),
            Some("14") => self.reach("card of a malformed state"),
            Some("16") => self.reach("card of no edition"),
            _ => self.reach("card without room"),
        }
    }

    pub fn event(&mut self, before: &Meter, event: Event, answer: Answer, after: &Meter) {
        self.events += 1;
        self.answers[usize::from(answer.number)] += 1;
        let kind = match event {
            Event::Character { .. } => 0,
            Event::Silence { .. } => 1,
            Event::Tick => 2,
            Event::PowerUp => 3,
            Event::Pulse { way: Way::In, .. } => 4,
            Event::Pulse { .. } => 5,
        };
        if let Event::Character { room, .. } | Event::Silence { room } = event {
            if let Some(place) = ROOMS.iter().position(|&known| known == room) {
                self.rooms[kind][place] += 1;
            }
        }
        if let Event::Pulse { way, units } = event {
            match (way, units) {
                (Way::In, 0) => self.reach("pulse of 0"),
                (Way::In, PULSE_MOST) => self.reach("pulse of 1,000,000"),
                (Way::In, 1_000_001) => self.reach("pulse of 1,000,001"),
                (Way::In, u32::MAX) => self.reach("pulse of 4,294,967,295"),
                (Way::Out, 0) => self.reach("pulse out of 0"),
                (Way::Out, PULSE_MOST) => self.reach("pulse out of 1,000,000"),
                (Way::Out, 1_000_001) => self.reach("pulse out of 1,000,001"),
                (Way::Out, u32::MAX) => self.reach("pulse out of 4,294,967,295"),
                _ => {}
            }
        }
        let broken = broken_ranges(before);
        assert_eq!(
            broken.is_empty(),
            before.well_formed(),
            "the trial's own list of ranges and the model differ: {broken:?} {before:?}"
        );
        if !broken.is_empty() {
            let none = before.decimals == 0
                && matches!(
                    event,
                    Event::Pulse {
                        units: 0..=1_000_000,
                        ..
                    }
                );
            return self.malformed(&broken, kind, answer.number, none);
        }
        self.kinds[kind][usize::from(before.mode)] += 1;
        self.second += u64::from(before.edition == 2);
        if before.decimals != 0 {
            self.eqm += 1;
            self.reach(match (before.edition, before.link) {
                (1, WIRED) => "EQM of edition 1, wired",
                (1, _) => "EQM of edition 1, optical",
                (_, WIRED) => "EQM of edition 2, wired",
                _ => "EQM of edition 2, optical",
            });
        }
        if kind == 5 && before.decimals == 0 {
            self.reach("pulse out of document 01's family");
        }
        if answer.number == 3 {
            self.hurt(before, answer.place);
        }
        if answer.number == 12 || answer.number == 13 {
            return;
        }
        match event {
            Event::Character { byte, .. } => self.character(before, byte, answer.number, after),
            Event::Silence { .. } => self.silence(before),
            Event::Tick => self.tick(before, after),
            Event::PowerUp => {
                if before.attempts > 0 {
                    self.reach("power-up clears attempts");
                }
                if before.count > 0 {
                    self.reach("power-up with something held");
                }
            }
            Event::Pulse { way, units } => self.pulse(before, way, units, after),
        }
    }

    /// A frame that was answered 3.
    fn hurt(&mut self, before: &Meter, place: u8) {
        if place == before.count {
            return self.reach("3 with the place of the BCC");
        }
        self.reach("3 with a place before the BCC");
        let behind = &before.held()[usize::from(place) + 1..];
        if before.held()[usize::from(place)] == 0 && behind.contains(&0) {
            self.reach("3 with the first place of several");
        }
    }

    fn malformed(&mut self, broken: &[&'static str], kind: usize, number: u8, none: bool) {
        if kind == 5 && number == 13 && none {
            self.reach("13 before 14, pulse out of document 01's family");
        }
        match broken {
            [range] => *self.broken.entry(range).or_default() += 1,
            _ => self.reach("several ranges broken"),
        }
        self.reach(match (number, kind) {
            (16, _) => "16",
            (12, 0) => "12 before 14, character",
            (12, _) => "12 before 14, silence",
            (13, _) => "13 before 14",
            (_, 0) => "14 to a character",
            (_, 1) => "14 to silence",
            (_, 2) => "14 to a tick",
            (_, 3) => "14 to power-up",
            (_, 4) => "14 to a pulse",
            _ => "14 to a pulse out",
        });
    }

    fn character(&mut self, before: &Meter, byte: u8, number: u8, after: &Meter) {
        self.modes[usize::from(before.mode)][usize::from(number)] += 1;
        self.unreachable(before);
        let got = data_bits(byte);
        let count = usize::from(before.count);
        if got == Some(0) && after.count > before.count && after.mark == 0 {
            self.reach("NUL held without the mark");
        }
        match before.mode {
            0 => self.line_character(before, got, count, after),
            1 => self.confirmation_character(before, got, count, after),
            _ => self.frame_character(before, got, count, number, after),
        }
    }

    fn unreachable(&mut self, before: &Meter) {
        let held = before.held();
        let inside = held.get(1..).unwrap_or(&[]);
        if before.mark == 1 && !held.contains(&0) {
            self.reach("unreachable: mark with no 0 held");
        }
        match before.mode {
            0 => {
                if inside.contains(&LF) {
                    self.reach("unreachable: LF held in mode 0");
                }
                if inside.contains(&b'/') {
                    self.reach("unreachable: second '/' held");
                }
            }
            1 => {}
            _ => {
                if inside.contains(&SOH) {
                    self.reach("unreachable: SOH inside a frame");
                }
                if inside
                    .split_last()
                    .is_some_and(|(_, inside)| inside.contains(&ETX))
                {
                    self.reach("unreachable: ETX inside a frame");
                }
            }
        }
    }

    fn line_character(&mut self, before: &Meter, got: Option<u8>, count: usize, after: &Meter) {
        match got {
            None if count == 0 => self.reach("damaged character dropped, mode 0"),
            None if count == 31 => self.reach("32nd character is damaged"),
            None => self.line_places[count] += 1,
            Some(b'/') => {
                if before.mark == 1 {
                    self.reach("'/' clears the mark");
                }
                if count == 31 {
                    self.reach("32nd character is '/'");
                }
            }
            Some(LF) if count > 0 => {
                match count {
                    30 => self.reach("line of 31 characters"),
                    31 => self.reach("line of 32 characters"),
                    _ => {}
                }
                let zero_line = before.held() == b"/?000 0000000!\r";
                let closing = before.held() == b"/C!\r";
                if closing && after.mode == 1 {
                    self.closed_by_line[usize::from(before.closed)] += 1;
                    self.closed(before);
                }
                self.reach(match (after.mode, before.mark == 1) {
                    (1, _) if before.held() == b"/?!\r" => "sign-on by /?!",
                    (1, _) if closing => "sign-on by /C!",
                    (_, true) if closing => "/C! with the mark",
                    (1, _) if zero_line && before.serial == *b"0000000000" => {
                        "sign-on by the zero serial that is ours"
                    }
                    (1, _) if zero_line => "sign-on by the zero serial",
                    (1, _) => "sign-on by our serial",
                    (_, true) => "line with the mark",
                    (_, false) => "line not ours, unmarked",
                });
            }
            Some(_) if count == 31 => self.reach("32nd character empties the line"),
            Some(_) => {}
        }
    }

    fn confirmation_character(
        &mut self,
        before: &Meter,
        got: Option<u8>,
        count: usize,
        after: &Meter,
    ) {
        if got.is_none() {
            self.confirmation_places[count] += 1;
        }
        if count == 0 && matches!(got, Some(b'/' | SOH)) {
            self.reach("'/' or SOH first in mode 1");
        }
        if count < 5 {
            return;
        }
        if before.held[0] == 0 && before.mark == 1 {
            self.reach("confirmation that starts damaged");
        }
        let good = before.mark == 0 && got == Some(LF);
        if good && matches!(before.held(), [0x06, b'0', b'0' | b'5', b'6', b'\r']) {
            self.blocks[usize::from(before.closed)] += 1;
            if before.decimals != 0 && before.closed == 12 {
                self.reach("EQM block with twelve periods");
            }
        }
        let asks = matches!(before.held(), [0x06, b'0', b'5', b'0' | b'6' | b'7', b'\r']);
        if good && asks {
            match before.decimals {
                2 => self.reach("EQM block of 2 decimals"),
                3 => self.reach("EQM block of 3 decimals"),
                4 => self.reach("EQM block of 4 decimals"),
                _ => {}
            }
        }
        self.reach(match (after.mode, before.held()) {
            (2, _) if after.speed == 0 => "slow confirmation '1'",
            (2, _) => "confirmation '1'",
            _ if before.mark == 1 || got.is_none() => "confirmation with the mark",
            (_, b"\x06050\r") if got == Some(LF) => "confirmation '0'",
            (_, b"\x06057\r") if got == Some(LF) => "confirmation '7'",
            (_, b"\x06056\r") if got == Some(LF) => "confirmation '6'",
            (_, b"\x06006\r") if got == Some(LF) => "slow confirmation '6'",
            (_, b"\x06000\r") if got == Some(LF) => "slow confirmation '0'",
            (_, b"\x06007\r") if got == Some(LF) => "slow confirmation '7'",
            (_, [0x06, b'0', b'1'..=b'4', b'0' | b'1' | b'6' | b'7', b'\r']) if got == Some(LF) => {
                "speed digit 1 to 4"
            }
            (_, [0x06, b'0', _, b'0' | b'1' | b'6' | b'7', b'\r']) if got == Some(LF) => {
                "another speed digit"
            }
            _ => "confirmation wrong, unmarked",
        });
    }

    fn frame_character(
        &mut self,
        before: &Meter,
        got: Option<u8>,
        count: usize,
        number: u8,
        after: &Meter,
    ) {
        if before.held().last() == Some(&ETX) {
            return self.whole_frame(before, got, count, number, after);
        }
        if got.is_none() {
            match count {
                0 => self.reach("damaged character dropped, modes 2 to 4"),
                63 => self.reach("64th character is damaged"),
                _ => self.frame_places[count] += 1,
            }
        }
        if got == Some(SOH) && before.mark == 1 {
            self.reach("SOH clears the mark");
            if before.place > 0 {
                self.reach("SOH clears a place");
            }
        }
        if count == 63 {
            self.reach(match got {
                Some(SOH) => "64th character is SOH and restarts",
                Some(ETX) => "64th character is ETX (frame of 65)",
                _ => "64th character is too long",
            });
            if before.mark == 1 && got != Some(SOH) {
                self.reach("64th character, mark set");
            }
        }
    }

    fn whole_frame(
        &mut self,
        before: &Meter,
        got: Option<u8>,
        count: usize,
        number: u8,
        after: &Meter,
    ) {
        match count {
            62 => self.reach("whole frame of 63 characters"),
            63 => self.reach("whole frame of 64 characters"),
            _ => {}
        }
        if count == 63 && got == Some(SOH) {
            self.reach("64th character is SOH and the BCC");
        }
        let Some(check) = got else {
            self.check_places[count] += 1;
            return self.reach("damaged BCC");
        };
        match (number, check) {
            (1, SOH) => self.reach("accepted frame, BCC is SOH"),
            (1, STX) => self.reach("accepted frame, BCC is STX"),
            (1, ETX) => self.reach("accepted frame, BCC is ETX"),
            (1, b'\r') => self.reach("accepted frame, BCC is CR"),
            (1, LF) => self.reach("accepted frame, BCC is LF"),
            (1, _) => {}
            (_, SOH) => self.reach("refused frame, SOH in the BCC's place"),
            (_, ETX) => self.reach("refused frame, ETX in the BCC's place"),
            _ => {}
        }
        // A frame that got as far as its data has the shape SOH, command, STX, data, ETX.
        let frame = before.held();
        let command = frame.get(1..3).unwrap_or(b"");
        let data = frame.get(4..count - 1).unwrap_or(b"");
        match (command, number) {
            (b"B0", 1) => self.reach(match before.mode {
                2 => "B0 in mode 2",
                3 => "B0 in mode 3",
                _ => "B0 in mode 4",
            }),
            (b"P1", 1 | 9 | 10 | 11) => self.password(before, data, number),
            (b"R1", 1) => self.read(before, data),
            (b"R1", 9) => {
                self.reach("read refused with 9");
                match (data, before.decimals) {
                    ([b'G', b'0'..=b'4', b'(', b')'], 0) => {
                        self.reach("G of document 01's family refused with 9");
                    }
                    (b"G5()", 2..=4) => self.reach("G5 of an EQM meter refused with 9"),
                    _ => {}
                }
            }
            (b"W1", 1 | 9) => self.write(before, data, number, after),
            _ => {}
        }
    }

    fn password(&mut self, before: &Meter, data: &[u8], number: u8) {
        let right = data.get(1..9) == Some(&before.password);
        self.reach(match (number, before.attempts) {
            (1, 3) => "P1 () while locked",
            (1, _) if data == b"()" => "P1 ()",
            (1, 0) => "right password",
            (1, _) => "right password after a failed attempt",
            (9, 3) => "malformed password while locked",
            (9, _) => "malformed password",
            (10, 0) => "wrong password, first",
            (10, 1) => "wrong password, second",
            (10, _) => "wrong password, third",
            _ if right => "locked, right password",
            _ => "locked, wrong password",
        });
    }

    fn read(&mut self, before: &Meter, data: &[u8]) {
        self.reach(match &data[..2] {
            b"T(" => "read T",
            b"L(" => "read L",
            b"K(" => "read K",
            b"E0" => "read E0",
            b"E1" => "read E1",
            b"E2" => "read E2",
            b"E3" => "read E3",
            b"E4" => "read E4",
            b"G0" => "read G0",
            b"G1" => "read G1",
            b"G2" => "read G2",
            b"G3" => "read G3",
            b"G4" => "read G4",
            _ => "read Z",
        });
        if data[0] == b'E' && before.decimals != 0 {
            self.reach(match data[1] {
                b'0' => "read E0 of an EQM meter",
                _ => "read E1 to E4 of an EQM meter",
            });
        }
        let out: u64 = before.exported.iter().map(|&units| u64::from(units)).sum();
        if data.starts_with(b"G0") && out >= u64::from(EQM_END) {
            self.reach("exported total over 100,000,000");
        }
        let total: u64 = before.counters.iter().map(|&wh| u64::from(wh)).sum();
        if data.starts_with(b"E0") && total >= u64::from(COUNTER_END) {
            self.reach("total over 1,000,000,000");
        }
        if data.starts_with(b"Z") {
            self.tables_read[named(data)] += 1;
        }
    }

    fn write(&mut self, before: &Meter, data: &[u8], number: u8, after: &Meter) {
        self.reach(match (data.first(), number) {
            (Some(b'T'), 1) => "write T",
            (Some(b'K'), 1) => "write K",
            (Some(b'Z'), 1) => "write Z",
            (Some(b'T'), _) => "write T refused with 9",
            (Some(b'K'), _) => "write K refused with 9",
            (Some(b'Z'), _) => "write Z refused with 9",
            _ => "write of another letter refused with 9",
        });
        let clock = after.clock;
        let first = (clock.day, clock.hour, clock.minute, clock.second) == (1, 0, 0, 0);
        if number == 1 && data[0] == b'T' && first {
            self.reach("write of the first second of a month closes nothing");
        }
        // A row that was there already would not tell one table from another.
        if number == 1 && data[0] == b'Z' && before.tables != after.tables {
            self.tables_written[named(data)] += 1;
        }
    }

    fn silence(&mut self, before: &Meter) {
        if before.count > 0 {
            self.reach(match before.mode {
                0 => "silence with something held, mode 0",
                1 => "silence with something held, mode 1",
                _ => "silence with something held, modes 2 to 4",
            });
        }
    }

    fn tick(&mut self, before: &Meter, after: &Meter) {
        let (from, to) = (before.clock, after.clock);
        if from.minute != to.minute {
            self.reach("tick over a minute");
        }
        if from.hour != to.hour {
            self.reach("tick over an hour");
        }
        if (to.day, to.hour, to.minute, to.second) == (1, 0, 0, 1) {
            self.reach("tick after the first second of a month");
        }
        if from.day == to.day {
            return;
        }
        if to.day == 1 {
            self.closed_by_tick[usize::from(before.mode)] += 1;
            self.closed(before);
        } else {
            self.reach("tick to a midnight that closes nothing");
        }
        match (from.month, from.day, days_in_month(from.year, from.month)) {
            (2, 28, 29) => self.reach("tick 28 February, leap year"),
            (2, 29, _) => self.reach("tick 29 February"),
            (2, 28, _) => self.reach("tick 28 February, other year"),
            _ => {}
        }
        if from.month != to.month {
            self.reach("tick over a month's end");
        }
        if from.year == 2099 && from.month == 12 && to.month == 1 {
            self.reach("tick over the end of 2099");
        } else if from.year != to.year {
            self.reach("tick over a year's end");
        }
    }

    fn pulse_out(&mut self, before: &Meter, day: u32, after: &Meter) {
        self.reach("pulse out of an EQM meter");
        if before.edition == 2 && day == 6 {
            self.reach("pulse out of edition 2, Saturday");
        }
        if after.exported_total < before.exported_total {
            self.reach("exported total over the roll-over");
        }
        for zone in 0..4 {
            if after.exported[zone] != before.exported[zone] {
                self.zones_out[zone] += 1;
            }
            if after.exported[zone] < before.exported[zone] {
                self.reach("pulse out over the roll-over");
            }
        }
    }

    fn pulse(&mut self, before: &Meter, way: Way, units: u32, after: &Meter) {
        let day = weekday(before);
        self.reach(match day {
            6 => "pulse, Saturday",
            0 => "pulse, Sunday",
            _ => "pulse, Monday to Friday",
        });
        let weekend = day == 0 || day == 6;
        let table = match usize::from(before.clock.month) - 1 {
            _ if before.edition == 2 && day == 6 => 24,
            month if weekend => month + 12,
            month => month,
        };
        if before.edition == 2 {
            self.reach(match day {
                6 => "pulse of edition 2, Saturday",
                0 => "pulse of edition 2, Sunday",
                _ => "pulse of edition 2, Monday to Friday",
            });
        }
        self.tables_used[table] += 1;
        if way == Way::Out {
            return self.pulse_out(before, day, after);
        }
        let eqm = before.decimals != 0;
        if eqm {
            self.reach("pulse in of an EQM meter");
        }
        if after.total < before.total {
            self.reach("total over the roll-over");
            if eqm {
                self.reach("total over the roll-over of an EQM meter");
            }
        }
        for zone in 0..4 {
            if after.counters[zone] != before.counters[zone] {
                self.zones[zone] += 1;
            }
            if after.counters[zone] < before.counters[zone] {
                self.reach("pulse over the roll-over");
                if eqm {
                    self.reach("pulse in over the roll-over of an EQM meter");
                }
                if units > 0 && after.counters[zone] == 0 {
                    self.reach("pulse to exactly 0");
                }
            }
        }
    }

    /// Prints how often each answer came; those that never did come back.
    pub fn print_answers(&self) -> Vec<String> {
        let mut missed = Vec::new();
        for (number, count) in self.answers.iter().enumerate() {
            println!("answer {number}: {count}");
            if *count == 0 {
                missed.push(format!("answer {number}"));
            }
        }
        missed
    }

    /// Prints all counts; what was missed comes back.
    pub fn print(&self) -> Vec<String> {
        let mut missed = Vec::new();
        let mut row = |title: &str, counts: &[u64], from: usize| {
            let counted: Vec<String> = counts
                .iter()
                .enumerate()
                .map(|(place, count)| format!("{}:{count}", place + from))
                .collect();
            println!("{title}: {}", counted.join(" "));
            for (place, &count) in counts.iter().enumerate() {
                if count == 0 {
                    missed.push(format!("{title}, {}", place + from));
                }
            }
        };
        row("answers", &self.answers, 0);
        for (name, counts) in EVENTS.iter().zip(&self.kinds) {
            row(&format!("{name} by mode"), counts, 0);
        }
        row("answers in mode 0", &self.modes[0][..2], 0);
        row("answers in mode 1", &self.modes[1][..3], 0);
        // Of the answers to frames only 2 can't come, and 10 and 11 belong to mode 2.
        for (mode, most) in [(2, 11), (3, 9), (4, 9)] {
            row(
                &format!("answers in mode {mode}"),
                &self.modes[mode][..2],
                0,
            );
            row(
                &format!("refusals in mode {mode}"),
                &self.modes[mode][3..=most],
                3,
            );
        }
        row("damage held in a line, by place", &self.line_places[1..], 1);
        row(
            "damage held in a confirmation, by place",
            &self.confirmation_places,
            0,
        );
        row(
            "damage held in a frame, by place",
            &self.frame_places[1..],
            1,
        );
        row("damaged BCC, by place", &self.check_places[2..], 2);
        row("tables read", &self.tables_read, 1);
        row("tables written", &self.tables_written, 1);
        row("tables used by a pulse", &self.tables_used, 1);
        row("zones counted in", &self.zones, 1);
        row("zones counted out", &self.zones_out, 1);
        row("periods closed by a tick, by mode", &self.closed_by_tick, 0);
        row(
            "periods closed by /C!, by those kept",
            &self.closed_by_line,
            0,
        );
        row("blocks with so many periods", &self.blocks, 0);
        for (event, counts) in EVENTS.iter().zip(&self.rooms) {
            for (room, &count) in ROOMS.iter().zip(counts) {
                println!("room {room} lent to {event}: {count}");
                if count == 0 {
                    missed.push(format!("room {room} lent to {event}"));
                }
            }
        }
        println!("events of EQM meters: {}", self.eqm);
        if self.eqm < 500_000 {
            missed.push("half a million events of EQM meters".into());
        }
        for aim in AIMS {
            let count = self.aims.get(aim).copied().unwrap_or(0);
            println!("{aim}: {count}");
            if count == 0 {
                missed.push(aim.to_string());
            }
        }
        for range in RANGES {
            let count = self.broken.get(range).copied().unwrap_or(0);
            println!("malformed by {range} alone: {count}");
            if count == 0 {
                missed.push(format!("malformed by {range} alone"));
            }
        }
        missed
    }
}

/// The table, counted from 0, of good `Z` data.
fn named(data: &[u8]) -> usize {
    usize::from((data[2] - b'0') * 10 + data[3] - b'0') - 1
}

/// Sunday 0 to Saturday 6, by Zeller's rule; the model counts days instead.
fn weekday(meter: &Meter) -> u32 {
    let clock = meter.clock;
    let (mut year, mut month) = (u32::from(clock.year), u32::from(clock.month));
    if month < 3 {
        year -= 1;
        month += 12;
    }
    let days =
        u32::from(clock.day) + 13 * (month + 1) / 5 + year + year / 4 - year / 100 + year / 400;
    (days + 6) % 7
}

/// The ranges that a state breaks, listed once more from the page.
fn broken_ranges(meter: &Meter) -> Vec<&'static str> {
    let mut broken = Vec::new();
    let mut must = |good: bool, range: &'static str| {
        if !good {
            broken.push(range);
        }
    };
    let count = usize::from(meter.count);
    match meter.mode {
        0 => must(count <= 31, "count, mode 0"),
        1 => must(count <= 5, "count, mode 1"),
        2..=4 => must(count <= 63, "count, modes 2 to 4"),
        _ => must(false, "mode"),
    }
    let (held, unused) = meter.held.split_at(count.min(63));
    must(held.iter().all(|&c| c < 128), "held above 127");
    must(unused.iter().all(|&c| c == 0), "unused place");
    must(
        !held.is_empty() || meter.mark != 1,
        "mark of an empty receiver",
    );
    must(meter.mark < 2, "mark");
    let marked = meter.mark == 1 && !held.is_empty();
    must(!marked || meter.place < meter.count, "place with the mark");
    must(
        meter.mark != 0 || meter.place == 0,
        "place without the mark",
    );
    if let Some(&first) = held.first() {
        match meter.mode {
            0 => must(first == b'/', "first of mode 0"),
            2 => must(first == SOH, "first of mode 2"),
            3 => must(first == SOH, "first of mode 3"),
            4 => must(first == SOH, "first of mode 4"),
            _ => {}
        }
    }
    must(meter.serial.iter().all(u8::is_ascii_digit), "serial");
    let account = |c: &u8| matches!(c, b'0'..=b'9' | b'A'..=b'Z' | b'a'..=b'z' | b' ' | b'_');
    must(meter.account.iter().all(account), "account");
    must(meter.password.iter().all(u8::is_ascii_digit), "password");
    must(meter.attempts < 4, "attempts");
    must(meter.speed == 0 || meter.speed == 5, "speed");
    must(meter.link == 1 || meter.link == 2, "link");
    must(
        meter.link == 2 || meter.speed != 5 || meter.mode >= 2,
        "speed 5 outside a session",
    );
    must(
        meter.link != 2 || meter.speed != 0,
        "speed 0 on the wired link",
    );
    let clock = meter.clock;
    must(clock.year > 1999, "year below");
    must(clock.year < 2100, "year above");
    must(clock.month != 0, "month 0");
    must(clock.month < 13, "month above");
    must(clock.day != 0, "day 0");
    let days = [31, 28, 31, 30, 31, 30, 31, 31, 30, 31, 30, 31];
    let mut last = days.get(usize::from(clock.month).wrapping_sub(1)).copied();
    if clock.month == 2 && clock.year.is_multiple_of(4) {
        last = Some(29);
    }
    must(clock.day <= last.unwrap_or(31), "day above");
    must(clock.hour < 24, "hour");
    must(clock.minute < 60, "minute");
    must(clock.second < 60, "second");
    must(matches!(meter.decimals, 0 | 2..=4), "decimals");
    let eqm = meter.decimals != 0;
    must(meter.counters[0] < COUNTER_END, "counter 1");
    must(meter.counters[1] < COUNTER_END, "counter 2");
    must(meter.counters[2] < COUNTER_END, "counter 3");
    must(meter.counters[3] < COUNTER_END, "counter 4");
    // Eight digits, of which the ninth may be one too many.
    let nine = |counters: &[u32; 4]| {
        let ninth = EQM_END..COUNTER_END;
        counters.iter().any(|count| ninth.contains(count))
    };
    must(!eqm || !nine(&meter.counters), "counter of an EQM meter");
    let end = u64::from(if eqm { EQM_END } else { COUNTER_END });
    let added = |counters: &[u32; 4]| counters.iter().map(|&count| u64::from(count)).sum::<u64>();
    let sum = added(&meter.counters);
    let kept = sum % end == u64::from(meter.total);
    let whole = u64::from(meter.total) == sum;
    must(kept || whole, "total");
    must(kept || !whole, "total not rolled over");
    if eqm {
        let good = meter.exported.iter().all(|&count| count < EQM_END);
        must(good, "exported counter");
        let sum = added(&meter.exported);
        let kept = sum % end == u64::from(meter.exported_total);
        let whole = u64::from(meter.exported_total) == sum;
        must(kept || whole, "exported total");
        must(kept || !whole, "exported total not rolled over");
    } else {
        must(
            meter.exported == [0; 4],
            "exported counter of document 01's family",
        );
        must(
            meter.exported_total == 0,
            "exported total of document 01's family",
        );
    }
    let zone = |c: &u8| matches!(c, b'1'..=b'4');
    must((1..=2).contains(&meter.edition), "edition");
    must(meter.tables[..24].iter().flatten().all(zone), "table");
    let spare = meter.tables[24];
    must(
        meter.edition != 1 || spare == [0; 24],
        "table 25 of edition 1",
    );
    must(
        meter.edition != 2 || spare.iter().all(zone),
        "table 25 of edition 2",
    );
    let kept = usize::from(meter.closed);
    must(kept < 13, "number of periods");
    let (kept, unused) = meter.periods.split_at(kept.min(12));
    let all = |good: fn(&Period) -> bool| kept.iter().all(good);
    must(all(|period| period.year > 1999), "period's year below");
    must(all(|period| period.year < 2100), "period's year above");
    must(all(|period| period.month > 0), "period's month 0");
    must(all(|period| period.month < 13), "period's month above");
    must(all(|period| period.day > 0), "period's day 0");
    must(
        all(|period| {
            let most = match (period.month, period.year % 4) {
                (2, 0) => 29,
                (2, _) => 28,
                (4 | 6 | 9 | 11, _) => 30,
                _ => 31,
            };
            period.day <= most
        }),
        "period's day above",
    );
    must(all(|period| period.hour < 24), "period's hour");
    must(all(|period| period.minute < 60), "period's minute");
    must(
        all(|period| period.counters.iter().all(|&wh| wh < COUNTER_END)),
        "period's counter",
    );
    must(
        !eqm || !kept.iter().any(|period| nine(&period.counters)),
        "period's counter of an EQM meter",
    );
    must(
        !eqm || all(|period| period.exported.iter().all(|&count| count < EQM_END)),
        "period's exported counter",
    );
    must(
        eqm || all(|period| period.exported == [0; 4]),
        "period's exported counter of document 01's family",
    );
    must(
        unused.iter().all(|&period| period == Period::default()),
        "period in an unused place",
    );
    broken
}
