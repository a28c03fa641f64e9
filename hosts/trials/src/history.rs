//! What a history tells, from its events alone, as docs/HISTORY.md says it. There is no receiver
//! here: bytes are kept as they came, and compared with the messages that the rules build.

use crate::words::{
    bracketed, clock_data, confirmation_at, good_bye, password, read, sign_on, table_data,
    wired_line, write, CLOSING,
};
use model::bench::Event;
use model::line::{character, wires, ETX, SOH};
use model::meter::{Clock, Meter, Way, PULSE_MOST, ROOM, WIRED};

#[derive(Clone, Copy, Debug, PartialEq, Eq)]
pub enum Write {
    Clock(Clock),
    Account([u8; 10]),
    Row(usize, [u8; 24]),
}

/// Who is wrong about histories, and in what; nobody in earnest.
#[derive(Clone, Copy, Debug, PartialEq, Eq)]
pub enum Mistake {
    None,
    TakesInReadOnly,
    OverlooksBcc,
    OverlooksDamage,
    StartsAtBcc,
    KeepsOverSilence,
    ForgetsTheLock,
    SaysRefusedBytes,
    WritesTwice,
    KeepsOnTheWire,
    TakesTable25,
    CountsOutAsIn,
    CountsOutOfNone,
    AnswersNoG,
}

/// What was told so far, and how matters stand: mode, failed passwords, and the bytes said since
/// the mode began or the last frame was whole.
#[derive(Clone)]
pub struct History {
    mistake: Mistake,
    pub mode: u8,
    pub failed: u8,
    said: Vec<u8>,
    /// Account, tables, clock, counters and periods, from the factory's on.
    pub book: Meter,
    pub told: Vec<Write>,
    /// A write that is to come once more, at the next second: of `WritesTwice` alone.
    again: Option<Write>,
}

impl History {
    pub fn new(fresh: Meter, mistake: Mistake) -> History {
        History {
            mistake,
            mode: 0,
            failed: 0,
            said: Vec::new(),
            book: fresh,
            told: Vec::new(),
            again: None,
        }
    }

    pub fn event(&mut self, event: Event) {
        match event {
            Event::Character { byte, room } if self.happens(room) => self.byte(byte),
            Event::Silence { room } if self.happens(room) => {
                if self.mistake != Mistake::KeepsOverSilence || self.mode < 2 {
                    self.anew(0);
                }
            }
            Event::Character { .. } | Event::Silence { .. } => {}
            Event::Tick => {
                self.book.tick();
                if let Some(write) = self.again.take() {
                    self.write(write);
                }
            }
            Event::Pulse { way, units } => self.pulse(way, units),
            Event::PowerUp => {
                self.failed = 0;
                self.anew(0);
            }
        }
    }

    /// A pulse that is too great, or out of a meter that counts nothing out, has not happened.
    fn pulse(&mut self, way: Way, units: u32) {
        let counts_out = self.eqm() || self.mistake == Mistake::CountsOutOfNone;
        if units > PULSE_MOST || (way == Way::Out && !counts_out) {
            return;
        }
        let as_in = !self.eqm() || self.mistake == Mistake::CountsOutAsIn;
        let way = if as_in { Way::In } else { way };
        self.book.pulse(way, units);
    }

    fn eqm(&self) -> bool {
        self.book.decimals != 0
    }

    fn happens(&self, room: usize) -> bool {
        room >= ROOM || self.mistake == Mistake::SaysRefusedBytes
    }

    fn anew(&mut self, mode: u8) {
        self.mode = mode;
        self.said.clear();
    }

    fn byte(&mut self, byte: u8) {
        match self.mode {
            0 => self.listened(byte),
            1 => self.confirmed(byte),
            _ => self.in_session(byte),
        }
    }

    fn listened(&mut self, byte: u8) {
        self.said.push(byte);
        let line = since(b'/', &self.said);
        let closes = !self.wired() && says(line, CLOSING);
        let calls = match self.wired() {
            true => vec![
                wired_line(b'A', &self.book.serial),
                wired_line(b'A', b"0000000000"),
            ],
            false => vec![
                b"/?!\r\n".to_vec(),
                sign_on(&self.book.serial),
                sign_on(b"0000000000"),
            ],
        };
        let signs_on = closes || calls.iter().any(|call| says(line, call));
        if closes {
            self.close();
        }
        if signs_on {
            self.anew(1);
        }
    }

    fn confirmed(&mut self, byte: u8) {
        self.said.push(byte);
        if self.said.len() == 6 {
            let asks = |speed| says(&self.said, &confirmation_at(speed, b'1'));
            let asked = asks(b'5') || (!self.wired() && asks(b'0'));
            self.anew(if asked { 2 } else { 0 });
        }
    }

    fn in_session(&mut self, byte: u8) {
        let open = since(SOH, &self.said);
        if open.last().copied().and_then(character) == Some(ETX) {
            let frame = [open, &[byte]].concat();
            self.framed(&frame);
            if self.mistake == Mistake::StartsAtBcc && character(byte) == Some(SOH) {
                self.said.push(byte);
            }
        } else if open.len() >= 63 && character(byte) != Some(SOH) {
            self.refused();
        } else {
            self.said.push(byte);
        }
    }

    fn framed(&mut self, frame: &[u8]) {
        if self.mode == 2 {
            return self.entered(frame);
        }
        let highest = self.highest();
        let out = self.eqm() && self.mistake != Mistake::AnswersNoG;
        let mut taken = asks(frame, highest, out);
        if self.mode == 4 || self.mistake == Mistake::TakesInReadOnly {
            if let Some(write) = write_in(frame, highest, self.mistake) {
                self.write(write);
                taken = true;
            }
        }
        if says(frame, &good_bye()) {
            self.anew(0);
        } else if taken {
            self.anew(self.mode);
        } else {
            self.refused();
        }
    }

    /// What is refused ends mode 2, and on the wired link any session.
    fn refused(&mut self) {
        let ends = self.mode == 2 || (self.wired() && self.mistake != Mistake::KeepsOnTheWire);
        self.anew(if ends { 0 } else { self.mode });
    }

    /// The tables that it has.
    fn highest(&self) -> usize {
        match self.book.edition == 2 || self.mistake == Mistake::TakesTable25 {
            true => 25,
            false => 24,
        }
    }

    fn wired(&self) -> bool {
        self.book.link == WIRED
    }

    fn entered(&mut self, frame: &[u8]) {
        let digits = characters(frame).get(5..13).map(<[u8]>::to_vec);
        let tries = digits.filter(|digits| {
            digits.iter().all(u8::is_ascii_digit) && says(frame, &password(&bracketed(digits)))
        });
        let locked = self.failed == 3 && self.mistake != Mistake::ForgetsTheLock;
        if says(frame, &password(b"()")) {
            self.anew(3);
        } else if tries.is_none() || locked {
            self.anew(0);
        } else if tries.as_deref() == Some(&self.book.password) {
            self.failed = 0;
            self.anew(4);
        } else {
            self.failed = (self.failed + 1).min(3);
            self.anew(0);
        }
    }

    fn write(&mut self, write: Write) {
        match write {
            Write::Clock(clock) => self.book.clock = clock,
            Write::Account(account) => self.book.account = account,
            Write::Row(table, row) => self.book.tables[table - 1] = row,
        }
        self.told.push(write);
        if self.mistake == Mistake::WritesTwice {
            self.again = Some(write);
        }
    }

    /// The book is a model's meter that only listens: it closes a period at the call for that.
    fn close(&mut self) {
        for byte in wires(CLOSING) {
            self.book.character(byte, &mut [0; ROOM]);
        }
        self.book.power_up();
    }
}

/// The bytes from the last undamaged one with this character on.
fn since(wanted: u8, said: &[u8]) -> &[u8] {
    let last = said
        .iter()
        .rposition(|&byte| character(byte) == Some(wanted));
    last.map_or(&[], |place| &said[place..])
}

fn says(bytes: &[u8], text: &[u8]) -> bool {
    bytes == wires(text)
}

fn characters(bytes: &[u8]) -> Vec<u8> {
    bytes.iter().map(|byte| byte & 0x7F).collect()
}

/// A question that may be asked, of a meter that counts what goes out or of another.
fn asks(frame: &[u8], highest: usize, out: bool) -> bool {
    let registers = ["T()", "L()", "K()"].map(String::from).into_iter();
    let letters = if out { "EG" } else { "E" };
    let energies = letters
        .chars()
        .flat_map(|letter| (0..5).map(move |zone| format!("{letter}{zone}()")));
    let tables = (1..=highest).map(|table| format!("Z({table:02})"));
    let mut all = registers.chain(energies).chain(tables);
    all.any(|data| says(frame, &read(data.as_bytes())))
}

/// The write that a whole frame tells: it is, byte by byte, the frame of that write.
fn write_in(frame: &[u8], highest: usize, mistake: Mistake) -> Option<Write> {
    let text = characters(frame);
    let is = |data: &[u8]| {
        let built = wires(&write(data));
        match mistake {
            Mistake::OverlooksBcc => {
                frame.len() == built.len() && frame[..built.len() - 1] == built[..built.len() - 1]
            }
            Mistake::OverlooksDamage => text == write(data),
            _ => frame == built,
        }
    };
    let account: Option<[u8; 10]> = text.get(6..16).and_then(|part| part.try_into().ok());
    if let Some(account) = account.filter(good_account) {
        if is(&[b"K", &bracketed(&account)[..]].concat()) {
            return Some(Write::Account(account));
        }
    }
    if let Some(clock) = text.get(6..25).and_then(clock_in) {
        if clock.is_real() && is(&clock_data(clock)) {
            return Some(Write::Clock(clock));
        }
    }
    let table = number(text.get(6..8)?)? as usize;
    let row: [u8; 24] = text.get(9..33)?.try_into().ok()?;
    let good =
        (1..=highest).contains(&table) && row.iter().all(|zone| (b'1'..=b'4').contains(zone));
    (good && is(&table_data(table, &row))).then_some(Write::Row(table, row))
}

fn good_account(account: &[u8; 10]) -> bool {
    account
        .iter()
        .all(|c| c.is_ascii_alphanumeric() || b" _".contains(c))
}

fn number(digits: &[u8]) -> Option<u16> {
    digits
        .iter()
        .all(u8::is_ascii_digit)
        .then(|| digits.iter().fold(0, |n, c| n * 10 + u16::from(c - b'0')))
}

/// dd-mm-yyyy;hh:nn:ss by its digits alone: what stands between them is compared with the whole.
fn clock_in(text: &[u8]) -> Option<Clock> {
    let two = |at: usize| number(&text[at..at + 2]).map(|n| n as u8);
    Some(Clock {
        day: two(0)?,
        month: two(3)?,
        year: number(&text[6..10])?,
        hour: two(11)?,
        minute: two(14)?,
        second: two(17)?,
    })
}

#[cfg(test)]
mod tests {
    use super::*;

    const ROW: [u8; 24] = [b'1'; 24];

    fn told(parts: &[&[u8]], between: &[Event]) -> Vec<Write> {
        let fresh = Meter {
            password: *b"20304050",
            ..Meter::blank()
        };
        let mut history = History::new(fresh, Mistake::None);
        for (place, part) in parts.iter().enumerate() {
            for &byte in *part {
                history.event(Event::Character { byte, room: ROOM });
            }
            if let Some(&event) = between.get(place) {
                history.event(event);
            }
        }
        history.told
    }

    fn opening(entry: &[u8]) -> Vec<u8> {
        let line = [b"/?!\r\n", &confirmation_at(b'5', b'1')[..]].concat();
        wires(&[line, password(entry)].concat())
    }

    fn account() -> Vec<u8> {
        wires(&write(b"K(somebody__)"))
    }

    #[test]
    fn a_write_is_told_in_programming_mode_alone() {
        let write = Write::Account(*b"somebody__");
        assert_eq!(told(&[&opening(b"(20304050)"), &account()], &[]), [write]);
        assert_eq!(told(&[&opening(b"()"), &account()], &[]), []);
        assert_eq!(told(&[&account()], &[]), []);
    }

    #[test]
    fn a_bcc_that_is_soh_starts_nothing() {
        let row = wires(&write(&table_data(6, &ROW)));
        assert_eq!(row.last(), Some(&0x81));
        let (open, account) = (opening(b"(20304050)"), account());
        let both = [Write::Row(6, ROW), Write::Account(*b"somebody__")];
        assert_eq!(told(&[&open, &row, &account], &[]), both);
        assert_eq!(told(&[&open, &row, &account[1..]], &[]), both[..1]);
    }

    #[test]
    fn silence_and_power_up_cut_a_frame_and_a_second_does_not() {
        let (open, account) = (opening(b"(20304050)"), account());
        let cut = |event| {
            told(
                &[&open, &account[..12], &account[12..]],
                &[Event::Tick, event],
            )
        };
        assert_eq!(cut(Event::Silence { room: ROOM }), []);
        assert_eq!(cut(Event::PowerUp), []);
        let whole = [Write::Account(*b"somebody__")];
        assert_eq!(cut(Event::Tick), whole);
        assert_eq!(cut(Event::Silence { room: ROOM - 1 }), whole);
    }
}
