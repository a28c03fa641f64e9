//! The meter of document 01, written plainly: state, receiver, decisions, replies and the other
//! events, in the page's order. Parity and checksum are its own, so that nothing is shared.

use crate::post::tables_of;

pub const SOH: u8 = 0x01;
pub const STX: u8 = 0x02;
pub const ETX: u8 = 0x03;
pub const ACK: u8 = 0x06;
pub const LF: u8 = 0x0A;
pub const CR: u8 = 0x0D;
pub const NAK: u8 = 0x15;

/// Places of the receiver; a frame of 64 needs no place for its BCC.
pub const PLACES: usize = 63;
/// The least room of a reply buffer.
pub const ROOM: usize = 4_096;
/// The greatest pulse, of the last place that a counter shows.
pub const PULSE_MOST: u32 = 1_000_000;
/// Counters and their sum are taken modulo this, in document 01's family.
pub const COUNTER_END: u32 = 1_000_000_000;
/// The same in the EQM family: eight digits in all.
pub const EQM_END: u32 = 100_000_000;
/// The number of a slice that is no frame.
pub const NO_FRAME: u8 = 17;
/// Characters of the data block of edition 1; a table more adds a line.
pub const BLOCK: usize = 1_063;
const TABLE_LINE: usize = 36;
/// An EQM meter has ten lines of 22 where another has five of 24.
const EQM_LINES: usize = 100;
/// The number of an edition that there is not.
pub const NO_EDITION: u8 = 16;
/// The number of decimals that there are not.
pub const NO_DECIMALS: u8 = 18;
/// Rows that there is room for.
pub const ROWS: usize = 25;
/// The most closed periods that are kept.
pub const PERIODS: usize = 12;
/// Characters that a closed period adds to the block.
pub const PERIOD_LINES: usize = 134;
/// The same of an EQM meter.
pub const EQM_PERIOD_LINES: usize = 226;

pub const LISTENING: u8 = 0;
pub const CONFIRMATION: u8 = 1;
pub const PASSWORD: u8 = 2;
pub const READ_ONLY: u8 = 3;
pub const PROGRAMMING: u8 = 4;

/// The links that there are.
pub const OPTICAL: u8 = 1;
pub const WIRED: u8 = 2;

const SIGN_ON: &[u8] = b"/?!\r\n";
const CLOSING_SIGN_ON: &[u8] = b"/C!\r\n";
const ZERO_SIGN_ON: &[u8] = b"/?000 0000000!\r\n";

/// Date and time of day.
#[derive(Clone, Copy, Debug, PartialEq, Eq)]
pub struct Clock {
    pub year: u16,
    pub month: u8,
    pub day: u8,
    pub hour: u8,
    pub minute: u8,
    pub second: u8,
}

/// Which way energy went.
#[derive(Clone, Copy, Debug, PartialEq, Eq)]
pub enum Way {
    In,
    Out,
}

/// A closed period: when it was closed, without the second, and the counters as they stood.
#[derive(Clone, Copy, Debug, Default, PartialEq, Eq)]
pub struct Period {
    pub year: u16,
    pub month: u8,
    pub day: u8,
    pub hour: u8,
    pub minute: u8,
    pub counters: [u32; 4],
    /// Energy that went out; zeros in document 01's family.
    pub exported: [u32; 4],
}

/// Everything the meter remembers. Any values can stand here; `well_formed` tells the good ones.
#[derive(Clone, Debug, PartialEq, Eq)]
pub struct Meter {
    pub mode: u8,
    pub count: u8,
    /// 1 where a held character came damaged, else 0.
    pub mark: u8,
    /// Where the first damaged one stands, the first held one being at 0; 0 without a mark.
    pub place: u8,
    pub held: [u8; PLACES],
    pub serial: [u8; 10],
    pub account: [u8; 10],
    pub password: [u8; 8],
    pub attempts: u8,
    /// Speed identifier: 0 in modes 0 and 1; 0 or 5 in modes 2 to 4, as confirmed. On the wired link 5.
    pub speed: u8,
    pub clock: Clock,
    pub counters: [u32; 4],
    /// The four added up, as it is kept.
    pub total: u32,
    /// Energy that went out, and its total; zeros in document 01's family.
    pub exported: [u32; 4],
    pub exported_total: u32,
    /// The 25th is of edition 2; of edition 1 it holds zeros.
    pub tables: [[u8; 24]; ROWS],
    /// How many periods are kept.
    pub closed: u8,
    /// The newest first; unused places are all 0.
    pub periods: [Period; PERIODS],
    /// Which link it has, for life.
    pub link: u8,
    /// Which edition it is, for life.
    pub edition: u8,
    /// Its family, for life: the decimals of an EQM meter, 2, 3 or 4, or 0 for document 01's.
    pub decimals: u8,
}

/// What a call gives back beside the state and the buffer.
#[derive(Clone, Copy, Debug, PartialEq, Eq)]
pub struct Answer {
    pub number: u8,
    pub speed: u8,
    pub length: usize,
    /// With 3 the place of the first damaged character, else 0.
    pub place: u8,
}

/// What one event comes to: its number, the place that 3 has and, where something is sent, speed and
/// characters.
struct Step {
    number: u8,
    place: u8,
    reply: Option<(u8, Vec<u8>)>,
}

/// The seven data bits, or nothing for a damaged character.
pub fn data_bits(byte: u8) -> Option<u8> {
    let mut ones = 0;
    for bit in 0..8 {
        ones += byte >> bit & 1;
    }
    (ones % 2 == 0).then_some(byte & 0x7F)
}

/// The wire byte of a character below 80 hex.
pub fn with_parity(character: u8) -> u8 {
    if data_bits(character).is_some() {
        character
    } else {
        character + 0x80
    }
}

/// Exclusive-or of all characters given.
pub fn bcc(characters: &[u8]) -> u8 {
    characters.iter().fold(0, |sum, character| sum ^ character)
}

/// Days of a month between 1 and 12.
pub fn days_in_month(year: u16, month: u8) -> u8 {
    let century = year.is_multiple_of(100) && !year.is_multiple_of(400);
    let leap = year.is_multiple_of(4) && !century;
    match month {
        2 if leap => 29,
        2 => 28,
        4 | 6 | 9 | 11 => 30,
        _ => 31,
    }
}

fn account_character(character: u8) -> bool {
    character.is_ascii_alphanumeric() || character == b' ' || character == b'_'
}

fn zone_character(character: u8) -> bool {
    (b'1'..=b'4').contains(&character)
}

fn printable(character: u8) -> bool {
    (0x20..=0x7E).contains(&character)
}

/// The number written by some digits, if digits they are.
fn number(digits: &[u8]) -> Option<u16> {
    digits.iter().try_fold(0, |sum, &digit| {
        digit
            .is_ascii_digit()
            .then(|| sum * 10 + u16::from(digit - b'0'))
    })
}

fn text(characters: &[u8]) -> String {
    characters
        .iter()
        .map(|&character| char::from(character))
        .collect()
}

impl Clock {
    pub const FIRST: Clock = Clock {
        year: 2000,
        month: 1,
        day: 1,
        hour: 0,
        minute: 0,
        second: 0,
    };

    /// A real date in 2000 to 2099 with a real time.
    pub fn is_real(&self) -> bool {
        (2000..=2099).contains(&self.year)
            && (1..=12).contains(&self.month)
            && (1..=days_in_month(self.year, self.month)).contains(&self.day)
            && self.hour <= 23
            && self.minute <= 59
            && self.second <= 59
    }

    /// One second later; the end of 2099 leads back to the start of 2000.
    fn next(mut self) -> Clock {
        self.second += 1;
        if self.second == 60 {
            self.second = 0;
            self.minute += 1;
        }
        if self.minute == 60 {
            self.minute = 0;
            self.hour += 1;
        }
        if self.hour == 24 {
            self.hour = 0;
            self.day += 1;
        }
        if self.day > days_in_month(self.year, self.month) {
            self.day = 1;
            self.month += 1;
        }
        if self.month == 13 {
            self.month = 1;
            self.year += 1;
        }
        if self.year == 2100 {
            self.year = 2000;
        }
        self
    }

    /// Days since 2000-01-01, a Saturday.
    fn days(&self) -> u32 {
        let mut days = u32::from(self.day) - 1;
        for year in 2000..self.year {
            for month in 1..=12 {
                days += u32::from(days_in_month(year, month));
            }
        }
        for month in 1..self.month {
            days += u32::from(days_in_month(self.year, month));
        }
        days
    }

    pub fn saturday(&self) -> bool {
        self.days().is_multiple_of(7)
    }

    pub fn sunday(&self) -> bool {
        self.days() % 7 == 1
    }
}

impl Period {
    /// A real date in 2000 to 2099 with hour and minute.
    pub fn has_moment(&self) -> bool {
        let closed = Clock {
            year: self.year,
            month: self.month,
            day: self.day,
            hour: self.hour,
            minute: self.minute,
            second: 0,
        };
        closed.is_real()
    }
}

impl Answer {
    /// A call that is turned away before anything happens.
    fn turned_away(number: u8) -> Answer {
        Answer {
            number,
            speed: 0,
            length: 0,
            place: 0,
        }
    }
}

impl Step {
    fn quiet(number: u8) -> Step {
        Step {
            number,
            place: 0,
            reply: None,
        }
    }

    fn reply(number: u8, speed: u8, characters: &[u8]) -> Step {
        Step {
            number,
            place: 0,
            reply: Some((speed, characters.to_vec())),
        }
    }
}

impl Meter {
    /// The blank state: zeros, ten spaces and the first second of 2000.
    pub fn blank() -> Meter {
        Meter {
            mode: LISTENING,
            count: 0,
            mark: 0,
            place: 0,
            held: [0; PLACES],
            serial: *b"0000000000",
            account: *b"          ",
            password: *b"00000000",
            attempts: 0,
            speed: 0,
            clock: Clock::FIRST,
            counters: [0; 4],
            total: 0,
            exported: [0; 4],
            exported_total: 0,
            tables: rows(24),
            closed: 0,
            periods: [Period::default(); PERIODS],
            link: OPTICAL,
            edition: 1,
            decimals: 0,
        }
    }

    /// A new state from the factory's facts, with 1; or the blank state, with 16 for an edition, then
    /// 18 for decimals that there are none of, then 15.
    pub fn new(
        serial: [u8; 10],
        account: [u8; 10],
        password: [u8; 8],
        clock: Clock,
        kind: [u8; 3],
    ) -> (u8, Meter) {
        let [edition, link, decimals] = kind;
        let mut meter = Meter {
            serial,
            account,
            password,
            clock,
            link,
            edition,
            decimals,
            ..Meter::blank()
        };
        let Some(tables) = tables_of(edition) else {
            return (NO_EDITION, Meter::blank());
        };
        if !meter.has_family() {
            return (NO_DECIMALS, Meter::blank());
        }
        meter.tables = rows(tables.into());
        meter.enter(LISTENING);
        match meter.facts_good() {
            true => (1, meter),
            false => (15, Meter::blank()),
        }
    }

    /// Whether it is of an edition that there is.
    pub fn has_edition(&self) -> bool {
        tables_of(self.edition).is_some()
    }

    /// Whether its decimals are those of some family.
    fn has_family(&self) -> bool {
        matches!(self.decimals, 0 | 2 | 3 | 4)
    }

    /// The directions that it counts.
    fn ways(&self) -> &'static [Way] {
        match self.decimals {
            0 => &[Way::In],
            _ => &[Way::In, Way::Out],
        }
    }

    /// What its counters and totals stay below.
    pub fn counter_end(&self) -> u32 {
        match self.decimals {
            0 => COUNTER_END,
            _ => EQM_END,
        }
    }

    /// Whether these are counters of a direction: those of one that is not counted are zeros.
    fn counters_good(&self, way: Way, counters: &[u32; 4]) -> bool {
        let counted = self.ways().contains(&way);
        let end = if counted { self.counter_end() } else { 1 };
        counters.iter().all(|&counter| counter < end)
    }

    /// How many tables it has.
    fn table_count(&self) -> usize {
        tables_of(self.edition).map_or(0, usize::from)
    }

    /// The table, counted from 0, that two digits name.
    fn table_named(&self, digits: &[u8]) -> Option<usize> {
        let xx = usize::from(number(digits)?);
        (1..=self.table_count()).contains(&xx).then(|| xx - 1)
    }

    /// The speed outside a session: the wired link has one speed for everything.
    fn rest(&self) -> u8 {
        if self.link == WIRED {
            5
        } else {
            0
        }
    }

    fn facts_good(&self) -> bool {
        self.serial.iter().all(u8::is_ascii_digit)
            && self
                .account
                .iter()
                .all(|&character| account_character(character))
            && self.password.iter().all(u8::is_ascii_digit)
            && self.clock.is_real()
            && (self.link == OPTICAL || self.link == WIRED)
    }

    fn receiver_good(&self) -> bool {
        let (most, first) = match self.mode {
            LISTENING => (31, Some(b'/')),
            CONFIRMATION => (5, None),
            _ => (63, Some(SOH)),
        };
        let count = usize::from(self.count);
        if count > most {
            return false;
        }
        let (held, unused) = self.held.split_at(count);
        held.iter().all(|&character| character <= 127)
            && unused.iter().all(|&place| place == 0)
            && self.mark <= u8::from(count > 0)
            && match self.mark {
                0 => self.place == 0,
                _ => self.place < self.count,
            }
            && (count == 0 || first.is_none() || first == Some(held[0]))
    }

    /// Every range of the page holds.
    pub fn well_formed(&self) -> bool {
        self.mode <= PROGRAMMING
            && self.receiver_good()
            && self.facts_good()
            && self.attempts <= 3
            && (self.speed == self.rest() || self.speed == 5 && self.mode > CONFIRMATION)
            && self.has_family()
            && self.counters_good(Way::In, &self.counters)
            && self.counters_good(Way::Out, &self.exported)
            && self.total == total_of(&self.counters, self.counter_end())
            && self.exported_total == total_of(&self.exported, self.counter_end())
            && self.tables_good()
            && self.archive_good()
    }

    /// The edition's rows name zones, and the room behind them holds zeros.
    fn tables_good(&self) -> bool {
        let (rows, unused) = self.tables.split_at(self.table_count());
        self.has_edition()
            && rows.iter().flatten().all(|&zone| zone_character(zone))
            && unused.iter().flatten().all(|&place| place == 0)
    }

    fn archive_good(&self) -> bool {
        let closed = usize::from(self.closed);
        closed <= PERIODS
            && self.periods[..closed].iter().all(|period| {
                period.has_moment()
                    && self.counters_good(Way::In, &period.counters)
                    && self.counters_good(Way::Out, &period.exported)
            })
            && self.periods[closed..]
                .iter()
                .all(|unused| *unused == Period::default())
    }

    /// Closes a period at the clock as it is; a thirteenth pushes out the oldest.
    fn close(&mut self) {
        let Clock {
            year,
            month,
            day,
            hour,
            minute,
            ..
        } = self.clock;
        self.periods.rotate_right(1);
        self.periods[0] = Period {
            year,
            month,
            day,
            hour,
            minute,
            counters: self.counters,
            exported: self.exported,
        };
        if usize::from(self.closed) < PERIODS {
            self.closed += 1;
        }
    }

    /// The characters held, without the unused places.
    pub fn held(&self) -> &[u8] {
        &self.held[..usize::from(self.count)]
    }

    fn empty(&mut self) {
        self.count = 0;
        self.mark = 0;
        self.place = 0;
        self.held = [0; PLACES];
    }

    /// Holds one more character, a damaged one as 0 with the mark.
    fn hold(&mut self, got: Option<u8>) {
        self.watch(got);
        self.held[usize::from(self.count)] = got.unwrap_or(0);
        self.count += 1;
    }

    /// Marks damage of the character that comes behind those held; only the first says where.
    fn watch(&mut self, got: Option<u8>) {
        if got.is_none() && self.mark == 0 {
            self.mark = 1;
            self.place = self.count;
        }
    }

    fn restart(&mut self, first: u8) {
        self.empty();
        self.hold(Some(first));
    }

    /// Another mode; outside a session the speed is that of the link.
    fn enter(&mut self, mode: u8) {
        self.empty();
        self.mode = mode;
        if mode <= CONFIRMATION {
            self.speed = self.rest();
        }
    }

    /// A received character.
    pub fn character(&mut self, byte: u8, buffer: &mut [u8]) -> Answer {
        if !self.has_edition() {
            return Answer::turned_away(NO_EDITION);
        }
        if buffer.len() < ROOM {
            return Answer::turned_away(12);
        }
        if !self.well_formed() {
            return Answer::turned_away(14);
        }
        let got = data_bits(byte);
        let step = match self.mode {
            LISTENING => self.line_character(got),
            CONFIRMATION => self.confirmation_character(got),
            _ => self.frame_character(got),
        };
        self.answer(step, buffer)
    }

    /// A frame that comes whole: the character call at its last byte, if a frame is finished there and
    /// all bytes before it are answered 0.
    pub fn frame(&mut self, frame: &[u8], buffer: &mut [u8]) -> Answer {
        if !self.has_edition() {
            return Answer::turned_away(NO_EDITION);
        }
        if buffer.len() < ROOM {
            return Answer::turned_away(12);
        }
        if !self.well_formed() {
            return Answer::turned_away(14);
        }
        let none = Answer {
            speed: self.speed,
            ..Answer::turned_away(NO_FRAME)
        };
        let awaits = self.mode >= PASSWORD && self.count == 0;
        let starts = frame.first().and_then(|&first| data_bits(first)) == Some(SOH);
        let Some((&last, before)) = frame.split_last().filter(|_| awaits && starts) else {
            return none;
        };
        let mut next = self.clone();
        let mut nowhere = [0; ROOM];
        if before
            .iter()
            .any(|&byte| next.character(byte, &mut nowhere).number != 0)
        {
            return none;
        }
        let whole = next.held().last() == Some(&ETX);
        let mut sent = buffer.to_vec();
        let answer = next.character(last, &mut sent);
        if !whole && answer.number != 5 {
            return none;
        }
        *self = next;
        buffer.copy_from_slice(&sent);
        answer
    }

    /// Sends what there is to send; bytes past it are kept.
    fn answer(&self, step: Step, buffer: &mut [u8]) -> Answer {
        let Some((speed, characters)) = step.reply else {
            return Answer {
                number: step.number,
                speed: self.speed,
                length: 0,
                place: step.place,
            };
        };
        for (place, &character) in buffer.iter_mut().zip(&characters) {
            *place = with_parity(character);
        }
        Answer {
            number: step.number,
            speed,
            length: characters.len(),
            place: step.place,
        }
    }

    /// Mode 0.
    fn line_character(&mut self, got: Option<u8>) -> Step {
        if got == Some(b'/') {
            self.restart(b'/');
        } else if self.count == 0 {
            // Dropped, damaged or not.
        } else if got == Some(LF) {
            let line = [self.held(), &[LF]].concat();
            let unmarked = self.mark == 0;
            let closing = unmarked && self.link == OPTICAL && line == CLOSING_SIGN_ON;
            let called = unmarked && self.called_by(&line);
            self.empty();
            if closing {
                self.close();
            }
            if called || closing {
                self.enter(CONFIRMATION);
                let answer = match self.link {
                    WIRED => wired('g', &self.serial),
                    _ => format!("/ZZZ5SUB-VP0{}.00*\r\n", self.edition).into_bytes(),
                };
                return Step::reply(1, self.rest(), &answer);
            }
        } else if self.count == 31 {
            self.empty();
        } else {
            self.hold(got);
        }
        Step::quiet(0)
    }

    fn called_by(&self, line: &[u8]) -> bool {
        if self.link == WIRED {
            return line == wired('A', &self.serial) || line == wired('A', b"0000000000");
        }
        let ours = format!("/?{}!\r\n", self.shown_serial());
        line == SIGN_ON || line == ZERO_SIGN_ON || line == ours.as_bytes()
    }

    /// Mode 1.
    fn confirmation_character(&mut self, got: Option<u8>) -> Step {
        self.hold(got);
        if self.count < 6 {
            return Step::quiet(0);
        }
        let wanted = match self.held() {
            [ACK, b'0', b'0', choice, CR, LF] if self.mark == 0 && self.link == OPTICAL => {
                Some((0, *choice))
            }
            [ACK, b'0', b'5', choice, CR, LF] if self.mark == 0 => Some((5, *choice)),
            _ => None,
        };
        self.enter(LISTENING);
        match wanted {
            Some((speed, b'0' | b'7')) => Step::reply(1, speed, &self.data_block()),
            Some((speed, b'6')) => Step::reply(1, speed, &self.block_with_periods()),
            Some((speed, b'1')) => {
                self.enter(PASSWORD);
                self.speed = speed;
                let mut frame = b"\x01P0\x02(0000)\x03".to_vec();
                frame.push(bcc(&frame[1..]));
                Step::reply(1, speed, &frame)
            }
            _ => Step::quiet(2),
        }
    }

    /// Modes 2 to 4.
    fn frame_character(&mut self, got: Option<u8>) -> Step {
        if self.held().last() == Some(&ETX) {
            // The BCC, whatever it is.
            self.watch(got);
            let frame = self.held().to_vec();
            let (speed, place) = (self.speed, self.place);
            let decision = self.decide(&frame, got.unwrap_or(0));
            self.empty();
            return match decision {
                Ok(reply) => Step::reply(1, speed, &reply),
                Err(number) => Step {
                    place: if number == 3 { place } else { 0 },
                    ..self.refuse(number)
                },
            };
        }
        if got == Some(SOH) {
            self.restart(SOH);
        } else if self.count == 0 {
            // Dropped, damaged or not.
        } else if self.count == 63 {
            return self.refuse(5);
        } else {
            self.hold(got);
        }
        Step::quiet(0)
    }

    /// NAK at the session's speed; mode 2 falls to mode 0. On the wired link nothing is said, and every
    /// mode falls.
    fn refuse(&mut self, number: u8) -> Step {
        if self.link == WIRED {
            self.enter(LISTENING);
            return Step::quiet(number);
        }
        let speed = self.speed;
        let mode = if self.mode == PASSWORD {
            LISTENING
        } else {
            self.mode
        };
        self.enter(mode);
        Step::reply(number, speed, &[NAK])
    }

    /// Decides a whole frame: the reply, or the number of its refusal.
    fn decide(&mut self, frame: &[u8], check: u8) -> Result<Vec<u8>, u8> {
        if self.mark == 1 {
            return Err(3);
        }
        if bcc(&frame[1..]) != check {
            return Err(4);
        }
        let (command, data) = match frame {
            [SOH, a, b, ETX] if printable(*a) && printable(*b) => ([*a, *b], None),
            [SOH, a, b, STX, data @ .., ETX]
                if printable(*a) && printable(*b) && data.iter().all(|&c| printable(c)) =>
            {
                ([*a, *b], Some(data))
            }
            _ => return Err(6),
        };
        match (&command, data, self.mode) {
            (b"B0", None, PASSWORD..=PROGRAMMING) => {
                self.enter(LISTENING);
                Ok(vec![ACK])
            }
            (b"P1", Some(data), PASSWORD) => self.password(data),
            (b"R1", Some(data), READ_ONLY | PROGRAMMING) => self.read(data),
            (b"W1", Some(data), PROGRAMMING) => self.write(data),
            (b"B0", None, _) | (b"P1" | b"R1" | b"W1", Some(_), _) => Err(8),
            _ => Err(7),
        }
    }

    fn password(&mut self, data: &[u8]) -> Result<Vec<u8>, u8> {
        match data {
            b"()" => self.enter(READ_ONLY),
            [b'(', given @ .., b')'] if given.len() == 8 && number_like(given) => {
                if self.attempts == 3 {
                    return Err(11);
                }
                if given != self.password {
                    self.attempts += 1;
                    return Err(10);
                }
                self.attempts = 0;
                self.enter(PROGRAMMING);
            }
            _ => return Err(9),
        }
        Ok(vec![ACK])
    }

    fn read(&self, data: &[u8]) -> Result<Vec<u8>, u8> {
        let lines = match data {
            b"T()" => self.time_line() + &self.date_line(),
            b"L()" => self.serial_line(),
            b"K()" => self.account_line(),
            [b'E', n @ b'0'..=b'4', b'(', b')'] => self.energy_line(Way::In, n - b'0'),
            [b'G', n @ b'0'..=b'4', b'(', b')'] if self.ways().contains(&Way::Out) => {
                self.energy_line(Way::Out, n - b'0')
            }
            [b'Z', b'(', xx @ .., b')'] if xx.len() == 2 => {
                self.table_line(self.table_named(xx).ok_or(9)?)
            }
            _ => return Err(9),
        };
        Ok(block(&lines))
    }

    fn write(&mut self, data: &[u8]) -> Result<Vec<u8>, u8> {
        match data {
            [b'T', b'(', rest @ .., b')'] => self.clock = clock_told(rest).ok_or(9)?,
            [b'K', b'(', account @ .., b')'] => {
                let account: [u8; 10] = account.try_into().map_err(|_| 9)?;
                if !account.iter().all(|&c| account_character(c)) {
                    return Err(9);
                }
                self.account = account;
            }
            [b'Z', b'(', tens, units, b';', row @ .., b')'] => {
                let table = self.table_named(&[*tens, *units]).ok_or(9)?;
                let row: [u8; 24] = row.try_into().map_err(|_| 9)?;
                if !row.iter().all(|&c| zone_character(c)) {
                    return Err(9);
                }
                self.tables[table] = row;
            }
            _ => return Err(9),
        }
        Ok(vec![ACK])
    }

    fn shown_serial(&self) -> String {
        text(&self.serial[..3]) + " " + &text(&self.serial[3..])
    }

    fn serial_line(&self) -> String {
        format!("C.1.0({})\r\n", self.shown_serial())
    }

    fn time_line(&self) -> String {
        let Clock {
            hour,
            minute,
            second,
            ..
        } = self.clock;
        format!("0.9.1({hour:02}:{minute:02}:{second:02})\r\n")
    }

    fn date_line(&self) -> String {
        let Clock {
            year, month, day, ..
        } = self.clock;
        format!("0.9.2({:02}-{month:02}-{day:02})\r\n", year % 100)
    }

    fn account_line(&self) -> String {
        format!("0.0.0({})\r\n", text(&self.account))
    }

    /// The first part of a line's address.
    fn name(&self, way: Way) -> &'static str {
        match (self.decimals, way) {
            (0, _) => "15",
            (_, Way::In) => "1",
            (_, Way::Out) => "2",
        }
    }

    /// A counter as its family shows it: `eeeeee.eee*kWh`, or eight digits with the decimals' point.
    fn energy_text(&self, count: u32) -> String {
        let (digits, behind) = match self.decimals {
            0 => (format!("{count:09}"), 3),
            decimals => (format!("{count:08}"), usize::from(decimals)),
        };
        let (whole, rest) = digits.split_at(digits.len() - behind);
        format!("{whole}.{rest}*kWh")
    }

    /// Zone 1 to 4 of a direction, or 0 for its total.
    fn energy_line(&self, way: Way, zone: u8) -> String {
        let (counters, total) = match way {
            Way::In => (&self.counters, self.total),
            Way::Out => (&self.exported, self.exported_total),
        };
        let count = match zone {
            0 => total,
            _ => counters[usize::from(zone) - 1],
        };
        format!(
            "{}.8.{zone}({})\r\n",
            self.name(way),
            self.energy_text(count)
        )
    }

    /// The lines of the period at a place, which is named from 01 on.
    fn period_lines(&self, place: usize) -> String {
        let Period {
            year,
            month,
            day,
            hour,
            minute,
            counters,
            exported,
        } = self.periods[place];
        let kk = place + 1;
        let yy = year % 100;
        let mut lines =
            format!("0.1.2*{kk:02}({yy:02}-{month:02}-{day:02} {hour:02}:{minute:02})\r\n");
        for &way in self.ways() {
            let counters = match way {
                Way::In => counters,
                Way::Out => exported,
            };
            for (zone, &count) in counters.iter().enumerate() {
                let (name, shown) = (self.name(way), self.energy_text(count));
                lines += &format!("{name}.8.{}*{kk:02}({shown})\r\n", zone + 1);
            }
        }
        lines
    }

    fn table_line(&self, table: usize) -> String {
        format!("131.0.{:02}({})\r\n", table + 1, text(&self.tables[table]))
    }

    /// Characters of the data block.
    pub fn block_length(&self) -> usize {
        let energy = match self.decimals {
            0 => 0,
            _ => EQM_LINES,
        };
        BLOCK + energy + TABLE_LINE * (self.table_count() - 24)
    }

    /// Characters that each of its closed periods adds.
    pub fn period_length(&self) -> usize {
        match self.decimals {
            0 => PERIOD_LINES,
            _ => EQM_PERIOD_LINES,
        }
    }

    /// The data block, BCC included.
    pub fn data_block(&self) -> Vec<u8> {
        block(&(self.register_lines() + "!\r\n"))
    }

    /// The data block with the closed periods after its tables, the newest first.
    pub fn block_with_periods(&self) -> Vec<u8> {
        let mut lines = self.register_lines();
        for place in 0..usize::from(self.closed) {
            lines += &self.period_lines(place);
        }
        block(&(lines + "!\r\n"))
    }

    /// Every register but the periods.
    fn register_lines(&self) -> String {
        let mut lines = self.serial_line();
        lines += &self.date_line();
        lines += &self.time_line();
        lines += &self.account_line();
        for &way in self.ways() {
            for zone in [1, 2, 3, 4, 0] {
                lines += &self.energy_line(way, zone);
            }
        }
        for table in 0..self.table_count() {
            lines += &self.table_line(table);
        }
        lines
    }

    /// Eight seconds of silence.
    pub fn silence(&mut self, buffer: &mut [u8]) -> Answer {
        if !self.has_edition() {
            return Answer::turned_away(NO_EDITION);
        }
        if buffer.len() < ROOM {
            return Answer::turned_away(12);
        }
        if !self.well_formed() {
            return Answer::turned_away(14);
        }
        let step = match self.mode {
            LISTENING => Step::quiet(0),
            CONFIRMATION if self.link == OPTICAL => Step::reply(1, 0, &[NAK]),
            _ => Step::quiet(1),
        };
        self.enter(LISTENING);
        self.answer(step, buffer)
    }

    /// One second of the clock; the one that reaches a first of the month closes a period.
    pub fn tick(&mut self) -> Answer {
        if !self.has_edition() {
            return Answer::turned_away(NO_EDITION);
        }
        if !self.well_formed() {
            return Answer::turned_away(14);
        }
        self.clock = self.clock.next();
        let Clock {
            day,
            hour,
            minute,
            second,
            ..
        } = self.clock;
        if (day, hour, minute, second) == (1, 0, 0, 0) {
            self.close();
        }
        Answer {
            number: 1,
            speed: self.speed,
            length: 0,
            place: 0,
        }
    }

    /// The power comes back.
    pub fn power_up(&mut self) -> Answer {
        if !self.has_edition() {
            return Answer::turned_away(NO_EDITION);
        }
        if !self.well_formed() {
            return Answer::turned_away(14);
        }
        self.enter(LISTENING);
        self.attempts = 0;
        Answer {
            number: 1,
            speed: self.speed,
            length: 0,
            place: 0,
        }
    }

    /// Energy of a direction, in units of the last place, counted in the zone that the clock and the
    /// tables name. What its family does not count is refused like a pulse that is too great.
    pub fn pulse(&mut self, way: Way, units: u32) -> Answer {
        if !self.has_edition() {
            return Answer::turned_away(NO_EDITION);
        }
        if units > PULSE_MOST || !self.ways().contains(&way) {
            return Answer::turned_away(13);
        }
        if !self.well_formed() {
            return Answer::turned_away(14);
        }
        let month = usize::from(self.clock.month);
        let (saturday, sunday) = (self.clock.saturday(), self.clock.sunday());
        let table = match self.edition {
            2 if saturday => 25,
            _ if saturday || sunday => 12 + month,
            _ => month,
        };
        let zone = self.tables[table - 1][usize::from(self.clock.hour)] - b'1';
        let end = self.counter_end();
        let (counters, total) = match way {
            Way::In => (&mut self.counters, &mut self.total),
            Way::Out => (&mut self.exported, &mut self.exported_total),
        };
        let counter = &mut counters[usize::from(zone)];
        *counter = (*counter + units) % end;
        *total = total_of(counters, end);
        Answer {
            number: 1,
            speed: self.speed,
            length: 0,
            place: 0,
        }
    }
}

/// A new meter's rows: so many with the first zone all day.
fn rows(count: usize) -> [[u8; 24]; ROWS] {
    let mut rows = [[0; 24]; ROWS];
    rows[..count].fill([b'1'; 24]);
    rows
}

/// What the total of these counters is, where counting starts again at an end.
pub fn total_of(counters: &[u32; 4], end: u32) -> u32 {
    let sum: u64 = counters.iter().map(|&count| u64::from(count)).sum();
    (sum % u64::from(end)) as u32
}

/// A line of the wired link: a letter and a serial.
fn wired(letter: char, serial: &[u8]) -> Vec<u8> {
    let (start, rest) = serial.split_at(3);
    format!("/{letter}{}.{}\r\n", text(start), text(rest)).into_bytes()
}

/// Nothing but digits.
fn number_like(characters: &[u8]) -> bool {
    characters.iter().all(u8::is_ascii_digit)
}

/// STX, the lines, ETX and BCC.
fn block(lines: &str) -> Vec<u8> {
    let mut block = [&[STX], lines.as_bytes(), &[ETX]].concat();
    block.push(bcc(&block[1..]));
    block
}

/// The clock of `dd-mm-yyyy;hh:nn:ss`, if there is such a moment in 2000 to 2099.
fn clock_told(told: &[u8]) -> Option<Clock> {
    let [d1, d2, b'-', m1, m2, b'-', y1, y2, y3, y4, b';', h1, h2, b':', n1, n2, b':', s1, s2] =
        told
    else {
        return None;
    };
    // Two digits fit any field of the clock.
    let pair = |tens: &u8, units: &u8| number(&[*tens, *units]).map(|value| value as u8);
    let clock = Clock {
        year: number(&[*y1, *y2, *y3, *y4])?,
        month: pair(m1, m2)?,
        day: pair(d1, d2)?,
        hour: pair(h1, h2)?,
        minute: pair(n1, n2)?,
        second: pair(s1, s2)?,
    };
    clock.is_real().then_some(clock)
}

#[cfg(test)]
mod tests;
