//! The trial's own trial: meters that are the model but for one fault.

use crate::{library, made, record_of, ruled, Answer, Facts, Firmware, Meter};
use model::meter::{
    data_bits, total_of, with_parity, Clock, Period, Way, EQM_END, ETX, NAK, OPTICAL, ROOM, SOH,
    WIRED,
};
use trials::words::wired_line;

#[derive(Clone, Copy, Debug, PartialEq, Eq)]
pub enum Fault {
    TakesAMarkOfTwo,
    MalformedBeforeRoom,
    RoomBeforeThePulse,
    KindSixIsATick,
    CharactersModulo256,
    WritesPastTheReply,
    WritesARefusal,
    EmptiesARefusedRecord,
    LengthOfARefusal,
    SpeedOfTheOldState,
    KeepsTheMark,
    TakesADamagedBcc,
    OnlyAcknowledgesARow,
    WritesTheNextRow,
    CountsInTheNextHour,
    StopsAtTheEnd,
    CountsAPulseTooMuch,
    LosesTheLeapDay,
    StaysInDecember,
    KeepsAttempts,
    SilenceWithoutNak,
    SilenceKeepsTheLine,
    BadFactsKeepTheRecord,
    MakesOfShortFacts,
    MakesOfAnyClock,
    ChecksNoTable,
    ChecksNoTotal,
    KeepsTheTotal,
    RunsTheTotalOn,
    TickNeedsRoom,
    PlaceOfTheLast,
    PlaceFromTheFirstByte,
    KeepsThePlace,
    NoPlaceForTheBcc,
    PlaceWithEveryNumber,
    TakesAPlaceBehind,
    ClosesASecondLate,
    ClosesEveryMidnight,
    ClosesAtAWrite,
    KeepsTheOldestFirst,
    SetsCountersBack,
    ClosesByAMarkedLine,
    DropsTheNewest,
    SixIsThePlainBlock,
    ChecksNoPeriod,
    NakOnTheWire,
    AnswersThePlainSignOn,
    KeepsItsModeOnTheWire,
    AnswersZerosWithZeros,
    WakesAt300OnTheWire,
    HasOneEdition,
    SaturdayIsAWeekend,
    SundayIsASaturday,
    SaturdayOfEdition1,
    ShowsTwentyFourTables,
    WritesTable25OfEdition1,
    RefusesTable25,
    MalformedForAnEdition,
    RoomBeforeTheEdition,
    NoEventBeforeTheEdition,
    ChecksNoRow25,
    MakesNoRow25,
    DecimalsBeforeTheEdition,
    CountsOutAsIn,
    CountsOutOfNone,
    MalformedBeforeThePulseOut,
    CountsAPulseOutTooMuch,
    PointOfTwoForThree,
    RollsOverALateDigit,
    OneTotalForBoth,
    KeepsTheTotalOut,
    AnswersGInDocument01sFamily,
    AnswersGWithE,
    ChecksNoFamily,
    ChecksNoExport,
    ChecksNoExportOfAPeriod,
    ClosesFourCounters,
    FactsBeforeDecimals,
    MakesOfFiveDecimals,
}

pub const FAULTS: [Fault; 79] = [
    Fault::TakesAMarkOfTwo,
    Fault::MalformedBeforeRoom,
    Fault::RoomBeforeThePulse,
    Fault::KindSixIsATick,
    Fault::CharactersModulo256,
    Fault::WritesPastTheReply,
    Fault::WritesARefusal,
    Fault::EmptiesARefusedRecord,
    Fault::LengthOfARefusal,
    Fault::SpeedOfTheOldState,
    Fault::KeepsTheMark,
    Fault::TakesADamagedBcc,
    Fault::OnlyAcknowledgesARow,
    Fault::WritesTheNextRow,
    Fault::CountsInTheNextHour,
    Fault::StopsAtTheEnd,
    Fault::CountsAPulseTooMuch,
    Fault::LosesTheLeapDay,
    Fault::StaysInDecember,
    Fault::KeepsAttempts,
    Fault::SilenceWithoutNak,
    Fault::SilenceKeepsTheLine,
    Fault::BadFactsKeepTheRecord,
    Fault::MakesOfShortFacts,
    Fault::MakesOfAnyClock,
    Fault::ChecksNoTable,
    Fault::ChecksNoTotal,
    Fault::KeepsTheTotal,
    Fault::RunsTheTotalOn,
    Fault::TickNeedsRoom,
    Fault::PlaceOfTheLast,
    Fault::PlaceFromTheFirstByte,
    Fault::KeepsThePlace,
    Fault::NoPlaceForTheBcc,
    Fault::PlaceWithEveryNumber,
    Fault::TakesAPlaceBehind,
    Fault::ClosesASecondLate,
    Fault::ClosesEveryMidnight,
    Fault::ClosesAtAWrite,
    Fault::KeepsTheOldestFirst,
    Fault::SetsCountersBack,
    Fault::ClosesByAMarkedLine,
    Fault::DropsTheNewest,
    Fault::SixIsThePlainBlock,
    Fault::ChecksNoPeriod,
    Fault::NakOnTheWire,
    Fault::AnswersThePlainSignOn,
    Fault::KeepsItsModeOnTheWire,
    Fault::AnswersZerosWithZeros,
    Fault::WakesAt300OnTheWire,
    Fault::HasOneEdition,
    Fault::SaturdayIsAWeekend,
    Fault::SundayIsASaturday,
    Fault::SaturdayOfEdition1,
    Fault::ShowsTwentyFourTables,
    Fault::WritesTable25OfEdition1,
    Fault::RefusesTable25,
    Fault::MalformedForAnEdition,
    Fault::RoomBeforeTheEdition,
    Fault::NoEventBeforeTheEdition,
    Fault::ChecksNoRow25,
    Fault::MakesNoRow25,
    Fault::DecimalsBeforeTheEdition,
    Fault::CountsOutAsIn,
    Fault::CountsOutOfNone,
    Fault::MalformedBeforeThePulseOut,
    Fault::CountsAPulseOutTooMuch,
    Fault::PointOfTwoForThree,
    Fault::RollsOverALateDigit,
    Fault::OneTotalForBoth,
    Fault::KeepsTheTotalOut,
    Fault::AnswersGInDocument01sFamily,
    Fault::AnswersGWithE,
    Fault::ChecksNoFamily,
    Fault::ChecksNoExport,
    Fault::ChecksNoExportOfAPeriod,
    Fault::ClosesFourCounters,
    Fault::FactsBeforeDecimals,
    Fault::MakesOfFiveDecimals,
];

pub struct Wrong {
    meter: Meter,
    fault: Option<Fault>,
    /// Characters received, and how many before the frame at hand began.
    received: usize,
    begun: usize,
    /// The seven bits of what came since the last '/', damaged or not.
    said: Vec<u8>,
}

impl Wrong {
    /// The model itself, which must pass.
    pub fn right() -> Wrong {
        Wrong {
            meter: Meter::blank(),
            fault: None,
            received: 0,
            begun: 0,
            said: Vec::new(),
        }
    }

    pub fn with(fault: Fault) -> Wrong {
        Wrong {
            meter: Meter::blank(),
            fault: Some(fault),
            received: 0,
            begun: 0,
            said: Vec::new(),
        }
    }

    /// A period closed at the clock as it is.
    fn close(&mut self) {
        let Clock {
            year,
            month,
            day,
            hour,
            minute,
            ..
        } = self.meter.clock;
        self.meter.periods.rotate_right(1);
        self.meter.periods[0] = Period {
            year,
            month,
            day,
            hour,
            minute,
            counters: self.meter.counters,
            exported: self.meter.exported,
        };
        self.meter.closed = (self.meter.closed + 1).min(12);
    }

    /// What the fault makes of the archive, after the model had the event.
    fn misfiled(&mut self, before: &Meter, kind: u8, answer: &mut Answer, reply: &mut [u8]) {
        let Clock {
            day,
            hour,
            minute,
            second,
            ..
        } = self.meter.clock;
        let now = (hour, minute, second);
        let meter = &mut self.meter;
        let closed = meter.closed != before.closed || meter.periods != before.periods;
        let kept = usize::from(meter.closed);
        let done = answer.number == 1;
        match self.fault {
            Some(Fault::ClosesASecondLate) if kind == 2 && done && closed => {
                (meter.closed, meter.periods) = (before.closed, before.periods);
            }
            Some(Fault::ClosesASecondLate) if kind == 2 && done && (day, now) == (1, (0, 0, 1)) => {
                self.close();
            }
            Some(Fault::ClosesEveryMidnight)
                if kind == 2 && done && !closed && now == (0, 0, 0) =>
            {
                self.close();
            }
            Some(Fault::ClosesAtAWrite)
                if kind == 0 && meter.clock != before.clock && (day, now) == (1, (0, 0, 0)) =>
            {
                self.close();
            }
            Some(Fault::KeepsTheOldestFirst) if closed => meter.periods[..kept].rotate_left(1),
            Some(Fault::SetsCountersBack) if closed => {
                (meter.counters, meter.total) = ([0; 4], 0);
            }
            Some(Fault::ClosesByAMarkedLine)
                if kind == 0 && before.mode == 0 && before.mark == 1 && self.said == b"/C!\r\n" =>
            {
                self.close();
            }
            Some(Fault::DropsTheNewest) if closed && before.closed == 12 => {
                meter.periods = before.periods;
            }
            Some(Fault::ClosesFourCounters) if closed => meter.periods[0].exported = [0; 4],
            Some(Fault::SixIsThePlainBlock)
                if before.well_formed() && answer.length > before.block_length() =>
            {
                for (place, character) in reply.iter_mut().zip(before.data_block()) {
                    *place = with_parity(character);
                }
                answer.length = before.block_length();
            }
            _ => {}
        }
    }

    /// What the fault makes of the event, before the model has it.
    fn turned(&self, kind: u8, value: u32, room: usize) -> Result<(u8, u32), u8> {
        let good = self.meter.well_formed();
        if !self.meter.has_edition() {
            return match self.fault {
                Some(Fault::MalformedForAnEdition) => Err(14),
                Some(Fault::RoomBeforeTheEdition) if kind < 2 && room < ROOM => Err(12),
                Some(Fault::NoEventBeforeTheEdition) if kind > 5 => Err(library::NO_EVENT),
                _ => Ok((kind, value)),
            };
        }
        match self.fault {
            Some(Fault::MalformedBeforeRoom) if kind < 2 && !good && room < ROOM => Err(14),
            Some(Fault::RoomBeforeThePulse) if kind == 3 && room < 1 => Err(12),
            Some(Fault::TickNeedsRoom) if kind == 2 && room < ROOM => Err(12),
            Some(Fault::KindSixIsATick) if kind == 6 => Ok((2, value)),
            Some(Fault::CharactersModulo256) if kind == 0 => Ok((0, value % 256)),
            Some(Fault::CountsAPulseTooMuch) if kind == 3 && value == 1_000_001 => {
                Ok((3, 1_000_000))
            }
            Some(Fault::CountsAPulseOutTooMuch) if kind == 5 && value == 1_000_001 => {
                Ok((5, 1_000_000))
            }
            Some(Fault::CountsOutAsIn) if kind == 5 && self.meter.decimals != 0 => Ok((3, value)),
            Some(Fault::CountsOutOfNone) if kind == 5 && self.meter.decimals == 0 => Ok((3, value)),
            Some(Fault::MalformedBeforeThePulseOut) if kind == 5 && !good => Err(14),
            _ => Ok((kind, value)),
        }
    }
}

fn refused(number: u8) -> Answer {
    Answer {
        number,
        speed: 0,
        length: 0,
        place: 0,
    }
}

impl Firmware for Wrong {
    fn make(&mut self, facts: &Facts) -> u8 {
        let mut given = facts.clone();
        match self.fault {
            Some(Fault::MakesOfShortFacts) if given.serial.len() == 9 => given.serial.push(b'0'),
            Some(Fault::MakesOfAnyClock) if given.clock.second == 60 => given.clock.second = 59,
            _ => {}
        }
        let none = !matches!(given.kind[2], 0 | 2 | 3 | 4);
        if self.fault == Some(Fault::DecimalsBeforeTheEdition) && none {
            given.kind[0] = 1;
        }
        if self.fault == Some(Fault::MakesOfFiveDecimals) && given.kind[2] == 5 {
            given.kind[2] = 4;
        }
        if self.fault == Some(Fault::FactsBeforeDecimals) && none {
            let (number, meter) = made(&Facts {
                kind: [given.kind[0], given.kind[1], 0],
                ..given.clone()
            });
            if number == 15 {
                self.meter = meter;
                return number;
            }
        }
        let (number, mut meter) = made(&given);
        if self.fault == Some(Fault::MakesNoRow25) {
            meter.tables[24] = [0; 24];
        }
        if number == 1 || self.fault != Some(Fault::BadFactsKeepTheRecord) {
            self.meter = meter;
        }
        number
    }

    fn put(&mut self, meter: &Meter) {
        self.meter = meter.clone();
    }

    fn check(&mut self) -> u8 {
        let mut meter = self.meter.clone();
        if self.fault == Some(Fault::ChecksNoTable) {
            meter.tables[..24].fill([b'1'; 24]);
        }
        if self.fault == Some(Fault::ChecksNoPeriod) {
            meter.closed = 0;
            meter.periods = Meter::blank().periods;
        }
        if self.fault == Some(Fault::ChecksNoTotal) {
            meter.total = total_of(&meter.counters, meter.counter_end());
        }
        let family = matches!(meter.decimals, 0 | 2 | 3 | 4);
        if self.fault == Some(Fault::ChecksNoFamily) && !family {
            meter.decimals = 0;
        }
        if self.fault == Some(Fault::ChecksNoExport) && meter.decimals == 0 {
            (meter.exported, meter.exported_total) = ([0; 4], 0);
        }
        if self.fault == Some(Fault::ChecksNoExportOfAPeriod) && meter.decimals == 0 {
            for period in &mut meter.periods {
                period.exported = [0; 4];
            }
        }
        if self.fault == Some(Fault::ChecksNoRow25) && meter.edition == 1 {
            meter.tables[24] = [0; 24];
        }
        match (meter.has_edition(), meter.well_formed()) {
            (false, _) => 16,
            (true, true) => 1,
            (true, false) => 14,
        }
    }

    fn total(&mut self) -> (u8, u32) {
        match self.check() {
            1 => (1, self.meter.total),
            number => (number, 0),
        }
    }

    fn meet(&mut self, kind: u8, value: u32, reply: &mut [u8]) -> Answer {
        let before = self.meter.clone();
        let (kind, value) = match self.turned(kind, value, reply.len()) {
            Ok(turned) => turned,
            Err(number) => return refused(number),
        };
        if self.fault == Some(Fault::TakesAMarkOfTwo) && self.meter.mark == 2 {
            self.meter.mark = 1;
            if !self.meter.well_formed() {
                self.meter.mark = 2;
            }
        }
        if self.fault == Some(Fault::TakesAPlaceBehind) && self.meter.place == self.meter.count {
            self.meter.place -= u8::from(self.meter.mark == 1);
            if !self.meter.well_formed() {
                self.meter = before.clone();
            }
        }
        let frame_ends = before.well_formed() && before.held().last() == Some(&ETX);
        let damaged = kind == 0 && data_bits(value as u8).is_none();
        if self.fault == Some(Fault::TakesADamagedBcc) && frame_ends && damaged {
            let good = u32::from(with_parity(value as u8 & 0x7F));
            return ruled(&mut self.meter, kind, good, reply);
        }
        if kind == 0 {
            let character = value as u8 & 0x7F;
            if character == b'/' {
                self.said.clear();
            }
            self.said.push(character);
        }
        let wired = before.well_formed() && before.link == WIRED;
        let line = match before.mode {
            0 if kind == 0 && value == 0x0A => [before.held(), b"\n"].concat(),
            _ => Vec::new(),
        };
        let (first, second) = (before.edition == 1, before.edition == 2);
        let on = before.clock;
        let good = before.well_formed();
        // The edition that it takes itself for, and the day that it takes for another.
        let edition = match self.fault {
            Some(Fault::HasOneEdition) if second && good && before.mode == 0 => 1,
            Some(Fault::SaturdayIsAWeekend) if second && good && kind == 3 => 1,
            Some(Fault::ShowsTwentyFourTables) if second && good && before.mode == 1 => 1,
            Some(Fault::RefusesTable25) if second && good && before.mode > 2 => 1,
            Some(Fault::SaturdayOfEdition1) if first && good && kind == 3 => 2,
            Some(Fault::WritesTable25OfEdition1) if first && good && before.mode == 4 => 2,
            _ => before.edition,
        };
        if edition != before.edition {
            self.meter.edition = edition;
            self.meter.tables[24] = [if edition == 2 { b'1' } else { 0 }; 24];
        }
        let point = self.fault == Some(Fault::PointOfTwoForThree) && good && before.decimals == 3;
        if point {
            self.meter.decimals = 2;
        }
        let exports = frame_ends && before.held().starts_with(b"\x01R1\x02G") && !damaged;
        let g_as_e = match self.fault {
            Some(Fault::AnswersGInDocument01sFamily) => exports && before.decimals == 0,
            Some(Fault::AnswersGWithE) => exports && before.decimals != 0,
            _ => false,
        };
        let mut value = value;
        if g_as_e && kind == 0 && reply.len() >= ROOM {
            // The same question with the other letter, which its BCC agrees to.
            self.meter.held[4] = b'E';
            value = with_parity((value as u8 & 0x7F) ^ b'E' ^ b'G').into();
        }
        let sunday = self.fault == Some(Fault::SundayIsASaturday) && kind == 3 && second && good;
        if sunday && on.sunday() {
            let month = usize::from(on.month);
            self.meter.tables[month + 11] = before.tables[24];
        }
        let mut answer = ruled(&mut self.meter, kind, value, reply);
        if point {
            self.meter.decimals = 3;
        }
        if edition != before.edition || sunday {
            self.meter.edition = before.edition;
            let spare = self.meter.tables[24];
            let kept = spare == [0; 24] || spare == [b'1'; 24];
            if kept || second {
                self.meter.tables[24] = before.tables[24];
            }
            if sunday {
                self.meter.tables = before.tables;
            }
        }
        let restarted = kind == 0 && value as u8 == SOH | 0x80 && self.meter.count == 1;
        if restarted {
            self.begun = self.received;
        }
        self.received += 1;
        self.misfiled(&before, kind, &mut answer, reply);
        let row = self.meter.tables != before.tables;
        let days = (before.clock.day, self.meter.clock.day);
        let leaps = kind == 2 && self.meter.clock.month == 2 && days == (28, 29);
        match self.fault {
            Some(Fault::WritesPastTheReply) if answer.length > 0 => {
                reply[answer.length] = !reply[answer.length];
            }
            Some(Fault::WritesARefusal) if answer.number == 14 && !reply.is_empty() => {
                reply[0] = !reply[0];
            }
            Some(Fault::EmptiesARefusedRecord) if answer.number == 14 => {
                self.meter.held[62] = 0;
                self.meter.count = 0;
            }
            Some(Fault::LengthOfARefusal) if answer.number == 12 => answer.length = 1,
            Some(Fault::NakOnTheWire) if wired && (3..=11).contains(&answer.number) => {
                reply[0] = with_parity(NAK);
                answer.length = 1;
            }
            Some(Fault::AnswersThePlainSignOn) if wired && line == b"/?!\r\n" => {
                let mut optical = Meter {
                    link: OPTICAL,
                    speed: 0,
                    ..before.clone()
                };
                answer = ruled(&mut optical, kind, value, reply);
            }
            Some(Fault::KeepsItsModeOnTheWire) if wired && (3..=11).contains(&answer.number) => {
                self.meter.mode = before.mode.max(3);
            }
            Some(Fault::AnswersZerosWithZeros)
                if wired && line == wired_line(b'A', b"0000000000") && answer.length == 15 =>
            {
                let zeros = wired_line(b'g', b"0000000000");
                for (place, character) in reply.iter_mut().zip(zeros) {
                    *place = with_parity(character);
                }
            }
            Some(Fault::WakesAt300OnTheWire) if wired && kind == 4 => self.meter.speed = 0,
            Some(Fault::SpeedOfTheOldState) if answer.number == 1 => answer.speed = before.speed,
            Some(Fault::KeepsTheMark) if kind == 0 && value as u8 == SOH | 0x80 => {
                self.meter.mark = u8::from(self.meter.count > 0) & before.mark;
            }
            Some(Fault::PlaceOfTheLast) if damaged && self.meter.mark == 1 => {
                self.meter.place = before.count;
            }
            Some(Fault::PlaceFromTheFirstByte) if answer.number == 3 => {
                answer.place = answer.place.wrapping_add(self.begun as u8);
            }
            Some(Fault::KeepsThePlace) if restarted => self.meter.place = before.place,
            Some(Fault::NoPlaceForTheBcc) if frame_ends && damaged && before.mark == 0 => {
                answer.place = 0;
            }
            Some(Fault::PlaceWithEveryNumber) if answer.number < 12 => answer.place = before.place,
            Some(Fault::OnlyAcknowledgesARow) if row => self.meter.tables = before.tables,
            Some(Fault::WritesTheNextRow) if row => self.meter.tables.rotate_right(1),
            Some(Fault::CountsInTheNextHour) if kind == 3 && answer.number == 1 => {
                self.meter = before;
                let hour = self.meter.clock.hour;
                self.meter.clock.hour = (hour + 1) % 24;
                answer = self.meter.pulse(Way::In, value);
                self.meter.clock.hour = hour;
            }
            Some(Fault::StopsAtTheEnd) if kind == 3 => {
                let end = before.counter_end();
                for (after, before) in self.meter.counters.iter_mut().zip(before.counters) {
                    if *after < before {
                        *after = end - 1;
                    }
                }
            }
            Some(Fault::KeepsTheTotal) if kind == 3 => self.meter.total = before.total,
            Some(Fault::RunsTheTotalOn) if kind == 3 && self.meter.total < before.total => {
                self.meter.total += before.counter_end();
            }
            Some(Fault::KeepsTheTotalOut) if kind == 5 => {
                self.meter.exported_total = before.exported_total;
            }
            Some(Fault::OneTotalForBoth) if kind == 5 && answer.number == 1 => {
                self.meter.total = (before.total + value) % EQM_END;
            }
            Some(Fault::RollsOverALateDigit) if before.decimals != 0 => {
                for (after, before) in self.meter.exported.iter_mut().zip(before.exported) {
                    if *after < before {
                        *after += EQM_END;
                    }
                }
            }
            Some(Fault::LosesTheLeapDay) if leaps => {
                self.meter.clock.month = 3;
                self.meter.clock.day = 1;
            }
            Some(Fault::StaysInDecember)
                if kind == 2 && self.meter.clock.year != before.clock.year =>
            {
                self.meter.clock = before.clock;
            }
            Some(Fault::KeepsAttempts) if kind == 4 => self.meter.attempts = before.attempts,
            Some(Fault::SilenceWithoutNak) if kind == 1 && answer.length == 1 => {
                reply[0] = 0;
            }
            Some(Fault::SilenceKeepsTheLine) if kind == 1 && before.mode == 0 => {
                self.meter = before;
            }
            _ => {}
        }
        answer
    }

    fn record(&self) -> library::Meter {
        record_of(&self.meter)
    }
}
