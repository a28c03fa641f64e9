//! The meter, as `dirgemist_meter.h` has it: a record that the caller keeps and lends with every
//! event.
//!
//! ```
//! use dirgemist::meter::{Clock, Date, Event, Kind, Meter, Time, REPLY_ROOM};
//! let clock = Clock { date: Date { year: 2024, month: 2, day: 29 }, time: Time { hour: 23, minute: 5, second: 9 } };
//! let (number, mut meter) = Meter::make(b"1234567890", b"Kiln_7 old", b"20304050", clock, Kind::default());
//! assert_eq!((number, meter.check()), (1, 1));
//! let mut reply = [0; REPLY_ROOM];
//! for byte in [0xAF, 0x3F, 0x21, 0x8D] {
//!     assert_eq!(meter.meet(Event::Character(byte), &mut reply).number, 0);
//! }
//! let answer = meter.meet(Event::Character(0x0A), &mut reply);
//! assert_eq!((answer.number, answer.length, answer.speed), (1, 19, 0));
//! ```

use crate::{UNWRITTEN, UNWRITTEN_BYTE};
use std::mem::MaybeUninit;

/// The least room of a reply buffer.
pub const REPLY_ROOM: usize = 4_096;
/// The number of an event that is none.
pub const NO_EVENT: u8 = 99;

/// A date; the year has all four digits.
#[repr(C)]
#[derive(Clone, Copy, Debug, PartialEq, Eq)]
pub struct Date {
    pub year: u16,
    pub month: u8,
    pub day: u8,
}

/// A time of day.
#[repr(C)]
#[derive(Clone, Copy, Debug, PartialEq, Eq)]
pub struct Time {
    pub hour: u8,
    pub minute: u8,
    pub second: u8,
}

/// The meter's clock.
#[repr(C)]
#[derive(Clone, Copy, Debug, PartialEq, Eq)]
pub struct Clock {
    pub date: Date,
    pub time: Time,
}

/// What was received of a line or frame so far: 0 from `count` on, which is 63 at most; `mark` is 1 where one of them came
/// damaged, and `place` is then that of the first such one, else 0.
#[repr(C)]
#[derive(Clone, Copy, Debug, PartialEq, Eq)]
pub struct Receiver {
    pub count: u8,
    pub held: [u8; 64],
    pub mark: u8,
    pub place: u8,
}

/// What a meter keeps for life.
#[repr(C)]
#[derive(Clone, Copy, Debug, PartialEq, Eq)]
pub struct Facts {
    pub serial: [u8; 10],
    pub password: [u8; 8],
    pub kind: Kind,
}

/// Which meter it is: edition, link, and the decimals of an EQM meter, 2, 3 or 4, or 0 for a meter
/// that counts Wh and only what comes in.
#[repr(C)]
#[derive(Clone, Copy, Debug, PartialEq, Eq)]
pub struct Kind {
    pub edition: u8,
    pub link: u8,
    pub decimals: u8,
}

impl Default for Kind {
    fn default() -> Kind {
        Kind {
            edition: 1,
            link: 1,
            decimals: 0,
        }
    }
}

/// The zones' counters of one direction in units of the last place, and their sum modulo
/// 1,000,000,000, of an EQM meter modulo 100,000,000.
#[repr(C)]
#[derive(Clone, Copy, Debug, PartialEq, Eq)]
pub struct Counters {
    pub zones: [u32; 4],
    pub total: u32,
}

/// When a period was closed: no second.
#[repr(C)]
#[derive(Clone, Copy, Debug, PartialEq, Eq)]
pub struct Stamp {
    pub date: Date,
    pub hour: u8,
    pub minute: u8,
}

/// A closed period: when it was closed, and the zones' counters as they stood, of either direction.
#[repr(C)]
#[derive(Clone, Copy, Debug, PartialEq, Eq)]
pub struct Period {
    pub closed: Stamp,
    pub zones: [u32; 4],
    pub exported: [u32; 4],
}

/// The closed periods, the newest first; the places from `count` on are all 0.
#[repr(C)]
#[derive(Clone, Copy, Debug, PartialEq, Eq)]
pub struct Archive {
    pub periods: [Period; 12],
    pub count: u8,
}

/// What the meter knows and counts.
#[repr(C)]
#[derive(Clone, Copy, Debug, PartialEq, Eq)]
pub struct Registers {
    pub facts: Facts,
    pub account: [u8; 10],
    pub clock: Clock,
    pub counters: Counters,
    /// What went out of an EQM meter; of any other zeros.
    pub exported: Counters,
    /// The 25th row is of edition 2; of edition 1 it is zeros.
    pub tables: [[u8; 24]; 25],
    pub archive: Archive,
}

/// The record. Any numbers may stand in it: a call tells by 14 or 16 that they are no meter's, and
/// leaves them as they were.
#[repr(C)]
#[derive(Clone, Copy, Debug, PartialEq, Eq)]
pub struct Meter {
    pub mode: u8,
    pub attempts: u8,
    /// Speed identifier of the session, 0 or 5; 0 in modes 0 and 1.
    pub speed: u8,
    pub receiver: Receiver,
    pub registers: Registers,
}

// The layout is C's; include/dirgemist_meter.h has the same figures.
const _: () = assert!(size_of::<Receiver>() == 67 && size_of::<Registers>() == 1164);
const _: () = assert!(size_of::<Period>() == 40 && size_of::<Archive>() == 484);
const _: () = assert!(size_of::<Meter>() == 1236);

/// What can happen to a meter.
#[derive(Clone, Copy, Debug, PartialEq, Eq)]
pub enum Event {
    /// A byte came from the line.
    Character(u8),
    /// Eight seconds went by without one.
    Silence,
    /// A second went by.
    Tick,
    /// So many units of the last place came in.
    Pulse(u32),
    /// The power came back.
    PowerUp,
    /// So many units of the last place went out.
    PulseOut(u32),
}

impl Event {
    /// The kind and the value that the library takes.
    fn told(self) -> (u8, u32) {
        match self {
            Event::Character(byte) => (0, byte.into()),
            Event::Silence => (1, 0),
            Event::Tick => (2, 0),
            Event::Pulse(units) => (3, units),
            Event::PowerUp => (4, 0),
            Event::PulseOut(units) => (5, units),
        }
    }
}

/// What a meter answers: its number, the bytes of its reply, the speed they go out at, and with 3 the
/// place of the first damaged character of the frame, else 0.
#[derive(Clone, Copy, Debug, PartialEq, Eq)]
pub struct Answer {
    pub number: u8,
    pub length: usize,
    pub speed: u8,
    pub place: u8,
}

#[link(name = "firmware", kind = "static")]
extern "C" {
    fn dirgemist_meter_meet(
        meter: *mut Meter,
        kind: u8,
        value: u32,
        reply: *mut u8,
        room: usize,
        length: *mut usize,
        speed: *mut u8,
        place: *mut u8,
    ) -> u8;
}

#[link(name = "keeping", kind = "static")]
extern "C" {
    fn dirgemist_meter_make(
        meter: *mut Meter,
        serial: *const u8,
        serial_length: usize,
        account: *const u8,
        account_length: usize,
        password: *const u8,
        password_length: usize,
        year: u16,
        month: u8,
        day: u8,
        hour: u8,
        minute: u8,
        second: u8,
        edition: u8,
        link: u8,
        decimals: u8,
    ) -> u8;
    fn dirgemist_meter_check(meter: *const Meter) -> u8;
    fn dirgemist_meter_total(meter: *const Meter, total: *mut u32) -> u8;
}

#[link(name = "gateway", kind = "static")]
extern "C" {
    fn dirgemist_meter_frame(
        meter: *mut Meter,
        frame: *const u8,
        frame_length: usize,
        reply: *mut u8,
        room: usize,
        length: *mut usize,
        speed: *mut u8,
        place: *mut u8,
    ) -> u8;
}

impl Meter {
    /// A new meter with 1, or the blank one: with 16 for an edition that there is none of, then 18
    /// for such decimals, then 15 where another field lies outside its rule.
    pub fn make(
        serial: &[u8],
        account: &[u8],
        password: &[u8],
        clock: Clock,
        kind: Kind,
    ) -> (u8, Meter) {
        let mut meter = MaybeUninit::uninit();
        // SAFETY: the pointers and lengths are those of live borrows, and the record's is its own.
        let number = unsafe {
            dirgemist_meter_make(
                meter.as_mut_ptr(),
                serial.as_ptr(),
                serial.len(),
                account.as_ptr(),
                account.len(),
                password.as_ptr(),
                password.len(),
                clock.date.year,
                clock.date.month,
                clock.date.day,
                clock.time.hour,
                clock.time.minute,
                clock.time.second,
                kind.edition,
                kind.link,
                kind.decimals,
            )
        };
        // SAFETY: the call writes the whole record, whatever it answers.
        (number, unsafe { meter.assume_init() })
    }

    /// 1 for a well-formed record, else 14, or 16 for an edition that is none.
    pub fn check(&self) -> u8 {
        // SAFETY: the record has the library's layout and is only read.
        unsafe { dirgemist_meter_check(self) }
    }

    /// The total for a display, of what came in, with 1, or 0 with 14 or 16.
    pub fn total(&self) -> (u8, u32) {
        let mut total = u32::MAX;
        // SAFETY: both pointers are those of live borrows.
        let number = unsafe { dirgemist_meter_total(self, &mut total) };
        (number, total)
    }

    /// Lets something happen; the record becomes the next state.
    pub fn meet(&mut self, event: Event, reply: &mut [u8]) -> Answer {
        let (kind, value) = event.told();
        self.told(kind, value, reply)
    }

    /// The same with any kind and value; those of no event answer [`NO_EVENT`].
    pub fn told(&mut self, kind: u8, value: u32, reply: &mut [u8]) -> Answer {
        let (mut length, mut speed, mut place) = (UNWRITTEN, UNWRITTEN_BYTE, UNWRITTEN_BYTE);
        let (to, room) = (reply.as_mut_ptr(), reply.len());
        // SAFETY: the record has the library's layout, and the borrows do not overlap.
        let number = unsafe {
            let out = (&mut length, &mut speed, &mut place);
            dirgemist_meter_meet(self, kind, value, to, room, out.0, out.1, out.2)
        };
        Answer {
            number,
            length,
            speed,
            place,
        }
    }

    /// Takes a frame that comes whole; the record becomes the next state.
    pub fn frame(&mut self, frame: &[u8], reply: &mut [u8]) -> Answer {
        let (mut length, mut speed, mut place) = (UNWRITTEN, UNWRITTEN_BYTE, UNWRITTEN_BYTE);
        let (from, size) = (frame.as_ptr(), frame.len());
        let (to, room) = (reply.as_mut_ptr(), reply.len());
        // SAFETY: the record has the library's layout, and the borrows do not overlap.
        let number = unsafe {
            let out = (&mut length, &mut speed, &mut place);
            dirgemist_meter_frame(self, from, size, to, room, out.0, out.1, out.2)
        };
        Answer {
            number,
            length,
            speed,
            place,
        }
    }
}
