//! The head's half of a conversation, as `dirgemist_session.h` has it: a record that the caller
//! keeps, and the work, lent with every call.
//!
//! ```
//! use dirgemist::meter::{Clock, Date, Event, Kind, Meter, Time, REPLY_ROOM};
//! use dirgemist::session::{Told, DONE, GOES_ON, MESSAGE_ROOM, OVER};
//! let clock = Clock { date: Date { year: 2024, month: 2, day: 29 }, time: Time { hour: 23, minute: 5, second: 9 } };
//! let (_, mut meter) = Meter::make(b"1234567890", b"Kiln_7 old", b"20304050", clock, Kind::default());
//! let told = Told::post(b"131.0.07(123412341234123412341234)\r\n!\r\n").to(b"1234567890").with(b"20304050");
//! let (mut message, mut reply) = ([0; MESSAGE_ROOM], [0; REPLY_ROOM]);
//! let (started, mut session) = told.start(&mut message);
//! assert_eq!((started.number, started.length), (DONE, 16));
//! let (mut length, mut exchanges) = (started.length, 0);
//! let end = loop {
//!     let mut replied = 0;
//!     for &byte in &message[..length] {
//!         replied = meter.meet(Event::Character(byte), &mut reply).length;
//!     }
//!     exchanges += 1;
//!     let turn = session.reply(told.work, &reply[..replied], &mut message);
//!     if turn.fact != GOES_ON {
//!         break turn;
//!     }
//!     length = turn.length;
//! };
//! assert_eq!((end.number, end.fact, end.message, exchanges), (DONE, OVER, 5, 5));
//! assert_eq!(&meter.registers.tables[6], b"123412341234123412341234");
//! ```

use crate::{UNWRITTEN, UNWRITTEN_BYTE};
use std::mem::MaybeUninit;

/// The number of an edition that there is not.
pub const NO_EDITION: u8 = 16;
/// The number of decimals that no meter has.
pub const NO_DECIMALS: u8 = 18;
/// The number of a session that was started, or that heard.
pub const DONE: u8 = 1;
/// The number of a serial, a password or a read that no message can be built from.
pub const FIELD: u8 = 9;
/// The number of a buffer under [`MESSAGE_ROOM`].
pub const NO_ROOM: u8 = 19;
/// The number of a text that is no post.
pub const NO_POST: u8 = 20;
/// The number of an empty list of reads.
pub const NO_READS: u8 = 28;
/// The number of more than 32 reads.
pub const MANY_READS: u8 = 29;
/// The number of a post without a password.
pub const READ_ONLY: u8 = 30;
/// The number of a record that no session reaches, or of work that is not its own.
pub const NONE: u8 = 31;

/// The fact of a session that goes on.
pub const GOES_ON: u8 = 0;
/// Every message was answered as it should be.
pub const OVER: u8 = 1;
/// The meter refused.
pub const NAK: u8 = 2;
/// A reply that is not the right one.
pub const WRONG: u8 = 3;
/// No reply came.
pub const SILENT: u8 = 4;

/// The least buffer that a message is built in.
pub const MESSAGE_ROOM: usize = 64;

/// The record. Any bytes may stand in it: a call tells by [`NONE`] that they are no session's, and
/// leaves them as they were.
#[repr(C)]
#[derive(Clone, Copy, Debug, PartialEq, Eq)]
pub struct Session {
    pub serial: [u8; 10],
    pub password: [u8; 8],
    pub named: u8,
    pub access: u8,
    pub work: u8,
    pub count: u8,
    pub sent: u8,
    pub fact: u8,
    pub edition: u8,
    pub decimals: u8,
}

// The layout is C's; hosts/c/sessionlink.c holds the header to the same figures.
const _: () = assert!(size_of::<Session>() == 26 && align_of::<Session>() == 1);

/// What a session is told: whom to call, how to enter, and what to do. The flags are 0 or 1; any
/// others are refused.
#[derive(Clone, Copy, Debug, PartialEq, Eq)]
pub struct Told<'a> {
    /// The edition of the meters that are called, 1 or 2.
    pub edition: u8,
    /// The decimals of the EQM meters that are called, 2, 3 or 4, or 0 for other meters.
    pub decimals: u8,
    /// 1 calls the meter of the serial, 0 any.
    pub named: u8,
    pub serial: &'a [u8],
    /// 1 enters with the password, 0 with `()`.
    pub access: u8,
    pub password: &'a [u8],
    /// 1 for a post, 0 for reads.
    pub kind: u8,
    pub work: &'a [u8],
}

/// What a start answers. The place is that of a text that is no post.
#[derive(Clone, Copy, Debug, PartialEq, Eq)]
pub struct Started {
    pub number: u8,
    pub place: usize,
    pub length: usize,
}

/// What a reply or silence comes to: the fact, the number of the message that it is about, and the
/// next message's length.
#[derive(Clone, Copy, Debug, PartialEq, Eq)]
pub struct Turn {
    pub number: u8,
    pub fact: u8,
    pub message: u8,
    pub length: usize,
}

#[link(name = "sessionlink", kind = "static")]
extern "C" {
    fn dirgemist_session_start(
        session: *mut Session,
        edition: u8,
        decimals: u8,
        named: u8,
        serial: *const u8,
        serial_length: usize,
        access: u8,
        password: *const u8,
        password_length: usize,
        kind: u8,
        work: *const u8,
        work_length: usize,
        out: *mut u8,
        out_length: usize,
        length: *mut usize,
        place: *mut usize,
    ) -> u8;
    fn dirgemist_session_reply(
        session: *mut Session,
        work: *const u8,
        work_length: usize,
        reply: *const u8,
        reply_length: usize,
        out: *mut u8,
        out_length: usize,
        fact: *mut u8,
        message: *mut u8,
        length: *mut usize,
    ) -> u8;
    fn dirgemist_session_silence(session: *mut Session, fact: *mut u8, message: *mut u8) -> u8;
}

impl<'a> Told<'a> {
    /// Reads, two bytes each: `'T'`, `'L'`, `'K'`, `'E'` or `'Z'`, of EQM meters also `'G'`, and the
    /// number of the energy or the table. Any meter of edition 1 that is none of these, with `()`.
    pub fn reads(work: &'a [u8]) -> Told<'a> {
        Told {
            edition: 1,
            decimals: 0,
            named: 0,
            serial: &[],
            access: 0,
            password: &[],
            kind: 0,
            work,
        }
    }

    /// The text of a post. Any meter; a post needs a password.
    pub fn post(work: &'a [u8]) -> Told<'a> {
        Told {
            kind: 1,
            ..Told::reads(work)
        }
    }

    /// The same, to meters of an edition.
    pub fn of(self, edition: u8) -> Told<'a> {
        Told { edition, ..self }
    }

    /// The same, to EQM meters with so many decimals.
    ///
    /// ```
    /// use dirgemist::session::{Told, DONE, FIELD, MESSAGE_ROOM, NO_DECIMALS};
    /// let mut out = [0; MESSAGE_ROOM];
    /// let exported = Told::reads(b"G\0");
    /// assert_eq!(exported.eqm(3).start(&mut out).0.number, DONE);
    /// assert_eq!(exported.start(&mut out).0.number, FIELD);
    /// assert_eq!(exported.eqm(5).start(&mut out).0.number, NO_DECIMALS);
    /// ```
    pub fn eqm(self, decimals: u8) -> Told<'a> {
        Told { decimals, ..self }
    }

    /// The same, to the meter of a serial.
    pub fn to(self, serial: &'a [u8]) -> Told<'a> {
        Told {
            named: 1,
            serial,
            ..self
        }
    }

    /// The same, with a password.
    pub fn with(self, password: &'a [u8]) -> Told<'a> {
        Told {
            access: 1,
            password,
            ..self
        }
    }

    /// Starts a session: the sign-on stands at the front of the buffer. Where it is refused, the
    /// record is all zeros, which is no session.
    ///
    /// ```
    /// use dirgemist::session::{Told, DONE, MANY_READS, MESSAGE_ROOM, NO_POST, NO_READS, READ_ONLY};
    /// let mut out = [0; MESSAGE_ROOM];
    /// let (started, session) = Told::reads(b"T\0E\x04").start(&mut out);
    /// assert_eq!((started.number, started.length, session.count), (DONE, 5, 2));
    /// assert_eq!(&out[..5], b"\xAF?!\x8D\n");
    /// assert_eq!(Told::reads(b"").start(&mut out).0.number, NO_READS);
    /// assert_eq!(Told::reads(&[b'K'; 66]).start(&mut out).0.number, MANY_READS);
    /// let (refused, _) = Told::post(b"131.0.25").with(b"20304050").start(&mut out);
    /// assert_eq!((refused.number, refused.place), (NO_POST, 7));
    /// let post = b"131.0.01(111111111111111111111111)\r\n!\r\n";
    /// assert_eq!(Told::post(post).start(&mut out).0.number, READ_ONLY);
    /// ```
    #[inline]
    pub fn start(&self, out: &mut [u8]) -> (Started, Session) {
        let (mut length, mut place) = (UNWRITTEN, UNWRITTEN);
        let mut session = MaybeUninit::uninit();
        // SAFETY: the pointers and lengths are those of live borrows, and the record's is its own.
        let number = unsafe {
            dirgemist_session_start(
                session.as_mut_ptr(),
                self.edition,
                self.decimals,
                self.named,
                self.serial.as_ptr(),
                self.serial.len(),
                self.access,
                self.password.as_ptr(),
                self.password.len(),
                self.kind,
                self.work.as_ptr(),
                self.work.len(),
                out.as_mut_ptr(),
                out.len(),
                &mut length,
                &mut place,
            )
        };
        let started = Started {
            number,
            place,
            length,
        };
        // SAFETY: the call writes the whole record, whatever it answers.
        (started, unsafe { session.assume_init() })
    }
}

impl Session {
    /// A reply has come, whole, as the bytes of the line.
    ///
    /// ```
    /// use dirgemist::session::{Told, DONE, GOES_ON, MESSAGE_ROOM, NAK, WRONG};
    /// let (told, mut out) = (Told::reads(b"L\0"), [0; MESSAGE_ROOM]);
    /// let (_, session) = told.start(&mut out);
    /// let (mut next, mut refused, mut wrong) = (session, session, session);
    /// let turn = next.reply(told.work, b"\xAFZZZ5SUB-VP0\xB1.00\xAA\x8D\n", &mut out);
    /// assert_eq!((turn.number, turn.fact, turn.message), (DONE, GOES_ON, 2));
    /// assert_eq!(&out[..turn.length], b"\x06\x305\xB1\x8D\n");
    /// let turn = refused.reply(told.work, b"\x95", &mut out);
    /// assert_eq!((turn.fact, turn.message, turn.length), (NAK, 1, 0));
    /// let turn = wrong.reply(told.work, b"", &mut out);
    /// assert_eq!((turn.fact, turn.message, turn.length), (WRONG, 1, 0));
    /// ```
    #[inline]
    pub fn reply(&mut self, work: &[u8], reply: &[u8], out: &mut [u8]) -> Turn {
        let mut turn = Turn {
            number: UNWRITTEN_BYTE,
            fact: UNWRITTEN_BYTE,
            message: UNWRITTEN_BYTE,
            length: UNWRITTEN,
        };
        // SAFETY: the pointers and lengths are those of live borrows, and those of which one may be
        // written do not overlap.
        turn.number = unsafe {
            dirgemist_session_reply(
                self,
                work.as_ptr(),
                work.len(),
                reply.as_ptr(),
                reply.len(),
                out.as_mut_ptr(),
                out.len(),
                &mut turn.fact,
                &mut turn.message,
                &mut turn.length,
            )
        };
        turn
    }

    /// No reply came, for as long as the caller waits. There is no next message.
    ///
    /// ```
    /// use dirgemist::session::{Session, Told, DONE, MESSAGE_ROOM, NONE, SILENT};
    /// let (_, mut session) = Told::reads(b"L\0").start(&mut [0; MESSAGE_ROOM]);
    /// let turn = session.silence();
    /// assert_eq!((turn.number, turn.fact, turn.message), (DONE, SILENT, 1));
    /// let mut damaged = Session { count: 33, ..session };
    /// assert_eq!(damaged.silence().number, NONE);
    /// ```
    #[inline]
    pub fn silence(&mut self) -> Turn {
        let mut turn = Turn {
            number: UNWRITTEN_BYTE,
            fact: UNWRITTEN_BYTE,
            message: UNWRITTEN_BYTE,
            length: 0,
        };
        // SAFETY: the record and the two numbers are borrowed for the call alone.
        turn.number = unsafe { dirgemist_session_silence(self, &mut turn.fact, &mut turn.message) };
        turn
    }
}
