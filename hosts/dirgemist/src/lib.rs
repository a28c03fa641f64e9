//! Dirgemist for Rust: the proved libraries behind safe functions.
//!
//! [`post`] checks posts of tariff tables and turns them into frames, [`head`] builds what a reading
//! head says and reads what a meter replies, [`session`] holds its whole conversation, [`meter`] is
//! the meter itself, [`card`] brings a meter's settings to another, and [`mercury`] reads a meter of
//! that family beside it. Every call takes any
//! bytes and any numbers, answers by a number and writes nothing outside what it was lent. The
//! headers in `include/` say what each number means; here stand only the words that Rust needs.
//!
//! Nothing is kept between calls and nothing is allocated. The archives are made by
//! `hosts/archive forum headlink firmware keeping cardlink mercurylink sessionlink`.

pub mod card;
pub mod head;
pub mod mercury;
pub mod meter;
pub mod post;
pub mod session;

/// What stands in a number handed out before the call. The libraries write every one of them, and a
/// trial would see that one did not.
const UNWRITTEN: usize = 0xA5A5_A5A5;
const UNWRITTEN_BYTE: u8 = 0xA5;
