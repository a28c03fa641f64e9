//! Settings cards, as `dirgemist_card.h` has them.

use crate::meter::Meter;
use crate::UNWRITTEN;

/// The number of a card that was checked, read or written.
pub const DONE: u8 = 1;
/// The number of a record that is no meter's state.
pub const MALFORMED: u8 = 14;
/// The number of an edition that there is not.
pub const NO_EDITION: u8 = 16;
/// The number of a text that is no card.
pub const NOT_A_CARD: u8 = 40;
/// The number of a buffer shorter than what would be written.
pub const NO_ROOM: u8 = 41;
/// Bytes of a card with all tables of edition 2; 28 less for edition 1.
pub const LONGEST: usize = 713;
/// Bytes of its frames; 36 less for edition 1.
pub const FRAMES_LONGEST: usize = 919;

#[link(name = "cardlink", kind = "static")]
extern "C" {
    fn dirgemist_card_check(
        edition: u8,
        text: *const u8,
        text_length: usize,
        place: *mut usize,
    ) -> u8;
    fn dirgemist_card_read(
        edition: u8,
        text: *const u8,
        text_length: usize,
        out: *mut u8,
        out_length: usize,
        length: *mut usize,
        place: *mut usize,
    ) -> u8;
    fn dirgemist_card_write(
        meter: *const Meter,
        out: *mut u8,
        out_length: usize,
        length: *mut usize,
    ) -> u8;
}

/// Whether a text is a card for meters of an edition: the number, and the place where it leaves every card.
///
/// ```
/// use dirgemist::card;
/// assert_eq!(card::check(1, b"\x01\x00\x0aSTUDIO_7  "), (card::DONE, 0));
/// assert_eq!(card::check(2, b"\x01\x0a\x00"), (card::NOT_A_CARD, 1));
/// ```
#[inline]
pub fn check(edition: u8, text: &[u8]) -> (u8, usize) {
    let mut place = UNWRITTEN;
    // SAFETY: the pointers and the length are those of live borrows.
    let number = unsafe { dirgemist_card_check(edition, text.as_ptr(), text.len(), &mut place) };
    (number, place)
}

/// Writes the frames of a card for meters of an edition: the number, their length in bytes, and the place of a refusal.
#[inline]
pub fn read(edition: u8, text: &[u8], out: &mut [u8]) -> (u8, usize, usize) {
    let (mut length, mut place) = (UNWRITTEN, UNWRITTEN);
    // SAFETY: as above; the buffer is borrowed for the call alone, so nothing overlaps it.
    let number = unsafe {
        dirgemist_card_read(
            edition,
            text.as_ptr(),
            text.len(),
            out.as_mut_ptr(),
            out.len(),
            &mut length,
            &mut place,
        )
    };
    (number, length, place)
}

/// Writes the card of a meter: the number, and its length in bytes.
#[inline]
pub fn write(meter: &Meter, out: &mut [u8]) -> (u8, usize) {
    let mut length = UNWRITTEN;
    // SAFETY: as above.
    let number = unsafe { dirgemist_card_write(meter, out.as_mut_ptr(), out.len(), &mut length) };
    (number, length)
}
