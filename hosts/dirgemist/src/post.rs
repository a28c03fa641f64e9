//! Posts of tariff tables, as `dirgemist.h` has them.

use crate::UNWRITTEN;

/// The number of a post that was checked or exported.
pub const DONE: u8 = 1;
/// The number of an edition that there is not.
pub const NO_EDITION: u8 = 16;
/// The number of a text that is no post.
pub const NOT_A_POST: u8 = 20;
/// The number of a post whose frames do not fit into the buffer.
pub const NO_ROOM: u8 = 21;
/// Bytes of the frame that a line becomes.
pub const FRAME: usize = 36;
/// Bytes of the longest post for edition 2; one line less for edition 1.
pub const LONGEST_POST: usize = 903;

#[link(name = "forum", kind = "static")]
extern "C" {
    fn dirgemist_post_check(
        edition: u8,
        text: *const u8,
        text_length: usize,
        place: *mut usize,
    ) -> u8;
    fn dirgemist_post_export(
        edition: u8,
        text: *const u8,
        text_length: usize,
        out: *mut u8,
        out_length: usize,
        length: *mut usize,
        place: *mut usize,
    ) -> u8;
}

/// Whether a text is a post for meters of an edition: the number, and the place where it leaves every post.
///
/// ```
/// use dirgemist::post;
/// assert_eq!(post::check(1, b"131.0.01(1"), (post::NOT_A_POST, 10));
/// assert_eq!(post::check(1, b"131.0.25(1"), (post::NOT_A_POST, 7));
/// assert_eq!(post::check(2, b"131.0.25(1"), (post::NOT_A_POST, 10));
/// assert_eq!(post::check(3, b""), (post::NO_EDITION, 0));
/// assert_eq!(post::check(1, b"131.0.01(111111111111111111111111)\r\n!\r\n"), (post::DONE, 0));
/// ```
#[inline]
pub fn check(edition: u8, text: &[u8]) -> (u8, usize) {
    let mut place = UNWRITTEN;
    // SAFETY: the pointers and the length are those of live borrows.
    let number = unsafe { dirgemist_post_check(edition, text.as_ptr(), text.len(), &mut place) };
    (number, place)
}

/// Writes the frames of a post for meters of an edition: the number, their length in bytes, and the place of a refusal.
#[inline]
pub fn export(edition: u8, text: &[u8], out: &mut [u8]) -> (u8, usize, usize) {
    let (mut length, mut place) = (UNWRITTEN, UNWRITTEN);
    // SAFETY: as above; the buffer is borrowed for the call alone, so nothing overlaps it.
    let number = unsafe {
        dirgemist_post_export(
            edition,
            text.as_ptr(),
            text.len(),
            out.as_mut_ptr(),
            out.len(),
            &mut length,
            &mut place,
        )
    };
    (number, length, place)
}
