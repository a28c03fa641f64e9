//! Accumulated energy from a Mercury meter, as `dirgemist_mercury.h` has it.

use crate::{UNWRITTEN, UNWRITTEN_BYTE};

/// The number of a request that was built or an answer that was read.
pub const DONE: u8 = 1;
/// The number of a field out of its range.
pub const FIELD: u8 = 54;
/// The number of a buffer that is too short.
pub const NO_ROOM: u8 = 55;
/// Bytes of the request.
pub const REQUEST: usize = 6;

#[link(name = "mercurylink", kind = "static")]
extern "C" {
    fn dirgemist_mercury_ask(
        address: u8,
        array: u8,
        month: u8,
        tariff: u8,
        out: *mut u8,
        out_length: usize,
        length: *mut usize,
    ) -> u8;
    fn dirgemist_mercury_read(
        address: u8,
        answer: *const u8,
        answer_length: usize,
        status: *mut u8,
        measured: *mut u8,
        active_in: *mut u32,
        active_out: *mut u32,
        reactive_in: *mut u32,
        reactive_out: *mut u32,
    ) -> u8;
    fn dirgemist_mercury_crc(message: *const u8, message_length: usize) -> u16;
}

/// A quantity of energy; one that was not measured is no number.
#[derive(Clone, Copy, Debug, PartialEq, Eq)]
pub enum Quantity {
    Measured(u32),
    NotMeasured,
}

/// What an answer holds: active energy in and out, reactive energy in and out; the code of a
/// status; or the number of a refusal.
#[derive(Clone, Copy, Debug, PartialEq, Eq)]
pub enum Answer {
    Energy([Quantity; 4]),
    Status(u8),
    Refused(u8),
}

/// What the call itself hands out: its number, the code, the bits of what was measured, and the
/// four numbers.
pub type Told = (u8, u8, u8, [u32; 4]);

/// Builds the request for accumulated energy: the number, and its length.
#[inline]
pub fn ask(address: u8, array: u8, month: u8, tariff: u8, out: &mut [u8]) -> (u8, usize) {
    let mut length = UNWRITTEN;
    // SAFETY: the pointers and the length are those of live borrows.
    let number = unsafe {
        dirgemist_mercury_ask(
            address,
            array,
            month,
            tariff,
            out.as_mut_ptr(),
            out.len(),
            &mut length,
        )
    };
    (number, length)
}

/// Reads the answer of the meter of an address, as the call hands it out.
#[inline]
pub fn told(address: u8, answer: &[u8]) -> Told {
    let (mut status, mut measured) = (UNWRITTEN_BYTE, UNWRITTEN_BYTE);
    let mut numbers = [UNWRITTEN as u32; 4];
    let [active_in, active_out, reactive_in, reactive_out] = &mut numbers;
    // SAFETY: as above; what is handed out is borrowed for the call alone.
    let number = unsafe {
        dirgemist_mercury_read(
            address,
            answer.as_ptr(),
            answer.len(),
            &mut status,
            &mut measured,
            active_in,
            active_out,
            reactive_in,
            reactive_out,
        )
    };
    (number, status, measured, numbers)
}

/// Reads the answer of the meter of an address.
///
/// ```
/// use dirgemist::mercury::{read, Answer, Quantity::*};
/// let answer = b"\x80\0\0\x70\x0A\xFF\xFF\xFF\xFF\0\0\xE8\x03\0\0\0\0\x3F\x0F";
/// let energy = [Measured(2672), NotMeasured, Measured(1000), Measured(0)];
/// assert_eq!(read(0x80, answer), Answer::Energy(energy));
/// assert_eq!(read(0x81, answer), Answer::Refused(52));
/// ```
pub fn read(address: u8, answer: &[u8]) -> Answer {
    let (number, status, measured, numbers) = told(address, answer);
    let quantity = |place: usize| match measured & 1 << place {
        0 => Quantity::NotMeasured,
        _ => Quantity::Measured(numbers[place]),
    };
    match number {
        DONE => Answer::Energy([0, 1, 2, 3].map(quantity)),
        53 => Answer::Status(status),
        number => Answer::Refused(number),
    }
}

/// The CRC of a message.
#[inline]
pub fn crc(message: &[u8]) -> u16 {
    // SAFETY: the pointer and the length are those of a live borrow.
    unsafe { dirgemist_mercury_crc(message.as_ptr(), message.len()) }
}
