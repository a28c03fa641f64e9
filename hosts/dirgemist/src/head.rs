//! What a reading head says and reads, as `dirgemist_head.h` has it.
//!
//! A function that builds a command returns the number and the command's length; the command stands
//! at the front of the buffer. One that reads a value returns the number and the value, which is zero
//! where the number is not [`DONE`].

use crate::{UNWRITTEN, UNWRITTEN_BYTE};

/// The number of the end of the data sets.
pub const END: u8 = 0;
/// The number of what was built, stripped, found or read.
pub const DONE: u8 = 1;
/// The number of decimals that no EQM meter has.
pub const NO_DECIMALS: u8 = 18;
/// The least buffer that a command is built in.
pub const COMMAND_ROOM: usize = 64;

/// A function that builds a command without a field.
type Plain = unsafe extern "C" fn(*mut u8, usize, *mut usize) -> u8;
/// One whose field is a number.
type Numbered = unsafe extern "C" fn(u8, *mut u8, usize, *mut usize) -> u8;
/// One whose field is characters.
type Lettered = unsafe extern "C" fn(*const u8, usize, *mut u8, usize, *mut usize) -> u8;

#[link(name = "headlink", kind = "static")]
extern "C" {
    fn dirgemist_head_sign_on(out: *mut u8, out_length: usize, length: *mut usize) -> u8;
    fn dirgemist_head_close(out: *mut u8, out_length: usize, length: *mut usize) -> u8;
    fn dirgemist_head_sign_on_to(
        serial: *const u8,
        serial_length: usize,
        out: *mut u8,
        out_length: usize,
        length: *mut usize,
    ) -> u8;
    fn dirgemist_head_sign_on_wired(
        serial: *const u8,
        serial_length: usize,
        out: *mut u8,
        out_length: usize,
        length: *mut usize,
    ) -> u8;
    fn dirgemist_head_confirm(
        speed: u8,
        choice: u8,
        out: *mut u8,
        out_length: usize,
        length: *mut usize,
    ) -> u8;
    fn dirgemist_head_enter(out: *mut u8, out_length: usize, length: *mut usize) -> u8;
    fn dirgemist_head_password(
        password: *const u8,
        password_length: usize,
        out: *mut u8,
        out_length: usize,
        length: *mut usize,
    ) -> u8;
    fn dirgemist_head_read_clock(out: *mut u8, out_length: usize, length: *mut usize) -> u8;
    fn dirgemist_head_read_serial(out: *mut u8, out_length: usize, length: *mut usize) -> u8;
    fn dirgemist_head_read_account(out: *mut u8, out_length: usize, length: *mut usize) -> u8;
    fn dirgemist_head_read_total(out: *mut u8, out_length: usize, length: *mut usize) -> u8;
    fn dirgemist_head_read_zone(
        zone: u8,
        out: *mut u8,
        out_length: usize,
        length: *mut usize,
    ) -> u8;
    fn dirgemist_head_read_total_out(out: *mut u8, out_length: usize, length: *mut usize) -> u8;
    fn dirgemist_head_read_zone_out(
        zone: u8,
        out: *mut u8,
        out_length: usize,
        length: *mut usize,
    ) -> u8;
    fn dirgemist_head_read_table(
        edition: u8,
        table: u8,
        out: *mut u8,
        out_length: usize,
        length: *mut usize,
    ) -> u8;
    fn dirgemist_head_write_clock(
        year: u16,
        month: u8,
        day: u8,
        hour: u8,
        minute: u8,
        second: u8,
        out: *mut u8,
        out_length: usize,
        length: *mut usize,
    ) -> u8;
    fn dirgemist_head_write_account(
        account: *const u8,
        account_length: usize,
        out: *mut u8,
        out_length: usize,
        length: *mut usize,
    ) -> u8;
    fn dirgemist_head_write_table(
        edition: u8,
        table: u8,
        row: *const u8,
        row_length: usize,
        out: *mut u8,
        out_length: usize,
        length: *mut usize,
    ) -> u8;
    fn dirgemist_head_sign_off(out: *mut u8, out_length: usize, length: *mut usize) -> u8;
    fn dirgemist_head_strip(
        reply: *const u8,
        reply_length: usize,
        out: *mut u8,
        out_length: usize,
        length: *mut usize,
        place: *mut usize,
    ) -> u8;
    fn dirgemist_head_part(
        stripped: *const u8,
        stripped_length: usize,
        start: *mut usize,
        length: *mut usize,
    ) -> u8;
    fn dirgemist_head_next(
        sets: *const u8,
        sets_length: usize,
        at: usize,
        address_length: *mut usize,
        value_length: *mut usize,
        next: *mut usize,
        place: *mut usize,
    ) -> u8;
    fn dirgemist_head_set_after(
        sets: *const u8,
        sets_length: usize,
        count: usize,
        start: *mut usize,
        address_length: *mut usize,
        value_length: *mut usize,
        next: *mut usize,
        place: *mut usize,
    ) -> u8;
    fn dirgemist_head_find(
        sets: *const u8,
        sets_length: usize,
        asked: *const u8,
        asked_length: usize,
        count: *mut usize,
        place: *mut usize,
        address_start: *mut usize,
        address_length: *mut usize,
        value_start: *mut usize,
        value_length: *mut usize,
    ) -> u8;
    fn dirgemist_head_value_serial(
        value: *const u8,
        length: usize,
        serial: *mut u8,
        serial_length: usize,
    ) -> u8;
    fn dirgemist_head_value_account(
        value: *const u8,
        length: usize,
        account: *mut u8,
        account_length: usize,
    ) -> u8;
    fn dirgemist_head_value_row(
        value: *const u8,
        length: usize,
        row: *mut u8,
        row_length: usize,
    ) -> u8;
    fn dirgemist_head_value_date(
        value: *const u8,
        length: usize,
        year: *mut u16,
        month: *mut u8,
        day: *mut u8,
    ) -> u8;
    fn dirgemist_head_value_period(
        value: *const u8,
        length: usize,
        year: *mut u16,
        month: *mut u8,
        day: *mut u8,
        hour: *mut u8,
        minute: *mut u8,
    ) -> u8;
    fn dirgemist_head_value_time(
        value: *const u8,
        length: usize,
        hour: *mut u8,
        minute: *mut u8,
        second: *mut u8,
    ) -> u8;
    fn dirgemist_head_value_counter(value: *const u8, length: usize, wh: *mut u32) -> u8;
    fn dirgemist_head_value_eqm(
        decimals: u8,
        value: *const u8,
        length: usize,
        number: *mut u32,
    ) -> u8;
}

// Every pointer below comes from a live borrow, with that borrow's length beside it, and two borrows
// of which one may be written do not overlap: that is all that the headers ask.

#[inline]
fn plain(build: Plain, out: &mut [u8]) -> (u8, usize) {
    let mut length = UNWRITTEN;
    // SAFETY: see above.
    let number = unsafe { build(out.as_mut_ptr(), out.len(), &mut length) };
    (number, length)
}

#[inline]
fn numbered(build: Numbered, field: u8, out: &mut [u8]) -> (u8, usize) {
    let mut length = UNWRITTEN;
    // SAFETY: see above.
    let number = unsafe { build(field, out.as_mut_ptr(), out.len(), &mut length) };
    (number, length)
}

#[inline]
fn lettered(build: Lettered, field: &[u8], out: &mut [u8]) -> (u8, usize) {
    let mut length = UNWRITTEN;
    let (to, room) = (out.as_mut_ptr(), out.len());
    // SAFETY: see above.
    let number = unsafe { build(field.as_ptr(), field.len(), to, room, &mut length) };
    (number, length)
}

/// The sign-on to any meter.
#[inline]
pub fn sign_on(out: &mut [u8]) -> (u8, usize) {
    plain(dirgemist_head_sign_on, out)
}

/// The sign-on at which the meter closes a period.
///
/// ```
/// use dirgemist::head;
/// let mut out = [0; head::COMMAND_ROOM];
/// assert_eq!(head::close(&mut out), (head::DONE, 5));
/// assert_eq!(out[..5], [0xAF, 0xC3, 0x21, 0x8D, 0x0A]);
/// ```
#[inline]
pub fn close(out: &mut [u8]) -> (u8, usize) {
    plain(dirgemist_head_close, out)
}

/// The sign-on to the meter of a serial, ten digits.
///
/// ```
/// use dirgemist::head;
/// let mut out = [0; head::COMMAND_ROOM];
/// assert_eq!(head::sign_on_to(b"1234567890", &mut out), (head::DONE, 16));
/// assert_eq!(head::sign_on_to(b"123456789", &mut out), (9, 0));
/// ```
#[inline]
pub fn sign_on_to(serial: &[u8], out: &mut [u8]) -> (u8, usize) {
    lettered(dirgemist_head_sign_on_to, serial, out)
}

/// The sign-on on the wired link: to the meter of a serial, or with zeros to whichever is there.
///
/// ```
/// use dirgemist::head;
/// let mut out = [0; head::COMMAND_ROOM];
/// assert_eq!(head::sign_on_wired(b"1234567890", &mut out), (head::DONE, 15));
/// assert_eq!(head::sign_on_wired(b"123456789", &mut out), (9, 0));
/// ```
#[inline]
pub fn sign_on_wired(serial: &[u8], out: &mut [u8]) -> (u8, usize) {
    lettered(dirgemist_head_sign_on_wired, serial, out)
}

/// The confirmation: the speed's character, `'0'` (300 baud) or `'5'` (9600), then `'0'`, `'7'`,
/// `'6'` (with the closed periods) or `'1'`.
///
/// ```
/// use dirgemist::head;
/// let mut out = [0; head::COMMAND_ROOM];
/// assert_eq!(head::confirm(b'0', b'1', &mut out), (head::DONE, 6));
/// assert_eq!(head::confirm(b'1', b'1', &mut out), (9, 0));
/// ```
#[inline]
pub fn confirm(speed: u8, choice: u8, out: &mut [u8]) -> (u8, usize) {
    let mut length = UNWRITTEN;
    let (to, room) = (out.as_mut_ptr(), out.len());
    // SAFETY: see above.
    let number = unsafe { dirgemist_head_confirm(speed, choice, to, room, &mut length) };
    (number, length)
}

/// The start of a session that only reads.
#[inline]
pub fn enter(out: &mut [u8]) -> (u8, usize) {
    plain(dirgemist_head_enter, out)
}

/// The start of a session that may write, with the password's eight digits.
#[inline]
pub fn password(password: &[u8], out: &mut [u8]) -> (u8, usize) {
    lettered(dirgemist_head_password, password, out)
}

/// Asks for the clock.
#[inline]
pub fn read_clock(out: &mut [u8]) -> (u8, usize) {
    plain(dirgemist_head_read_clock, out)
}

/// Asks for the serial.
#[inline]
pub fn read_serial(out: &mut [u8]) -> (u8, usize) {
    plain(dirgemist_head_read_serial, out)
}

/// Asks for the account.
#[inline]
pub fn read_account(out: &mut [u8]) -> (u8, usize) {
    plain(dirgemist_head_read_account, out)
}

/// Asks for the total of all zones.
#[inline]
pub fn read_total(out: &mut [u8]) -> (u8, usize) {
    plain(dirgemist_head_read_total, out)
}

/// Asks for a zone's energy.
#[inline]
pub fn read_zone(zone: u8, out: &mut [u8]) -> (u8, usize) {
    numbered(dirgemist_head_read_zone, zone, out)
}

/// Asks an EQM meter for the total of what went out.
pub fn read_total_out(out: &mut [u8]) -> (u8, usize) {
    plain(dirgemist_head_read_total_out, out)
}

/// Asks an EQM meter for what went out in a zone, 1 to 4.
pub fn read_zone_out(zone: u8, out: &mut [u8]) -> (u8, usize) {
    numbered(dirgemist_head_read_zone_out, zone, out)
}

/// Asks a meter of an edition for a table.
#[inline]
pub fn read_table(edition: u8, table: u8, out: &mut [u8]) -> (u8, usize) {
    let mut length = UNWRITTEN;
    let (to, room) = (out.as_mut_ptr(), out.len());
    // SAFETY: see above.
    let number = unsafe { dirgemist_head_read_table(edition, table, to, room, &mut length) };
    (number, length)
}

/// Sets the clock to `[month, day, hour, minute, second]` of a year.
#[inline]
pub fn write_clock(year: u16, rest: [u8; 5], out: &mut [u8]) -> (u8, usize) {
    let [month, day, hour, minute, second] = rest;
    let mut length = UNWRITTEN;
    let (to, room) = (out.as_mut_ptr(), out.len());
    // SAFETY: see above.
    let number = unsafe {
        dirgemist_head_write_clock(
            year,
            month,
            day,
            hour,
            minute,
            second,
            to,
            room,
            &mut length,
        )
    };
    (number, length)
}

/// Sets the account, ten characters.
#[inline]
pub fn write_account(account: &[u8], out: &mut [u8]) -> (u8, usize) {
    lettered(dirgemist_head_write_account, account, out)
}

/// Sets a table of a meter of an edition to a row of 24 characters.
#[inline]
pub fn write_table(edition: u8, table: u8, row: &[u8], out: &mut [u8]) -> (u8, usize) {
    let mut length = UNWRITTEN;
    let (to, room) = (out.as_mut_ptr(), out.len());
    // SAFETY: see above.
    let number = unsafe {
        dirgemist_head_write_table(
            edition,
            table,
            row.as_ptr(),
            row.len(),
            to,
            room,
            &mut length,
        )
    };
    (number, length)
}

/// Ends the session.
#[inline]
pub fn sign_off(out: &mut [u8]) -> (u8, usize) {
    plain(dirgemist_head_sign_off, out)
}

/// Strips a reply's parity into a buffer: the number, the length, and with 24 the place of the first
/// damaged byte.
#[inline]
pub fn strip(reply: &[u8], out: &mut [u8]) -> (u8, usize, usize) {
    let (mut length, mut place) = (UNWRITTEN, UNWRITTEN);
    let (from, to) = ((reply.as_ptr(), reply.len()), (out.as_mut_ptr(), out.len()));
    // SAFETY: see above.
    let number =
        unsafe { dirgemist_head_strip(from.0, from.1, to.0, to.1, &mut length, &mut place) };
    (number, length, place)
}

/// Finds the part of a stripped block: the number, where it starts and how long it is.
#[inline]
pub fn part(stripped: &[u8]) -> (u8, usize, usize) {
    let (mut start, mut length) = (UNWRITTEN, UNWRITTEN);
    // SAFETY: see above.
    let number =
        unsafe { dirgemist_head_part(stripped.as_ptr(), stripped.len(), &mut start, &mut length) };
    (number, start, length)
}

/// What a reader found at a place.
#[derive(Clone, Copy, Debug, PartialEq, Eq)]
pub struct Step {
    /// [`DONE`] for a set, [`END`], or 25 for a malformed one.
    pub number: u8,
    /// The address starts at the place that was read.
    pub address_length: usize,
    /// The value starts behind the address and its bracket.
    pub value_length: usize,
    /// Where the reader goes on.
    pub next: usize,
    /// The place of a refusal.
    pub place: usize,
}

const UNREAD: Step = Step {
    number: UNWRITTEN_BYTE,
    address_length: UNWRITTEN,
    value_length: UNWRITTEN,
    next: UNWRITTEN,
    place: UNWRITTEN,
};

/// Reads the data set at a place. A reader starts at 0 and goes on at `next`.
///
/// ```
/// use dirgemist::head;
/// let sets = b"0.0.0(Kiln_7 old)\r\n!\r\n";
/// let step = head::next(sets, 0);
/// assert_eq!((step.number, &sets[..step.address_length]), (head::DONE, &b"0.0.0"[..]));
/// assert_eq!(head::next(sets, step.next).number, head::END);
/// ```
#[inline]
pub fn next(sets: &[u8], at: usize) -> Step {
    let mut step = UNREAD;
    // SAFETY: see above.
    step.number = unsafe {
        dirgemist_head_next(
            sets.as_ptr(),
            sets.len(),
            at,
            &mut step.address_length,
            &mut step.value_length,
            &mut step.next,
            &mut step.place,
        )
    };
    step
}

/// Reads the data set behind the first so many: where that is, and what was found there.
#[inline]
pub fn set_after(sets: &[u8], count: usize) -> (usize, Step) {
    let (mut start, mut step) = (UNWRITTEN, UNREAD);
    // SAFETY: see above.
    step.number = unsafe {
        dirgemist_head_set_after(
            sets.as_ptr(),
            sets.len(),
            count,
            &mut start,
            &mut step.address_length,
            &mut step.value_length,
            &mut step.next,
            &mut step.place,
        )
    };
    (start, step)
}

/// What a lookup found.
#[derive(Clone, Copy, Debug, PartialEq, Eq)]
pub struct Lookup {
    /// [`DONE`] for a match, 25 for a malformed set before any, or 27 where the sets ended without one.
    pub number: u8,
    /// How many sets were read: the position of the match, or the number of good sets.
    pub count: usize,
    /// The place of a malformed set.
    pub place: usize,
    /// Where the address of the match starts, and how long it is.
    pub address_start: usize,
    pub address_length: usize,
    /// Where its value starts, and how long it is.
    pub value_start: usize,
    pub value_length: usize,
}

/// Finds the first data set with an address, and reads no further.
///
/// ```
/// use dirgemist::head;
/// let sets = b"0.0.0(Kiln_7 old)\r\n15.8.0(000001.500*kWh)\r\n!\r\n";
/// let found = head::find(sets, b"15.8.0");
/// assert_eq!((found.number, found.count), (head::DONE, 2));
/// let value = &sets[found.value_start..found.value_start + found.value_length];
/// assert_eq!(head::value_counter(value), (head::DONE, 1_500));
/// ```
#[inline]
pub fn find(sets: &[u8], address: &[u8]) -> Lookup {
    let mut found = Lookup {
        number: UNWRITTEN_BYTE,
        count: UNWRITTEN,
        place: UNWRITTEN,
        address_start: UNWRITTEN,
        address_length: UNWRITTEN,
        value_start: UNWRITTEN,
        value_length: UNWRITTEN,
    };
    // SAFETY: see above.
    found.number = unsafe {
        dirgemist_head_find(
            sets.as_ptr(),
            sets.len(),
            address.as_ptr(),
            address.len(),
            &mut found.count,
            &mut found.place,
            &mut found.address_start,
            &mut found.address_length,
            &mut found.value_start,
            &mut found.value_length,
        )
    };
    found
}

/// A function that reads characters back.
type Reads = unsafe extern "C" fn(*const u8, usize, *mut u8, usize) -> u8;

#[inline]
fn characters<const N: usize>(read: Reads, value: &[u8]) -> (u8, [u8; N]) {
    let mut characters = [UNWRITTEN_BYTE; N];
    // SAFETY: see above.
    let number = unsafe { read(value.as_ptr(), value.len(), characters.as_mut_ptr(), N) };
    (number, characters)
}

/// A serial's ten digits.
#[inline]
pub fn value_serial(value: &[u8]) -> (u8, [u8; 10]) {
    characters(dirgemist_head_value_serial, value)
}

/// An account's ten characters.
#[inline]
pub fn value_account(value: &[u8]) -> (u8, [u8; 10]) {
    characters(dirgemist_head_value_account, value)
}

/// A row's 24 characters.
#[inline]
pub fn value_row(value: &[u8]) -> (u8, [u8; 24]) {
    characters(dirgemist_head_value_row, value)
}

/// A date's year, month and day.
#[inline]
pub fn value_date(value: &[u8]) -> (u8, (u16, u8, u8)) {
    let (mut year, mut month, mut day) = (UNWRITTEN as u16, UNWRITTEN_BYTE, UNWRITTEN_BYTE);
    let (from, length) = (value.as_ptr(), value.len());
    // SAFETY: see above.
    let number =
        unsafe { dirgemist_head_value_date(from, length, &mut year, &mut month, &mut day) };
    (number, (year, month, day))
}

/// A time's hour, minute and second.
#[inline]
pub fn value_time(value: &[u8]) -> (u8, (u8, u8, u8)) {
    let (mut hour, mut minute, mut second) = (UNWRITTEN_BYTE, UNWRITTEN_BYTE, UNWRITTEN_BYTE);
    let (from, length) = (value.as_ptr(), value.len());
    // SAFETY: see above.
    let number =
        unsafe { dirgemist_head_value_time(from, length, &mut hour, &mut minute, &mut second) };
    (number, (hour, minute, second))
}

/// When a period was closed: year, month, day, hour and minute.
///
/// ```
/// use dirgemist::head;
/// assert_eq!(head::value_period(b"24-03-01 00:00"), (head::DONE, (2024, 3, 1, 0, 0)));
/// assert_eq!(head::value_period(b"24-03-01 24:00"), (25, (0, 0, 0, 0, 0)));
/// ```
#[inline]
pub fn value_period(value: &[u8]) -> (u8, (u16, u8, u8, u8, u8)) {
    let (mut year, mut month, mut day) = (UNWRITTEN as u16, UNWRITTEN_BYTE, UNWRITTEN_BYTE);
    let (mut hour, mut minute) = (UNWRITTEN_BYTE, UNWRITTEN_BYTE);
    // SAFETY: see above.
    let number = unsafe {
        dirgemist_head_value_period(
            value.as_ptr(),
            value.len(),
            &mut year,
            &mut month,
            &mut day,
            &mut hour,
            &mut minute,
        )
    };
    (number, (year, month, day, hour, minute))
}

/// A counter's Wh.
#[inline]
pub fn value_counter(value: &[u8]) -> (u8, u32) {
    let mut wh = UNWRITTEN as u32;
    // SAFETY: see above.
    let number = unsafe { dirgemist_head_value_counter(value.as_ptr(), value.len(), &mut wh) };
    (number, wh)
}

/// A counter of an EQM meter with so many decimals, in units of its last place.
///
/// ```
/// use dirgemist::head;
/// assert_eq!(head::value_eqm(3, b"00001.500*kWh"), (head::DONE, 1_500));
/// assert_eq!(head::value_eqm(2, b"00001.500*kWh"), (25, 0));
/// assert_eq!(head::value_eqm(1, b"00001.500*kWh"), (head::NO_DECIMALS, 0));
/// ```
#[inline]
pub fn value_eqm(decimals: u8, value: &[u8]) -> (u8, u32) {
    let mut read = UNWRITTEN as u32;
    let (from, length) = (value.as_ptr(), value.len());
    // SAFETY: see above.
    let number = unsafe { dirgemist_head_value_eqm(decimals, from, length, &mut read) };
    (number, read)
}
