//! The head's values read back by hand for speed in safe Rust, eight characters at a time.

use crate::fast_builders::{are_digits, eight, is_account, is_date, is_row};
use model::head::answer::{DONE, MALFORMED, NO_DECIMALS};

/// `nnn nnnnnnn`: the ten digits.
#[inline(never)]
pub fn serial(value: &[u8]) -> (u8, [u8; 10]) {
    let mut serial = [0; 10];
    let Ok(value) = <&[u8; 11]>::try_from(value) else {
        return (MALFORMED, serial);
    };
    let last = eight(value, 3);
    let (first, seven) = (eight(value, 0) & 0xFF_FFFF | last >> 8 << 24, last >> 8);
    if (value[3] != b' ') | !are_digits(first) | !are_digits(seven | u64::from(b'0') << 56) {
        return (MALFORMED, serial);
    }
    serial[..8].copy_from_slice(&first.to_le_bytes());
    serial[8..].copy_from_slice(&value[9..]);
    (DONE, serial)
}

#[inline(never)]
pub fn account(value: &[u8]) -> (u8, [u8; 10]) {
    match <&[u8; 10]>::try_from(value) {
        Ok(account) if is_account(account) => (DONE, *account),
        _ => (MALFORMED, [0; 10]),
    }
}

#[inline(never)]
pub fn row(value: &[u8]) -> (u8, [u8; 24]) {
    match <&[u8; 24]>::try_from(value) {
        Ok(row) if is_row(row) => (DONE, *row),
        _ => (MALFORMED, [0; 24]),
    }
}

/// What characters are, less a form in which digits are `0`; nothing where they are not in it. A
/// byte of the mask is all ones where the form has no digit.
#[inline(always)]
fn less(form: &[u8; 8], characters: u64) -> Option<u64> {
    const TENS: u64 = 0xF0F0_F0F0_F0F0_F0F0;
    let fixed = u64::from_le_bytes(form.map(|c| if c == b'0' { 0 } else { 0xFF }));
    let digits = characters ^ u64::from_le_bytes(*form);
    let strays = (digits | digits.wrapping_add(0x0606_0606_0606_0606 & !fixed)) & (TENS | fixed);
    (strays == 0).then_some(digits)
}

/// At each place the number that two digits from there on make.
#[inline(always)]
fn pairs(digits: u64) -> [u8; 8] {
    (digits.wrapping_mul(10).wrapping_add(digits >> 8)).to_le_bytes()
}

/// `yy-mm-dd`: year, month and day.
#[inline(never)]
pub fn date(value: &[u8]) -> (u8, (u16, u8, u8)) {
    let none = (MALFORMED, (0, 0, 0));
    let Ok(value) = <[u8; 8]>::try_from(value).map(u64::from_le_bytes) else {
        return none;
    };
    let Some([year, _, _, month, _, _, day, _]) = less(b"00-00-00", value).map(pairs) else {
        return none;
    };
    if !is_date(year, month, day) {
        return none;
    }
    (DONE, (2000 + u16::from(year), month, day))
}

/// `hh:nn:ss`: hour, minute and second.
#[inline(never)]
pub fn time(value: &[u8]) -> (u8, (u8, u8, u8)) {
    let none = (MALFORMED, (0, 0, 0));
    let Ok(value) = <[u8; 8]>::try_from(value).map(u64::from_le_bytes) else {
        return none;
    };
    let Some([hour, _, _, minute, _, _, second, _]) = less(b"00:00:00", value).map(pairs) else {
        return none;
    };
    if (hour > 23) | (minute > 59) | (second > 59) {
        return none;
    }
    (DONE, (hour, minute, second))
}

/// `yy-mm-dd hh:nn`: year, month, day, hour and minute.
#[inline(never)]
pub fn period(value: &[u8]) -> (u8, (u16, u8, u8, u8, u8)) {
    let none = (MALFORMED, (0, 0, 0, 0, 0));
    let Ok(value) = <&[u8; 14]>::try_from(value) else {
        return none;
    };
    let first = less(b"00-00-00", eight(value, 0)).map(pairs);
    let last = less(b"00 00:00", eight(value, 6)).map(pairs);
    let (Some(first), Some(last)) = (first, last) else {
        return none;
    };
    let ([year, _, _, month, ..], [day, _, _, hour, _, _, minute, _]) = (first, last);
    if !is_date(year, month, day) | (hour > 23) | (minute > 59) {
        return none;
    }
    (DONE, (2000 + u16::from(year), month, day, hour, minute))
}

/// `eeeeee.eee*kWh`: Wh.
#[inline(never)]
pub fn counter(value: &[u8]) -> (u8, u32) {
    let Ok(value) = <&[u8; 14]>::try_from(value) else {
        return (MALFORMED, 0);
    };
    // The digits but the last, without the point.
    let digits = eight(value, 0) & 0xFFFF_FFFF_FFFF | (eight(value, 1) >> 48) << 48;
    let last = value[9].wrapping_sub(b'0');
    if (value[6] != b'.') | (value[10..] != *b"*kWh") | (last > 9) | !are_digits(digits) {
        return (MALFORMED, 0);
    }
    (DONE, number(digits) * 10 + u32::from(last))
}

/// Eight digits as a number.
#[inline(always)]
fn number(digits: u64) -> u32 {
    let ones = digits & 0x0F0F_0F0F_0F0F_0F0F;
    let two = (ones.wrapping_mul(1 + (10 << 8)) >> 8) & 0x00FF_00FF_00FF_00FF;
    let four = (two.wrapping_mul(1 + (100 << 16)) >> 16) & 0x0000_FFFF_0000_FFFF;
    (four.wrapping_mul(1 + (10_000 << 32)) >> 32) as u32
}

/// Eight digits of an EQM meter, the point before its decimals, and `*kWh`: units of the last place.
#[inline(never)]
pub fn eqm(decimals: u8, value: &[u8]) -> (u8, u32) {
    if !(2..=4).contains(&decimals) {
        return (NO_DECIMALS, 0);
    }
    let Ok(value) = <&[u8; 13]>::try_from(value) else {
        return (MALFORMED, 0);
    };
    // The digits before the point from the front, those behind it one place on.
    let point = 8 - usize::from(decimals);
    let front = (1 << (8 * point)) - 1;
    let digits = eight(value, 0) & front | eight(value, 1) & !front;
    if (value[point] != b'.') | (value[9..] != *b"*kWh") | !are_digits(digits) {
        return (MALFORMED, 0);
    }
    (DONE, number(digits))
}
