//! The head's commands built by hand for speed in safe Rust: what is fixed lies ready with its
//! parity and BCC, fields are taken eight characters at a time.

use crate::fast_post::{tables_of, wires};
use model::head::answer::{DONE, FIELD, NO_EDITION, SHORT_ROOM};
use model::head::{Clock, COMMAND_ROOM};

/// The number and the length.
pub type Built = (u8, usize);

/// A character as it is sent.
const fn sent(c: u8) -> u8 {
    c | (c.count_ones() as u8 & 1) << 7
}

/// A text as it is sent.
const fn on_the_wire<const N: usize>(text: &[u8; N]) -> [u8; N] {
    let mut wire = [0; N];
    let mut at = 0;
    while at < N {
        wire[at] = sent(text[at]);
        at += 1;
    }
    wire
}

/// A frame as it is sent; the last character of the text makes room for the BCC.
const fn framed<const N: usize>(mut text: [u8; N]) -> [u8; N] {
    text[N - 1] = 0;
    let mut at = 1;
    while at < N - 1 {
        text[N - 1] ^= text[at];
        at += 1;
    }
    on_the_wire(&text)
}

const fn digit(number: u8) -> u8 {
    b'0' + number % 10
}

/// The frames that ask for the zones, and those that ask for what went out in them.
static ASK_ZONE: [[u8; 10]; 4] = ask_zones(b'E');
static ASK_ZONE_OUT: [[u8; 10]; 4] = ask_zones(b'G');

const fn ask_zones(letter: u8) -> [[u8; 10]; 4] {
    let mut frames = [[0; 10]; 4];
    let mut zone = 0;
    while zone < 4 {
        let n = digit(zone as u8 + 1);
        frames[zone] = framed([1, b'R', b'1', 2, letter, n, b'(', b')', 3, 0]);
        zone += 1;
    }
    frames
}

/// The frames that ask for the tables.
static ASK_TABLE: [[u8; 11]; 25] = {
    let mut frames = [[0; 11]; 25];
    let mut table = 0;
    while table < 25 {
        let (tens, unit) = (digit((table as u8 + 1) / 10), digit(table as u8 + 1));
        frames[table] = framed([1, b'R', b'1', 2, b'Z', b'(', tens, unit, b')', 3, 0]);
        table += 1;
    }
    frames
};

/// The fronts of the frames that set the tables, and their part of the BCC behind them.
static SET_TABLE: [[u8; 10]; 25] = {
    let mut fronts = [[0; 10]; 25];
    let mut table = 0;
    while table < 25 {
        let (tens, unit) = (digit((table as u8 + 1) / 10), digit(table as u8 + 1));
        let front = [1, b'W', b'1', 2, b'Z', b'(', tens, unit, b';', 0];
        fronts[table] = framed(front);
        fronts[table][9] = (fronts[table][9] ^ b')' ^ 3) & 0x7F;
        table += 1;
    }
    fronts
};

/// Numbers of two digits as they are sent.
static PAIR: [[u8; 2]; 100] = {
    let mut pairs = [[0; 2]; 100];
    let mut number = 0;
    while number < 100 {
        let (tens, unit) = (digit(number as u8 / 10), digit(number as u8));
        pairs[number] = [sent(tens), sent(unit)];
        number += 1;
    }
    pairs
};

/// The characters of an account as they are sent; 0 for all others.
static ACCOUNT: [u8; 256] = {
    let mut allowed = [0; 256];
    let mut c = 0;
    while c < 128 {
        if (c as u8).is_ascii_alphanumeric() || c as u8 == b' ' || c as u8 == b'_' {
            allowed[c] = sent(c as u8);
        }
        c += 1;
    }
    allowed
};

/// The days of a month that is no leap year's; 0 for no month.
static DAYS: [u8; 256] = {
    let mut days = [0; 256];
    let mut month = 1;
    while month <= 12 {
        days[month] = match month {
            2 => 28,
            4 | 6 | 9 | 11 => 30,
            _ => 31,
        };
        month += 1;
    }
    days
};

/// Whether a day is one of the month, by the year's last two digits.
#[inline(always)]
pub fn is_date(year: u8, month: u8, day: u8) -> bool {
    let leap = (month == 2) & year.is_multiple_of(4);
    (day >= 1) & (day <= DAYS[usize::from(month)] + u8::from(leap))
}

/// Whether eight characters are digits.
#[inline(always)]
pub fn are_digits(eight: u64) -> bool {
    const TENS: u64 = 0xF0F0_F0F0_F0F0_F0F0;
    let digits = eight ^ 0x3030_3030_3030_3030;
    (digits | digits.wrapping_add(0x0606_0606_0606_0606)) & TENS == 0
}

/// Eight characters from a place on as a number.
#[inline(always)]
pub fn eight<const N: usize>(text: &[u8; N], from: usize) -> u64 {
    u64::from_le_bytes(text[from..from + 8].try_into().unwrap())
}

/// The exclusive-or of eight characters.
#[inline(always)]
fn sum(mut eight: u64) -> u8 {
    eight ^= eight >> 32;
    eight ^= eight >> 16;
    (eight ^ eight >> 8) as u8
}

#[inline(always)]
fn front(out: &mut [u8]) -> Option<&mut [u8; COMMAND_ROOM]> {
    out.first_chunk_mut()
}

#[inline(always)]
fn fixed<const N: usize>(wire: &[u8; N], out: &mut [u8]) -> Built {
    let Some(out) = front(out) else {
        return (SHORT_ROOM, 0);
    };
    out[..N].copy_from_slice(wire);
    (DONE, N)
}

#[inline(never)]
pub fn sign_on(out: &mut [u8]) -> Built {
    fixed(const { &on_the_wire(b"/?!\r\n") }, out)
}

#[inline(never)]
pub fn close(out: &mut [u8]) -> Built {
    fixed(const { &on_the_wire(b"/C!\r\n") }, out)
}

#[inline(never)]
pub fn read_total(out: &mut [u8]) -> Built {
    fixed(const { &framed(*b"\x01R1\x02E0()\x03 ") }, out)
}

#[inline(never)]
pub fn read_total_out(out: &mut [u8]) -> Built {
    fixed(const { &framed(*b"\x01R1\x02G0()\x03 ") }, out)
}

/// A serial's first and last eight digits as they are sent.
#[inline(always)]
fn sent_serial(serial: &[u8]) -> Option<(u64, u64)> {
    let serial: &[u8; 10] = serial.try_into().ok()?;
    let (first, last) = (eight(serial, 0), eight(serial, 2));
    (are_digits(first) & are_digits(last)).then(|| (wires(first), wires(last)))
}

#[inline(never)]
pub fn sign_on_to(serial: &[u8], out: &mut [u8]) -> Built {
    let Some(out) = front(out) else {
        return (SHORT_ROOM, 0);
    };
    let Some((first, last)) = sent_serial(serial) else {
        return (FIELD, 0);
    };
    let low = 0xA000_0000_3FAF | (first & 0xFF_FFFF) << 16 | (last >> 8) << 48;
    let high = last >> 24 | 0x000A_8D21 << 40;
    out[..8].copy_from_slice(&low.to_le_bytes());
    out[8..16].copy_from_slice(&high.to_le_bytes());
    (DONE, 16)
}

#[inline(never)]
pub fn sign_on_wired(serial: &[u8], out: &mut [u8]) -> Built {
    let Some(out) = front(out) else {
        return (SHORT_ROOM, 0);
    };
    let Some((first, last)) = sent_serial(serial) else {
        return (FIELD, 0);
    };
    let low = 0x2E00_0000_41AF | (first & 0xFF_FFFF) << 16 | (last >> 8) << 48;
    let high = last >> 16 | 0x0A8D << 48;
    out[..8].copy_from_slice(&low.to_le_bytes());
    out[7..15].copy_from_slice(&high.to_le_bytes());
    (DONE, 15)
}

#[inline(never)]
pub fn confirm(speed: u8, choice: u8, out: &mut [u8]) -> Built {
    let Some(out) = front(out) else {
        return (SHORT_ROOM, 0);
    };
    // '5' has an even count of ones, and so have '0' and '6'; '1' and '7' are odd as their last bit.
    let fields = matches!(speed, b'0' | b'5') & matches!(choice, b'0' | b'1' | b'6' | b'7');
    if !fields {
        return (FIELD, 0);
    }
    out[..6].copy_from_slice(&[0x06, b'0', speed, choice | choice << 7, 0x8D, 0x0A]);
    (DONE, 6)
}

#[inline(never)]
pub fn password(password: &[u8], out: &mut [u8]) -> Built {
    let Some(out) = front(out) else {
        return (SHORT_ROOM, 0);
    };
    let Ok(password) = <[u8; 8]>::try_from(password).map(u64::from_le_bytes) else {
        return (FIELD, 0);
    };
    if !are_digits(password) {
        return (FIELD, 0);
    }
    const SUM: u8 = b'P' ^ b'1' ^ 2 ^ b'(' ^ b')' ^ 3;
    let wire = wires(password);
    let bcc = wires(u64::from(SUM ^ sum(password)));
    let low = 0x0028_82B1_5081 | wire << 40;
    let high = wire >> 24 | 0x03A9 << 40 | bcc << 56;
    out[..8].copy_from_slice(&low.to_le_bytes());
    out[8..16].copy_from_slice(&high.to_le_bytes());
    (DONE, 16)
}

#[inline(always)]
fn one_of(frames: &[[u8; 10]; 4], zone: u8, out: &mut [u8]) -> Built {
    if out.len() < COMMAND_ROOM {
        return (SHORT_ROOM, 0);
    }
    match frames.get(usize::from(zone).wrapping_sub(1)) {
        Some(frame) => fixed(frame, out),
        None => (FIELD, 0),
    }
}

#[inline(never)]
pub fn read_zone(zone: u8, out: &mut [u8]) -> Built {
    one_of(&ASK_ZONE, zone, out)
}

#[inline(never)]
pub fn read_zone_out(zone: u8, out: &mut [u8]) -> Built {
    one_of(&ASK_ZONE_OUT, zone, out)
}

#[inline(never)]
pub fn read_table(edition: u8, table: u8, out: &mut [u8]) -> Built {
    let Some(highest) = tables_of(edition) else {
        return (NO_EDITION, 0);
    };
    if out.len() < COMMAND_ROOM {
        return (SHORT_ROOM, 0);
    }
    match ASK_TABLE.get(usize::from(table).wrapping_sub(1)) {
        Some(frame) if table <= highest => fixed(frame, out),
        _ => (FIELD, 0),
    }
}

#[inline(never)]
pub fn write_clock(clock: &Clock, out: &mut [u8]) -> Built {
    let Some(out) = front(out) else {
        return (SHORT_ROOM, 0);
    };
    let year = clock.year.wrapping_sub(2000);
    let time = (clock.hour < 24) & (clock.minute < 60) & (clock.second < 60);
    if (year > 99) | !time | !is_date(year as u8, clock.month, clock.day) {
        return (FIELD, 0);
    }
    let pair = |number: u8| PAIR[usize::from(number)];
    let pairs = [
        clock.day,
        clock.month,
        year as u8,
        clock.hour,
        clock.minute,
        clock.second,
    ]
    .map(pair);
    let [d, m, y, h, n, s] = pairs;
    // All that is fixed: two of each `-` and `:` give nothing.
    const SUM: u8 = b'W' ^ b'1' ^ 2 ^ b'T' ^ b'(' ^ b'2' ^ b'0' ^ b';' ^ b')' ^ 3;
    let two = pairs.iter().fold([0; 2], |[a, b], [c, d]| [a ^ c, b ^ d]);
    let bcc = wires(u64::from(SUM ^ (two[0] ^ two[1]) & 0x7F)) as u8;
    let frame: &mut [u8; 28] = out.first_chunk_mut().unwrap();
    *frame = [
        0x81, 0xD7, 0xB1, 0x82, 0xD4, 0x28, d[0], d[1], 0x2D, m[0], m[1], 0x2D, 0xB2, 0x30, y[0],
        y[1], 0xBB, h[0], h[1], 0x3A, n[0], n[1], 0x3A, s[0], s[1], 0xA9, 0x03, bcc,
    ];
    (DONE, 28)
}

#[inline(never)]
pub fn write_account(account: &[u8], out: &mut [u8]) -> Built {
    let Some(out) = front(out) else {
        return (SHORT_ROOM, 0);
    };
    let Ok(account) = <&[u8; 10]>::try_from(account) else {
        return (FIELD, 0);
    };
    let wire = account.map(|c| ACCOUNT[usize::from(c)]);
    if wire.contains(&0) {
        return (FIELD, 0);
    }
    const SUM: u8 = b'W' ^ b'1' ^ 2 ^ b'K' ^ b'(' ^ b')' ^ 3;
    let bcc = SUM ^ sum(eight(account, 0)) ^ account[8] ^ account[9];
    out[..6].copy_from_slice(const { &on_the_wire(b"\x01W1\x02K(") });
    out[6..16].copy_from_slice(&wire);
    out[16..19].copy_from_slice(&[0xA9, 0x03, wires(u64::from(bcc)) as u8]);
    (DONE, 19)
}

#[inline(never)]
pub fn write_table(edition: u8, table: u8, row: &[u8], out: &mut [u8]) -> Built {
    let Some(highest) = tables_of(edition) else {
        return (NO_EDITION, 0);
    };
    let Some(out) = front(out) else {
        return (SHORT_ROOM, 0);
    };
    let front = SET_TABLE.get(usize::from(table).wrapping_sub(1));
    let (Some(front), Ok(row)) = (front, <&[u8; 24]>::try_from(row)) else {
        return (FIELD, 0);
    };
    if (table > highest) | !is_row(row) {
        return (FIELD, 0);
    }
    let hours = [0, 8, 16].map(|from| eight(row, from));
    let bcc = front[9] ^ sum(hours[0] ^ hours[1] ^ hours[2]);
    out[..9].copy_from_slice(&front[..9]);
    for (to, hours) in out[9..33].as_chunks_mut::<8>().0.iter_mut().zip(hours) {
        *to = wires(hours).to_le_bytes();
    }
    out[33..36].copy_from_slice(&[0xA9, 0x03, wires(u64::from(bcc)) as u8]);
    (DONE, 36)
}

/// Whether characters are zones.
#[inline(always)]
pub fn is_row(row: &[u8; 24]) -> bool {
    row.iter().fold(0, |all, c| all | c.wrapping_sub(b'1')) <= 3
}

/// Whether characters are an account's.
#[inline(always)]
pub fn is_account(account: &[u8; 10]) -> bool {
    account
        .iter()
        .fold(true, |all, &c| all & (ACCOUNT[usize::from(c)] != 0))
}
