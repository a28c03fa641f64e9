//! The meter written for speed, of every edition, link and family: the state is changed in place and
//! still checked whole at every call. It shares the record with the model and nothing else.

use model::meter::{
    Answer, Clock, Meter, Period, Way, ACK, COUNTER_END, CR, EQM_END, EQM_PERIOD_LINES, ETX, LF,
    NAK, NO_EDITION, OPTICAL, PERIODS, PERIOD_LINES, PLACES, PULSE_MOST, ROOM, SOH, STX, WIRED,
};

/// Days of the months of a common year; 0 for what is no month.
const DAYS: [u8; 16] = [0, 31, 28, 31, 30, 31, 30, 31, 31, 30, 31, 30, 31, 0, 0, 0];
/// Days of a common year before each month.
const DAYS_BEFORE: [u32; 13] = [0, 0, 31, 59, 90, 120, 151, 181, 212, 243, 273, 304, 334];

/// Bits that must be 0: the window that starts at 63 - count lies over the receiver's places.
const FORBIDDEN: [u8; 2 * PLACES] = {
    let mut bits = [0x80; 2 * PLACES];
    let mut place = PLACES;
    while place < 2 * PLACES {
        bits[place] = 0xFF;
        place += 1;
    }
    bits
};

/// Letters, digits, space and underscore.
const ACCOUNT: [bool; 256] = {
    let mut good = [false; 256];
    let mut character = 0;
    while character < 256 {
        let c = character as u8;
        good[character] = c.is_ascii_alphanumeric() || c == b' ' || c == b'_';
        character += 1;
    }
    good
};

// Where the lines of the data block start; from the energy on in document 01's family, and of an EQM
// meter, which has twice as many of these lines.
const SERIAL_LINE: usize = 1;
const DATE_LINE: usize = SERIAL_LINE + 20;
const TIME_LINE: usize = DATE_LINE + 17;
const ACCOUNT_LINE: usize = TIME_LINE + 17;
const ENERGY_LINE: usize = ACCOUNT_LINE + 19;
const ENERGY: usize = 24;
const EQM_ENERGY: usize = 22;
const TABLE_LINE: usize = ENERGY_LINE + 5 * ENERGY;
const EQM_TABLE_LINE: usize = ENERGY_LINE + 10 * EQM_ENERGY;
const TABLE: usize = 36;
const END: usize = TABLE_LINE + 25 * TABLE;
const EQM_END_LINE: usize = EQM_TABLE_LINE + 25 * TABLE;

/// The data block of edition 2 up to its last line, without parity, its values left open.
const TEMPLATE: [u8; END] = {
    let mut block = front::<END>();
    let mut line = 0;
    while line < 5 {
        let at = ENERGY_LINE + line * ENERGY;
        block = put(block, at, b"15.8.n(eeeeee.eee*kWh)\r\n");
        block[at + 5] = b"12340"[line];
        line += 1;
    }
    rows(block, TABLE_LINE)
};

/// The same of an EQM meter.
const EQM_TEMPLATE: [u8; EQM_END_LINE] = {
    let mut block = front::<EQM_END_LINE>();
    let mut line = 0;
    while line < 10 {
        let at = ENERGY_LINE + line * EQM_ENERGY;
        block = put(block, at, b"d.8.n(eeeeeeeee*kWh)\r\n");
        block[at] = if line < 5 { b'1' } else { b'2' };
        block[at + 4] = b"12340"[line % 5];
        line += 1;
    }
    rows(block, EQM_TABLE_LINE)
};

const fn front<const N: usize>() -> [u8; N] {
    let mut block = [0; N];
    block[0] = STX;
    block = put(block, SERIAL_LINE, b"C.1.0(nnn nnnnnnn)\r\n");
    block = put(block, DATE_LINE, b"0.9.2(yy-mm-dd)\r\n");
    block = put(block, TIME_LINE, b"0.9.1(hh:nn:ss)\r\n");
    put(block, ACCOUNT_LINE, b"0.0.0(aaaaaaaaaa)\r\n")
}

const fn rows<const N: usize>(mut block: [u8; N], from: usize) -> [u8; N] {
    let mut table = 0;
    while table < 25 {
        let at = from + table * TABLE;
        block = put(block, at, b"131.0.xx(rrrrrrrrrrrrrrrrrrrrrrrr)\r\n");
        block[at + 6] = b'0' + (table as u8 + 1) / 10;
        block[at + 7] = b'0' + (table as u8 + 1) % 10;
        table += 1;
    }
    block
}

/// The lines of a period, its number and its values left open.
const PERIOD: &[u8; PERIOD_LINES] = b"0.1.2*kk(yy-mm-dd hh:nn)\r\n\
    15.8.1*kk(eeeeee.eee*kWh)\r\n15.8.2*kk(eeeeee.eee*kWh)\r\n\
    15.8.3*kk(eeeeee.eee*kWh)\r\n15.8.4*kk(eeeeee.eee*kWh)\r\n";
const EQM_PERIOD: &[u8; EQM_PERIOD_LINES] = b"0.1.2*kk(yy-mm-dd hh:nn)\r\n\
    1.8.1*kk(eeeeeeeee*kWh)\r\n1.8.2*kk(eeeeeeeee*kWh)\r\n\
    1.8.3*kk(eeeeeeeee*kWh)\r\n1.8.4*kk(eeeeeeeee*kWh)\r\n\
    2.8.1*kk(eeeeeeeee*kWh)\r\n2.8.2*kk(eeeeeeeee*kWh)\r\n\
    2.8.3*kk(eeeeeeeee*kWh)\r\n2.8.4*kk(eeeeeeeee*kWh)\r\n";
const PERIOD_TIME: usize = 26;
const PERIOD_ENERGY: usize = 27;
const EQM_PERIOD_ENERGY: usize = 25;

/// SOH on the wire; ETX is the same there.
const WIRE_SOH: u8 = 0x81;

const fn put<const N: usize>(mut block: [u8; N], at: usize, text: &[u8]) -> [u8; N] {
    let mut place = 0;
    while place < text.len() {
        block[at + place] = text[place];
        place += 1;
    }
    block
}

/// Eight bytes as one number.
fn eight(bytes: &[u8], at: usize) -> u64 {
    u64::from_le_bytes(bytes[at..at + 8].try_into().expect("eight bytes"))
}

/// All eight are digits: the upper half of each is 3, also after 6 is added.
fn eight_digits(digits: u64) -> bool {
    const HIGH: u64 = 0xF0F0_F0F0_F0F0_F0F0;
    let over = digits.wrapping_add(0x0606_0606_0606_0606);
    (digits & HIGH) | ((over & HIGH) >> 4) == 0x3333_3333_3333_3333
}

fn clock_good(clock: &Clock) -> bool {
    date_good(clock.year, clock.month, clock.day)
        & (clock.hour < 24)
        & (clock.minute < 60)
        & (clock.second < 60)
}

fn date_good(year: u16, month: u8, day: u8) -> bool {
    let leap = u8::from(year.is_multiple_of(4) && month == 2);
    let days = DAYS[usize::from(month & 15)] + leap;
    (year.wrapping_sub(2000) < 100) & (month < 16) & (day.wrapping_sub(1) < days)
}

/// What counters of either direction stay below: nothing does where the decimals are no family's.
fn ends(decimals: u8) -> (u32, u32) {
    match decimals {
        0 => (COUNTER_END, 1),
        2..=4 => (EQM_END, EQM_END),
        _ => (0, 0),
    }
}

/// Counters below an end, and what they are added up to.
fn counters_good(counters: [u32; 4], total: u32, end: u32) -> bool {
    let [a, b, c, d] = counters;
    // Four full counters fit u32; what does not fit is not below the end.
    let sum = a.wrapping_add(b).wrapping_add(c).wrapping_add(d);
    (a.max(b).max(c.max(d)) < end) && (total == sum % end)
}

/// The closed periods, and nothing where there is none.
fn archive_good(meter: &Meter) -> bool {
    let (end, end_out) = ends(meter.decimals);
    let closed = usize::from(meter.closed);
    if closed > PERIODS {
        return false;
    }
    let (kept, unused) = meter.periods.split_at(closed);
    let mut good = true;
    for period in kept {
        let [a, b, c, d] = period.counters;
        let [e, f, g, h] = period.exported;
        good &= date_good(period.year, period.month, period.day)
            & (period.hour < 24)
            & (period.minute < 60)
            & (a.max(b).max(c.max(d)) < end)
            & (e.max(f).max(g.max(h)) < end_out);
    }
    let mut bits = 0;
    for period in unused {
        let [a, b, c, d] = period.counters;
        let [e, f, g, h] = period.exported;
        let small = period.month | period.day | period.hour | period.minute;
        bits |= a | b | c | d | e | f | g | h | u32::from(period.year) | u32::from(small);
    }
    good & (bits == 0)
}

fn receiver_good(meter: &Meter) -> bool {
    let count = usize::from(meter.count);
    let (most, first) = match meter.mode {
        0 => (31, b'/'),
        1 => (5, meter.held[0]),
        2..=4 => (63, SOH),
        _ => return false,
    };
    if count > most {
        return false;
    }
    let forbidden = &FORBIDDEN[PLACES - count..2 * PLACES - count];
    let mut bad = 0;
    // The last eight overlap the ones before by one place.
    for at in [0, 8, 16, 24, 32, 40, 48, 55] {
        bad |= eight(&meter.held, at) & eight(forbidden, at);
    }
    let start = if count == 0 {
        (meter.mark == 0) & (meter.place == 0)
    } else {
        let place = match meter.mark {
            0 => meter.place == 0,
            _ => meter.place < meter.count,
        };
        (meter.mark <= 1) & place & (meter.held[0] == first)
    };
    (bad == 0) & start
}

/// Every range of the state.
pub fn well_formed(meter: &Meter) -> bool {
    let mut most = 0;
    let (tables, spare) = meter.tables.as_flattened().split_at(576);
    for zone in tables {
        most = most.max(zone.wrapping_sub(b'1'));
    }
    // The row behind the tables: zones of edition 2, zeros of edition 1.
    let (lowest, over) = if meter.edition == 2 {
        (b'1', 3)
    } else {
        (0, 0)
    };
    let mut stray = 0;
    for place in spare {
        stray = stray.max(place.wrapping_sub(lowest));
    }
    let mut account = true;
    for &character in &meter.account {
        account &= ACCOUNT[usize::from(character)];
    }
    let (end, end_out) = ends(meter.decimals);
    (most < 4)
        & (stray <= over)
        & edition_good(meter)
        & ((meter.link == OPTICAL) | (meter.link == WIRED))
        & receiver_good(meter)
        & account
        & counters_good(meter.counters, meter.total, end)
        & counters_good(meter.exported, meter.exported_total, end_out)
        & eight_digits(eight(&meter.serial, 0))
        & eight_digits(eight(&meter.serial, 2))
        & eight_digits(eight(&meter.password, 0))
        & (meter.attempts < 4)
        & ((meter.speed == rest(meter)) | ((meter.speed == 5) & (meter.mode >= 2)))
        & clock_good(&meter.clock)
        & archive_good(meter)
}

fn edition_good(meter: &Meter) -> bool {
    (meter.edition == 1) | (meter.edition == 2)
}

/// The number of a state that is refused.
fn refused(meter: &Meter) -> Option<Answer> {
    if well_formed(meter) {
        return None;
    }
    let number = if edition_good(meter) { 14 } else { NO_EDITION };
    Some(answer(number, 0, 0))
}

/// The same of a call with a buffer: a small one comes behind the edition.
fn refused_in(meter: &Meter, room: usize) -> Option<Answer> {
    if room < ROOM && edition_good(meter) {
        return Some(answer(12, 0, 0));
    }
    refused(meter)
}

/// The speed outside a session.
fn rest(meter: &Meter) -> u8 {
    if meter.link == WIRED {
        5
    } else {
        0
    }
}

fn tables(meter: &Meter) -> usize {
    23 + usize::from(meter.edition)
}

/// Closes a period at the clock as it is.
fn close(meter: &mut Meter) {
    meter.periods.copy_within(..PERIODS - 1, 1);
    let clock = &meter.clock;
    meter.periods[0] = Period {
        year: clock.year,
        month: clock.month,
        day: clock.day,
        hour: clock.hour,
        minute: clock.minute,
        counters: meter.counters,
        exported: meter.exported,
    };
    meter.closed += u8::from(meter.closed < PERIODS as u8);
}

/// The total for a display with 1, or 0 with 14 or 16.
#[inline(never)]
pub fn total(meter: &Meter) -> (u8, u32) {
    match refused(meter) {
        None => (1, meter.total),
        Some(refused) => (refused.number, 0),
    }
}

fn answer(number: u8, speed: u8, length: usize) -> Answer {
    Answer {
        number,
        speed,
        length,
        place: 0,
    }
}

fn parity(character: u8) -> u8 {
    character | (character.count_ones() as u8) << 7
}

fn empty(meter: &mut Meter) {
    meter.count = 0;
    meter.mark = 0;
    meter.place = 0;
    meter.held = [0; PLACES];
}

/// Outside a session there is no speed but the link's.
fn enter(meter: &mut Meter, mode: u8) {
    empty(meter);
    meter.mode = mode;
    if mode < 2 {
        meter.speed = rest(meter);
    }
}

fn restart(meter: &mut Meter, first: u8) {
    empty(meter);
    meter.held[0] = first;
    meter.count = 1;
}

/// Only the first damaged character says where.
fn watch(meter: &mut Meter, damaged: bool) {
    if damaged & (meter.mark == 0) {
        meter.mark = 1;
        meter.place = meter.count;
    }
}

fn hold(meter: &mut Meter, character: u8, damaged: bool) {
    watch(meter, damaged);
    meter.held[usize::from(meter.count)] = character;
    meter.count += 1;
}

/// A received character.
pub fn character(meter: &mut Meter, byte: u8, buffer: &mut [u8]) -> Answer {
    if let Some(refused) = refused_in(meter, buffer.len()) {
        return refused;
    }
    let damaged = byte.count_ones() % 2 == 1;
    let character = if damaged { 0 } else { byte & 0x7F };
    match meter.mode {
        0 => line_character(meter, character, damaged, buffer),
        1 => confirmation_character(meter, character, damaged, buffer),
        _ => frame_character(meter, character, damaged, buffer),
    }
}

fn line_character(meter: &mut Meter, character: u8, damaged: bool, buffer: &mut [u8]) -> Answer {
    let speed = meter.speed;
    if character == b'/' {
        restart(meter, b'/');
        return answer(0, speed, 0);
    }
    let count = usize::from(meter.count);
    if count == 0 {
        return answer(0, speed, 0);
    }
    if character == LF {
        let wired = meter.link == WIRED;
        let line = &meter.held[..count];
        let closing = meter.mark == 0 && !wired && line == b"/C!\r";
        let ours = closing
            || meter.mark == 0
                && match wired {
                    true => called_by_wire(line, &meter.serial),
                    false => called(line, &meter.serial),
                };
        empty(meter);
        if closing {
            close(meter);
        }
        if !ours {
            return answer(0, speed, 0);
        }
        meter.mode = 1;
        return answer(1, speed, identify(meter, buffer));
    }
    if count == 31 {
        empty(meter);
    } else {
        hold(meter, character, damaged);
    }
    answer(0, speed, 0)
}

fn identify(meter: &Meter, buffer: &mut [u8]) -> usize {
    let mut text = *b"/ZZZ5SUB-VP01.00*\r\n";
    text[12] = b'0' + meter.edition;
    let mut length = text.len();
    if meter.link == WIRED {
        length = 15;
        text[..2].copy_from_slice(b"/g");
        text[2..5].copy_from_slice(&meter.serial[..3]);
        text[5] = b'.';
        text[6..13].copy_from_slice(&meter.serial[3..]);
        text[13..15].copy_from_slice(b"\r\n");
    }
    for (place, &character) in buffer.iter_mut().zip(&text[..length]) {
        *place = parity(character);
    }
    length
}

/// A sign-on line up to its CR.
fn called(line: &[u8], serial: &[u8; 10]) -> bool {
    match line {
        b"/?!\r" => true,
        [b'/', b'?', a, b, c, b' ', rest @ .., b'!', CR] if rest.len() == 7 => {
            let head = [*a, *b, *c];
            (head == serial[..3] && rest == &serial[3..]) || (head == *b"000" && rest == b"0000000")
        }
        _ => false,
    }
}

/// The same on the wire.
fn called_by_wire(line: &[u8], serial: &[u8; 10]) -> bool {
    match line {
        [b'/', b'A', a, b, c, b'.', rest @ .., CR] if rest.len() == 7 => {
            let head = [*a, *b, *c];
            (head == serial[..3] && rest == &serial[3..]) || (head == *b"000" && rest == b"0000000")
        }
        _ => false,
    }
}

fn confirmation_character(
    meter: &mut Meter,
    character: u8,
    damaged: bool,
    buffer: &mut [u8],
) -> Answer {
    if meter.count < 5 {
        hold(meter, character, damaged);
        return answer(0, meter.speed, 0);
    }
    let good = meter.mark == 0
        && !damaged
        && character == LF
        && meter.held[..2] == [ACK, b'0']
        && (meter.held[2] == b'5' || meter.held[2] == b'0' && meter.link == OPTICAL)
        && meter.held[4] == CR;
    let speed = meter.held[2] & 5;
    let choice = meter.held[3];
    enter(meter, 0);
    match choice {
        b'0' | b'7' if good => answer(1, speed, data_block(meter, buffer)),
        b'6' if good => answer(1, speed, block_with_periods(meter, buffer)),
        b'1' if good => {
            meter.mode = 2;
            meter.speed = speed;
            let ask = b"\x01P0\x02(0000)\x03\x60";
            for (place, &character) in buffer.iter_mut().zip(ask) {
                *place = parity(character);
            }
            answer(1, speed, ask.len())
        }
        _ => answer(2, meter.speed, 0),
    }
}

/// How many bytes before the last are held when it finishes a frame, else 0; one by one.
fn held_slowly(run: &[u8], last: u8) -> usize {
    let mut held = 1;
    for pair in run.windows(2) {
        if pair[0] == ETX {
            return 0;
        }
        if pair[1] == WIRE_SOH {
            held = 1;
        } else if held == PLACES {
            return 0;
        } else {
            held += 1;
        }
    }
    let ends = run[run.len() - 1] == ETX || (held == PLACES && last != WIRE_SOH);
    if ends {
        held
    } else {
        0
    }
}

/// The same: most slices have no control character but the SOH and the ETX.
fn held_in(frame: &[u8]) -> usize {
    let [first, between @ .., etx, last] = frame else {
        return 0;
    };
    if *first != WIRE_SOH {
        return 0;
    }
    let mut plain = *etx == ETX;
    for &byte in between {
        plain &= byte != WIRE_SOH && byte != ETX;
    }
    if plain && frame.len() <= PLACES + 1 {
        return frame.len() - 1;
    }
    held_slowly(&frame[..frame.len() - 1], *last)
}

/// A frame that comes whole.
pub fn frame(meter: &mut Meter, frame: &[u8], buffer: &mut [u8]) -> Answer {
    if let Some(refused) = refused_in(meter, buffer.len()) {
        return refused;
    }
    let held = held_in(frame);
    if meter.mode < 2 || meter.count != 0 || held == 0 {
        return answer(17, meter.speed, 0);
    }
    let part = &frame[frame.len() - 1 - held..];
    let mut hurt = 0;
    for &byte in part {
        hurt |= byte.count_ones() as u8;
    }
    if hurt % 2 == 1 || part[held - 1] != ETX {
        let place = part.iter().position(|byte| byte.count_ones() % 2 == 1);
        if part[held - 1] != ETX {
            return refuse(meter, 5, buffer);
        }
        return Answer {
            place: place.unwrap_or(0) as u8,
            ..refuse(meter, 3, buffer)
        };
    }
    for (place, byte) in meter.held.iter_mut().zip(&part[..held]) {
        *place = byte & 0x7F;
    }
    meter.count = held as u8;
    let speed = meter.speed;
    match decide(meter, held, part[held] & 0x7F, buffer) {
        Ok(length) => {
            empty(meter);
            answer(1, speed, length)
        }
        Err(number) => refuse(meter, number, buffer),
    }
}

fn frame_character(meter: &mut Meter, character: u8, damaged: bool, buffer: &mut [u8]) -> Answer {
    let count = usize::from(meter.count);
    if count > 0 && meter.held[count - 1] == ETX {
        watch(meter, damaged);
        let (speed, place) = (meter.speed, meter.place);
        return match decide(meter, count, character, buffer) {
            Ok(length) => {
                empty(meter);
                answer(1, speed, length)
            }
            Err(number) => Answer {
                place,
                ..refuse(meter, number, buffer)
            },
        };
    }
    if character == SOH {
        restart(meter, SOH);
    } else if count == PLACES {
        return refuse(meter, 5, buffer);
    } else if count > 0 {
        hold(meter, character, damaged);
    }
    answer(0, meter.speed, 0)
}

fn refuse(meter: &mut Meter, number: u8, buffer: &mut [u8]) -> Answer {
    let speed = meter.speed;
    if meter.link == WIRED {
        enter(meter, 0);
        return answer(number, speed, 0);
    }
    empty(meter);
    if meter.mode == 2 {
        enter(meter, 0);
    }
    buffer[0] = parity(NAK);
    answer(number, speed, 1)
}

fn acknowledge(buffer: &mut [u8]) -> usize {
    buffer[0] = ACK;
    1
}

fn printable(character: u8) -> bool {
    character.wrapping_sub(0x20) < 0x5F
}

/// The length of the reply, or the number of the refusal.
fn decide(meter: &mut Meter, count: usize, check: u8, buffer: &mut [u8]) -> Result<usize, u8> {
    if meter.mark == 1 {
        return Err(3);
    }
    // Unused places are 0 and the first is SOH, so that the whole receiver can be summed.
    let mut sum = SOH ^ check;
    for character in meter.held {
        sum ^= character;
    }
    if sum != 0 {
        return Err(4);
    }
    if count < 4 || !printable(meter.held[1]) || !printable(meter.held[2]) {
        return Err(6);
    }
    let command = [meter.held[1], meter.held[2]];
    if count == 4 {
        if command != *b"B0" {
            return Err(7);
        }
        meter.mode = 0;
        meter.speed = rest(meter);
        return Ok(acknowledge(buffer));
    }
    // The data are looked at where they are held, from a copy of the places alone.
    let held = meter.held;
    let data = &held[4..count - 1];
    if held[3] != STX {
        return Err(6);
    }
    let mut shape = true;
    for &character in data {
        shape &= printable(character);
    }
    if !shape {
        return Err(6);
    }
    match (&command, meter.mode) {
        (b"R1", 3 | 4) => read(meter, data, buffer),
        (b"W1", 4) => write(meter, data, buffer),
        (b"P1", 2) => password(meter, data, buffer),
        (b"R1" | b"W1" | b"P1", _) => Err(8),
        _ => Err(7),
    }
}

fn password(meter: &mut Meter, data: &[u8], buffer: &mut [u8]) -> Result<usize, u8> {
    match data {
        b"()" => meter.mode = 3,
        [b'(', given @ .., b')'] if given.len() == 8 && eight_digits(eight(given, 0)) => {
            if meter.attempts == 3 {
                return Err(11);
            }
            if given != meter.password {
                meter.attempts += 1;
                return Err(10);
            }
            meter.attempts = 0;
            meter.mode = 4;
        }
        _ => return Err(9),
    }
    Ok(acknowledge(buffer))
}

fn read(meter: &Meter, data: &[u8], buffer: &mut [u8]) -> Result<usize, u8> {
    // Nothing is written before the data are known to be good.
    let to = &mut buffer[1..];
    let length = match data {
        b"T()" => {
            line(to, TIME_LINE, 17);
            time(meter, to);
            line(&mut to[17..], DATE_LINE, 17);
            date(meter, &mut to[17..]);
            34
        }
        b"L()" => {
            line(to, SERIAL_LINE, 20);
            serial(meter, to);
            20
        }
        b"K()" => {
            line(to, ACCOUNT_LINE, 19);
            account(meter, to);
            19
        }
        [b'E', zone @ b'0'..=b'4', b'(', b')'] => {
            // The total is the fifth line of the block.
            let number = usize::from(zone.wrapping_sub(b'1')).min(4);
            match meter.decimals {
                0 => energy(meter, number, to),
                _ => eqm_energy(meter, number, to),
            }
        }
        [b'G', zone @ b'0'..=b'4', b'(', b')'] if meter.decimals != 0 => {
            eqm_energy(meter, 5 + usize::from(zone.wrapping_sub(b'1')).min(4), to)
        }
        [b'Z', b'(', tens, units, b')'] => {
            let number = table(meter, *tens, *units).ok_or(9)?;
            line(to, TABLE_LINE + number * TABLE, TABLE);
            row(meter, number, to);
            TABLE
        }
        _ => return Err(9),
    };
    buffer[0] = STX;
    buffer[length + 1] = ETX;
    Ok(seal(buffer, length + 2))
}

fn write(meter: &mut Meter, data: &[u8], buffer: &mut [u8]) -> Result<usize, u8> {
    match data {
        [b'Z', b'(', tens, units, b';', row @ .., b')'] if row.len() == 24 => {
            let table = table(meter, *tens, *units).ok_or(9)?;
            let mut most = 0;
            for zone in row {
                most = most.max(zone.wrapping_sub(b'1'));
            }
            if most > 3 {
                return Err(9);
            }
            meter.tables[table].copy_from_slice(row);
        }
        [b'K', b'(', account @ .., b')'] if account.len() == 10 => {
            if !account.iter().all(|&c| ACCOUNT[usize::from(c)]) {
                return Err(9);
            }
            meter.account.copy_from_slice(account);
        }
        [b'T', b'(', told @ .., b')'] if told.len() == 19 => {
            meter.clock = clock_told(told).ok_or(9)?;
        }
        _ => return Err(9),
    }
    Ok(acknowledge(buffer))
}

/// Two digits, or 255 and more.
fn pair(tens: u8, units: u8) -> u16 {
    let (tens, units) = (tens.wrapping_sub(b'0'), units.wrapping_sub(b'0'));
    if tens > 9 || units > 9 {
        return 255;
    }
    u16::from(tens * 10 + units)
}

/// The table, counted from 0.
fn table(meter: &Meter, tens: u8, units: u8) -> Option<usize> {
    let table = usize::from(pair(tens, units).wrapping_sub(1));
    (table < tables(meter)).then_some(table)
}

fn clock_told(told: &[u8]) -> Option<Clock> {
    let separators = [told[2], told[5], told[10], told[13], told[16]];
    if separators != *b"--;::" {
        return None;
    }
    let field = |at: usize| pair(told[at], told[at + 1]);
    let year = field(8);
    if field(6) != 20 || year > 99 {
        return None;
    }
    let clock = Clock {
        year: 2000 + year,
        month: field(3) as u8,
        day: field(0) as u8,
        hour: field(11) as u8,
        minute: field(14) as u8,
        second: field(17) as u8,
    };
    clock_good(&clock).then_some(clock)
}

/// Writes a line of the template, its value still open.
fn line(to: &mut [u8], at: usize, length: usize) {
    to[..length].copy_from_slice(&TEMPLATE[at..at + length]);
}

fn two(to: &mut [u8], value: u8) {
    to[0] = b'0' + value / 10;
    to[1] = b'0' + value % 10;
}

// Each of these writes the value into its line.

fn serial(meter: &Meter, to: &mut [u8]) {
    to[6..9].copy_from_slice(&meter.serial[..3]);
    to[10..17].copy_from_slice(&meter.serial[3..]);
}

fn date(meter: &Meter, to: &mut [u8]) {
    two(&mut to[6..], (meter.clock.year - 2000) as u8);
    two(&mut to[9..], meter.clock.month);
    two(&mut to[12..], meter.clock.day);
}

fn time(meter: &Meter, to: &mut [u8]) {
    two(&mut to[6..], meter.clock.hour);
    two(&mut to[9..], meter.clock.minute);
    two(&mut to[12..], meter.clock.second);
}

fn account(meter: &Meter, to: &mut [u8]) {
    to[6..16].copy_from_slice(&meter.account);
}

/// Numbers 0 to 3 are the zones, 4 is the total; gives the length of the line.
fn energy(meter: &Meter, number: usize, to: &mut [u8]) -> usize {
    let wh = match meter.counters.get(number) {
        Some(&wh) => wh,
        None => meter.total,
    };
    line(to, ENERGY_LINE + number * ENERGY, ENERGY);
    kwh(wh, &mut to[7..]);
    ENERGY
}

/// Numbers 0 to 4 are what came in, in that order, and 5 to 9 what went out.
fn eqm_energy(meter: &Meter, number: usize, to: &mut [u8]) -> usize {
    let (counters, total) = match number < 5 {
        true => (&meter.counters, meter.total),
        false => (&meter.exported, meter.exported_total),
    };
    let units = counters.get(number % 5).copied().unwrap_or(total);
    let at = ENERGY_LINE + number * EQM_ENERGY;
    to[..EQM_ENERGY].copy_from_slice(&EQM_TEMPLATE[at..at + EQM_ENERGY]);
    eqm_kwh(units, meter.decimals, &mut to[6..]);
    EQM_ENERGY
}

/// Eight digits, and the point before the last so many.
fn eqm_kwh(units: u32, decimals: u8, to: &mut [u8]) {
    let mut four = |at: usize, value: u32| {
        two(&mut to[at..], (value / 100) as u8);
        two(&mut to[at + 2..], (value % 100) as u8);
    };
    four(0, units / 10_000);
    four(4, units % 10_000);
    let point = 8 - usize::from(decimals);
    to.copy_within(point..8, point + 1);
    to[point] = b'.';
}

/// `eeeeee.eee`, its point left as it is.
fn kwh(wh: u32, to: &mut [u8]) {
    let mut three = |at: usize, value: u32| {
        to[at] = b'0' + (value / 100) as u8;
        to[at + 1] = b'0' + (value / 10 % 10) as u8;
        to[at + 2] = b'0' + (value % 10) as u8;
    };
    three(0, wh / 1_000_000);
    three(3, wh / 1_000 % 1_000);
    three(7, wh % 1_000);
}

/// The lines of the period at a place; gives their length.
fn period(meter: &Meter, place: usize, to: &mut [u8]) -> usize {
    let period = &meter.periods[place];
    if meter.decimals == 0 {
        to[..PERIOD_LINES].copy_from_slice(PERIOD);
    } else {
        to[..EQM_PERIOD_LINES].copy_from_slice(EQM_PERIOD);
    }
    two(&mut to[6..], place as u8 + 1);
    two(&mut to[9..], (period.year - 2000) as u8);
    two(&mut to[12..], period.month);
    two(&mut to[15..], period.day);
    two(&mut to[18..], period.hour);
    two(&mut to[21..], period.minute);
    if meter.decimals == 0 {
        for (zone, &wh) in period.counters.iter().enumerate() {
            let line = &mut to[PERIOD_TIME + zone * PERIOD_ENERGY..];
            two(&mut line[7..], place as u8 + 1);
            kwh(wh, &mut line[10..]);
        }
        return PERIOD_LINES;
    }
    let counters = period.counters.iter().chain(&period.exported);
    for (number, &units) in counters.enumerate() {
        let line = &mut to[PERIOD_TIME + number * EQM_PERIOD_ENERGY..];
        two(&mut line[6..], place as u8 + 1);
        eqm_kwh(units, meter.decimals, &mut line[9..]);
    }
    EQM_PERIOD_LINES
}

fn row(meter: &Meter, table: usize, to: &mut [u8]) {
    to[9..33].copy_from_slice(&meter.tables[table]);
}

/// Puts parity on STX to ETX and the BCC behind; gives the length of it all.
fn seal(buffer: &mut [u8], length: usize) -> usize {
    let (block, rest) = buffer.split_at_mut(length);
    let mut sum = STX;
    for character in block {
        sum ^= *character;
        *character = parity(*character);
    }
    rest[0] = parity(sum);
    length + 1
}

/// Writes the data block; the state must be well-formed and the buffer long enough.
pub fn data_block(meter: &Meter, buffer: &mut [u8]) -> usize {
    let end = registers(meter, buffer);
    ended(buffer, end)
}

/// The same with the closed periods after the tables.
pub fn block_with_periods(meter: &Meter, buffer: &mut [u8]) -> usize {
    let mut end = registers(meter, buffer);
    for place in 0..usize::from(meter.closed) {
        end += period(meter, place, &mut buffer[end..]);
    }
    ended(buffer, end)
}

/// The last line, ETX, parity and BCC.
fn ended(buffer: &mut [u8], end: usize) -> usize {
    buffer[end..end + 4].copy_from_slice(b"!\r\n\x03");
    seal(buffer, end + 4)
}

/// The data block up to its last line, without parity; gives where it ends.
fn registers(meter: &Meter, block: &mut [u8]) -> usize {
    let (count, ours) = (tables(meter), meter.decimals == 0);
    let from = if ours { TABLE_LINE } else { EQM_TABLE_LINE };
    let end = from + count * TABLE;
    if ours {
        block[..end].copy_from_slice(&TEMPLATE[..end]);
    } else {
        block[..end].copy_from_slice(&EQM_TEMPLATE[..end]);
    }
    serial(meter, &mut block[SERIAL_LINE..]);
    date(meter, &mut block[DATE_LINE..]);
    time(meter, &mut block[TIME_LINE..]);
    account(meter, &mut block[ACCOUNT_LINE..]);
    if ours {
        for number in 0..5 {
            energy(meter, number, &mut block[ENERGY_LINE + number * ENERGY..]);
        }
    } else {
        for number in 0..10 {
            eqm_energy(
                meter,
                number,
                &mut block[ENERGY_LINE + number * EQM_ENERGY..],
            );
        }
    }
    for table in 0..count {
        row(meter, table, &mut block[from + table * TABLE..]);
    }
    end
}

/// Eight seconds of silence.
pub fn silence(meter: &mut Meter, buffer: &mut [u8]) -> Answer {
    if let Some(refused) = refused_in(meter, buffer.len()) {
        return refused;
    }
    let mode = meter.mode;
    enter(meter, 0);
    match mode {
        0 => answer(0, meter.speed, 0),
        1 if meter.link == OPTICAL => {
            buffer[0] = parity(NAK);
            answer(1, 0, 1)
        }
        _ => answer(1, meter.speed, 0),
    }
}

/// One second of the clock; the first one of a month closes a period.
pub fn tick(meter: &mut Meter) -> Answer {
    if let Some(refused) = refused(meter) {
        return refused;
    }
    let clock = &mut meter.clock;
    clock.second += 1;
    if clock.second == 60 {
        clock.second = 0;
        clock.minute += 1;
        if clock.minute == 60 {
            clock.minute = 0;
            clock.hour += 1;
            if clock.hour == 24 {
                clock.hour = 0;
                next_day(clock);
                if clock.day == 1 {
                    close(meter);
                }
            }
        }
    }
    answer(1, meter.speed, 0)
}

fn next_day(clock: &mut Clock) {
    clock.day += 1;
    if clock_good(clock) {
        return;
    }
    clock.day = 1;
    clock.month += 1;
    if clock.month == 13 {
        clock.month = 1;
        clock.year = if clock.year == 2099 {
            2000
        } else {
            clock.year + 1
        };
    }
}

/// The power comes back.
pub fn power_up(meter: &mut Meter) -> Answer {
    if let Some(refused) = refused(meter) {
        return refused;
    }
    enter(meter, 0);
    meter.attempts = 0;
    answer(1, meter.speed, 0)
}

/// Energy of a direction.
pub fn pulse(meter: &mut Meter, way: Way, units: u32) -> Answer {
    if (units > PULSE_MOST || way == Way::Out && meter.decimals == 0) && edition_good(meter) {
        return answer(13, 0, 0);
    }
    if let Some(refused) = refused(meter) {
        return refused;
    }
    let clock = &meter.clock;
    let year = u32::from(clock.year) - 2000;
    let leap_passed = u32::from(year.is_multiple_of(4) && clock.month > 2);
    let month = usize::from(clock.month);
    let days = 365 * year + year.div_ceil(4) + DAYS_BEFORE[month] + leap_passed;
    // Counted from 2000-01-01, a Saturday.
    let table = match (days + u32::from(clock.day) - 1) % 7 {
        0 if meter.edition == 2 => 24,
        0 | 1 => month + 11,
        _ => month - 1,
    };
    let zone = meter.tables[table][usize::from(clock.hour)] - b'1';
    let (end, _) = ends(meter.decimals);
    let (counters, total) = match way {
        Way::In => (&mut meter.counters, &mut meter.total),
        Way::Out => (&mut meter.exported, &mut meter.exported_total),
    };
    for count in [&mut counters[usize::from(zone)], total] {
        *count += units;
        if *count >= end {
            *count -= end;
        }
    }
    answer(1, meter.speed, 0)
}

#[cfg(test)]
mod tests;
