//! What a head can say, good and nearly good, in characters without parity.

use crate::chance::Chance;
use model::meter::{
    bcc, days_in_month, total_of, Clock, Meter, Period, COUNTER_END, EQM_END, ETX, PERIODS, PLACES,
    SOH, STX, WIRED,
};

/// SOH, command, STX and data if there are any, ETX and the true BCC.
pub fn frame(command: &[u8], data: Option<&[u8]>) -> Vec<u8> {
    let mut frame = vec![SOH];
    frame.extend(command);
    if let Some(data) = data {
        frame.push(STX);
        frame.extend(data);
    }
    frame.push(ETX);
    frame.push(bcc(&frame[1..]));
    frame
}

pub fn read(data: &[u8]) -> Vec<u8> {
    frame(b"R1", Some(data))
}

pub fn write(data: &[u8]) -> Vec<u8> {
    frame(b"W1", Some(data))
}

pub fn password(data: &[u8]) -> Vec<u8> {
    frame(b"P1", Some(data))
}

pub fn good_bye() -> Vec<u8> {
    frame(b"B0", None)
}

pub fn bracketed(inside: &[u8]) -> Vec<u8> {
    [b"(", inside, b")"].concat()
}

/// The sign-on line for some serial.
pub fn sign_on(serial: &[u8; 10]) -> Vec<u8> {
    [b"/?", &serial[..3], b" ", &serial[3..], b"!\r\n"].concat()
}

/// The sign-on that closes a period.
pub const CLOSING: &[u8] = b"/C!\r\n";

/// Lines that come near to it and close nothing.
#[rustfmt::skip]
pub const NEARLY_CLOSING: [&[u8]; 10] = [
    b"/C!\n", b"/C!\r\r\n", b"/c!\r\n", b"/C\r\n", b"/CC!\r\n", b"/C?!\r\n", b"/?C!\r\n", b"C!\r\n",
    b"/C000 0000000!\r\n", b"/C! \r\n",
];

pub fn confirmation(choice: u8) -> Vec<u8> {
    confirmation_at(b'5', choice)
}

pub fn confirmation_at(speed: u8, choice: u8) -> Vec<u8> {
    vec![0x06, b'0', speed, choice, b'\r', b'\n']
}

/// A speed that the mode may have.
pub fn speed(chance: &mut Chance, mode: u8) -> u8 {
    if mode < 2 {
        0
    } else {
        chance.one_of(&[0, 5])
    }
}

pub fn clock_data(clock: Clock) -> Vec<u8> {
    format!(
        "T({:02}-{:02}-{:04};{:02}:{:02}:{:02})",
        clock.day, clock.month, clock.year, clock.hour, clock.minute, clock.second
    )
    .into_bytes()
}

pub fn table_data(table: usize, row: &[u8]) -> Vec<u8> {
    [format!("Z({table:02};").as_bytes(), row, b")"].concat()
}

pub fn row(chance: &mut Chance) -> [u8; 24] {
    let same = chance.percent(15).then(|| chance.one_of(b"1234"));
    [0; 24].map(|_| same.unwrap_or_else(|| chance.one_of(b"1234")))
}

const LETTERS: &[u8] = b"0123456789ABCXYZabcxyz _";

pub fn account(chance: &mut Chance) -> [u8; 10] {
    [0; 10].map(|_| chance.one_of(LETTERS))
}

pub fn digits<const N: usize>(chance: &mut Chance) -> [u8; N] {
    [0; N].map(|_| chance.one_of(b"0123456789"))
}

/// Decimals that some family has: document 01's as often as all others.
pub fn family(chance: &mut Chance) -> u8 {
    chance.one_of(&[0, 0, 0, 2, 3, 4])
}

/// A counter of a family, often near its end.
pub fn counter(chance: &mut Chance, decimals: u8) -> u32 {
    let end = match decimals {
        0 => COUNTER_END,
        _ => EQM_END,
    };
    match chance.below(4) {
        0 => end - 1 - chance.below(2_000_000) as u32,
        1 => end - 1 - chance.below(3) as u32,
        2 => chance.below(2_000) as u32,
        _ => chance.below(end as usize) as u32,
    }
}

/// Four counters of what came in.
pub fn counters(chance: &mut Chance, decimals: u8) -> [u32; 4] {
    [(); 4].map(|()| counter(chance, decimals))
}

/// Four counters of what went out, which document 01's family has none of.
pub fn exported(chance: &mut Chance, decimals: u8) -> [u32; 4] {
    match decimals {
        0 => [0; 4],
        _ => counters(chance, decimals),
    }
}

/// The same of another family: counters and periods in its ranges.
pub fn of_family(chance: &mut Chance, mut meter: Meter, decimals: u8) -> Meter {
    meter.decimals = decimals;
    meter.counters = counters(chance, decimals);
    meter.exported = exported(chance, decimals);
    for place in 0..usize::from(meter.closed).min(PERIODS) {
        meter.periods[place].counters = counters(chance, decimals);
        meter.periods[place].exported = exported(chance, decimals);
    }
    totalled(meter)
}

/// The same with the totals of its counters.
pub fn totalled(mut meter: Meter) -> Meter {
    let end = meter.counter_end();
    meter.total = total_of(&meter.counters, end);
    meter.exported_total = total_of(&meter.exported, end);
    meter
}

/// A moment, often the last of its month, year or century.
pub fn clock(chance: &mut Chance) -> Clock {
    let year = match chance.below(4) {
        0 => chance.one_of(&[2000, 2001, 2004, 2023, 2024, 2096, 2099]),
        _ => chance.between(2000, 2099) as u16,
    };
    let month = match chance.below(4) {
        0 => 2,
        1 => 12,
        _ => chance.between(1, 12) as u8,
    };
    let most = days_in_month(year, month);
    let day = match chance.below(3) {
        0 => most,
        1 if month == 2 => 28,
        _ => chance.between(1, usize::from(most)) as u8,
    };
    let near = |chance: &mut Chance, end: u8| {
        if chance.percent(60) {
            end
        } else {
            chance.below(usize::from(end) + 1) as u8
        }
    };
    Clock {
        year,
        month,
        day,
        hour: near(chance, 23),
        minute: near(chance, 59),
        second: near(chance, 59),
    }
}

/// A moment around the first of a month, or around a midnight that is none.
pub fn midnight(chance: &mut Chance) -> Clock {
    let mut around = clock(chance);
    let most = days_in_month(around.year, around.month);
    (around.day, around.hour, around.minute) = (most, 23, 59);
    around.second = chance.one_of(&[59, 59, 59, 58, 57]);
    match chance.below(8) {
        0 => around.day = chance.between(1, usize::from(most) - 1) as u8,
        1 => {
            // The very second, which only a tick that reaches it closes, and the one after it.
            (around.day, around.hour, around.minute) = (1, 0, 0);
            around.second = chance.below(2) as u8;
        }
        _ => {}
    }
    around
}

/// A closed period of a meter of some family.
pub fn period(chance: &mut Chance, decimals: u8) -> Period {
    let Clock {
        year,
        month,
        day,
        hour,
        minute,
        ..
    } = clock(chance);
    Period {
        year,
        month,
        day,
        hour,
        minute,
        counters: counters(chance, decimals),
        exported: exported(chance, decimals),
    }
}

/// Some closed periods, often none or all that are kept.
pub fn close_some(chance: &mut Chance, meter: &mut Meter) {
    let any = chance.below(PERIODS + 1);
    let count = chance.one_of(&[0, 1, 2, PERIODS - 1, PERIODS, PERIODS, any]);
    meter.closed = count as u8;
    meter.periods = [Period::default(); PERIODS];
    for place in 0..count {
        meter.periods[place] = period(chance, meter.decimals);
    }
}

/// Something wrong with an archive.
pub fn break_periods(chance: &mut Chance, meter: &mut Meter) {
    let place = chance.below(PERIODS);
    let broken = &mut meter.periods[place];
    match chance.below(9) {
        0 => meter.closed = chance.one_of(&[13, 14, 128, 255]),
        1 => meter.closed = (place as u8 + 1 + meter.closed) % 13,
        2 => broken.year = chance.one_of(&[1, 1999, 2000, 2099, 2100, 65_535]),
        3 => broken.month = chance.one_of(&[0, 1, 2, 12, 13, 255]),
        4 => broken.day = chance.one_of(&[0, 1, 28, 29, 30, 31, 32, 255]),
        5 => broken.hour = chance.one_of(&[1, 23, 24, 255]),
        6 => broken.minute = chance.one_of(&[1, 59, 60, 255]),
        7 => broken.counters[chance.below(4)] = chance.one_of(&ENDS),
        _ => broken.exported[chance.below(4)] = chance.one_of(&ENDS),
    }
}

/// Numbers around the ends of counters.
pub const ENDS: [u32; 6] = [
    1,
    99_999_999,
    100_000_000,
    999_999_999,
    1_000_000_000,
    u32::MAX,
];

/// A good state in some mode, its receiver empty.
pub fn state(chance: &mut Chance, mode: u8) -> Meter {
    let mut meter = Meter {
        mode,
        serial: digits(chance),
        account: account(chance),
        password: digits(chance),
        attempts: chance.below(4) as u8,
        speed: speed(chance, mode),
        clock: clock(chance),
        ..Meter::blank()
    };
    if chance.percent(10) {
        meter.serial = *b"0000000000";
    }
    for table in 0..24 {
        meter.tables[table] = row(chance);
    }
    let decimals = family(chance);
    let mut meter = of_family(chance, meter, decimals);
    close_some(chance, &mut meter);
    of_some_edition(chance, meter)
}

/// The same of either edition.
pub fn of_some_edition(chance: &mut Chance, meter: Meter) -> Meter {
    if chance.percent(50) {
        return meter;
    }
    of_edition_2(meter, row(chance))
}

/// The same of edition 2, with a row for Saturdays.
pub fn of_edition_2(mut meter: Meter, saturday: [u8; 24]) -> Meter {
    meter.edition = 2;
    meter.tables[24] = saturday;
    meter
}

/// The same on either link.
pub fn on_some_link(chance: &mut Chance, meter: Meter) -> Meter {
    if chance.percent(60) {
        return meter;
    }
    Meter {
        link: WIRED,
        speed: 5,
        ..meter
    }
}

/// A line of the wired link.
pub fn wired_line(letter: u8, serial: &[u8]) -> Vec<u8> {
    let (start, rest) = serial.split_at(3);
    [&[b'/', letter], start, b".", rest, b"\r\n"].concat()
}

/// The same with these characters held. The mark's place is that of the first 0, or the last.
pub fn holding(mut meter: Meter, held: &[u8], mark: bool) -> Meter {
    meter.held = [0; PLACES];
    meter.held[..held.len()].copy_from_slice(held);
    meter.count = held.len() as u8;
    meter.mark = mark.into();
    let damaged = held.iter().position(|&character| character == 0);
    let last = held.len().saturating_sub(1);
    meter.place = if mark {
        damaged.unwrap_or(last) as u8
    } else {
        0
    };
    meter
}

/// A table, at times the one that edition 2 alone has.
fn table(chance: &mut Chance) -> usize {
    match chance.one_in(16) {
        true => 25,
        false => chance.between(1, 24),
    }
}

/// Read data in document 01's form, or request [10]'s.
pub fn good_read(chance: &mut Chance) -> Vec<u8> {
    match chance.below(6) {
        0 => chance.pick::<[u8]>(&[b"T()", b"L()", b"K()"]).to_vec(),
        1 => format!("E{}()", chance.below(5)).into_bytes(),
        2 => format!("G{}()", chance.below(5)).into_bytes(),
        _ => format!("Z({:02})", table(chance)).into_bytes(),
    }
}

/// Read data that comes near to it.
pub fn bad_read(chance: &mut Chance) -> Vec<u8> {
    #[rustfmt::skip]
    const NEAR: &[&[u8]] = &[
        b"", b"T", b"T(", b"T( )", b"T()x", b"t()", b"TT()", b"L(1)", b"K(x)", b"K() ", b"E()",
        b"E5()", b"E9()", b"E/()", b"E:()", b"E01()", b"E1", b"E1(1)", b"e1()", b"Z()", b"Z(00)",
        b"Z(25)", b"Z(26)", b"Z(30)", b"Z(99)", b"Z(1)", b"Z(001)", b"Z(1a)", b"Z(a1)", b"Z(/1)",
        b"Z(0:)", b"Z(01", b"Z[01]", b"z(01)", b"Z(01)(02)", b"F()", b"P()", b"U()", b"()", b"(T)",
        b"Z(-1)", b"Z( 1)", b"Z(1 )", b"Z(24)0", b"T())", b"T)(", b"Z(2;)", b"Z(07;)", b"G()",
        b"G5()", b"G9()", b"G/()", b"G:()", b"G01()", b"G1", b"G1(1)", b"g1()", b"F1()", b"H0()",
    ];
    match chance.below(3) {
        0 => printables(chance, 8),
        1 => spoiled(chance, good_read),
        _ => chance.pick(NEAR).to_vec(),
    }
}

/// Write data in document 01's form.
pub fn good_write(chance: &mut Chance) -> Vec<u8> {
    match chance.below(5) {
        0 => clock_data(clock(chance)),
        1 => [b"K", &bracketed(&account(chance))[..]].concat(),
        _ => {
            let row = row(chance);
            table_data(table(chance), &row)
        }
    }
}

/// Write data that comes near to it.
pub fn bad_write(chance: &mut Chance) -> Vec<u8> {
    match chance.below(8) {
        0 | 1 => bad_clock(chance),
        2 => {
            let mut account = account(chance).to_vec();
            match chance.below(4) {
                0 => account.push(b'x'),
                1 => account.truncate(9),
                2 => account.clear(),
                _ => account[chance.below(10)] = chance.one_of(b"-.,/:@[`{^()!\"~"),
            }
            [b"K", &bracketed(&account)[..]].concat()
        }
        3 | 4 => {
            let mut row = row(chance).to_vec();
            let mut table = chance.between(1, 24);
            match chance.below(5) {
                0 => row.push(b'1'),
                1 => row.truncate(23),
                2 => row.clear(),
                3 => row[chance.below(24)] = chance.one_of(b"05/ 9q)"),
                _ => table = chance.one_of(&[0, 25, 26, 30, 42, 99, 100]),
            }
            table_data(table, &row)
        }
        5 => printables(chance, 30),
        _ => spoiled(chance, good_write),
    }
}

/// A clock write in good form whose date or time is none, or nearly in good form.
fn bad_clock(chance: &mut Chance) -> Vec<u8> {
    #[rustfmt::skip]
    const NEAR: &[&[u8]] = &[
        b"T(29-02-2001;00:00:00)", b"T(29-02-2100;00:00:00)", b"T(29-02-1900;00:00:00)",
        b"T(30-02-2000;00:00:00)", b"T(31-04-2020;00:00:00)", b"T(31-06-2020;00:00:00)",
        b"T(31-09-2020;00:00:00)", b"T(31-11-2020;00:00:00)", b"T(32-01-2020;00:00:00)",
        b"T(00-01-2020;00:00:00)", b"T(01-00-2020;00:00:00)", b"T(01-13-2020;00:00:00)",
        b"T(31-12-1999;23:59:59)", b"T(01-01-2100;00:00:00)", b"T(01-01-0000;00:00:00)",
        b"T(01-01-9999;00:00:00)", b"T(01-01-2020;24:00:00)", b"T(01-01-2020;23:60:00)",
        b"T(01-01-2020;23:59:60)", b"T(01-01-2020;99:99:99)", b"T(1-1-2020;00:00:00)",
        b"T(01-01-20;00:00:00)", b"T(2020-01-01;00:00:00)", b"T(01-01-2020 00:00:00)",
        b"T(01-01-2020;00:00)", b"T(01-01-2020;00:00:00;)", b"T(01.01.2020;00:00:00)",
        b"T(01-01-2020;00-00-00)", b"T()", b"T(", b"T", b"T(01-01-2020)", b"T(00:00:00)",
        b"T(01-01-2020;00:00:00", b"T01-01-2020;00:00:00)", b"T(0a-01-2020;00:00:00)",
        b"T(01-01-2020;00:00:0/)", b"T(01-01-2020;00:0::00)", b"T(01-01-2 20;00:00:00)",
        b"T(01-01-12020;00:00:00)", b"T( 1-01-2020;00:00:00)", b"t(01-01-2020;00:00:00)",
    ];
    if chance.percent(70) {
        return chance.pick(NEAR).to_vec();
    }
    let mut told = clock(chance);
    match chance.below(6) {
        0 => told.year = chance.one_of(&[0, 1999, 2100, 2400, 9999]),
        1 => told.month = chance.one_of(&[0, 13, 20, 99]),
        2 => told.day = chance.one_of(&[0, 30, 31, 32, 99]),
        3 => told.hour = chance.one_of(&[24, 30, 99]),
        4 => told.minute = chance.one_of(&[60, 99]),
        _ => told.second = chance.one_of(&[60, 99]),
    }
    clock_data(told)
}

/// Password data without the right form.
pub fn malformed_password(chance: &mut Chance, password: &[u8; 8]) -> Vec<u8> {
    let inside = password.to_vec();
    match chance.below(9) {
        0 => bracketed(&inside[..7]),
        1 => bracketed(&[&inside[..], b"0"].concat()),
        2 => inside,
        3 => [b"(", &inside[..]].concat(),
        4 => [&inside[..], b")"].concat(),
        5 => [&bracketed(&inside)[..], b" "].concat(),
        6 => Vec::new(),
        7 => chance
            .pick::<[u8]>(&[b"(", b")", b"( )", b"(())", b"()()", b"[]", b"(0)"])
            .to_vec(),
        _ => {
            let mut inside = inside;
            inside[chance.below(8)] = chance.one_of(b"/:aA -+.");
            bracketed(&inside)
        }
    }
}

/// Eight digits that differ from the password in one place or more.
pub fn wrong_password(chance: &mut Chance, password: &[u8; 8]) -> [u8; 8] {
    let mut wrong = *password;
    for _ in 0..chance.one_of(&[1, 1, 1, 8]) {
        let place = chance.below(8);
        wrong[place] = b'0' + (wrong[place] - b'0' + 1 + chance.below(9) as u8) % 10;
    }
    if wrong == *password {
        wrong[0] = b'0' + (wrong[0] - b'0' + 1) % 10;
    }
    wrong
}

/// Up to so many printable characters.
pub fn printables(chance: &mut Chance, most: usize) -> Vec<u8> {
    (0..chance.below(most + 1))
        .map(|_| chance.between(0x20, 0x7E) as u8)
        .collect()
}

/// Good data with one character changed, left out, doubled or added.
fn spoiled(chance: &mut Chance, good: fn(&mut Chance) -> Vec<u8>) -> Vec<u8> {
    let mut data = good(chance);
    let place = chance.below(data.len());
    match chance.below(4) {
        0 => data[place] = chance.between(0x20, 0x7E) as u8,
        1 => drop(data.remove(place)),
        2 => data.insert(place, data[place]),
        _ => data.push(chance.between(0x20, 0x7E) as u8),
    }
    data
}

/// A good write whose BCC is the character wanted, if one is found.
pub fn write_with_bcc(chance: &mut Chance, wanted: u8) -> Option<Vec<u8>> {
    (0..400).find_map(|_| {
        let frame = write(&good_write(chance));
        (frame.last() == Some(&wanted)).then_some(frame)
    })
}

/// A frame of just this many characters, BCC included, in good shape.
pub fn long_frame(chance: &mut Chance, command: &[u8], length: usize) -> Vec<u8> {
    let data: Vec<u8> = (0..length - 6)
        .map(|_| chance.between(0x20, 0x7E) as u8)
        .collect();
    frame(command, Some(&data))
}

/// The same for a write with the BCC wanted.
pub fn long_frame_with_bcc(chance: &mut Chance, length: usize, wanted: u8) -> Vec<u8> {
    loop {
        let frame = long_frame(chance, b"W1", length);
        if frame.last() == Some(&wanted) {
            return frame;
        }
    }
}
