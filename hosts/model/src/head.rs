//! The head of document 01, written from the page alone: commands, stripped replies, the part of a
//! block, its data sets one by one, and values read back. Slow and plain, to compare others with.

use crate::post::tables_of;
use std::ops::Range;

const SOH: u8 = 0x01;
const STX: u8 = 0x02;
const ETX: u8 = 0x03;
const ACK: u8 = 0x06;

/// The least room that a command is built in.
pub const COMMAND_ROOM: usize = 64;

/// The numbers that document 01 gives to the head's answers.
pub mod answer {
    pub const END: u8 = 0;
    pub const DONE: u8 = 1;
    pub const FIELD: u8 = 9;
    pub const NO_EDITION: u8 = 16;
    pub const NO_DECIMALS: u8 = 18;
    pub const SHORT_ROOM: u8 = 19;
    pub const NO_BLOCK: u8 = 22;
    pub const WRONG_BCC: u8 = 23;
    pub const DAMAGED: u8 = 24;
    pub const MALFORMED: u8 = 25;
    pub const SHORT_COPY: u8 = 26;
    pub const MISSING: u8 = 27;
}

// Characters and checksum.

/// Whether a wire byte is undamaged: its count of ones is even.
pub fn undamaged(byte: u8) -> bool {
    byte.count_ones().is_multiple_of(2)
}

/// A character of seven bits as it goes on the wire.
pub fn with_parity(character: u8) -> u8 {
    if undamaged(character) {
        character
    } else {
        character | 0x80
    }
}

/// Text of seven bits as it goes on the wire.
pub fn on_the_wire(text: &[u8]) -> Vec<u8> {
    text.iter().map(|&c| with_parity(c)).collect()
}

/// The exclusive-or of all characters given.
pub fn bcc(characters: &[u8]) -> u8 {
    characters.iter().fold(0, |sum, c| sum ^ c)
}

/// A frame or block with its BCC behind it, which does not run over the first character.
fn checked(mut frame: Vec<u8>) -> Vec<u8> {
    let sum = bcc(&frame[1..]);
    frame.push(sum);
    frame
}

// Fields.

/// A date with time, of any numbers.
#[derive(Clone, Copy, Debug, Default, PartialEq, Eq)]
pub struct Clock {
    pub year: u16,
    pub month: u8,
    pub day: u8,
    pub hour: u8,
    pub minute: u8,
    pub second: u8,
}

/// The days of a month in 2000 to 2099, where every fourth year is a leap year; 0 for no month.
fn days(year: u16, month: u8) -> u8 {
    match month {
        2 if year.is_multiple_of(4) => 29,
        2 => 28,
        4 | 6 | 9 | 11 => 30,
        1..=12 => 31,
        _ => 0,
    }
}

fn real_date(year: u16, month: u8, day: u8) -> bool {
    (2000..=2099).contains(&year) && 1 <= day && day <= days(year, month)
}

fn real_time(hour: u8, minute: u8, second: u8) -> bool {
    hour <= 23 && minute <= 59 && second <= 59
}

impl Clock {
    /// Whether this is a real date in 2000 to 2099 with a time.
    pub fn real(&self) -> bool {
        real_date(self.year, self.month, self.day) && real_time(self.hour, self.minute, self.second)
    }
}

fn digits(field: &[u8], count: usize) -> bool {
    field.len() == count && field.iter().all(u8::is_ascii_digit)
}

fn serial_rule(serial: &[u8]) -> bool {
    digits(serial, 10)
}

fn account_rule(account: &[u8]) -> bool {
    let allowed = |&c: &u8| c.is_ascii_alphanumeric() || c == b' ' || c == b'_';
    account.len() == 10 && account.iter().all(allowed)
}

fn row_rule(row: &[u8]) -> bool {
    row.len() == 24 && row.iter().all(|c| (b'1'..=b'4').contains(c))
}

/// A serial as it is shown, `nnn nnnnnnn`.
fn shown(serial: &[u8]) -> String {
    let serial = String::from_utf8_lossy(serial);
    format!("{} {}", &serial[..3], &serial[3..])
}

// Commands.

/// Everything that the head says, with fields of any content.
#[derive(Clone, Copy, Debug, PartialEq, Eq)]
pub enum Command<'a> {
    SignOn,
    Close,
    SignOnTo(&'a [u8]),
    SignOnWired(&'a [u8]),
    Confirm(u8, u8),
    Enter,
    Password(&'a [u8]),
    ReadClock,
    ReadSerial,
    ReadAccount,
    ReadTotal,
    ReadZone(u8),
    /// What went out of an EQM meter.
    ReadTotalOut,
    ReadZoneOut(u8),
    /// Edition and number.
    ReadTable(u8, u8),
    WriteClock(Clock),
    WriteAccount(&'a [u8]),
    WriteTable(u8, u8, &'a [u8]),
    SignOff,
}

/// A frame with data: SOH, the two characters of the command, STX, data, ETX, BCC.
fn framed(name: &str, data: &str) -> Vec<u8> {
    let mut frame = vec![SOH];
    frame.extend(name.bytes());
    frame.push(STX);
    frame.extend(data.bytes());
    frame.push(ETX);
    checked(frame)
}

/// Whether meters of an edition have a table.
fn has_table(edition: u8, table: u8) -> bool {
    tables_of(edition).is_some_and(|highest| (1..=highest).contains(&table))
}

/// The characters of a command in seven bits; nothing where a field lies outside its rule.
pub fn characters(command: &Command) -> Option<Vec<u8>> {
    let fields_good = match command {
        Command::SignOnTo(serial) | Command::SignOnWired(serial) => serial_rule(serial),
        Command::Confirm(speed, choice) => b"05".contains(speed) && b"0167".contains(choice),
        Command::Password(password) => digits(password, 8),
        Command::ReadZone(zone) | Command::ReadZoneOut(zone) => (1..=4).contains(zone),
        Command::ReadTable(edition, table) => has_table(*edition, *table),
        Command::WriteClock(clock) => clock.real(),
        Command::WriteAccount(account) => account_rule(account),
        Command::WriteTable(edition, table, row) => has_table(*edition, *table) && row_rule(row),
        _ => true,
    };
    if !fields_good {
        return None;
    }
    let text = String::from_utf8_lossy;
    Some(match command {
        Command::SignOn => b"/?!\r\n".to_vec(),
        Command::Close => b"/C!\r\n".to_vec(),
        Command::SignOnTo(serial) => format!("/?{}!\r\n", shown(serial)).into_bytes(),
        Command::SignOnWired(serial) => {
            let (start, rest) = serial.split_at(3);
            format!("/A{}.{}\r\n", text(start), text(rest)).into_bytes()
        }
        Command::Confirm(speed, choice) => vec![ACK, b'0', *speed, *choice, b'\r', b'\n'],
        Command::Enter => framed("P1", "()"),
        Command::Password(password) => framed("P1", &format!("({})", text(password))),
        Command::ReadClock => framed("R1", "T()"),
        Command::ReadSerial => framed("R1", "L()"),
        Command::ReadAccount => framed("R1", "K()"),
        Command::ReadTotal => framed("R1", "E0()"),
        Command::ReadZone(zone) => framed("R1", &format!("E{zone}()")),
        Command::ReadTotalOut => framed("R1", "G0()"),
        Command::ReadZoneOut(zone) => framed("R1", &format!("G{zone}()")),
        Command::ReadTable(_, table) => framed("R1", &format!("Z({table:02})")),
        Command::WriteClock(c) => {
            let date = format!("{:02}-{:02}-{:04}", c.day, c.month, c.year);
            let time = format!("{:02}:{:02}:{:02}", c.hour, c.minute, c.second);
            framed("W1", &format!("T({date};{time})"))
        }
        Command::WriteAccount(account) => framed("W1", &format!("K({})", text(account))),
        Command::WriteTable(_, table, row) => framed("W1", &format!("Z({table:02};{})", text(row))),
        Command::SignOff => checked(vec![SOH, b'B', b'0', ETX]),
    })
}

/// Builds a command with parity at the start of `out`: answer and length.
pub fn build(command: &Command, out: &mut [u8]) -> (u8, usize) {
    if let Command::ReadTable(edition, _) | Command::WriteTable(edition, ..) = command {
        if tables_of(*edition).is_none() {
            return (answer::NO_EDITION, 0);
        }
    }
    if out.len() < COMMAND_ROOM {
        return (answer::SHORT_ROOM, 0);
    }
    match characters(command) {
        None => (answer::FIELD, 0),
        Some(characters) => {
            let wire = on_the_wire(&characters);
            out[..wire.len()].copy_from_slice(&wire);
            (answer::DONE, wire.len())
        }
    }
}

// Replies.

/// Strips a reply's parity into `out`: answer, length, and with 24 the place of the first damaged byte.
pub fn strip(reply: &[u8], out: &mut [u8]) -> (u8, usize, usize) {
    if out.len() < reply.len() {
        return (answer::SHORT_COPY, 0, 0);
    }
    for (place, &byte) in reply.iter().enumerate() {
        if !undamaged(byte) {
            return (answer::DAMAGED, 0, place);
        }
    }
    for (place, byte) in reply.iter().enumerate() {
        out[place] = byte & 0x7F;
    }
    (answer::DONE, reply.len(), 0)
}

/// Where the data of a stripped block lie, or the number of the refusal.
pub fn part(stripped: &[u8]) -> Result<Range<usize>, u8> {
    let (sum, block) = stripped.split_last().ok_or(answer::NO_BLOCK)?;
    let inside = block
        .strip_prefix(&[STX])
        .and_then(|rest| rest.strip_suffix(&[ETX]))
        .ok_or(answer::NO_BLOCK)?;
    if inside.contains(&ETX) || !stripped.is_ascii() {
        return Err(answer::NO_BLOCK);
    }
    if bcc(&block[1..]) != *sum {
        return Err(answer::WRONG_BCC);
    }
    Ok(1..1 + inside.len())
}

// Data sets.

/// One step of a reader: a set read, the end, or a malformed set.
#[derive(Clone, Copy, Debug, PartialEq, Eq)]
pub struct Step {
    pub answer: u8,
    pub address_length: usize,
    pub value_length: usize,
    pub next: usize,
    pub place: usize,
}

/// Reads the data set that starts at a place, or says why there is none.
pub fn next(sets: &[u8], at: usize) -> Step {
    let stays = Step {
        answer: answer::END,
        address_length: 0,
        value_length: 0,
        next: at,
        place: 0,
    };
    let rest = sets.get(at..).unwrap_or(&[]);
    if rest.is_empty() || rest.starts_with(b"!\r\n") {
        return stays;
    }
    match set_at_start(rest) {
        Some((address_length, value_length)) => Step {
            answer: answer::DONE,
            address_length,
            value_length,
            next: at + address_length + 1 + value_length + 3,
            place: 0,
        },
        None => Step {
            answer: answer::MALFORMED,
            place: at,
            ..stays
        },
    }
}

/// The lengths of address and value of the data set that `rest` starts with.
/// No bracket may stand in an address or a value, so each ends at the first character of another kind.
fn set_at_start(rest: &[u8]) -> Option<(usize, usize)> {
    let in_address = |c: &&u8| c.is_ascii_alphanumeric() || b".*".contains(*c);
    let in_value = |c: &&u8| (0x20..=0x7E).contains(*c) && !b"()/!".contains(*c);
    let address_length = rest.iter().take_while(in_address).count();
    if !(1..=16).contains(&address_length) {
        return None;
    }
    let rest = rest[address_length..].strip_prefix(b"(")?;
    let value_length = rest.iter().take_while(in_value).count();
    if value_length > 32 {
        return None;
    }
    rest[value_length..].strip_prefix(b")\r\n")?;
    Some((address_length, value_length))
}

/// What a lookup says: how many sets were read, and the set that was found, by where its address and
/// its value stand, or the place of a bad one.
#[derive(Clone, Copy, Debug, PartialEq, Eq)]
pub struct Lookup {
    pub answer: u8,
    pub count: usize,
    pub place: usize,
    pub address_start: usize,
    pub address_length: usize,
    pub value_start: usize,
    pub value_length: usize,
}

/// Finds the first data set with an address: all sets are read first, and then looked through.
pub fn find(sets: &[u8], address: &[u8]) -> Lookup {
    let (mut all, mut at) = (Vec::new(), 0);
    let last = loop {
        match next(sets, at) {
            step if step.answer == answer::DONE => {
                all.push((at, step));
                at = step.next;
            }
            stays => break stays,
        }
    };
    let has_it = |(at, step): &(usize, Step)| sets[*at..at + step.address_length] == *address;
    match all.iter().position(has_it) {
        Some(before) => {
            let (at, step) = all[before];
            Lookup {
                answer: answer::DONE,
                count: before + 1,
                place: 0,
                address_start: at,
                address_length: step.address_length,
                value_start: at + step.address_length + 1,
                value_length: step.value_length,
            }
        }
        None => Lookup {
            answer: match last.answer {
                answer::MALFORMED => answer::MALFORMED,
                _ => answer::MISSING,
            },
            count: all.len(),
            place: last.place,
            address_start: 0,
            address_length: 0,
            value_start: 0,
            value_length: 0,
        },
    }
}

// Values, as they stand between the brackets; `None` is 25 with zeros for the value.

/// The number that some decimal digits write.
fn number(digits: &[u8]) -> Option<u32> {
    let written = |sum, c: &u8| c.is_ascii_digit().then(|| sum * 10 + u32::from(c - b'0'));
    digits.iter().try_fold(0, written)
}

/// The three numbers of two digits in a value of eight characters.
fn three_pairs(value: &[u8], between: u8) -> Option<[u8; 3]> {
    if value.len() != 8 || value[2] != between || value[5] != between {
        return None;
    }
    let pair = |from: usize| number(&value[from..from + 2]).map(|n| n as u8);
    Some([pair(0)?, pair(3)?, pair(6)?])
}

/// `nnn nnnnnnn` to the ten digits.
pub fn value_serial(value: &[u8]) -> Option<[u8; 10]> {
    if value.len() != 11 || value[3] != b' ' {
        return None;
    }
    let serial = [&value[..3], &value[4..]].concat();
    serial_rule(&serial).then(|| serial.try_into().expect("ten digits"))
}

/// The account's ten characters.
pub fn value_account(value: &[u8]) -> Option<[u8; 10]> {
    account_rule(value).then(|| value.try_into().expect("ten characters"))
}

/// A table's row.
pub fn value_row(value: &[u8]) -> Option<[u8; 24]> {
    row_rule(value).then(|| value.try_into().expect("24 characters"))
}

/// `yy-mm-dd` to year, month and day.
pub fn value_date(value: &[u8]) -> Option<(u16, u8, u8)> {
    let [year, month, day] = three_pairs(value, b'-')?;
    let year = 2000 + u16::from(year);
    real_date(year, month, day).then_some((year, month, day))
}

/// `hh:nn:ss` to hour, minute and second.
pub fn value_time(value: &[u8]) -> Option<(u8, u8, u8)> {
    let [hour, minute, second] = three_pairs(value, b':')?;
    real_time(hour, minute, second).then_some((hour, minute, second))
}

/// `yy-mm-dd hh:nn`, when a period was closed, to year, month, day, hour and minute.
pub fn value_period(value: &[u8]) -> Option<(u16, u8, u8, u8, u8)> {
    if value.len() != 14 || value[8] != b' ' || value[11] != b':' {
        return None;
    }
    let (year, month, day) = value_date(&value[..8])?;
    let pair = |from: usize| number(&value[from..from + 2]).map(|n| n as u8);
    let (hour, minute) = (pair(9)?, pair(12)?);
    real_time(hour, minute, 0).then_some((year, month, day, hour, minute))
}

/// `eeeeee.eee*kWh` to Wh.
pub fn value_counter(value: &[u8]) -> Option<u32> {
    let written = value.strip_suffix(b"*kWh")?;
    if written.len() != 10 || written[6] != b'.' {
        return None;
    }
    Some(number(&written[..6])? * 1000 + number(&written[7..])?)
}

/// `eeeeee.ee*kWh`, `eeeee.eee*kWh` or `eeee.eeee*kWh`, by the decimals, 2, 3 or 4, to units of the
/// last place.
pub fn value_eqm(decimals: u8, value: &[u8]) -> Option<u32> {
    let whole = 8 - usize::from(decimals);
    let written = value.strip_suffix(b"*kWh")?;
    if written.len() != 9 || written[whole] != b'.' {
        return None;
    }
    number(&[&written[..whole], &written[whole + 1..]].concat())
}

/// The kinds of value that are read back.
#[derive(Clone, Copy, Debug, PartialEq, Eq)]
pub enum Kind {
    Serial,
    Account,
    Row,
    Date,
    Time,
    Period,
    Counter,
    /// An EQM counter, with its decimals.
    Eqm(u8),
}

impl Kind {
    pub const ALL: [Kind; 10] = [
        Kind::Serial,
        Kind::Account,
        Kind::Row,
        Kind::Date,
        Kind::Time,
        Kind::Period,
        Kind::Counter,
        Kind::Eqm(2),
        Kind::Eqm(3),
        Kind::Eqm(4),
    ];

    /// How many numbers or characters a value of this kind is read to.
    pub fn count(self) -> usize {
        match self {
            Kind::Serial | Kind::Account => 10,
            Kind::Row => 24,
            Kind::Date | Kind::Time => 3,
            Kind::Period => 5,
            Kind::Counter | Kind::Eqm(_) => 1,
        }
    }
}

/// Reads a value: the answer, and its numbers or characters, all zero where it is refused.
pub fn value(kind: Kind, value: &[u8]) -> (u8, Vec<u32>) {
    let numbers = |characters: &[u8]| characters.iter().map(|&c| c.into()).collect();
    let read = match kind {
        Kind::Eqm(decimals) if !(2..=4).contains(&decimals) => {
            return (answer::NO_DECIMALS, vec![0]);
        }
        Kind::Eqm(decimals) => value_eqm(decimals, value).map(|units| vec![units]),
        Kind::Serial => value_serial(value).map(|serial| numbers(&serial)),
        Kind::Account => value_account(value).map(|account| numbers(&account)),
        Kind::Row => value_row(value).map(|row| numbers(&row)),
        Kind::Date => value_date(value).map(|(y, m, d)| vec![y.into(), m.into(), d.into()]),
        Kind::Time => value_time(value).map(|(h, n, s)| numbers(&[h, n, s])),
        Kind::Period => value_period(value)
            .map(|(y, m, d, h, n)| vec![y.into(), m.into(), d.into(), h.into(), n.into()]),
        Kind::Counter => value_counter(value).map(|wh| vec![wh]),
    };
    match read {
        Some(numbers) => (answer::DONE, numbers),
        None => (answer::MALFORMED, vec![0; kind.count()]),
    }
}

// What a meter sends, so far as a head's trial needs it.

/// A closed period: when it was closed (the second is not shown), and its counters.
#[derive(Clone, Copy, Debug, PartialEq, Eq)]
pub struct Period {
    pub closed: Clock,
    pub counters: [u32; 4],
    pub exported: [u32; 4],
}

/// The registers that a data block tells of.
#[derive(Clone, Debug, PartialEq, Eq)]
pub struct Registers {
    pub serial: [u8; 10],
    pub account: [u8; 10],
    pub clock: Clock,
    /// The decimals of an EQM meter, or 0, and then nothing is exported.
    pub decimals: u8,
    pub counters: [u32; 4],
    pub exported: [u32; 4],
    /// 24 rows, or 25 of edition 2.
    pub tables: Vec<[u8; 24]>,
    /// The newest first; a block has them only where it was asked for with '6'.
    pub periods: Vec<Period>,
}

impl Registers {
    /// The sum of the four counters as it is shown.
    pub fn total(&self) -> u32 {
        self.sum(&self.counters)
    }

    /// The same of what went out.
    pub fn total_out(&self) -> u32 {
        self.sum(&self.exported)
    }

    fn sum(&self, counters: &[u32; 4]) -> u32 {
        let end = match self.decimals {
            0 => 1_000_000_000,
            _ => 100_000_000,
        };
        let sum: u64 = counters.iter().map(|&count| u64::from(count)).sum();
        (sum % end) as u32
    }

    /// A counter in its family's form.
    fn kwh(&self, count: u32) -> String {
        let (whole, behind) = match self.decimals {
            0 => (6, 3),
            decimals => (8 - usize::from(decimals), usize::from(decimals)),
        };
        let one = 10_u32.pow(behind as u32);
        format!("{:0whole$}.{:0behind$}*kWh", count / one, count % one)
    }

    /// The directions that this family shows, each by the first part of its addresses.
    fn shown_ways<'a>(
        &self,
        counters: &'a [u32; 4],
        exported: &'a [u32; 4],
    ) -> Vec<(&'static str, &'a [u32; 4])> {
        match self.decimals {
            0 => vec![("15", counters)],
            _ => vec![("1", counters), ("2", exported)],
        }
    }

    /// The data block's 33 data sets, or 34 of edition 2, five more of an EQM meter, and five more for
    /// each period, or nine, address and value.
    pub fn data_sets(&self) -> Vec<(String, String)> {
        let text = |characters: &[u8]| String::from_utf8_lossy(characters).into_owned();
        let date = |c: &Clock| format!("{:02}-{:02}-{:02}", c.year - 2000, c.month, c.day);
        let c = &self.clock;
        let time = format!("{:02}:{:02}:{:02}", c.hour, c.minute, c.second);
        let mut sets = vec![
            ("C.1.0".to_string(), shown(&self.serial)),
            ("0.9.2".to_string(), date(c)),
            ("0.9.1".to_string(), time),
            ("0.0.0".to_string(), text(&self.account)),
        ];
        for (name, counters) in self.shown_ways(&self.counters, &self.exported) {
            for (zone, &count) in counters.iter().enumerate() {
                sets.push((format!("{name}.8.{}", zone + 1), self.kwh(count)));
            }
            sets.push((format!("{name}.8.0"), self.kwh(self.sum(counters))));
        }
        for (place, row) in self.tables.iter().enumerate() {
            sets.push((format!("131.0.{:02}", place + 1), text(row)));
        }
        for (place, period) in self.periods.iter().enumerate() {
            let kk = format!("{:02}", place + 1);
            let closed = &period.closed;
            let time = format!("{:02}:{:02}", closed.hour, closed.minute);
            sets.push((format!("0.1.2*{kk}"), date(closed) + " " + &time));
            for (name, counters) in self.shown_ways(&period.counters, &period.exported) {
                for (zone, &count) in counters.iter().enumerate() {
                    sets.push((format!("{name}.8.{}*{kk}", zone + 1), self.kwh(count)));
                }
            }
        }
        sets
    }

    /// The data of the data block: the data sets and the line that ends them.
    pub fn data(&self) -> Vec<u8> {
        let mut data = Vec::new();
        for (address, value) in self.data_sets() {
            data.extend(line(&address, &value));
        }
        data.extend(b"!\r\n");
        data
    }
}

/// The line of one data set.
pub fn line(address: &str, value: &str) -> Vec<u8> {
    format!("{address}({value})\r\n").into_bytes()
}

/// A block in seven bits: STX, data, ETX, BCC.
pub fn block(data: &[u8]) -> Vec<u8> {
    checked([&[STX], data, &[ETX]].concat())
}

#[cfg(test)]
mod tests {
    use super::*;

    const ALL_ONES: [u8; 24] = [b'1'; 24];

    fn built(command: Command) -> Vec<u8> {
        let mut out = [0; 64];
        let (answer, length) = build(&command, &mut out);
        assert_eq!(answer, answer::DONE);
        out[..length].to_vec()
    }

    fn refused(command: Command) -> bool {
        let mut out = [0x5A; 64];
        let told = build(&command, &mut out);
        assert_eq!(out, [0x5A; 64]);
        told == (answer::FIELD, 0)
    }

    fn clock(year: u16, month: u8, day: u8) -> Clock {
        Clock {
            year,
            month,
            day,
            ..Clock::default()
        }
    }

    fn sample() -> Registers {
        Registers {
            serial: *b"0123456789",
            account: *b"Kiln_7 Abc",
            clock: Clock {
                year: 2024,
                month: 2,
                day: 29,
                hour: 23,
                minute: 59,
                second: 58,
            },
            decimals: 0,
            counters: [1_500, 999_999_999, 0, 123_456_789],
            exported: [0; 4],
            tables: (0..24)
                .map(|t| std::array::from_fn(|h| b'1' + ((t + h) % 4) as u8))
                .collect(),
            periods: Vec::new(),
        }
    }

    #[test]
    fn wire_bytes_are_even() {
        assert_eq!(with_parity(0x00), 0x00);
        assert_eq!(with_parity(SOH), 0x81);
        assert_eq!(with_parity(STX), 0x82);
        assert_eq!(with_parity(ETX), ETX);
        for character in 0..=0x7F {
            let byte = with_parity(character);
            assert!(undamaged(byte) && byte & 0x7F == character);
            assert!(!undamaged(byte ^ 0x80));
        }
    }

    #[test]
    fn bcc_of_sign_off_enter_and_password_ask() {
        assert_eq!(characters(&Command::SignOff).unwrap()[4], 0x71);
        assert_eq!(characters(&Command::Enter).unwrap()[7], 0x61);
        assert_eq!(built(Command::Enter)[7], 0xE1);
        assert_eq!(*framed("P0", "(0000)").last().unwrap(), 0x60);
    }

    #[test]
    fn bcc_of_the_all_ones_writes() {
        for (table, sum) in [(1, 0x06), (4, ETX), (6, SOH)] {
            let command = Command::WriteTable(1, table, &ALL_ONES);
            assert_eq!(*characters(&command).unwrap().last().unwrap(), sum);
        }
    }

    #[test]
    fn all_ones_write_of_table_01_on_the_wire() {
        let mut wire = vec![0x81, 0xD7, 0xB1, 0x82, 0x5A, 0x28, 0x30, 0xB1, 0xBB];
        wire.extend([0xB1; 24]);
        wire.extend([0xA9, 0x03, 0x06]);
        assert_eq!(built(Command::WriteTable(1, 1, &ALL_ONES)), wire);
        assert_eq!(wire.len(), 36);
    }

    #[test]
    fn commands_in_the_forms_of_the_page() {
        let text = |command| characters(&command).unwrap();
        assert_eq!(text(Command::SignOn), b"/?!\r\n");
        assert_eq!(text(Command::Close), b"/C!\r\n");
        assert_eq!(text(Command::Confirm(b'5', b'6')), b"\x06056\r\n");
        assert_eq!(
            text(Command::SignOnTo(b"0123456789")),
            b"/?012 3456789!\r\n"
        );
        assert_eq!(text(Command::Confirm(b'5', b'7')), b"\x06057\r\n");
        assert_eq!(text(Command::Confirm(b'0', b'1')), b"\x06001\r\n");
        assert!(text(Command::Password(b"12345678")).starts_with(b"\x01P1\x02(12345678)\x03"));
        assert!(text(Command::ReadClock).starts_with(b"\x01R1\x02T()\x03"));
        assert!(text(Command::ReadSerial).starts_with(b"\x01R1\x02L()\x03"));
        assert!(text(Command::ReadAccount).starts_with(b"\x01R1\x02K()\x03"));
        assert!(text(Command::ReadTotal).starts_with(b"\x01R1\x02E0()\x03"));
        assert!(text(Command::ReadZone(4)).starts_with(b"\x01R1\x02E4()\x03"));
        assert!(text(Command::ReadTotalOut).starts_with(b"\x01R1\x02G0()\x03"));
        assert!(text(Command::ReadZoneOut(4)).starts_with(b"\x01R1\x02G4()\x03"));
        assert!(text(Command::ReadTable(1, 7)).starts_with(b"\x01R1\x02Z(07)\x03"));
        assert!(text(Command::ReadTable(2, 25)).starts_with(b"\x01R1\x02Z(25)\x03"));
        assert!(
            text(Command::WriteAccount(b"Kiln_7 Abc")).starts_with(b"\x01W1\x02K(Kiln_7 Abc)\x03")
        );
        let moment = Command::WriteClock(Clock {
            hour: 4,
            minute: 5,
            second: 6,
            ..clock(2003, 2, 1)
        });
        assert!(text(moment).starts_with(b"\x01W1\x02T(01-02-2003;04:05:06)\x03"));
    }

    #[test]
    fn leap_days() {
        built(Command::WriteClock(clock(2000, 2, 29)));
        assert!(refused(Command::WriteClock(clock(2001, 2, 29))));
        assert_eq!(value_date(b"00-02-29"), Some((2000, 2, 29)));
        assert_eq!(value_date(b"01-02-29"), None);
        let counted: u32 = (2000..=2099)
            .flat_map(|year| (1..=12).map(move |month| u32::from(days(year, month))))
            .sum();
        assert_eq!(counted, 36_525);
    }

    #[test]
    fn fields_outside_their_rules() {
        assert!(refused(Command::SignOnTo(b"012345678")));
        assert!(refused(Command::SignOnTo(b"01234567890")));
        assert!(refused(Command::SignOnTo(b"012 456789")));
        assert!(refused(Command::Confirm(b'5', b'5')));
        assert!(refused(Command::Confirm(b'5', 1)));
        for speed in [0, 5, b'1', b'4', b'6', b'5' | 0x80] {
            assert!(refused(Command::Confirm(speed, b'1')));
        }
        assert!(refused(Command::Password(b"1234567")));
        assert!(refused(Command::Password(b"1234567a")));
        assert!(refused(Command::ReadZone(0)) && refused(Command::ReadZone(5)));
        assert!(refused(Command::ReadZoneOut(0)) && refused(Command::ReadZoneOut(5)));
        assert!(refused(Command::ReadTable(1, 0)) && refused(Command::ReadTable(1, 25)));
        assert!(refused(Command::ReadTable(2, 0)) && refused(Command::ReadTable(2, 26)));
        assert!(refused(Command::WriteAccount(b"Kiln-7 Abc")));
        assert!(refused(Command::WriteTable(1, 1, &[b'0'; 24])));
        assert!(refused(Command::WriteTable(1, 1, &[b'5'; 24])));
        assert!(refused(Command::WriteTable(1, 1, &[b'1'; 23])));
        assert!(refused(Command::WriteTable(1, 25, &ALL_ONES)));
        assert!(refused(Command::WriteTable(2, 26, &ALL_ONES)));
        for bad in [
            clock(1999, 12, 31),
            clock(2100, 1, 1),
            clock(2024, 0, 1),
            clock(2024, 13, 1),
            clock(2024, 4, 31),
            clock(2024, 4, 0),
            Clock {
                hour: 24,
                ..clock(2024, 1, 1)
            },
            Clock {
                minute: 60,
                ..clock(2024, 1, 1)
            },
            Clock {
                second: 60,
                ..clock(2024, 1, 1)
            },
        ] {
            assert!(refused(Command::WriteClock(bad)));
        }
    }

    #[test]
    fn short_rooms_come_before_bad_fields_and_the_rest_is_kept() {
        let mut out = [0x5A; 80];
        for edition in [0, 3, 255] {
            let told = build(&Command::ReadTable(edition, 26), &mut out[..63]);
            assert_eq!(told, (16, 0));
            let told = build(&Command::WriteTable(edition, 1, &ALL_ONES), &mut out);
            assert_eq!(told, (16, 0));
        }
        assert_eq!(build(&Command::ReadTable(2, 26), &mut out[..63]), (19, 0));
        assert_eq!(build(&Command::ReadZone(9), &mut out[..63]), (19, 0));
        assert_eq!(build(&Command::ReadZone(9), &mut out[..64]), (9, 0));
        assert_eq!(out, [0x5A; 80]);
        assert_eq!(build(&Command::SignOff, &mut out), (1, 5));
        assert!(out[..5] == [0x81, 0x42, 0x30, 0x03, 0x71]);
        assert!(out[5..] == [0x5A; 75]);
    }

    #[test]
    fn strip_refuses_room_then_damage_and_keeps_the_buffer() {
        let mut out = [0x5A; 4];
        assert_eq!(strip(&[0x81; 5], &mut out), (26, 0, 0));
        assert_eq!(strip(&[0x01; 5], &mut out), (26, 0, 0));
        assert_eq!(strip(&[0x81, 0x82, 0x02], &mut out), (24, 0, 2));
        assert_eq!(out, [0x5A; 4]);
        assert_eq!(strip(&[0x81, 0x82, 0x03], &mut out), (1, 3, 0));
        assert_eq!(out, [1, 2, 3, 0x5A]);
        assert_eq!(strip(&[], &mut []), (1, 0, 0));
    }

    #[test]
    fn part_of_whole_and_broken_blocks() {
        assert_eq!(part(b"\x02\x03\x03"), Ok(1..1));
        assert_eq!(part(b"\x02AA\x03\x03"), Ok(1..3));
        assert_eq!(part(b"\x02A\x03A"), Err(23));
        assert_eq!(part(b"\x02A\x03\x42"), Ok(1..2));
        for broken in [
            &b""[..],
            b"\x02",
            b"\x02\x03",
            b"\x03\x03",
            b"\x01A\x03\x42",
            b"\x02A\x04\x42",
            b"\x02\x03\x03\x00",
            b"\x02A\x03\xC2",
            b"\x02\xC1\x03\x42",
            b"\x82A\x03\x42",
        ] {
            assert_eq!(part(broken), Err(22));
        }
    }

    #[test]
    fn a_counter_of_1500_wh_reads_back() {
        let stripped = b"\x0215.8.1(000001.500*kWh)\r\n\x03\x6C";
        let data = &stripped[part(stripped).unwrap()];
        let step = next(data, 0);
        assert_eq!((step.answer, step.next, step.place), (1, data.len(), 0));
        assert_eq!(&data[..step.address_length], b"15.8.1");
        let value = &data[step.address_length + 1..][..step.value_length];
        assert_eq!(value_counter(value), Some(1_500));
        assert_eq!(next(data, step.next).answer, 0);
        assert_eq!(block(data), stripped);
    }

    #[test]
    fn a_data_block_reads_back_to_its_registers() {
        let registers = sample();
        let wire = on_the_wire(&block(&registers.data()));
        assert_eq!(wire.len(), 1_063);
        let mut stripped = vec![0; wire.len()];
        assert_eq!(strip(&wire, &mut stripped), (1, 1_063, 0));
        let data = &stripped[part(&stripped).unwrap()];
        let mut sets = Vec::new();
        let mut at = 0;
        loop {
            let step = next(data, at);
            if step.answer != answer::DONE {
                assert_eq!((step.answer, step.next), (0, data.len() - 3));
                break;
            }
            let (address, rest) = data[at..].split_at(step.address_length);
            sets.push((address, &rest[1..][..step.value_length]));
            at = step.next;
        }
        assert_eq!(sets.len(), 33);
        assert_eq!(value_serial(sets[0].1), Some(registers.serial));
        assert_eq!(value_date(sets[1].1), Some((2024, 2, 29)));
        assert_eq!(value_time(sets[2].1), Some((23, 59, 58)));
        assert_eq!(value_account(sets[3].1), Some(registers.account));
        for zone in 0..4 {
            let read = value_counter(sets[4 + zone].1);
            assert_eq!(read, Some(registers.counters[zone]));
        }
        assert_eq!(sets[8].0, b"15.8.0");
        assert_eq!(value_counter(sets[8].1), Some(123_458_288));
        for table in 0..24 {
            let read = value_row(sets[9 + table].1);
            assert_eq!(read, Some(registers.tables[table]));
        }
        assert_eq!(sets[32].0, b"131.0.24");
    }

    #[test]
    fn closed_periods_follow_the_tables() {
        let mut registers = sample();
        let before = registers.data().len();
        let first = Period {
            closed: clock(2024, 3, 1),
            counters: [1, 20, 300, 4_000],
            exported: [0; 4],
        };
        registers.periods = vec![first; 12];
        registers.periods[11].closed = Clock {
            hour: 23,
            minute: 59,
            ..clock(2023, 4, 30)
        };
        let data = registers.data();
        assert_eq!(data.len(), before + 12 * 134);
        let read = |address: &str| {
            let found = find(&data, address.as_bytes());
            let value = found.value_start..found.value_start + found.value_length;
            (found.answer, found.count, &data[value])
        };
        assert_eq!(read("0.1.2*01"), (1, 34, &b"24-03-01 00:00"[..]));
        assert_eq!(read("15.8.4*01"), (1, 38, &b"000004.000*kWh"[..]));
        assert_eq!(read("0.1.2*12"), (1, 89, &b"23-04-30 23:59"[..]));
        assert_eq!(read("15.8.4*12"), (1, 93, &b"000004.000*kWh"[..]));
        assert_eq!(read("0.1.2*13"), (27, 93, &b""[..]));
    }

    #[test]
    fn an_eqm_block_has_ten_lines_of_energy() {
        for (decimals, first, second) in [
            (2, "000015.00*kWh", "999999.99*kWh"),
            (3, "00001.500*kWh", "99999.999*kWh"),
            (4, "0000.1500*kWh", "9999.9999*kWh"),
        ] {
            let mut registers = sample();
            registers.decimals = decimals;
            registers.counters = [1_500, 99_999_999, 0, 12_345_678];
            registers.exported = [0, 0, 99_999_999, 2];
            registers.periods = vec![Period {
                closed: clock(2024, 3, 1),
                counters: [1, 20, 300, 1_500],
                exported: [5, 60, 1_500, 99_999_999],
            }];
            let data = registers.data();
            let read = |address: &str| {
                let found = find(&data, address.as_bytes());
                assert_eq!(found.answer, answer::DONE, "{address}");
                let value = &data[found.value_start..][..found.value_length];
                (
                    found.count,
                    String::from_utf8(value.to_vec()).unwrap(),
                    value_eqm(decimals, value),
                )
            };
            assert_eq!(read("1.8.1"), (5, first.into(), Some(1_500)));
            assert_eq!(read("1.8.2"), (6, second.into(), Some(99_999_999)));
            assert_eq!(read("1.8.0").0, 9);
            assert_eq!(read("1.8.0").2, Some(12_347_177));
            assert_eq!(read("2.8.3"), (12, second.into(), Some(99_999_999)));
            assert_eq!((read("2.8.0").0, read("2.8.0").2), (14, Some(1)));
            assert_eq!(read("131.0.01").0, 15);
            assert_eq!(read("0.1.2*01").0, 39);
            assert_eq!(read("1.8.4*01"), (43, first.into(), Some(1_500)));
            assert_eq!(read("2.8.1*01").2, Some(5));
            assert_eq!(read("2.8.4*01"), (47, second.into(), Some(99_999_999)));
            assert_eq!(block(&data).len(), 1_163 + 226);
        }
    }

    #[test]
    fn eqm_values_in_their_form_alone() {
        for (decimals, value) in [
            (2, b"000015.00*kWh"),
            (3, b"00001.500*kWh"),
            (4, b"0000.1500*kWh"),
        ] {
            for other in 0..=255 {
                let read = match other {
                    _ if other == decimals => (1, vec![1_500]),
                    2..=4 => (25, vec![0]),
                    _ => (18, vec![0]),
                };
                assert_eq!(super::value(Kind::Eqm(other), value), read);
            }
        }
        for bad in [
            &b"00001,500*kWh"[..],
            b"0000.1500*kW",
            b"00001.500*kWhh",
            b"000001.500*kWh",
            b"0001.500*kWh",
            b"00001.5 0*kWh",
            b"-0001.500*kWh",
            b"00001.500 kWh",
            b"",
        ] {
            assert_eq!(super::value(Kind::Eqm(3), bad), (25, vec![0]));
            assert_eq!(super::value(Kind::Eqm(5), bad), (18, vec![0]));
        }
    }

    #[test]
    fn the_reader_ends_and_stays() {
        let end = |at| Step {
            answer: 0,
            address_length: 0,
            value_length: 0,
            next: at,
            place: 0,
        };
        assert_eq!(next(b"", 0), end(0));
        assert_eq!(next(b"", usize::MAX), end(usize::MAX));
        assert_eq!(next(b"A()\r\n", 5), end(5));
        assert_eq!(next(b"A()\r\n", 6), end(6));
        assert_eq!(next(b"!\r\nA()\r\n", 0), end(0));
        assert_eq!(next(b"A()\r\n!\r\nB()\r\n", 5), end(5));
    }

    #[test]
    fn one_register_out_of_a_block() {
        let data = sample().data();
        let read = |address: &str| {
            let found = find(&data, address.as_bytes());
            let value = found.value_start..found.value_start + found.value_length;
            (found.answer, found.count, &data[value])
        };
        let total = sample().total();
        let shown = format!("{:06}.{:03}*kWh", total / 1000, total % 1000);
        assert_eq!(read("15.8.0"), (1, 9, shown.as_bytes()));
        assert_eq!(read("131.0.24"), (1, 33, &sample().tables[23][..]));
        assert_eq!(read("131.0.25"), (27, 33, &b""[..]));
        assert_eq!(read("131.0.2"), (27, 33, &b""[..]));
        assert_eq!(read(""), (27, 33, &b""[..]));
    }

    #[test]
    fn a_bad_set_ends_a_lookup_only_before_the_match() {
        let answer = |sets: &[u8], address: &[u8]| {
            let found = find(sets, address);
            (found.answer, found.count, found.place, found.address_start)
        };
        assert_eq!(answer(b"A()\r\nB(1)\r\n?", b"B"), (1, 2, 0, 5));
        assert_eq!(answer(b"A()\r\nB(1)\r\nB(2)\r\n", b"B"), (1, 2, 0, 5));
        assert_eq!(answer(b"A()\r\n?B(1)\r\n", b"B"), (25, 1, 5, 0));
        assert_eq!(answer(b"A()\r\n!\r\nB(1)\r\n", b"B"), (27, 1, 0, 0));
        assert_eq!(answer(b"", b"B"), (27, 0, 0, 0));
    }

    #[test]
    fn malformed_sets_give_their_place() {
        let value_33 = format!("A({})\r\n", "v".repeat(33));
        let address_17 = format!("{}()\r\n", "a".repeat(17));
        for bad in [
            "()\r\n",
            "A\r\n",
            "A(\r\n",
            "A)\r\n",
            "A()\r",
            "A()\n",
            "A()",
            "A(!)\r\n",
            "A(/)\r\n",
            "A(()\r\n",
            "A())\r\n",
            "A(\u{7F})\r\n",
            "A+()\r\n",
            "!",
            "!\r",
            "!\n",
            "!A()\r\n",
            &value_33,
            &address_17,
        ] {
            let text = ["Z()\r\n", bad].concat();
            let step = next(text.as_bytes(), 5);
            assert_eq!((step.answer, step.next, step.place), (25, 5, 5), "{bad:?}");
            assert_eq!((step.address_length, step.value_length), (0, 0));
        }
        let longest = line(&"a".repeat(16), &"v".repeat(32));
        let step = next(&longest, 0);
        assert_eq!((step.address_length, step.value_length), (16, 32));
        assert_eq!((step.answer, step.next), (1, longest.len()));
        assert_eq!(next(&longest, 15).address_length, 1);
    }

    #[test]
    fn values_not_in_their_form() {
        assert_eq!(value_serial(b"012 3456789"), Some(*b"0123456789"));
        assert_eq!(value_serial(b"0123456789"), None);
        assert_eq!(value_serial(b"0123 456789"), None);
        assert_eq!(value_account(b"Kiln-7 Abc"), None);
        assert_eq!(value_row(&[b'1'; 25]), None);
        assert_eq!(value_date(b"24-00-01"), None);
        assert_eq!(value_date(b"24-13-01"), None);
        assert_eq!(value_date(b"24:01:01"), None);
        assert_eq!(value_date(b"99-12-31"), Some((2099, 12, 31)));
        assert_eq!(value_time(b"24:00:00"), None);
        assert_eq!(value_time(b"23:60:00"), None);
        assert_eq!(value_time(b"23:59:60"), None);
        assert_eq!(value_time(b"00:00:00"), Some((0, 0, 0)));
        let december = Some((2099, 12, 31, 23, 59));
        assert_eq!(value_period(b"99-12-31 23:59"), december);
        assert_eq!(value_period(b"00-02-29 00:00"), Some((2000, 2, 29, 0, 0)));
        assert_eq!(value_period(b"01-02-29 00:00"), None);
        assert_eq!(value_period(b"99-12-31 24:00"), None);
        assert_eq!(value_period(b"99-12-31 23:60"), None);
        assert_eq!(value_period(b"99-12-31;23:59"), None);
        assert_eq!(value_period(b"99-12-31 23-59"), None);
        assert_eq!(value_period(b"99-12-31 23:59:00"), None);
        assert_eq!(value_counter(b"999999.999*kWh"), Some(999_999_999));
        assert_eq!(value_counter(b"000000.000*kwh"), None);
        assert_eq!(value_counter(b"000000,000*kWh"), None);
        assert_eq!(value_counter(b"0000000.00*kWh"), None);
        assert_eq!(value(Kind::Date, b"24-02-29"), (1, vec![2024, 2, 29]));
        for kind in Kind::ALL {
            assert_eq!(value(kind, b""), (25, vec![0; kind.count()]));
        }
    }
}
