//! The tester's script over the model: one command a line in, its answer lines out.

use crate::card;
use crate::meter::{Answer, Clock, Meter, Period, Way, PERIODS, PLACES, ROOM, ROWS};
use std::fmt::Write as _;
use std::io::{self, BufRead, Write};

/// The largest reply buffer that a script can ask for.
pub const ROOM_MOST: usize = 8_192;
/// The longest line that is taken.
pub const LINE_MOST: usize = 262_143;
/// What the reply buffer is filled with before each call.
pub const FILLING: u8 = 0xAA;

/// A line of the script, understood.
#[derive(Clone, Debug, PartialEq, Eq)]
pub enum Command {
    New {
        serial: [u8; 10],
        account: [u8; 10],
        password: [u8; 8],
        clock: Clock,
        kind: [u8; 3],
    },
    Set(Box<Meter>),
    Dump,
    Card {
        room: usize,
    },
    Play(Vec<Event>),
    Frame {
        bytes: Vec<u8>,
        room: usize,
    },
}

/// What can happen to a meter; rooms are those of the reply buffer.
#[derive(Clone, Copy, Debug, PartialEq, Eq)]
pub enum Event {
    Character { byte: u8, room: usize },
    Silence { room: usize },
    Tick,
    PowerUp,
    Pulse { way: Way, units: u32 },
}

/// A meter on the bench.
pub struct Bench {
    pub meter: Meter,
}

impl Default for Bench {
    fn default() -> Bench {
        Bench {
            meter: Meter::blank(),
        }
    }
}

impl Bench {
    /// Writes the answer to one line, given without its LF.
    pub fn answer(&mut self, line: &[u8], transcript: &mut String) {
        self.answer_watched(line, transcript, &mut |_, _, _, _| ());
    }

    /// The same, and shows each event with the states around it.
    pub fn answer_watched(
        &mut self,
        line: &[u8],
        transcript: &mut String,
        watch: &mut dyn FnMut(&Meter, Event, Answer, &Meter),
    ) {
        match parse(line) {
            None => transcript.push_str("error\n"),
            Some(Command::New {
                serial,
                account,
                password,
                clock,
                kind,
            }) => {
                let (number, meter) = Meter::new(serial, account, password, clock, kind);
                self.meter = meter;
                put(transcript, format_args!("{number}\n"));
            }
            Some(Command::Set(meter)) => {
                self.meter = *meter;
                transcript.push_str("ok\n");
            }
            Some(Command::Dump) => {
                transcript.push_str(&dump(&self.meter));
                transcript.push('\n');
            }
            Some(Command::Card { room }) => {
                let mut buffer = vec![FILLING; room];
                let (number, length) = card::write(&self.meter, &mut buffer);
                put(transcript, format_args!("{number} {length} "));
                put_hex(transcript, &buffer[..shown(length, &buffer)]);
                transcript.push('\n');
            }
            Some(Command::Play(events)) => {
                for event in events {
                    let before = self.meter.clone();
                    let answer = self.play(event, transcript);
                    watch(&before, event, answer, &self.meter);
                }
            }
            Some(Command::Frame { bytes, room }) => {
                let mut buffer = vec![FILLING; room];
                let answer = self.meter.frame(&bytes, &mut buffer);
                put_answer(transcript, answer, Some(&buffer));
            }
        }
    }

    /// Lets one event happen and writes its answer line.
    fn play(&mut self, event: Event, transcript: &mut String) -> Answer {
        let room = match event {
            Event::Character { room, .. } | Event::Silence { room } => Some(room),
            Event::Tick | Event::PowerUp | Event::Pulse { .. } => None,
        };
        let mut buffer = vec![FILLING; room.unwrap_or(0)];
        let answer = match event {
            Event::Character { byte, .. } => self.meter.character(byte, &mut buffer),
            Event::Silence { .. } => self.meter.silence(&mut buffer),
            Event::Tick => self.meter.tick(),
            Event::PowerUp => self.meter.power_up(),
            Event::Pulse { way, units } => self.meter.pulse(way, units),
        };
        put_answer(transcript, answer, room.map(|_| &buffer[..]));
        answer
    }
}

/// How much of a buffer is shown: what was written, without the filling that ends it behind that.
fn shown(length: usize, buffer: &[u8]) -> usize {
    let changed = buffer.iter().rposition(|&byte| byte != FILLING);
    length.max(changed.map_or(0, |place| place + 1))
}

/// An answer line, with the reply buffer where the call has one.
fn put_answer(transcript: &mut String, answer: Answer, buffer: Option<&[u8]>) {
    put(
        transcript,
        format_args!("{} {}", answer.number, answer.speed),
    );
    if let Some(buffer) = buffer {
        put(transcript, format_args!(" {} ", answer.length));
        put_hex(transcript, &buffer[..shown(answer.length, buffer)]);
        put(transcript, format_args!(" {}", answer.place));
    }
    transcript.push('\n');
}

/// Plays a script from start to end; the last line may lack its LF.
pub fn run(mut script: impl BufRead, mut transcript: impl Write) -> io::Result<()> {
    let mut bench = Bench::default();
    let mut line = Vec::new();
    let mut answers = String::new();
    loop {
        line.clear();
        if script.read_until(b'\n', &mut line)? == 0 {
            return transcript.flush();
        }
        let ended = line.strip_suffix(b"\n").unwrap_or(&line);
        answers.clear();
        bench.answer(ended, &mut answers);
        transcript.write_all(answers.as_bytes())?;
    }
}

/// Reads one line, given without its LF; nothing for `error`.
pub fn parse(line: &[u8]) -> Option<Command> {
    if line.len() > LINE_MOST {
        return None;
    }
    let fields: Vec<&[u8]> = line.split(|&byte| byte == b' ').collect();
    Some(match fields[..] {
        [b"new", serial, account, password, ref rest @ ..] => {
            let (clock, kind) = rest.split_at_checked(6)?;
            Command::New {
                serial: exactly(serial)?,
                account: exactly(account)?,
                password: exactly(password)?,
                clock: clock_of(clock)?,
                kind: kind_of(kind)?,
            }
        }
        [b"set", ref fields @ ..] => Command::Set(Box::new(state(fields)?)),
        [b"dump"] => Command::Dump,
        [b"byte", byte] => character(byte, ROOM)?,
        [b"byte", byte, room] => character(byte, room_of(room)?)?,
        [b"bytes", bytes] => Command::Play(
            hex(bytes)?
                .into_iter()
                .map(|byte| Event::Character { byte, room: ROOM })
                .collect(),
        ),
        [b"frame", bytes] => Command::Frame {
            bytes: hex(bytes)?,
            room: ROOM,
        },
        [b"frame", bytes, room] => Command::Frame {
            bytes: hex(bytes)?,
            room: room_of(room)?,
        },
        [b"silence"] => Command::Play(vec![Event::Silence { room: ROOM }]),
        [b"silence", room] => Command::Play(vec![Event::Silence {
            room: room_of(room)?,
        }]),
        [b"tick"] => Command::Play(vec![Event::Tick]),
        [b"card", room] => Command::Card {
            room: room_of(room)?,
        },
        [b"up"] => Command::Play(vec![Event::PowerUp]),
        [b"pulse", units] => pulse(Way::In, units)?,
        [b"pulse", units, b"out"] => pulse(Way::Out, units)?,
        _ => return None,
    })
}

fn character(byte: &[u8], room: usize) -> Option<Command> {
    let [byte] = exactly(byte)?;
    Some(Command::Play(vec![Event::Character { byte, room }]))
}

fn pulse(way: Way, units: &[u8]) -> Option<Command> {
    let units = decimal(units)?;
    Some(Command::Play(vec![Event::Pulse { way, units }]))
}

fn room_of(field: &[u8]) -> Option<usize> {
    let room = usize::from(decimal::<u16>(field)?);
    (room <= ROOM_MOST).then_some(room)
}

/// Edition, link and decimals; from the right they may be left out.
fn kind_of(fields: &[&[u8]]) -> Option<[u8; 3]> {
    let mut kind = [1, 1, 0];
    if fields.len() > kind.len() {
        return None;
    }
    for (number, field) in kind.iter_mut().zip(fields) {
        *number = decimal(field)?;
    }
    Some(kind)
}

fn clock_of(fields: &[&[u8]]) -> Option<Clock> {
    let [year, month, day, hour, minute, second] = fields else {
        return None;
    };
    Some(Clock {
        year: decimal(year)?,
        month: decimal(month)?,
        day: decimal(day)?,
        hour: decimal(hour)?,
        minute: decimal(minute)?,
        second: decimal(second)?,
    })
}

/// Fields of a period, and of the archive: how many periods, and those of each.
const PERIOD: usize = 13;
const ARCHIVE: usize = 1 + PERIOD * PERIODS;
/// Fields between the tables and the archive.
const TOLD: usize = 10;

/// The periods of the fields that end a state.
fn archive(fields: &[&[u8]]) -> Option<(u8, [Period; PERIODS])> {
    let (closed, fields) = fields.split_first()?;
    let mut periods = [Period::default(); PERIODS];
    for (period, fields) in periods.iter_mut().zip(fields.chunks(PERIOD)) {
        let [year, month, day, hour, minute, counters @ ..] = fields else {
            return None;
        };
        let (counters, exported) = counters.split_at_checked(4)?;
        *period = Period {
            year: decimal(year)?,
            month: decimal(month)?,
            day: decimal(day)?,
            hour: decimal(hour)?,
            minute: decimal(minute)?,
            counters: four(counters)?,
            exported: four(exported)?,
        };
    }
    Some((decimal(closed)?, periods))
}

/// Four counters.
fn four(fields: &[&[u8]]) -> Option<[u32; 4]> {
    let counters: Option<Vec<u32>> = fields.iter().map(|field| decimal(field)).collect();
    counters?.try_into().ok()
}

/// The state of the fields that `dump` writes.
fn state(fields: &[&[u8]]) -> Option<Meter> {
    let (link, fields) = fields.split_last()?;
    let (fields, kept) = fields.split_at_checked(fields.len().checked_sub(ARCHIVE)?)?;
    let (closed, periods) = archive(kept)?;
    let (fields, behind) = fields.split_at_checked(fields.len().checked_sub(TOLD)?)?;
    let [speed, place, edition, total, decimals, exported @ .., exported_total] = behind else {
        return None;
    };
    let [mode, count, mark, held, serial, account, password, attempts, clock @ .., c1, c2, c3, c4, tables] =
        fields
    else {
        return None;
    };
    let mut rows = [[0; 24]; ROWS];
    let characters: [u8; 24 * ROWS] = exactly(tables)?;
    for (row, given) in rows.iter_mut().zip(characters.chunks(24)) {
        row.copy_from_slice(given);
    }
    Some(Meter {
        mode: decimal(mode)?,
        count: decimal(count)?,
        mark: decimal(mark)?,
        place: decimal(place)?,
        held: exactly::<PLACES>(held)?,
        serial: exactly(serial)?,
        account: exactly(account)?,
        password: exactly(password)?,
        attempts: decimal(attempts)?,
        speed: decimal(speed)?,
        clock: clock_of(clock)?,
        counters: [decimal(c1)?, decimal(c2)?, decimal(c3)?, decimal(c4)?],
        total: decimal(total)?,
        exported: four(exported)?,
        exported_total: decimal(exported_total)?,
        tables: rows,
        closed,
        periods,
        link: decimal(link)?,
        edition: decimal(edition)?,
        decimals: decimal(decimals)?,
    })
}

/// The fields of a state.
pub fn dump(meter: &Meter) -> String {
    let mut line = String::new();
    put(
        &mut line,
        format_args!("{} {} {} ", meter.mode, meter.count, meter.mark),
    );
    for field in [
        &meter.held[..],
        &meter.serial,
        &meter.account,
        &meter.password,
    ] {
        put_hex(&mut line, field);
        line.push(' ');
    }
    let clock = &meter.clock;
    put(
        &mut line,
        format_args!(
            "{} {} {} {} {} {} {} ",
            meter.attempts,
            clock.year,
            clock.month,
            clock.day,
            clock.hour,
            clock.minute,
            clock.second
        ),
    );
    for counter in meter.counters {
        put(&mut line, format_args!("{counter} "));
    }
    put_hex(&mut line, meter.tables.as_flattened());
    put(
        &mut line,
        format_args!(
            " {} {} {} {}",
            meter.speed, meter.place, meter.edition, meter.total
        ),
    );
    let [x1, x2, x3, x4] = meter.exported;
    put(
        &mut line,
        format_args!(
            " {} {x1} {x2} {x3} {x4} {}",
            meter.decimals, meter.exported_total
        ),
    );
    put(&mut line, format_args!(" {}", meter.closed));
    for period in meter.periods {
        let Period {
            year,
            month,
            day,
            hour,
            minute,
            counters,
            exported,
        } = period;
        put(
            &mut line,
            format_args!(" {year} {month} {day} {hour} {minute}"),
        );
        for counter in [counters, exported].as_flattened() {
            put(&mut line, format_args!(" {counter}"));
        }
    }
    put(&mut line, format_args!(" {}", meter.link));
    line
}

/// One or more decimal digits whose value fits.
pub(crate) fn decimal<N: TryFrom<u64>>(field: &[u8]) -> Option<N> {
    if field.is_empty() {
        return None;
    }
    let mut value = 0_u64;
    for &digit in field {
        if !digit.is_ascii_digit() {
            return None;
        }
        value = value
            .checked_mul(10)?
            .checked_add(u64::from(digit - b'0'))?;
    }
    N::try_from(value).ok()
}

/// The bytes of a field in lower-case hex, `-` for none.
pub(crate) fn hex(field: &[u8]) -> Option<Vec<u8>> {
    if field == b"-" {
        return Some(Vec::new());
    }
    if field.is_empty() || !field.len().is_multiple_of(2) {
        return None;
    }
    field
        .chunks(2)
        .map(|pair| Some(nibble(pair[0])? << 4 | nibble(pair[1])?))
        .collect()
}

fn nibble(digit: u8) -> Option<u8> {
    match digit {
        b'0'..=b'9' => Some(digit - b'0'),
        b'a'..=b'f' => Some(digit - b'a' + 10),
        _ => None,
    }
}

/// A hex field of just this many bytes.
pub(crate) fn exactly<const N: usize>(field: &[u8]) -> Option<[u8; N]> {
    hex(field)?.try_into().ok()
}

/// Bytes in lower-case hex, `-` for none.
pub fn put_hex(line: &mut String, bytes: &[u8]) {
    const DIGITS: &[u8; 16] = b"0123456789abcdef";
    if bytes.is_empty() {
        line.push('-');
    }
    for byte in bytes {
        line.push(char::from(DIGITS[usize::from(byte >> 4)]));
        line.push(char::from(DIGITS[usize::from(byte & 15)]));
    }
}

fn put(line: &mut String, text: std::fmt::Arguments) {
    line.write_fmt(text).expect("a string takes all text");
}

#[cfg(test)]
mod tests;
