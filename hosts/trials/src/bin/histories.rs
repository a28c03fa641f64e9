//! Holds a bench's dumps against what the histories tell, and first finds out who is wrong about
//! histories.
//!
//! `histories PROGRAM [SEED [EVENTS]]`; PROGRAM may be `'hosts/run bench'`, with its arguments

use model::bench::{parse, put_hex, run, Command, Event};
use model::line::wires;
use model::meter::{Meter, ETX, OPTICAL, SOH, STX, WIRED};
use std::process::ExitCode;
use trials::chance::Chance;
use trials::history::{History, Mistake, Write};
use trials::program::transcript_of;
use trials::words::*;

const SEED: u64 = 1;
const EVENTS: u64 = 1_000_000;
/// Events of one history.
const HISTORY: u64 = 20_000;

fn main() -> ExitCode {
    match trial() {
        Ok(summary) => {
            println!("{summary}");
            ExitCode::SUCCESS
        }
        Err(complaint) => {
            println!("histories: {complaint}");
            ExitCode::FAILURE
        }
    }
}

fn trial() -> Result<String, String> {
    let arguments: Vec<String> = std::env::args().skip(1).collect();
    let number = |place: usize, default| match arguments.get(place) {
        None => Ok(default),
        Some(text) => text
            .parse::<u64>()
            .map_err(|_| format!("'{text}' is not a number")),
    };
    let Some(program) = arguments.first().filter(|_| arguments.len() <= 3) else {
        return Err("usage: histories PROGRAM [SEED [EVENTS]]".into());
    };
    let (seed, events) = (number(1, SEED)?, number(2, EVENTS)?);
    println!("seed {seed}, at least {events} events");

    let wrong = wrong_ones(seed)?;
    let mut seeds = Chance::new(seed);
    let mut counted = Counted::default();
    while counted.events < events {
        let seed = seeds.bits();
        let script = script(seed, HISTORY.min(events - counted.events));
        let (transcript, complaint) = transcript_of(program, script.as_bytes())?;
        if let Some(complaint) = complaint {
            return Err(complaint);
        }
        hold(&script, &transcript, Mistake::None, &mut counted)
            .map_err(|difference| format!("history {seed:016x}: {difference}"))?;
    }
    let missed = counted.print();
    if !missed.is_empty() {
        return Err(format!("too few: {}", missed.join("; ")));
    }
    Ok(format!(
        "histories: {} events, {} writes told, {} dumps all equal, {wrong} wrong about histories found out",
        counted.events, counted.writes(), counted.dumps
    ))
}

/// Who is wrong about histories is found out on the model's bench.
fn wrong_ones(seed: u64) -> Result<usize, String> {
    let all = [
        Mistake::TakesInReadOnly,
        Mistake::OverlooksBcc,
        Mistake::OverlooksDamage,
        Mistake::StartsAtBcc,
        Mistake::KeepsOverSilence,
        Mistake::ForgetsTheLock,
        Mistake::SaysRefusedBytes,
        Mistake::WritesTwice,
        Mistake::KeepsOnTheWire,
        Mistake::TakesTable25,
        Mistake::CountsOutAsIn,
        Mistake::CountsOutOfNone,
        Mistake::AnswersNoG,
    ];
    let script = script(seed, 6 * HISTORY);
    let mut transcript = Vec::new();
    run(script.as_bytes(), &mut transcript).map_err(|error| error.to_string())?;
    hold(&script, &transcript, Mistake::None, &mut Counted::default())
        .map_err(|difference| format!("the model: {difference}"))?;
    for mistake in all {
        if hold(&script, &transcript, mistake, &mut Counted::default()).is_ok() {
            return Err(format!("{mistake:?} was not found out"));
        }
    }
    Ok(all.len())
}

#[derive(Default)]
struct Counted {
    events: u64,
    dumps: u64,
    clocks: u64,
    accounts: u64,
    rows: u64,
    /// Dumps in each mode, and with three failed passwords.
    modes: [u64; 5],
    locked: u64,
    periods: u64,
    /// Dumps in a session on the wired link.
    wired: u64,
    /// Dumps and writes of table 25 of edition 2.
    second: u64,
    saturdays: u64,
    /// Dumps of EQM meters, with something counted out, and with a period that has such a counter.
    eqm: u64,
    exported: u64,
    exported_periods: u64,
}

impl Counted {
    fn writes(&self) -> u64 {
        self.clocks + self.accounts + self.rows
    }

    fn dump(&mut self, history: &History) {
        self.dumps += 1;
        self.modes[usize::from(history.mode)] += 1;
        self.locked += u64::from(history.failed == 3);
        self.periods += u64::from(history.book.closed > 0);
        self.second += u64::from(history.book.edition == 2);
        self.eqm += u64::from(history.book.decimals != 0);
        self.exported += u64::from(history.book.exported != [0; 4]);
        let periods = &history.book.periods;
        let kept = periods.iter().any(|period| period.exported != [0; 4]);
        self.exported_periods += u64::from(kept);
        self.wired += u64::from(history.mode >= 2 && history.book.link == WIRED);
    }

    fn write(&mut self, write: &Write) {
        match write {
            Write::Clock(_) => self.clocks += 1,
            Write::Account(_) => self.accounts += 1,
            Write::Row(table, _) => {
                self.rows += 1;
                self.saturdays += u64::from(*table == 25);
            }
        }
    }

    /// What was reached, and what too seldom.
    fn print(&self) -> Vec<&'static str> {
        let reached = [
            ("writes of the clock", self.clocks),
            ("writes of the account", self.accounts),
            ("writes of a row", self.rows),
            ("dumps in mode 0", self.modes[0]),
            ("dumps in mode 1", self.modes[1]),
            ("dumps in mode 2", self.modes[2]),
            ("dumps in mode 3", self.modes[3]),
            ("dumps in mode 4", self.modes[4]),
            ("dumps while locked", self.locked),
            ("dumps with closed periods", self.periods),
            ("dumps in a session on the wired link", self.wired),
            ("dumps of edition 2", self.second),
            ("writes of table 25", self.saturdays),
            ("dumps of EQM meters", self.eqm),
            ("dumps with something counted out", self.exported),
            (
                "dumps with a period of something counted out",
                self.exported_periods,
            ),
        ];
        for (what, count) in reached {
            println!("{what}: {count}");
        }
        reached
            .into_iter()
            .filter(|&(_, count)| count < 20)
            .map(|(what, _)| what)
            .collect()
    }
}

/// Every dump of the transcript against the history at its line.
fn hold(
    script: &str,
    transcript: &[u8],
    mistake: Mistake,
    counted: &mut Counted,
) -> Result<(), String> {
    let mut history = History::new(Meter::blank(), mistake);
    let mut dumps = transcript
        .split(|&byte| byte == b'\n')
        .filter_map(|line| parse(&[b"set ", line].concat()));
    for (number, line) in script.lines().enumerate() {
        match parse(line.as_bytes()) {
            Some(Command::New {
                serial,
                account,
                password,
                clock,
                kind,
            }) => {
                let (_, fresh) = Meter::new(serial, account, password, clock, kind);
                history = History::new(fresh, mistake);
            }
            Some(Command::Play(events)) => {
                let told = history.told.len();
                for event in events {
                    history.event(event);
                    counted.events += 1;
                }
                history.told[told..]
                    .iter()
                    .for_each(|write| counted.write(write));
            }
            Some(Command::Dump) => {
                let Some(Command::Set(meter)) = dumps.next() else {
                    return Err(format!("line {}: no dump", number + 1));
                };
                counted.dump(&history);
                if let Some(what) = different(&history, &meter) {
                    return Err(format!("line {}: {what} differs", number + 1));
                }
            }
            _ => return Err(format!("line {} is no event", number + 1)),
        }
    }
    Ok(())
}

/// What of a dump is not what the history tells.
fn different(history: &History, meter: &Meter) -> Option<&'static str> {
    let book = &history.book;
    [
        ("account", book.account == meter.account),
        ("a table", book.tables == meter.tables),
        ("the clock", book.clock == meter.clock),
        ("a counter", book.counters == meter.counters),
        ("an exported counter", book.exported == meter.exported),
        (
            "a total",
            book.total == meter.total && book.exported_total == meter.exported_total,
        ),
        (
            "edition, link or decimals",
            (book.edition, book.link, book.decimals) == (meter.edition, meter.link, meter.decimals),
        ),
        (
            "a period",
            book.closed == meter.closed && book.periods == meter.periods,
        ),
        (
            "serial or password",
            book.serial == meter.serial && book.password == meter.password,
        ),
        ("the mode", history.mode == meter.mode),
        ("the attempts", history.failed == meter.attempts),
    ]
    .into_iter()
    .find_map(|(what, same)| (!same).then_some(what))
}

/// A script of a factory's facts and about so many events, aimed by the history itself.
fn script(seed: u64, events: u64) -> String {
    let mut play = Play {
        chance: Chance::new(seed),
        history: History::new(Meter::blank(), Mistake::None),
        script: String::new(),
        events: 0,
    };
    play.made();
    while play.events < events {
        play.step();
        if play.chance.one_in(100) {
            play.made();
        }
    }
    play.line("dump");
    play.script
}

struct Play {
    chance: Chance,
    history: History,
    script: String,
    events: u64,
}

impl Play {
    fn line(&mut self, line: &str) {
        if let Some(Command::Play(events)) = parse(line.as_bytes()) {
            self.events += events.len() as u64;
            events
                .into_iter()
                .for_each(|event: Event| self.history.event(event));
        }
        self.script += line;
        self.script.push('\n');
    }

    fn made(&mut self) {
        let fresh = state(&mut self.chance, 0);
        let mut line = String::from("new ");
        for field in [&fresh.serial[..], &fresh.account, &fresh.password] {
            put_hex(&mut line, field);
            line.push(' ');
        }
        let c = fresh.clock;
        let link = self.chance.one_of(&[OPTICAL, OPTICAL, WIRED]);
        let edition = self.chance.one_of(&[1, 2]);
        let decimals = family(&mut self.chance);
        line += &format!(
            "{} {} {} {} {} {} {edition} {link} {decimals}",
            c.year, c.month, c.day, c.hour, c.minute, c.second
        );
        let (_, meter) = Meter::new(
            fresh.serial,
            fresh.account,
            fresh.password,
            fresh.clock,
            [edition, link, decimals],
        );
        self.history = History::new(meter, Mistake::None);
        self.line(&line);
    }

    fn step(&mut self) {
        match self.chance.weighed(&[80, 4, 3, 2, 5, 1]) {
            0 => {
                let message = self.message();
                self.deliver(&message);
            }
            1 => self.line("tick"),
            2 => {
                let units = self.chance.one_of(&[0, 1, 999, 1_000_000, 1_000_001]);
                let way = self.chance.one_of(&["", " out"]);
                self.line(&format!("pulse {units}{way}"));
            }
            3 => {
                let line = self
                    .chance
                    .one_of(&["silence", "silence", "silence 4095", "up"]);
                self.line(line);
            }
            4 => self.line("dump"),
            _ => {
                let noise: Vec<u8> = (0..self.chance.between(1, 70))
                    .map(|_| {
                        self.chance
                            .one_of(&[0x81, 0x03, 0xAF, 0x0A, 0x30, 0x57, 0x01])
                    })
                    .collect();
                self.bytes(&noise);
            }
        }
    }

    /// What a head might say as matters stand, in characters.
    fn message(&mut self) -> Vec<u8> {
        let (serial, word) = (self.history.book.serial, self.history.book.password);
        let chance = &mut self.chance;
        match self.history.mode {
            0 if self.history.book.link == WIRED => match chance.weighed(&[8, 6, 2]) {
                0 => wired_line(b'A', &serial),
                1 => wired_line(b'A', b"0000000000"),
                _ => b"/?!\r\n".to_vec(),
            },
            0 => match chance.weighed(&[8, 6, 4, 5, 2]) {
                0 => b"/?!\r\n".to_vec(),
                1 => sign_on(&serial),
                2 => sign_on(b"0000000000"),
                3 => CLOSING.to_vec(),
                _ => chance.pick(&NEARLY_CLOSING).to_vec(),
            },
            1 => confirmation_at(chance.one_of(b"00555554"), chance.one_of(b"1111111067")),
            2 => match chance.weighed(&[3, 8, 9, 2, 1]) {
                0 => password(b"()"),
                1 => password(&bracketed(&word)),
                2 => password(&bracketed(&wrong_password(chance, &word))),
                3 => password(&malformed_password(chance, &word)),
                _ => write(&good_write(chance)),
            },
            _ => match chance.weighed(&[20, 6, 4, 3, 3]) {
                0 => write(&good_write(chance)),
                1 => write(&bad_write(chance)),
                2 => read(&good_read(chance)),
                3 => {
                    let wanted = chance.one_of(&[SOH, STX, ETX]);
                    write_with_bcc(chance, wanted).unwrap_or_else(good_bye)
                }
                _ => good_bye(),
            },
        }
    }

    /// A message as it is, or hurt, or cut by something.
    fn deliver(&mut self, message: &[u8]) {
        let mut bytes = wires(message);
        let place = self.chance.below(bytes.len());
        match self.chance.weighed(&[60, 6, 5, 4, 4, 4, 4, 4]) {
            0 => {}
            1 => bytes[place] ^= 1 << self.chance.below(8),
            2 => {
                let last = bytes.len() - 1;
                bytes[last] = wires(&[self.chance.byte() & 0x7F])[0];
            }
            // The start of it, and then the whole.
            3 => bytes = [&bytes[..place], &bytes[..]].concat(),
            // Behind its end goes what would follow an SOH, though none came.
            4 => {
                bytes = [
                    &bytes[..],
                    &wires(&write(&good_write(&mut self.chance)))[1..],
                ]
                .concat()
            }
            5 => {
                self.bytes(&bytes[..place]);
                let line = self
                    .chance
                    .one_of(&["silence", "up", "tick", "silence 4095", "dump"]);
                self.line(line);
                bytes.drain(..place);
            }
            6 => {
                self.bytes(&bytes[..place]);
                let stray = self.chance.byte();
                self.line(&format!("byte {stray:02x} 4095"));
                bytes.drain(..place);
            }
            _ => drop(bytes.remove(place)),
        }
        self.bytes(&bytes);
        if self.chance.percent(30) {
            self.line("dump");
        }
    }

    fn bytes(&mut self, bytes: &[u8]) {
        if !bytes.is_empty() {
            let mut line = String::from("bytes ");
            put_hex(&mut line, bytes);
            self.line(&line);
        }
    }
}
