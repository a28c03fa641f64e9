//! Holds the meter that firmware links against the model: meters made, records checked and every
//! event, and after each of them the whole record, the answer and every byte of the buffer.
//!
//! `firmware [SEED [EVENTS]]`

mod bus;
mod play;
mod proved;
mod reached;
mod wrong;

use dirgemist::meter as library;
use model::meter::{Answer, Clock, Meter, Way};
use play::{play, Facts};
use proved::Proved;
use reached::Reached;
use std::process::ExitCode;
use trials::memory::Guarded;
use trials::record::record_of;
use wrong::{Wrong, FAULTS};

const SEED: u64 = 1;
const EVENTS: u64 = 7_000_000;
/// The events that a wrong meter may pass at most before it is found out.
const PATIENCE: u64 = 400_000;

/// A meter under trial: the proved one, or a wrong one that the trial must find out.
trait Firmware {
    fn make(&mut self, facts: &Facts) -> u8;
    fn put(&mut self, meter: &Meter);
    fn check(&mut self) -> u8;
    fn total(&mut self) -> (u8, u32);
    fn meet(&mut self, kind: u8, value: u32, reply: &mut [u8]) -> Answer;
    fn record(&self) -> library::Meter;
}

/// The model's meter as firmware would have it.
fn ruled(meter: &mut Meter, kind: u8, value: u32, reply: &mut [u8]) -> Answer {
    match (kind, value) {
        _ if !meter.has_edition() => meter.tick(),
        (0, 0..=255) => meter.character(value as u8, reply),
        (1, _) => meter.silence(reply),
        (2, _) => meter.tick(),
        (3, _) => meter.pulse(Way::In, value),
        (4, _) => meter.power_up(),
        (5, _) => meter.pulse(Way::Out, value),
        _ => Answer {
            number: library::NO_EVENT,
            speed: 0,
            length: 0,
            place: 0,
        },
    }
}

/// The model's making: facts of other lengths are bad ones.
fn made(facts: &Facts) -> (u8, Meter) {
    let fields = (
        facts.serial[..].try_into(),
        facts.account[..].try_into(),
        facts.password[..].try_into(),
    );
    match fields {
        (Ok(serial), Ok(account), Ok(password)) => {
            Meter::new(serial, account, password, facts.clock, facts.kind)
        }
        _ => {
            let number = match facts.kind {
                [1 | 2, _, 0 | 2 | 3 | 4] => 15,
                [1 | 2, ..] => 18,
                _ => 16,
            };
            (number, Meter::blank())
        }
    }
}

/// Both meters, side by side.
struct Pair<'f> {
    firmware: &'f mut dyn Firmware,
    model: Meter,
    replies: Guarded,
    reached: Reached,
}

impl Pair<'_> {
    fn put(&mut self, meter: Meter) {
        self.firmware.put(&meter);
        self.model = meter;
    }

    fn same_record(&self, what: impl FnOnce() -> String) -> Result<(), String> {
        let record = self.firmware.record();
        if record == record_of(&self.model) {
            return Ok(());
        }
        let (what, model) = (what(), &self.model);
        Err(format!(
            "{what}: the records differ\nmodel: {model:?}\nlibrary: {record:?}"
        ))
    }

    fn make(&mut self, facts: &Facts) -> Result<(), String> {
        let given = self.firmware.make(facts);
        let (wanted, meter) = made(facts);
        self.model = meter;
        self.reached.made(facts, wanted);
        if given != wanted {
            return Err(format!("make {facts:?}: wanted {wanted}, given {given}"));
        }
        self.same_record(|| "make".into())
    }

    fn check(&mut self) -> Result<(), String> {
        let given = self.firmware.check();
        let wanted = match (self.model.has_edition(), self.model.well_formed()) {
            (false, _) => 16,
            (true, good) => {
                if good {
                    1
                } else {
                    14
                }
            }
        };
        self.reached.checked(wanted);
        if given != wanted {
            let model = &self.model;
            return Err(format!(
                "check of {model:?}: wanted {wanted}, given {given}"
            ));
        }
        let shown = self.firmware.total();
        let total = if wanted == 1 { self.model.total } else { 0 };
        if shown != (wanted, total) {
            let model = &self.model;
            return Err(format!(
                "total of {model:?}: wanted {wanted} {total}, given {shown:?}"
            ));
        }
        self.same_record(|| "check".into())
    }

    /// One event to both, in a buffer of `room` bytes of some filling.
    fn meet(&mut self, kind: u8, value: u32, room: usize, filling: u8) -> Result<(), String> {
        let before = self.model.clone();
        let mut wanted_reply = vec![filling; room];
        let wanted = ruled(&mut self.model, kind, value, &mut wanted_reply);
        let reply = self.replies.lend(room);
        reply.fill(filling);
        let given = self.firmware.meet(kind, value, reply);
        let what = || format!("event {kind}, value {value:#x}, room {room}, on {before:?}");
        if given != wanted {
            let what = what();
            return Err(format!("{what}: wanted {wanted:?}, given {given:?}"));
        }
        if *reply != wanted_reply[..] {
            return Err(format!("{}: the buffers differ", what()));
        }
        self.same_record(what)?;
        self.reached
            .event(&before, (kind, value, room), wanted, &self.model);
        Ok(())
    }
}

/// So many events and more; what was reached, or the first difference.
fn trial(firmware: &mut dyn Firmware, seed: u64, events: u64) -> Result<Reached, String> {
    let mut pair = Pair {
        firmware,
        model: Meter::blank(),
        replies: Guarded::new(8_192),
        reached: Reached::default(),
    };
    pair.put(Meter::blank());
    play(&mut pair, seed, events)?;
    Ok(pair.reached)
}

fn run() -> Result<(), String> {
    let arguments: Vec<String> = std::env::args().skip(1).collect();
    let number = |place: usize, default: u64| match arguments.get(place) {
        None => Ok(default),
        Some(text) => text
            .parse()
            .map_err(|_| format!("'{text}' is not a number; usage: firmware [SEED [EVENTS]]")),
    };
    let (seed, events) = (number(0, SEED)?, number(1, EVENTS)?);
    if arguments.len() > 2 {
        return Err("usage: firmware [SEED [EVENTS]]".into());
    }
    println!("firmware: seed {seed}");
    trial(&mut Wrong::right(), seed, PATIENCE)?;
    for fault in FAULTS {
        if trial(&mut Wrong::with(fault), seed, PATIENCE).is_ok() {
            return Err(format!("selftest: not found out: {fault:?}"));
        }
    }
    println!(
        "firmware: selftest: {} wrong meters found out",
        FAULTS.len()
    );
    let reached = trial(&mut Proved::default(), seed, events)?;
    let missed = reached.missed();
    if !missed.is_empty() {
        return Err(format!("never reached: {}", missed.join("; ")));
    }
    let lines = bus::trial(seed)?;
    println!("firmware: {lines} lines to eight meters on one wire, only the one called answered");
    println!(
        "firmware: {} events, {} of slow sessions, {} with a place, {} cases of closed months ({} \
         periods closed, {} blocks with periods), {} on the wired link, {} cases of EQM meters ({} pulses out), {} meters made, {} records \
         checked, all equal; reached all of {}; answers {}",
        reached.events,
        reached.slow,
        reached.hurt,
        reached.months,
        reached.closed,
        reached.blocks,
        reached.wired,
        reached.eqm,
        reached.pulses_out,
        reached.made,
        reached.checks,
        reached::AIMS.len(),
        reached.answers()
    );
    Ok(())
}

fn main() -> ExitCode {
    match run() {
        Ok(()) => ExitCode::SUCCESS,
        Err(difference) => {
            println!("firmware: {difference}");
            ExitCode::FAILURE
        }
    }
}
