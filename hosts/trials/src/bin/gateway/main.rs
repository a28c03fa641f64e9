//! The trial of whole frames: the proved call against the independent model, number, speed, length,
//! place, every byte of the buffer and the next state, over slices of every kind and any state.
//!
//!     gateway [SEED [CALLS]]

mod reached;
mod slices;
mod wrong;

use dirgemist::meter as library;
use model::meter::{Answer, Meter, PASSWORD, PLACES, ROOM, SOH};
use reached::Reached;
use std::process::ExitCode;
use trials::chance::Chance;
use trials::memory::Guarded;
use trials::record::record_of;
use trials::words;
use wrong::wrong;

const SEED: u64 = 8;
const CALLS: u64 = 600_000;

/// The calls that a wrong gateway may pass at most before it is found out.
const PATIENCE: u64 = 50_000;

/// What fills a buffer before the call.
const FILLING: u8 = 0xAA;

/// A call as the trial plays it.
pub trait Gateway {
    fn frame(&mut self, meter: &Meter, frame: &[u8], reply: &mut [u8]) -> (Answer, library::Meter);
}

/// The proved library, on memory that starts or ends where its size says.
struct Library {
    record: Guarded,
    frame: Guarded,
    reply: Guarded,
}

impl Gateway for Library {
    fn frame(&mut self, meter: &Meter, frame: &[u8], reply: &mut [u8]) -> (Answer, library::Meter) {
        let record = self.record.place(record_of(meter));
        let lent = self.reply.copy(reply);
        let answer = record.frame(self.frame.copy(frame), lent);
        reply.copy_from_slice(lent);
        let told = Answer {
            number: answer.number,
            speed: answer.speed,
            length: answer.length,
            place: answer.place,
        };
        (told, *record)
    }
}

/// A state: most often one that waits for a frame.
fn state(chance: &mut Chance) -> Meter {
    let mode = if chance.percent(92) {
        chance.between(2, 4) as u8
    } else {
        chance.below(2) as u8
    };
    let meter = words::state(chance, mode);
    let mut meter = words::on_some_link(chance, meter);
    if chance.percent(4) && mode >= PASSWORD {
        let count = chance.between(1, PLACES);
        let mut held = words::printables(chance, count);
        held.insert(0, SOH);
        held.truncate(PLACES);
        meter = words::holding(meter, &held, chance.percent(20));
    }
    if chance.percent(2) {
        match chance.below(10) {
            8 => meter.decimals = chance.one_of(&[1, 5, 255]),
            9 => {
                meter.decimals = 0;
                meter.exported[chance.below(4)] = 7;
                meter = words::totalled(meter);
            }
            6 | 7 => meter.edition = chance.one_of(&[0, 3, 255]),
            0 => meter.mode = chance.between(5, 255) as u8,
            1 => meter.attempts = chance.between(4, 255) as u8,
            2 => meter.total ^= 1,
            3 => meter.held[chance.below(PLACES)] = chance.between(128, 255) as u8,
            4 => meter.place = chance.between(64, 255) as u8,
            _ => meter.tables[chance.below(25)][chance.below(24)] = b'5',
        }
    }
    meter
}

fn room(chance: &mut Chance) -> usize {
    match chance.below(40) {
        0 => ROOM - 1,
        1 => chance.below(ROOM),
        2 => ROOM + chance.below(300),
        _ => ROOM,
    }
}

fn try_frame(
    chance: &mut Chance,
    gateway: &mut dyn Gateway,
    reached: &mut Reached,
) -> Result<(), String> {
    let before = state(chance);
    let slice = slices::slice(chance, &before);
    let room = room(chance);
    let (mut ours, mut theirs) = (vec![FILLING; room], vec![FILLING; room]);
    let mut after = before.clone();
    let told = after.frame(&slice, &mut ours);
    let (got, record) = gateway.frame(&before, &slice, &mut theirs);
    reached.met_by(&before, &slice, told);
    match got == told && theirs == ours && record == record_of(&after) {
        true => Ok(()),
        false => Err(format!(
            "mode {}, {} held, {slice:02x?} in {room}: {got:?}, and the model {told:?}",
            before.mode, before.count
        )),
    }
}

/// Plays so many calls, or as many as go well.
fn play(seed: u64, calls: u64, gateway: &mut dyn Gateway) -> (u64, Reached, Result<(), String>) {
    let mut chance = Chance::new(seed);
    let mut reached = Reached::default();
    for call in 0..calls {
        if let Err(fault) = try_frame(&mut chance, gateway, &mut reached) {
            return (call, reached, Err(fault));
        }
    }
    (calls, reached, Ok(()))
}

fn trial(seed: u64, calls: u64) -> Result<String, String> {
    let mut proved = Library {
        record: Guarded::new(size_of::<library::Meter>()),
        frame: Guarded::new(1024),
        reply: Guarded::new(ROOM + 300),
    };
    let (_, reached, end) = play(seed, calls, &mut proved);
    end?;
    reached.missed()?;
    let mut found = Vec::new();
    for (name, mut gateway) in wrong() {
        match play(seed, PATIENCE, &mut *gateway) {
            (_, _, Ok(())) => return Err(format!("not found out: {name}")),
            (call, _, Err(_)) => found.push(format!("{name} at {}", call + 1)),
        }
    }
    Ok(format!(
        "{calls} frames, alike; {}; found out: {}",
        reached.said(),
        found.join(", ")
    ))
}

fn main() -> ExitCode {
    let mut words = std::env::args().skip(1);
    let mut number = |usual| {
        words
            .next()
            .map_or(usual, |word| word.parse().expect("a number"))
    };
    let (seed, calls) = (number(SEED), number(CALLS));
    match trial(seed, calls) {
        Ok(said) => {
            println!("gateway: {said}");
            ExitCode::SUCCESS
        }
        Err(fault) => {
            println!("gateway: {fault}");
            ExitCode::FAILURE
        }
    }
}
