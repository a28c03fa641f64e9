//! The trial of settings cards: the proved library against the independent model over its C
//! boundary, check, reader and writer, and the card of one meter brought to another.
//!
//!     card [SEED [CALLS]]

mod reached;
mod texts;
mod wrong;

use ::model::post::tables_of;
use dirgemist::card;
use model::card as model;
use reached::Reached;
use std::process::ExitCode;
use trials::chance::Chance;
use trials::memory::Guarded;
use trials::record::record_of;
use wrong::{wrong, Cards, Right};

type Meter = ::model::meter::Meter;

const SEED: u64 = 11;
const CALLS: u64 = 600_000;

/// The calls that wrong cards may pass at most before they are found out.
const PATIENCE: u64 = 30_000;

/// What fills a buffer before the call.
const FILLING: u8 = 0xAA;

/// The proved library, on memory that starts or ends where its size says.
struct Library {
    texts: Guarded,
    buffers: Guarded,
    records: Guarded,
}

impl Cards for Library {
    fn check(&mut self, edition: u8, text: &[u8]) -> (u8, usize) {
        card::check(edition, self.texts.copy(text))
    }
    fn read(&mut self, edition: u8, text: &[u8], out: &mut [u8]) -> (u8, usize, usize) {
        let lent = self.buffers.copy(out);
        let told = card::read(edition, self.texts.copy(text), lent);
        out.copy_from_slice(lent);
        told
    }
    fn write(&mut self, meter: &Meter, out: &mut [u8]) -> (u8, usize) {
        let lent = self.buffers.copy(out);
        let told = card::write(self.records.place(record_of(meter)), lent);
        out.copy_from_slice(lent);
        told
    }
}

/// A room below, at or above a length, or any.
fn room(chance: &mut Chance, length: usize) -> usize {
    match chance.below(6) {
        0 => length.saturating_sub(1),
        1 => length,
        2 => length + 1,
        3 => chance.below(length + 1),
        _ => chance.between(0, 1_000),
    }
}

fn try_text(
    chance: &mut Chance,
    cards: &mut dyn Cards,
    reached: &mut Reached,
) -> Result<(), String> {
    let (edition, text) = (texts::edition(chance), texts::text(chance));
    let checked = model::check(edition, &text);
    let got = cards.check(edition, &text);
    if got != checked {
        return Err(format!(
            "check {edition} {text:02x?}: {got:?}, and the model {checked:?}"
        ));
    }
    let frames = tables_of(edition)
        .and_then(|highest| model::read(highest, &text))
        .map_or(0, |card| model::frames_of(&card).len());
    let room = room(chance, frames);
    let (mut ours, mut theirs) = (vec![FILLING; room], vec![FILLING; room]);
    let told = model::export(edition, &text, &mut ours);
    let got = cards.read(edition, &text, &mut theirs);
    reached.read(edition, &text, room, frames, told);
    match (got, theirs) == (told, ours) {
        true => Ok(()),
        false => Err(format!(
            "read {edition} {text:02x?} in {room}: {got:?}, and the model {told:?}"
        )),
    }
}

fn try_meter(
    chance: &mut Chance,
    cards: &mut dyn Cards,
    reached: &mut Reached,
) -> Result<(), String> {
    let meter = texts::meter(chance);
    let longest = model::LONGEST - if meter.edition == 1 { 28 } else { 0 };
    let room = room(chance, longest);
    let (mut ours, mut theirs) = (vec![FILLING; room], vec![FILLING; room]);
    let told = model::write(&meter, &mut ours);
    let got = cards.write(&meter, &mut theirs);
    reached.written(&meter, room, told);
    if (got, &theirs) != (told, &ours) {
        return Err(format!(
            "write {meter:?} in {room}: {got:?}, and the model {told:?}"
        ));
    }
    match told.0 {
        model::DONE => bring(chance, cards, reached, &meter, &theirs[..told.1]),
        _ => Ok(()),
    }
}

/// The card of a meter, read by the library and given to another meter of the model.
fn bring(
    chance: &mut Chance,
    cards: &mut dyn Cards,
    reached: &mut Reached,
    from: &Meter,
    text: &[u8],
) -> Result<(), String> {
    let highest = tables_of(from.edition).ok_or("a card of no edition")?;
    let card = model::read(highest, text).ok_or("a written card is none")?;
    if card != model::card_of(from) {
        return Err("a written card says something else".into());
    }
    let mut frames = vec![0; card::FRAMES_LONGEST];
    let (number, length, _) = cards.read(from.edition, text, &mut frames);
    let before = texts::ready(chance, from.edition);
    let mut to = before.clone();
    let mut acknowledged = 0;
    for &byte in &frames[..length] {
        let mut reply = [0; ::model::meter::ROOM];
        acknowledged += usize::from(to.character(byte, &mut reply).number == 1);
    }
    let wanted = Meter {
        account: from.account,
        tables: from.tables,
        ..before
    };
    reached.brought(from, &to);
    match (number, acknowledged) == (1, usize::from(highest) + 1) && to == wanted {
        true => Ok(()),
        false => Err(format!("brought {from:?}: {acknowledged} acknowledged")),
    }
}

fn try_calls(
    seed: u64,
    calls: u64,
    cards: &mut dyn Cards,
    reached: &mut Reached,
) -> Result<(), String> {
    let mut chance = Chance::new(seed);
    for call in 0..calls {
        match call % 20 {
            0 => try_meter(&mut chance, cards, reached)?,
            _ => try_text(&mut chance, cards, reached)?,
        }
    }
    Ok(())
}

fn run() -> Result<(), String> {
    let mut words = std::env::args().skip(1);
    let mut number = |other| match words.next() {
        None => Ok(other),
        Some(word) => word.parse().map_err(|_| format!("{word} is no number")),
    };
    let (seed, calls) = (number(SEED)?, number(CALLS)?);
    println!("card: seed {seed}");
    let wrong = wrong();
    for cards in &wrong {
        if try_calls(seed, PATIENCE, &mut { *cards }, &mut Reached::default()).is_ok() {
            return Err(format!("selftest: not found out: {}", cards.name));
        }
    }
    try_calls(seed, PATIENCE, &mut Right, &mut Reached::default())?;
    println!("card: selftest: {} wrong libraries found out", wrong.len());
    let mut library = Library {
        texts: Guarded::new(2_048),
        buffers: Guarded::new(2_048),
        records: Guarded::new(1_024),
    };
    let mut reached = Reached::default();
    try_calls(seed, calls, &mut library, &mut reached)?;
    reached.missed()?;
    println!(
        "card: {calls} calls, all equal; reached: {}",
        reached.said()
    );
    Ok(())
}

fn main() -> ExitCode {
    match run() {
        Ok(()) => ExitCode::SUCCESS,
        Err(difference) => {
            println!("card: {difference}");
            ExitCode::FAILURE
        }
    }
}
