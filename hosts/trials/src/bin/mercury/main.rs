//! The trial of Mercury meters: the proved library against the independent model over its C
//! boundary, and its CRC against those that a peer gave, `hosts/peer/crc.txt`.
//!
//!     mercury [SEED [CALLS]]

mod reached;
mod wrong;

use dirgemist::mercury::{self, Told};
use model::mercury as model;
use reached::Reached;
use std::process::ExitCode;
use trials::chance::Chance;
use trials::memory::Guarded;
use wrong::{wrong, Reader, Right};

const SEED: u64 = 5;
const CALLS: u64 = 1_000_000;

/// The calls that a wrong reader may pass at most before it is found out.
const PATIENCE: u64 = 50_000;

/// What fills a buffer before the call.
const FILLING: u8 = 0xAA;

/// The proved library, on memory that starts or ends where its size says.
struct Library {
    texts: Guarded,
}

impl Reader for Library {
    fn ask(&mut self, fields: [u8; 4], out: &mut [u8]) -> (u8, usize) {
        let [address, array, month, tariff] = fields;
        let lent = self.texts.copy(out);
        let told = mercury::ask(address, array, month, tariff, lent);
        out.copy_from_slice(lent);
        told
    }
    fn read(&mut self, address: u8, answer: &[u8]) -> Told {
        mercury::told(address, self.texts.copy(answer))
    }
}

/// What the model reads, as the call hands it out.
fn told(address: u8, answer: &[u8]) -> Told {
    match model::read(address, answer) {
        model::Read::Energy(quantities) => {
            let bits = (0..4).filter(|&place| quantities[place].is_some());
            let measured = bits.map(|place| 1 << place).sum();
            let numbers = quantities.map(|quantity| quantity.unwrap_or(0));
            (model::answer::DONE, 0, measured, numbers)
        }
        model::Read::Not { number, status } => (number, status, 0, [0; 4]),
    }
}

/// A field in its range more often than not.
fn field(chance: &mut Chance, most: usize) -> u8 {
    match chance.below(10) {
        0 => chance.byte(),
        _ => chance.between(0, most) as u8,
    }
}

fn fields(chance: &mut Chance) -> [u8; 4] {
    let array = field(chance, 15);
    let month = match chance.below(3) {
        0 => 0,
        _ => field(chance, 13),
    };
    [chance.byte(), array, month, field(chance, 5)]
}

fn try_ask(
    chance: &mut Chance,
    reader: &mut dyn Reader,
    reached: &mut Reached,
) -> Result<(), String> {
    let fields = fields(chance);
    let [address, array, month, tariff] = fields;
    let room = chance.below(12);
    let (mut ours, mut theirs) = (vec![FILLING; room], vec![FILLING; room]);
    let told = model::ask(address, array, month, tariff, &mut ours);
    let got = reader.ask(fields, &mut theirs);
    reached.asked(fields, room, told.0);
    match (got, theirs) == (told, ours) {
        true => Ok(()),
        false => Err(format!(
            "ask {fields:?} in {room}: {got:?}, and the model {told:?}"
        )),
    }
}

/// A quantity: none, at its limits, or any.
fn quantity(chance: &mut Chance) -> Option<u32> {
    match chance.below(8) {
        0 | 1 => None,
        2 => Some(0),
        3 => Some(u32::MAX - 1),
        4 => Some(1 << chance.below(32)),
        _ => Some(chance.bits() as u32).filter(|&number| number != u32::MAX),
    }
}

fn answer(chance: &mut Chance, address: u8) -> Vec<u8> {
    let mut answer = match chance.below(10) {
        0..=4 => model::energy(address, [(); 4].map(|()| quantity(chance))),
        5 | 6 => model::closed(vec![address, chance.byte() & chance.byte()]),
        7 => model::closed((0..chance.below(24)).map(|_| chance.byte()).collect()),
        _ => (0..chance.one_of(&[0, 1, 2, 3, 4, 4, 18, 19, 19, 20, 300]))
            .map(|_| chance.byte())
            .collect(),
    };
    if chance.percent(25) && !answer.is_empty() {
        let place = chance.below(answer.len());
        answer[place] ^= 1 << chance.below(8);
    }
    if chance.percent(5) {
        answer.truncate(chance.below(answer.len() + 1));
    }
    if chance.percent(3) {
        answer.push(chance.byte());
    }
    answer
}

fn try_read(
    chance: &mut Chance,
    reader: &mut dyn Reader,
    reached: &mut Reached,
) -> Result<(), String> {
    let address = chance.byte();
    let from = if chance.percent(85) {
        address
    } else {
        chance.byte()
    };
    let answer = answer(chance, from);
    let told = told(address, &answer);
    let got = reader.read(address, &answer);
    reached.read(address, &answer, told);
    match got == told {
        true => Ok(()),
        false => Err(format!(
            "read {address} {answer:02x?}: {got:?}, and the model {told:?}"
        )),
    }
}

fn try_calls(
    seed: u64,
    calls: u64,
    reader: &mut dyn Reader,
    reached: &mut Reached,
) -> Result<(), String> {
    let mut chance = Chance::new(seed);
    for _ in 0..calls {
        match chance.below(4) {
            0 => try_ask(&mut chance, reader, reached)?,
            _ => try_read(&mut chance, reader, reached)?,
        }
    }
    Ok(())
}

/// A million messages, as `hosts/peer/make.py` makes them, and the digests of the peer's CRCs.
fn peer() -> Result<usize, String> {
    let kept = include_str!("../../../../peer/crc.txt");
    let mut chance = Chance::new(9);
    let mut messages = 0;
    for (line, kept) in kept.lines().enumerate() {
        let mut digest = 0xCBF2_9CE4_8422_2325_u64;
        for _ in 0..1000 {
            let length = chance.below(301);
            let mut message: Vec<u8> = Vec::new();
            while message.len() < length {
                message.extend(chance.bits().to_le_bytes());
            }
            message.truncate(length);
            for byte in mercury::crc(&message).to_le_bytes() {
                digest = (digest ^ u64::from(byte)).wrapping_mul(0x100_0000_01B3);
            }
            messages += 1;
        }
        if format!("{digest:016x}") != kept {
            return Err(format!(
                "the peer has other CRCs for messages {line}000 to {line}999"
            ));
        }
    }
    Ok(messages)
}

fn run() -> Result<(), String> {
    let mut words = std::env::args().skip(1);
    let mut number = |other| match words.next() {
        None => Ok(other),
        Some(word) => word.parse().map_err(|_| format!("{word} is no number")),
    };
    let (seed, calls) = (number(SEED)?, number(CALLS)?);
    println!("mercury: seed {seed}");
    let wrong = wrong();
    for head in &wrong {
        if try_calls(seed, PATIENCE, &mut { *head }, &mut Reached::default()).is_ok() {
            return Err(format!("selftest: not found out: {}", head.name));
        }
    }
    try_calls(seed, PATIENCE, &mut Right, &mut Reached::default())?;
    println!("mercury: selftest: {} wrong heads found out", wrong.len());
    let mut library = Library {
        texts: Guarded::new(512),
    };
    let mut reached = Reached::default();
    try_calls(seed, calls, &mut library, &mut reached)?;
    reached.missed()?;
    println!(
        "mercury: {calls} calls, all equal; reached: {}",
        reached.said()
    );
    println!("mercury: {} CRCs, those of the peer", peer()?);
    Ok(())
}

fn main() -> ExitCode {
    match run() {
        Ok(()) => ExitCode::SUCCESS,
        Err(difference) => {
            println!("mercury: {difference}");
            ExitCode::FAILURE
        }
    }
}
