//! Holds the head's session against the model: sessions started, replies heard, silences, and after
//! each of them the number, the fact, the message, the whole record and every byte of the buffer.
//! Conversations go with the model's meter and with the meter that firmware links.
//!
//! `session [SEED [CALLS]]`

mod line;
mod play;
mod proved;
mod reached;
mod wrong;

use model::session::{self, Heard, Session, Started, Told};
use play::play;
use proved::Proved;
use reached::Reached;
use std::process::ExitCode;
use trials::memory::Guarded;
use wrong::{Wrong, FAULTS};

const SEED: u64 = 7;
const CALLS: u64 = 1_000_000;
/// The calls that a wrong head may pass at most before it is found out.
const PATIENCE: u64 = 60_000;

/// A head under trial: the proved one, or a wrong one that the trial must find out.
trait Head {
    fn start(&mut self, session: &mut Session, told: &Told, out: &mut [u8]) -> Started;
    fn reply(&mut self, session: &mut Session, work: &[u8], reply: &[u8], out: &mut [u8]) -> Heard;
    fn silence(&mut self, session: &mut Session) -> Heard;
}

/// Both heads, side by side, in one session.
struct Pair<'h> {
    head: &'h mut dyn Head,
    session: Session,
    buffers: Guarded,
    reached: Reached,
}

impl Pair<'_> {
    /// The record as it stands from here on, in both.
    fn put(&mut self, session: Session) {
        self.session = session;
    }

    /// Starts a session in both, in a buffer of `room` bytes of some filling; what the model says,
    /// and the buffer.
    fn start(
        &mut self,
        told: &Told,
        room: usize,
        filling: u8,
    ) -> Result<(Started, Vec<u8>), String> {
        let (mut ours, mut theirs) = (self.session, self.session);
        let mut buffer = vec![filling; room];
        let wanted = session::start(&mut ours, told, &mut buffer);
        let out = self.buffers.lend(room);
        out.fill(filling);
        let given = self.head.start(&mut theirs, told, out);
        let same = (given, theirs, &*out) == (wanted, ours, &buffer[..]);
        if !same {
            return Err(format!(
                "start {told:02x?} in {room}:\nmodel: {wanted:?} {ours:02x?} {buffer:02x?}\n\
                 head: {given:?} {theirs:02x?} {out:02x?}"
            ));
        }
        self.reached.started(told, room, &wanted);
        self.session = ours;
        Ok((wanted, buffer))
    }

    /// A reply to both.
    fn reply(
        &mut self,
        work: &[u8],
        reply: &[u8],
        room: usize,
        filling: u8,
    ) -> Result<(Heard, Vec<u8>), String> {
        let before = self.session;
        let (mut ours, mut theirs) = (before, before);
        let mut buffer = vec![filling; room];
        let wanted = ours.reply(work, reply, &mut buffer);
        let out = self.buffers.lend(room);
        out.fill(filling);
        let given = self.head.reply(&mut theirs, work, reply, out);
        let same = (given, theirs, &*out) == (wanted, ours, &buffer[..]);
        if !same {
            return Err(format!(
                "reply {reply:02x?} in {room} to {before:02x?} with {work:02x?}:\n\
                 model: {wanted:?} {ours:02x?} {buffer:02x?}\n\
                 head: {given:?} {theirs:02x?} {out:02x?}"
            ));
        }
        self.reached.heard(&before, work, reply, &wanted);
        self.session = ours;
        Ok((wanted, buffer))
    }

    /// Silence to both.
    fn silence(&mut self) -> Result<Heard, String> {
        let before = self.session;
        let (mut ours, mut theirs) = (before, before);
        let wanted = ours.silence();
        let given = self.head.silence(&mut theirs);
        if (given, theirs) != (wanted, ours) {
            return Err(format!(
                "silence to {before:02x?}:\nmodel: {wanted:?} {ours:02x?}\n\
                 head: {given:?} {theirs:02x?}"
            ));
        }
        self.reached.silent(&before, &wanted);
        self.session = ours;
        Ok(wanted)
    }
}

/// So many calls and more; what was reached, or the first difference.
fn trial(head: &mut dyn Head, seed: u64, calls: u64) -> Result<Reached, String> {
    let mut pair = Pair {
        head,
        session: Session::default(),
        buffers: Guarded::new(4_096),
        reached: Reached::default(),
    };
    play(&mut pair, seed, calls)?;
    Ok(pair.reached)
}

fn run() -> Result<(), String> {
    let arguments: Vec<String> = std::env::args().skip(1).collect();
    let number = |place: usize, default: u64| match arguments.get(place) {
        None => Ok(default),
        Some(text) => text
            .parse()
            .map_err(|_| format!("'{text}' is not a number; usage: session [SEED [CALLS]]")),
    };
    let (seed, calls) = (number(0, SEED)?, number(1, CALLS)?);
    if arguments.len() > 2 {
        return Err("usage: session [SEED [CALLS]]".into());
    }
    println!("session: seed {seed}");
    trial(&mut Wrong::right(), seed, PATIENCE)?;
    for fault in FAULTS {
        if trial(&mut Wrong::with(fault), seed, PATIENCE).is_ok() {
            return Err(format!("selftest: not found out: {fault:?}"));
        }
    }
    println!("session: selftest: {} wrong heads found out", FAULTS.len());
    let reached = trial(&mut Proved::default(), seed, calls)?;
    let missed = reached.missed();
    if !missed.is_empty() {
        return Err(format!("never reached: {}", missed.join("; ")));
    }
    println!("{}", reached.said());
    Ok(())
}

fn main() -> ExitCode {
    match run() {
        Ok(()) => ExitCode::SUCCESS,
        Err(difference) => {
            println!("session: {difference}");
            ExitCode::FAILURE
        }
    }
}
