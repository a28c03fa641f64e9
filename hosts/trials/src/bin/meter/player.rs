//! Writes a script line by line and plays it on the model at once, so that the next line can be
//! aimed at the state that the last one left.

use crate::reached::Reached;
use model::bench::{dump, parse, put_hex, Bench, Command};
use model::meter::{with_parity, Meter};
use trials::program::Played;

pub struct Player<'a> {
    name: String,
    bench: Bench,
    script: Vec<u8>,
    transcript: String,
    answered: Vec<usize>,
    answers: usize,
    events: u64,
    reached: &'a mut Reached,
}

impl<'a> Player<'a> {
    pub fn new(name: impl Into<String>, reached: &'a mut Reached) -> Player<'a> {
        Player {
            name: name.into(),
            bench: Bench::default(),
            script: Vec::new(),
            transcript: String::new(),
            answered: Vec::new(),
            answers: 0,
            events: 0,
            reached,
        }
    }

    pub fn meter(&self) -> &Meter {
        &self.bench.meter
    }

    /// Events played so far, each character one.
    pub fn events(&self) -> u64 {
        self.events
    }

    /// Plays one line, given without its LF.
    pub fn line(&mut self, line: impl AsRef<[u8]>) {
        let line = line.as_ref();
        assert!(!line.contains(&b'\n'), "one line at a time");
        self.script.extend_from_slice(line);
        self.script.push(b'\n');
        self.answered.push(self.answers);
        let start = self.transcript.len();
        let (events, reached) = (&mut self.events, &mut *self.reached);
        let watch = &mut |before: &Meter, event, answer, after: &Meter| {
            *events += 1;
            reached.event(before, event, answer, after);
        };
        self.bench.answer_watched(line, &mut self.transcript, watch);
        let answers = &self.transcript[start..];
        self.answers += answers.matches('\n').count();
        match parse(line) {
            None => self.reached.reach("script line that is an error"),
            Some(Command::New { .. }) => self.reached.made(line, answers),
            Some(Command::Set(_)) => self.reached.reach("set"),
            Some(Command::Dump) => self.reached.reach("dump"),
            Some(Command::Card { .. }) => self.reached.card(answers),
            Some(Command::Play(_)) => {}
            Some(Command::Frame { .. }) => self.reached.reach("frame"),
        }
    }

    /// A slice that comes whole, with what says its room.
    pub fn frame(&mut self, bytes: &[u8], room: &str) {
        let mut line = String::from("frame ");
        put_hex(&mut line, bytes);
        line.push_str(room);
        self.line(line);
    }

    pub fn dump(&mut self) {
        self.line("dump");
    }

    pub fn set(&mut self, meter: &Meter) {
        self.line(format!("set {}", dump(meter)));
    }

    /// Bytes as they are on the wire.
    pub fn bytes(&mut self, bytes: &[u8]) {
        let mut line = String::from("bytes ");
        put_hex(&mut line, bytes);
        self.line(line);
    }

    pub fn byte(&mut self, byte: u8) {
        self.line(format!("byte {byte:02x}"));
    }

    /// Characters, sent with good parity.
    pub fn send(&mut self, characters: &[u8]) {
        self.bytes(&wire(characters));
    }

    pub fn done(self) -> Played {
        Played {
            name: self.name,
            script: self.script,
            transcript: self.transcript,
            answered: self.answered,
            state: state_after,
        }
    }
}

/// The state that some lines leave, to be set again.
pub fn state_after(lines: &[&[u8]]) -> String {
    let mut bench = Bench::default();
    for line in lines {
        bench.answer(line, &mut String::new());
    }
    format!("  the state before the line: set {}\n", dump(&bench.meter))
}

/// Characters with good parity.
pub fn wire(characters: &[u8]) -> Vec<u8> {
    characters.iter().map(|&c| with_parity(c)).collect()
}
