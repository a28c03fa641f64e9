//! The comparison of an exporter with the model: numbers, places, lengths and every byte of
//! the buffer, around which nothing may be touched.

use model::post;
use trials::memory::Guarded;

/// Something that checks and exports posts.
pub trait Exporter {
    fn check(&self, edition: u8, text: &[u8]) -> (u8, usize);
    fn export(&self, edition: u8, text: &[u8], out: &mut [u8]) -> (u8, usize, usize);
}

/// A text with the edition that it is for, and what stands behind it in memory, where nobody may
/// look.
pub struct Text {
    pub edition: u8,
    memory: Vec<u8>,
    length: usize,
}

impl Text {
    /// A text with the rest of `memory` behind it.
    pub fn cut(memory: Vec<u8>, length: usize) -> Self {
        Text {
            edition: 1,
            memory,
            length,
        }
    }

    /// The same text for another edition.
    pub fn of(self, edition: u8) -> Self {
        Text { edition, ..self }
    }

    pub fn bytes(&self) -> &[u8] {
        &self.memory[..self.length]
    }
}

impl From<Vec<u8>> for Text {
    fn from(memory: Vec<u8>) -> Self {
        let length = memory.len();
        Text::cut(memory, length)
    }
}

/// How often each number was the right one.
#[derive(Default)]
pub struct Tally {
    pub texts: u64,
    pub posts: u64,
    pub done: u64,
    pub not_a_post: u64,
    pub no_room: u64,
    pub no_edition: u64,
    /// Texts for edition 2, the posts among them, and those with a table 25.
    pub second: u64,
    pub second_posts: u64,
    pub saturdays: u64,
}

/// Compares an exporter with the model, text by text, and counts.
pub struct Comparison<'a> {
    exporter: &'a dyn Exporter,
    pub tally: Tally,
    given: Guarded,
    wanted: Vec<u8>,
}

impl<'a> Comparison<'a> {
    pub fn new(exporter: &'a dyn Exporter) -> Self {
        Comparison {
            exporter,
            tally: Tally::default(),
            given: Guarded::new(1_024),
            wanted: Vec::new(),
        }
    }

    /// The check, and the export into a buffer of each size; the first difference in words.
    pub fn text(&mut self, text: &Text, rooms: &[usize]) -> Result<(), String> {
        let (edition, text) = (text.edition, text.bytes());
        self.tally.texts += 1;
        self.check(edition, text)?;
        rooms
            .iter()
            .try_for_each(|&room| self.export(edition, text, room))
    }

    /// The check against the model's.
    fn check(&mut self, edition: u8, text: &[u8]) -> Result<(), String> {
        let wanted = post::check(edition, text);
        let (done, second) = (wanted.0 == post::DONE, edition == 2);
        let last = text.len().saturating_sub(post::LINE + post::LAST.len());
        let saturday = done && text[last..].starts_with(b"131.0.25(");
        self.tally.posts += u64::from(done);
        self.tally.second += u64::from(second);
        self.tally.second_posts += u64::from(done && second);
        self.tally.saturdays += u64::from(saturday);
        let given = self.exporter.check(edition, text);
        if given == wanted {
            return Ok(());
        }
        Err(format!(
            "check, edition {edition}: wanted number {} place {}, given number {} place {}\n{}",
            wanted.0,
            wanted.1,
            given.0,
            given.1,
            shown(text)
        ))
    }

    /// The export into a buffer of `room` bytes, filled with a pattern first.
    fn export(&mut self, edition: u8, text: &[u8], room: usize) -> Result<(), String> {
        let shift = self.tally.texts.wrapping_mul(0x6D) as usize;
        self.wanted.clear();
        self.wanted
            .extend((0..room).map(|at| (at * 31 + shift) as u8));
        let buffer = self.given.copy(&self.wanted);
        let given = self.exporter.export(edition, text, buffer);
        let wanted = post::export(edition, text, &mut self.wanted);
        match wanted.0 {
            post::DONE => self.tally.done += 1,
            post::NO_ROOM => self.tally.no_room += 1,
            post::NO_EDITION => self.tally.no_edition += 1,
            _ => self.tally.not_a_post += 1,
        }
        if given != wanted {
            return Err(format!(
                "export, edition {edition}, room {room}: wanted number {} length {} place {}, \
                 given number {} length {} place {}\n{}",
                wanted.0,
                wanted.1,
                wanted.2,
                given.0,
                given.1,
                given.2,
                shown(text)
            ));
        }
        if *buffer != self.wanted[..] {
            let differs = |at: &usize| buffer[*at] != self.wanted[*at];
            let at = (0..room).find(differs).unwrap_or(0);
            return Err(format!(
                "export, edition {edition}, room {room}: buffer byte {at} wanted {:02X}, given {:02X}\n{}",
                self.wanted[at],
                buffer[at],
                shown(text)
            ));
        }
        Ok(())
    }
}

/// A text for the reader of a report: its length and its bytes in hex.
fn shown(text: &[u8]) -> String {
    let hex: String = text.iter().map(|byte| format!("{byte:02X}")).collect();
    format!("text of {} bytes, hex: {hex}", text.len())
}
