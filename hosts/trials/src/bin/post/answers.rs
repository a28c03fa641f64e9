//! Texts with the model's answers, written out for a trial that runs elsewhere.
//!
//! A text is its edition, its length, its bytes, the check's number and place, how many buffers
//! follow, and for each the export's number, length and place, its size, and what it holds
//! afterwards, having been filled with `FILL` before. An edition and a number are a byte; lengths,
//! places and sizes are four, the lowest first.

use crate::compare::Text;
use model::post;
use std::io::{self, BufWriter, StdoutLock, Write};

/// What a buffer is filled with before.
const FILL: u8 = 0xC3;

pub struct Answers {
    step: u64,
    seen: u64,
    out: BufWriter<StdoutLock<'static>>,
}

impl Answers {
    /// Of every `step` texts the first is written.
    pub fn new(step: u64) -> Self {
        Answers {
            step,
            seen: 0,
            out: BufWriter::new(io::stdout().lock()),
        }
    }

    pub fn text(&mut self, text: &Text, rooms: &[usize]) -> Result<(), String> {
        self.seen += 1;
        if self.seen % self.step != 1 % self.step {
            return Ok(());
        }
        self.write(text, rooms).map_err(|fault| fault.to_string())
    }

    fn write(&mut self, text: &Text, rooms: &[usize]) -> io::Result<()> {
        let (edition, text) = (text.edition, text.bytes());
        self.out.write_all(&[edition])?;
        self.bytes(text)?;
        let (number, place) = post::check(edition, text);
        self.out.write_all(&[number])?;
        self.size(place)?;
        self.out.write_all(&[rooms.len() as u8])?;
        for &room in rooms {
            let mut buffer = vec![FILL; room];
            let (number, length, place) = post::export(edition, text, &mut buffer);
            self.out.write_all(&[number])?;
            self.size(length)?;
            self.size(place)?;
            self.bytes(&buffer)?;
        }
        Ok(())
    }

    fn size(&mut self, size: usize) -> io::Result<()> {
        self.out.write_all(&(size as u32).to_le_bytes())
    }

    fn bytes(&mut self, bytes: &[u8]) -> io::Result<()> {
        self.size(bytes.len())?;
        self.out.write_all(bytes)
    }
}
