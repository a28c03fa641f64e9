//! The other end of the line: the model's meter, the meter that firmware links, or a hand that
//! writes right replies.

use dirgemist::meter::{Event, Meter as Record};
use model::meter::{Meter, ROOM};
use model::session::Session;
use trials::chance::Chance;
use trials::record::record_of;
use trials::session_words::right;

pub enum Line {
    Model(Box<Meter>),
    Library(Box<Record>),
    Made,
}

impl Line {
    /// A line to this meter, or to none.
    pub fn to(chance: &mut Chance, meter: &Meter) -> Line {
        match chance.below(5) {
            0 | 1 => Line::Model(Box::new(meter.clone())),
            2 | 3 => Line::Library(Box::new(record_of(meter))),
            _ => Line::Made,
        }
    }

    /// What comes back for a message of the session, sent as these bytes.
    pub fn said(
        &mut self,
        chance: &mut Chance,
        session: &Session,
        work: &[u8],
        message: &[u8],
    ) -> Vec<u8> {
        let (mut reply, mut out) = (Vec::new(), [0; ROOM]);
        for &byte in message {
            let length = match self {
                Line::Model(meter) => meter.character(byte, &mut out).length,
                Line::Library(meter) => meter.meet(Event::Character(byte), &mut out).length,
                Line::Made => return right(chance, session, work),
            };
            reply.extend(&out[..length]);
        }
        reply
    }

    /// The rows of the meter's tables.
    pub fn tables(&self) -> Option<[[u8; 24]; 25]> {
        match self {
            Line::Model(meter) => Some(meter.tables),
            Line::Library(meter) => Some(meter.registers.tables),
            Line::Made => None,
        }
    }
}
