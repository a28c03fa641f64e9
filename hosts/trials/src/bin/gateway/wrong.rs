//! Gateways that somebody might write. The trial has to find each out.

use crate::Gateway;
use dirgemist::meter as library;
use model::meter::{data_bits, Answer, Meter, ETX, NO_FRAME, SOH};
use trials::record::record_of;

/// The model, with one thing wrong: what it does to the slice before, or to the meter after.
struct Wrong {
    before: fn(&Meter, &[u8]) -> Vec<u8>,
    after: fn(Answer, &mut Meter),
}

impl Gateway for Wrong {
    fn frame(&mut self, meter: &Meter, frame: &[u8], reply: &mut [u8]) -> (Answer, library::Meter) {
        let mut next = meter.clone();
        let answer = next.frame(&(self.before)(meter, frame), reply);
        (self.after)(answer, &mut next);
        (answer, record_of(&next))
    }
}

fn as_it_is(_: &Meter, frame: &[u8]) -> Vec<u8> {
    frame.to_vec()
}

fn nothing(_: Answer, _: &mut Meter) {}

/// Where a SOH stands inside, the slice is refused.
fn no_restart(_: &Meter, frame: &[u8]) -> Vec<u8> {
    let body = frame.get(1..frame.len().saturating_sub(1)).unwrap_or(&[]);
    if body.iter().any(|&byte| data_bits(byte) == Some(SOH)) {
        return Vec::new();
    }
    frame.to_vec()
}

/// The frame ends behind the last ETX, also where that is the BCC.
fn last_etx(_: &Meter, frame: &[u8]) -> Vec<u8> {
    if frame
        .last()
        .is_some_and(|&byte| data_bits(byte) == Some(ETX))
    {
        return frame[..frame.len() - 1].to_vec();
    }
    frame.to_vec()
}

/// A damaged SOH is one too.
fn damaged_soh(_: &Meter, frame: &[u8]) -> Vec<u8> {
    let mut taken = frame.to_vec();
    if let Some(first) = taken.first_mut() {
        if *first & 0x7F == SOH {
            *first = 0x81;
        }
    }
    taken
}

/// What stands behind the frame's BCC is not looked at.
fn first_frame(_: &Meter, frame: &[u8]) -> Vec<u8> {
    let etx = frame.iter().position(|&byte| data_bits(byte) == Some(ETX));
    let end = etx.map_or(frame.len(), |place| (place + 2).min(frame.len()));
    frame[..end].to_vec()
}

/// At most 64 bytes, wherever the frame starts in them.
fn at_most_64(_: &Meter, frame: &[u8]) -> Vec<u8> {
    if frame.len() > 64 {
        return Vec::new();
    }
    frame.to_vec()
}

/// 17 leaves the receiver empty.
fn emptied(answer: Answer, meter: &mut Meter) {
    if answer.number == NO_FRAME {
        meter.held = Meter::blank().held;
        (meter.count, meter.mark, meter.place) = (0, 0, 0);
    }
}

/// Of an EQM meter all energy is asked for with E.
fn g_is_e(meter: &Meter, frame: &[u8]) -> Vec<u8> {
    let mut taken = frame.to_vec();
    let asks = frame.starts_with(&[0x81, 0xD2, 0xB1, 0x82, 0x47]);
    if let (true, [_, _, _, _, letter, .., check]) = (asks && meter.decimals != 0, &mut taken[..]) {
        *letter = 0xC5;
        // The BCC of the other letter: one bit, and the parity with it.
        *check ^= 0x82;
    }
    taken
}

pub fn wrong() -> [(&'static str, Box<dyn Gateway>); 8] {
    let slices = |before| -> Box<dyn Gateway> {
        Box::new(Wrong {
            before,
            after: nothing,
        })
    };
    [
        ("refuses a restart inside", slices(no_restart)),
        ("takes an ETX that is the BCC for the end", slices(last_etx)),
        ("takes a damaged SOH", slices(damaged_soh)),
        ("leaves what stands behind the frame", slices(first_frame)),
        ("takes 64 bytes at most", slices(at_most_64)),
        ("answers G with E", slices(g_is_e)),
        (
            "empties the receiver at 17",
            Box::new(Wrong {
                before: as_it_is,
                after: emptied,
            }),
        ),
        (
            "changes the mode at 17",
            Box::new(Wrong {
                before: as_it_is,
                after: |answer, meter| {
                    if answer.number == NO_FRAME {
                        meter.mode = 0;
                    }
                },
            }),
        ),
    ]
}
