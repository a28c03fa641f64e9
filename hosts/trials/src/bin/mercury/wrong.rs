//! Heads that are wrong in one way each; the trial has to find them out.

use crate::{model, told};
use dirgemist::mercury::Told;

pub trait Reader {
    /// The request of an address, array, month and tariff.
    fn ask(&mut self, fields: [u8; 4], out: &mut [u8]) -> (u8, usize);
    fn read(&mut self, address: u8, answer: &[u8]) -> Told;
}

/// The model itself.
pub struct Right;

impl Reader for Right {
    fn ask(&mut self, [address, array, month, tariff]: [u8; 4], out: &mut [u8]) -> (u8, usize) {
        model::ask(address, array, month, tariff, out)
    }
    fn read(&mut self, address: u8, answer: &[u8]) -> Told {
        told(address, answer)
    }
}

/// A head that is right but for what one of these makes of it.
#[derive(Clone, Copy)]
pub struct Wrong {
    pub name: &'static str,
    ask: fn([u8; 4], &mut [u8]) -> (u8, usize),
    read: fn(u8, &[u8]) -> Told,
}

impl Reader for Wrong {
    fn ask(&mut self, fields: [u8; 4], out: &mut [u8]) -> (u8, usize) {
        (self.ask)(fields, out)
    }
    fn read(&mut self, address: u8, answer: &[u8]) -> Told {
        (self.read)(address, answer)
    }
}

fn ask(fields: [u8; 4], out: &mut [u8]) -> (u8, usize) {
    Right.ask(fields, out)
}

fn asks(name: &'static str, ask: fn([u8; 4], &mut [u8]) -> (u8, usize)) -> Wrong {
    let read = told;
    Wrong { name, ask, read }
}

fn reads(name: &'static str, read: fn(u8, &[u8]) -> Told) -> Wrong {
    Wrong { name, ask, read }
}

/// The answer with each quantity's bytes turned into the plain order.
fn plain(answer: &[u8]) -> Vec<u8> {
    let mut plain = answer.to_vec();
    if plain.len() == 19 {
        (1..17).step_by(2).for_each(|at| plain.swap(at, at + 1));
        plain = model::closed(plain[..17].to_vec());
    }
    plain
}

pub fn wrong() -> Vec<Wrong> {
    vec![
        reads(
            "bytes of a quantity in the plain order",
            |address, answer| {
                let (number, status, measured, numbers) = told(address, answer);
                match number {
                    1 => told(address, &plain(answer)),
                    _ => (number, status, measured, numbers),
                }
            },
        ),
        reads("the high byte of the CRC first", |address, answer| {
            let mut turned = answer.to_vec();
            if let [.., low, high] = &mut turned[..] {
                std::mem::swap(low, high);
            }
            told(address, &turned)
        }),
        reads("the address before the CRC", |address, answer| {
            let other = matches!(answer.len(), 4 | 19) && answer[0] != address;
            if other {
                (52, 0, 0, [0; 4])
            } else {
                told(address, answer)
            }
        }),
        reads("status 0 taken for data", |address, answer| {
            let mut told = told(address, answer);
            if told.0 == 53 && told.1 == 0 {
                told.0 = 1;
            }
            told
        }),
        reads("FF FF FF FF taken for a number", |address, answer| {
            let (number, status, measured, numbers) = told(address, answer);
            let all = if number == 1 { 15 } else { measured };
            (number, status, all, numbers)
        }),
        reads(
            "no answer checked by its CRC",
            |address, answer| match answer {
                [message @ .., _, _] if matches!(answer.len(), 4 | 19) => {
                    told(address, &model::closed(message.to_vec()))
                }
                _ => told(address, answer),
            },
        ),
        asks("a month with array 4", |fields, out| match fields {
            [address, 4, month @ 1..=12, tariff] if out.len() >= 6 && tariff <= 4 => {
                let request = model::closed(vec![address, 5, 4 << 4 | month, tariff]);
                out[..6].copy_from_slice(&request);
                (1, 6)
            }
            _ => ask(fields, out),
        }),
        asks("55 before 54", |fields, out| match out.len() {
            0..=5 => (55, 0),
            _ => ask(fields, out),
        }),
        asks("a refusal that writes", |fields, out| {
            let told = ask(fields, out);
            if let (54, [first, ..]) = (told.0, &mut *out) {
                *first = fields[0];
            }
            told
        }),
        asks(
            "tariff 5 asked for",
            |[address, array, month, tariff], out| {
                ask(
                    [address, array, month, if tariff == 5 { 4 } else { tariff }],
                    out,
                )
            },
        ),
    ]
}
