//! Libraries that are wrong in one way each; the trial has to find them out.

use crate::{model, Meter};

pub trait Cards {
    fn check(&mut self, edition: u8, text: &[u8]) -> (u8, usize);
    fn read(&mut self, edition: u8, text: &[u8], out: &mut [u8]) -> (u8, usize, usize);
    fn write(&mut self, meter: &Meter, out: &mut [u8]) -> (u8, usize);
}

/// The model itself.
pub struct Right;

impl Cards for Right {
    fn check(&mut self, edition: u8, text: &[u8]) -> (u8, usize) {
        model::check(edition, text)
    }
    fn read(&mut self, edition: u8, text: &[u8], out: &mut [u8]) -> (u8, usize, usize) {
        model::export(edition, text, out)
    }
    fn write(&mut self, meter: &Meter, out: &mut [u8]) -> (u8, usize) {
        model::write(meter, out)
    }
}

type Reading = fn(u8, &[u8], &mut [u8]) -> (u8, usize, usize);

/// Cards that are right but for what one of these makes of them.
#[derive(Clone, Copy)]
pub struct Wrong {
    pub name: &'static str,
    check: fn(u8, &[u8]) -> (u8, usize),
    read: Reading,
    write: fn(&Meter, &mut [u8]) -> (u8, usize),
}

impl Cards for Wrong {
    fn check(&mut self, edition: u8, text: &[u8]) -> (u8, usize) {
        (self.check)(edition, text)
    }
    fn read(&mut self, edition: u8, text: &[u8], out: &mut [u8]) -> (u8, usize, usize) {
        (self.read)(edition, text, out)
    }
    fn write(&mut self, meter: &Meter, out: &mut [u8]) -> (u8, usize) {
        (self.write)(meter, out)
    }
}

fn right(name: &'static str) -> Wrong {
    Wrong {
        name,
        check: model::check,
        read: model::export,
        write: model::write,
    }
}

fn checks(name: &'static str, check: fn(u8, &[u8]) -> (u8, usize)) -> Wrong {
    Wrong {
        check,
        ..right(name)
    }
}

fn reads(name: &'static str, read: Reading) -> Wrong {
    Wrong {
        read,
        ..right(name)
    }
}

fn writes(name: &'static str, write: fn(&Meter, &mut [u8]) -> (u8, usize)) -> Wrong {
    Wrong {
        write,
        ..right(name)
    }
}

pub fn wrong() -> Vec<Wrong> {
    vec![
        checks("the length bytes swapped", |edition, text| {
            let mut other = text.to_vec();
            if let [_, high, low, ..] = &mut other[..] {
                std::mem::swap(high, low);
            }
            model::check(edition, &other)
        }),
        checks("a second account", |edition, text| {
            match text.len().checked_sub(13).map(|at| text.split_at(at)) {
                Some((card, [1, 0, 10, ..])) if !card.is_empty() => model::check(edition, card),
                _ => model::check(edition, text),
            }
        }),
        checks("equal numbers", |edition, text| {
            match model::check(edition, text) {
                (40, place) if place >= 44 && (place - 13) % 28 == 3 => {
                    let mut other = text.to_vec();
                    match text.get(place) == text.get(place - 28) && other[place] < 24 {
                        true => other[place] += 1,
                        false => return (40, place),
                    }
                    model::check(edition, &other)
                }
                told => told,
            }
        }),
        checks(
            "a tag of 2 behind table 24",
            |edition, text| match model::check(edition, text) {
                (40, place) if place > 13 && text.get(place) == Some(&2) => (40, place + 1),
                told => told,
            },
        ),
        checks("a made-up place", |edition, text| {
            match model::check(edition, text) {
                (40, _) => (40, 0),
                told => told,
            }
        }),
        reads("41 before 40", |edition, text, out| match out.len() {
            0..=18 => (41, 0, 0),
            _ => model::export(edition, text, out),
        }),
        reads("the tables before the account", |edition, text, out| {
            let told = model::export(edition, text, out);
            if told.0 == 1 {
                out[..told.1].rotate_left(19);
            }
            told
        }),
        reads("a refusal that writes", |edition, text, out| {
            let told = model::export(edition, text, out);
            if let (40, [first, ..]) = (told.0, &mut *out) {
                *first = 0;
            }
            told
        }),
        writes("41 before 14", |meter, out| match out.len() {
            0..=684 => (41, 0),
            _ => model::write(meter, out),
        }),
        writes(
            "the length bytes written the other way about",
            |meter, out| {
                let told = model::write(meter, out);
                if told.0 == 1 {
                    out.swap(1, 2);
                }
                told
            },
        ),
        writes("the account alone", |meter, out| {
            let told = model::write(meter, out);
            match told.0 {
                1 => (1, 13),
                _ => told,
            }
        }),
        checks("every edition is 2", |_, text| model::check(2, text)),
        checks("edition 2 has 24 tables", |edition, text| match edition {
            2 => model::check(1, text),
            _ => model::check(edition, text),
        }),
        reads("40 before 16", |edition, text, out| {
            match model::export(2, text, &mut out.to_vec()) {
                (40, length, place) => (40, length, place),
                _ => model::export(edition, text, out),
            }
        }),
        reads("41 before 16", |edition, text, out| {
            match model::export(2, text, &mut out.to_vec()) {
                (41, ..) => (41, 0, 0),
                _ => model::export(edition, text, out),
            }
        }),
        writes("14 for an edition", |meter, out| {
            match model::write(meter, out) {
                (16, 0) => (14, 0),
                told => told,
            }
        }),
        writes("24 tables of edition 2", |meter, out| {
            let kept = out.to_vec();
            match model::write(meter, out) {
                (1, 713) => {
                    out[685..713].copy_from_slice(&kept[685..713]);
                    (1, 685)
                }
                told => told,
            }
        }),
    ]
}
