//! Lookups by address: what they come to, the cases, and heads that look wrongly.

use crate::{difference, hex, Fault, Outcome, Trial};
use ::model::head::{self as model, answer, Lookup, Step};
use trials::head_words::{ADDRESS, VALUE};

/// What the lookups have to come to before the trial ends.
#[derive(Default)]
pub struct Reached {
    first: u64,
    middle: u64,
    last: u64,
    missing: u64,
    bad_before: u64,
    bad_after: u64,
    ended_before: u64,
    ended_after: u64,
    no_data: u64,
    no_address: u64,
    address_of_17: u64,
    a_set_of_16: u64,
    twice: u64,
}

impl Reached {
    /// Notes a lookup in data whose sets, all together, are as many as `all` and end with `last`.
    fn note(&mut self, sets: &[u8], address: &[u8], found: Lookup, all: usize, last: Step) {
        let matched = found.answer == answer::DONE;
        let end = found.value_start + found.value_length + 3;
        let bad = last.answer == answer::MALFORMED;
        let ended = !bad && last.next < sets.len();
        let again = || model::find(&sets[end..], address).answer == answer::DONE;
        for (reached, so) in [
            (&mut self.first, matched && found.count == 1 && all > 1),
            (
                &mut self.middle,
                matched && 1 < found.count && found.count < all,
            ),
            (&mut self.last, matched && found.count == all && all > 1),
            (
                &mut self.missing,
                found.answer == answer::MISSING && all > 0,
            ),
            (
                &mut self.bad_before,
                found.answer == answer::MALFORMED && all > 0,
            ),
            (&mut self.bad_after, matched && bad),
            (
                &mut self.ended_before,
                found.answer == answer::MISSING && ended && all > 0,
            ),
            (&mut self.ended_after, matched && ended),
            (&mut self.no_data, sets.is_empty()),
            (&mut self.no_address, address.is_empty()),
            (&mut self.address_of_17, address.len() == 17),
            (&mut self.a_set_of_16, matched && found.address_length == 16),
            (&mut self.twice, matched && again()),
        ] {
            *reached += u64::from(so);
        }
    }

    /// The first thing that was not reached often enough.
    fn short(&self) -> Option<&'static str> {
        [
            ("a match at the first set", self.first),
            ("a match between others", self.middle),
            ("a match at the last set", self.last),
            ("sets that end without a match", self.missing),
            ("a bad set before any match", self.bad_before),
            ("a bad set behind the match", self.bad_after),
            ("`!` before any match", self.ended_before),
            ("`!` behind the match, and more", self.ended_after),
            ("no data", self.no_data),
            ("no address", self.no_address),
            ("an address of 17", self.address_of_17),
            ("a set with an address of 16", self.a_set_of_16),
            ("an address that comes twice", self.twice),
        ]
        .into_iter()
        .find_map(|(what, times)| (times < 1_000).then_some(what))
    }
}

/// How many sets there are, and what ends them.
fn whole(sets: &[u8]) -> (usize, Step) {
    let (mut count, mut at) = (0, 0);
    loop {
        match model::next(sets, at) {
            step if step.answer == answer::DONE => (count, at) = (count + 1, step.next),
            last => return (count, last),
        }
    }
}

impl Trial<'_> {
    fn find(&mut self, sets: &[u8], address: &[u8]) -> Outcome {
        self.cases += 1;
        let told = self.head.find(sets, address);
        let ruled = model::find(sets, address);
        if told != ruled {
            let input = format!("{} in {}", hex(address), hex(sets));
            return Err(difference("find", input, &told, &ruled));
        }
        let (all, last) = whole(sets);
        self.reached.note(sets, address, ruled, all, last);
        Ok(())
    }

    /// Every address that the data has, and some that it nearly has.
    fn find_each(&mut self, sets: &[u8]) -> Outcome {
        let (mut at, mut step) = (0, model::next(sets, 0));
        while step.answer == answer::DONE {
            let address = &sets[at..at + step.address_length];
            self.find(sets, address)?;
            let near = self.near(address);
            self.find(sets, &near)?;
            at = step.next;
            step = model::next(sets, at);
        }
        self.find(sets, b"")?;
        let any = self.address();
        self.find(sets, &any)
    }

    /// An address with a character less, more or another.
    fn near(&mut self, address: &[u8]) -> Vec<u8> {
        let mut near = address.to_vec();
        match self.chance.below(4) {
            0 => drop(near.pop()),
            1 => near.push(self.chance.one_of(ADDRESS)),
            2 => drop(near.remove(0)),
            _ => self.chance.hurt(&mut near),
        }
        near
    }

    /// An address of a few letters, so that it comes twice now and then, or of a length at the rule's edge.
    fn address(&mut self) -> Vec<u8> {
        match self.chance.below(6) {
            0 => self.chance.text(ADDRESS, 16),
            1 => self.chance.text(ADDRESS, 17),
            2 => self.chance.text(b"AB.", 2),
            _ => self.chance.text(b"AB", 1),
        }
    }

    /// Up to so many sets, with a bad one or `!` among them now and then, or text behind the end.
    fn any_sets(&mut self, most: usize) -> Vec<u8> {
        let mut sets = Vec::new();
        for _ in 0..self.chance.below(most + 1) {
            match self.chance.below(16) {
                0 => sets.extend(b"!\r\n"),
                1 => sets.extend(b"A(\r\n"),
                _ => {
                    let address = self.address();
                    let length = self.chance.below(5);
                    sets.extend(address);
                    sets.push(b'(');
                    sets.extend(self.chance.text(VALUE, length));
                    sets.extend(b")\r\n");
                }
            }
        }
        sets
    }
}

pub fn lookups(t: &mut Trial) -> Outcome {
    for _ in 0..40_000 {
        let sets = t.any_sets(8);
        t.find_each(&sets)?;
        let hurt = &mut sets.clone();
        t.chance.hurt(hurt);
        t.find_each(hurt)?;
    }
    for _ in 0..1_500 {
        let mut data = t.chance.registers().data();
        t.find_each(&data)?;
        t.chance.hurt(&mut data);
        t.find_each(&data)?;
    }
    // The line that is looked for cut at every place, and with every byte at every place.
    let sets = b"A()\r\n15.8.0(000001.500*kWh)\r\n15.8.0()\r\n!\r\n";
    for place in 0..sets.len() {
        t.find(&sets[..place], b"15.8.0")?;
        let mut hurt = sets.to_vec();
        for byte in 0..=255 {
            hurt[place] = byte;
            t.find(&hurt, b"15.8.0")?;
            t.find(sets, &[&sets[5..11], &[byte]].concat())?;
        }
    }
    match t.reached.short() {
        Some(what) => Err(format!("find: {what} was not reached 1,000 times")),
        None => Ok(()),
    }
}

/// The model but for one fault.
pub fn wrongly(fault: Fault, sets: &[u8], address: &[u8]) -> Lookup {
    let told = model::find(sets, address);
    let matched = told.answer == answer::DONE;
    match fault {
        Fault::FindsFromZero if matched => Lookup {
            count: told.count - 1,
            ..told
        },
        Fault::FindsBeginnings => {
            let mut shorter = (0..address.len()).map(|end| model::find(sets, &address[..end]));
            let begins = |found: &Lookup| found.answer == answer::DONE && found.count < told.count;
            shorter.rfind(begins).unwrap_or(told)
        }
        Fault::FindsPastABadSet if told.answer == answer::MALFORMED => {
            let line = sets[told.place..].iter().position(|&c| c == b'\n');
            let Some(behind) = line.map(|line| told.place + line + 1) else {
                return told;
            };
            match model::find(&sets[behind..], address) {
                found if found.answer == answer::DONE => Lookup {
                    count: told.count + found.count,
                    address_start: behind + found.address_start,
                    value_start: behind + found.value_start,
                    ..found
                },
                _ => told,
            }
        }
        Fault::FindsTheLast if matched => {
            let end = told.value_start + told.value_length + 3;
            match wrongly(fault, &sets[end..], address) {
                found if found.answer == answer::DONE => Lookup {
                    count: told.count + found.count,
                    address_start: end + found.address_start,
                    value_start: end + found.value_start,
                    ..found
                },
                _ => told,
            }
        }
        Fault::FindsPastTheEnd if told.answer == answer::MISSING => {
            let parts = sets
                .split(|&c| c == b'!')
                .map(|part| part.strip_prefix(b"\r\n"));
            let found = parts
                .flatten()
                .any(|part| model::find(part, address).answer == 1);
            Lookup {
                answer: if found { answer::DONE } else { told.answer },
                ..told
            }
        }
        _ => told,
    }
}
