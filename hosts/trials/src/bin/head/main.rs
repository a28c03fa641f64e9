//! Compares the proved head with the model, call by call, on cases good and bad.
//! `head [seed]` ends with the count of equal cases, or shows the first difference and fails.

mod finding;
mod proved;

use ::model::head::{self as model, answer, Clock, Command, Kind, Lookup, Step};
use finding::{lookups, Reached};
use proved::Proved;
use std::fmt::Debug;
use std::process::ExitCode;
use std::time::Instant;
use trials::chance::Chance;
use trials::head_words::{ACCOUNT, ADDRESS, DIGITS, EDGES, VALUE, ZONES};
use trials::memory::Guarded;

/// A head under trial: the proved one, or a wrong one that the trial must notice.
trait Head {
    fn build(&self, command: &Command, out: &mut [u8]) -> (u8, usize);
    fn strip(&self, reply: &[u8], out: &mut [u8]) -> (u8, usize, usize);
    fn part(&self, stripped: &[u8]) -> (u8, usize, usize);
    fn next(&self, sets: &[u8], at: usize) -> Step;
    fn set_after(&self, sets: &[u8], count: usize) -> (usize, Step);
    fn find(&self, sets: &[u8], address: &[u8]) -> Lookup;
    fn value(&self, kind: Kind, value: &[u8]) -> (u8, Vec<u32>);
}

/// The model's part in the form of the call: a refused part is empty and starts at 0.
fn ruled_part(stripped: &[u8]) -> (u8, usize, usize) {
    match model::part(stripped) {
        Ok(part) => (answer::DONE, part.start, part.len()),
        Err(refusal) => (refusal, 0, 0),
    }
}

/// Where the model's reader stands after so many sets, and what it answers there.
fn ruled_set_after(sets: &[u8], count: usize) -> (usize, Step) {
    let mut at = 0;
    for _ in 0..count {
        match model::next(sets, at) {
            step if step.answer == answer::DONE => at = step.next,
            stays => return (at, stays),
        }
    }
    (at, model::next(sets, at))
}

/// The rooms that a command is built in, around the least that is taken.
const ROOMS: [usize; 12] = [0, 1, 2, 5, 35, 36, 62, 63, 64, 65, 128, 2048];

// The comparison.

type Outcome = Result<(), String>;

struct Trial<'h> {
    head: &'h dyn Head,
    chance: Chance,
    cases: u64,
    /// Those of closed months: the closing sign-on, '6', addresses with '*', the time of a period.
    months: u64,
    /// Those of EQM meters: what went out asked for, and values read.
    eqm: u64,
    /// What the lookups came to.
    reached: Reached,
    /// The head's buffer, and the model's.
    theirs: Guarded,
    ours: Vec<u8>,
}

fn hex(bytes: &[u8]) -> String {
    let shown: Vec<String> = bytes.iter().map(|byte| format!("{byte:02X}")).collect();
    format!("[{}] ({} bytes)", shown.join(" "), bytes.len())
}

/// The first difference, for a person to read.
fn difference(call: &str, input: String, told: &dyn Debug, ruled: &dyn Debug) -> String {
    format!("{call} of {input}\n  library: {told:?}\n  model:   {ruled:?}")
}

impl<'h> Trial<'h> {
    fn new(head: &'h dyn Head, seed: u64) -> Self {
        Trial {
            head,
            chance: Chance::new(seed),
            cases: 0,
            months: 0,
            eqm: 0,
            reached: Reached::default(),
            theirs: Guarded::new(4_096),
            ours: Vec::new(),
        }
    }

    /// One call of the head and one of the model on buffers with the same pattern, another for every
    /// case: answer, length and every byte of the buffer have to be the same.
    fn lent<T: PartialEq + Debug>(
        &mut self,
        call: &str,
        room: usize,
        head: impl Fn(&dyn Head, &mut [u8]) -> T,
        model: impl Fn(&mut [u8]) -> T,
        input: impl Fn() -> String,
    ) -> Outcome {
        let first = self.cases as u8;
        let pattern = (0..room).map(|n| first.wrapping_add((n * 167) as u8));
        self.cases += 1;
        self.ours.clear();
        self.ours.extend(pattern);
        let theirs = self.theirs.copy(&self.ours);
        let told = head(self.head, theirs);
        let ruled = model(&mut self.ours);
        if told != ruled {
            return Err(difference(call, input(), &told, &ruled));
        }
        if *theirs == self.ours[..] {
            return Ok(());
        }
        let differ = |place: &usize| theirs[*place] != self.ours[*place];
        Err(format!(
            "{call} of {}: byte {} of the buffer differs\n  library: {}\n  model:   {}",
            input(),
            (0..room).find(differ).unwrap_or(room),
            hex(theirs),
            hex(&self.ours)
        ))
    }

    fn build(&mut self, command: &Command, room: usize) -> Outcome {
        let month = matches!(command, Command::Close | Command::Confirm(_, b'6'));
        self.months += u64::from(month);
        let out = matches!(command, Command::ReadTotalOut | Command::ReadZoneOut(_));
        self.eqm += u64::from(out);
        self.lent(
            "build",
            room,
            |head, out| head.build(command, out),
            |out| model::build(command, out),
            || format!("{command:X?} (fields in hex) in room {room}"),
        )
    }

    fn strip(&mut self, reply: &[u8], room: usize) -> Outcome {
        self.lent(
            "strip",
            room,
            |head, out| head.strip(reply, out),
            |out| model::strip(reply, out),
            || format!("{} into room {room}", hex(reply)),
        )
    }

    fn part(&mut self, stripped: &[u8]) -> Outcome {
        self.cases += 1;
        let told = self.head.part(stripped);
        let ruled = ruled_part(stripped);
        if told != ruled {
            return Err(difference("part", hex(stripped), &told, &ruled));
        }
        Ok(())
    }

    fn next(&mut self, sets: &[u8], at: usize) -> Result<Step, String> {
        self.cases += 1;
        let told = self.head.next(sets, at);
        let ruled = model::next(sets, at);
        if told != ruled {
            let input = format!("{} at place {at}", hex(sets));
            return Err(difference("next", input, &told, &ruled));
        }
        let address = at..at.saturating_add(ruled.address_length);
        let star = sets.get(address).is_some_and(|read| read.contains(&b'*'));
        self.months += u64::from(star);
        Ok(ruled)
    }

    fn set_after(&mut self, sets: &[u8], count: usize) -> Outcome {
        self.cases += 1;
        let told = self.head.set_after(sets, count);
        let ruled = ruled_set_after(sets, count);
        if told != ruled {
            let input = format!("{} after {count} sets", hex(sets));
            return Err(difference("set_after", input, &told, &ruled));
        }
        Ok(())
    }

    /// Reads sets until the reader stays, each from the place before and each by its number.
    fn walk(&mut self, sets: &[u8]) -> Outcome {
        let (mut at, mut count) = (0, 0);
        loop {
            let step = self.next(sets, at)?;
            self.set_after(sets, count)?;
            if step.answer != answer::DONE {
                self.set_after(sets, count + 1)?;
                return self.set_after(sets, usize::MAX);
            }
            (at, count) = (step.next, count + 1);
        }
    }

    fn value(&mut self, kind: Kind, value: &[u8]) -> Outcome {
        self.cases += 1;
        self.months += u64::from(kind == Kind::Period);
        self.eqm += u64::from(matches!(kind, Kind::Eqm(_)));
        let told = self.head.value(kind, value);
        let ruled = model::value(kind, value);
        if told != ruled {
            let input = format!("{kind:?} {}", hex(value));
            return Err(difference("value", input, &told, &ruled));
        }
        Ok(())
    }
}

/// Every text up to a length over a few characters.
fn every_text(alphabet: &[u8], longest: u32, mut each: impl FnMut(&[u8]) -> Outcome) -> Outcome {
    for length in 0..=longest {
        for number in 0..alphabet.len().pow(length) {
            let digit = |n: u32| number / alphabet.len().pow(n) % alphabet.len();
            let text: Vec<u8> = (0..length).map(|n| alphabet[digit(n)]).collect();
            each(&text)?;
        }
    }
    Ok(())
}

// The sections: one for each kind of call.

type Section = fn(&mut Trial) -> Outcome;

const SECTIONS: [(&str, Section); 7] = [
    ("commands", commands),
    ("strips", strips),
    ("parts", parts),
    ("data sets", data_sets),
    ("lookups", lookups),
    ("values", values),
    ("round trips", round_trips),
];

/// The commands that have no field.
const BARE: [Command; 9] = [
    Command::SignOn,
    Command::Close,
    Command::Enter,
    Command::ReadClock,
    Command::ReadSerial,
    Command::ReadAccount,
    Command::ReadTotal,
    Command::ReadTotalOut,
    Command::SignOff,
];

/// A command with a field of characters, and what that field is made of.
type Filled = (for<'a> fn(&'a [u8]) -> Command<'a>, &'static [u8], usize);

const FILLED: [Filled; 6] = [
    (|serial| Command::SignOnTo(serial), DIGITS, 10),
    (|serial| Command::SignOnWired(serial), DIGITS, 10),
    (|password| Command::Password(password), DIGITS, 8),
    (|account| Command::WriteAccount(account), ACCOUNT, 10),
    (|row| Command::WriteTable(1, 24, row), ZONES, 24),
    (|row| Command::WriteTable(2, 25, row), ZONES, 24),
];

fn commands(t: &mut Trial) -> Outcome {
    for command in &BARE {
        for room in (0..=200).chain(ROOMS) {
            t.build(command, room)?;
        }
    }
    for room in ROOMS {
        for byte in 0..=255 {
            let row: [u8; 24] = t.chance.texts(ZONES);
            for command in [
                Command::Confirm(b'0', byte),
                Command::Confirm(b'5', byte),
                Command::Confirm(byte, b'1'),
                Command::Confirm(byte, b'6'),
                Command::ReadZone(byte),
                Command::ReadZoneOut(byte),
                Command::ReadTable(1, byte),
                Command::WriteTable(1, byte, &row),
                Command::ReadTable(2, byte),
                Command::WriteTable(2, byte, &row),
                Command::ReadTable(byte, 24),
                Command::WriteTable(byte, 25, &row),
            ] {
                t.build(&command, room)?;
            }
        }
    }
    for (filled, made_of, length) in FILLED {
        for room in ROOMS {
            for other in 0..=70 {
                let field = t.chance.text(made_of, other);
                t.build(&filled(&field), room)?;
            }
        }
        for place in 0..length {
            for byte in 0..=255 {
                let mut field = t.chance.text(made_of, length);
                field[place] = byte;
                for room in [63, 64, 65] {
                    t.build(&filled(&field), room)?;
                }
            }
        }
    }
    clock_writes(t)?;
    for _ in 0..250_000 {
        any_command(t)?;
    }
    Ok(())
}

fn clock_writes(t: &mut Trial) -> Outcome {
    for year in 1999..=2101 {
        for month in 0..=13 {
            for day in 0..=32 {
                let clock = Clock {
                    year,
                    month,
                    day,
                    ..t.chance.real_clock()
                };
                t.build(&Command::WriteClock(clock), 64)?;
            }
        }
    }
    for hour in [0, 1, 9, 10, 19, 20, 23, 24, 25, 99, 128, 255] {
        for minute in [0, 1, 9, 10, 30, 59, 60, 61, 99, 100, 255] {
            for second in [0, 1, 9, 10, 30, 59, 60, 61, 99, 100, 255] {
                for room in [0, 63, 64, 65] {
                    let clock = Clock {
                        hour,
                        minute,
                        second,
                        ..t.chance.real_clock()
                    };
                    t.build(&Command::WriteClock(clock), room)?;
                }
            }
        }
    }
    // Numbers whose low byte alone would be in range.
    for year in [0, 1, 20, 99, 208, 1900, 2000 + 256, 2000 + 4096, u16::MAX] {
        let clock = Clock {
            year,
            ..t.chance.real_clock()
        };
        t.build(&Command::WriteClock(clock), 64)?;
    }
    Ok(())
}

fn any_command(t: &mut Trial) -> Outcome {
    let room = match t.chance.below(8) {
        0 => t.chance.below(64),
        1 => t.chance.between(60, 68),
        2 => ROOMS[t.chance.below(ROOMS.len())],
        _ => t.chance.between(64, 100),
    };
    let (number, table) = (t.chance.below(40) as u8, t.chance.between(1, 24) as u8);
    let kind = t.chance.below(FILLED.len() + 7);
    if kind < FILLED.len() {
        let (filled, made_of, length) = FILLED[kind];
        let mut field = t.chance.text(made_of, length);
        if t.chance.one_in(3) {
            t.chance.hurt(&mut field);
        }
        return t.build(&filled(&field), room);
    }
    let edition = match t.chance.below(10) {
        0 => t.chance.byte(),
        odd => 1 + odd as u8 % 2,
    };
    let row: [u8; 24] = t.chance.texts(ZONES);
    let command = match kind - FILLED.len() {
        0 => BARE[t.chance.below(BARE.len())],
        1 if t.chance.one_in(2) => Command::Confirm(b'0', t.chance.odd_byte()),
        1 => Command::Confirm(t.chance.odd_byte(), b'7'),
        2 => Command::ReadZone(number % 8),
        3 => Command::ReadZoneOut(number % 8),
        4 => Command::ReadTable(edition, number),
        5 => Command::WriteTable(edition, table, &row),
        _ => Command::WriteClock(t.chance.clock()),
    };
    t.build(&command, room)
}

/// A whole data block of a meter with registers of chance, in seven bits.
fn data_block(t: &mut Trial) -> Vec<u8> {
    model::block(&t.chance.registers().data())
}

fn strips(t: &mut Trial) -> Outcome {
    for first in 0..=255 {
        for room in 0..=3 {
            t.strip(&[first], room)?;
        }
        for second in 0..=255 {
            t.strip(&[first, second], 2)?;
        }
    }
    for length in 0..=72 {
        for room in 0..=80 {
            let characters: Vec<u8> = (0..length).map(|_| t.chance.byte() & 0x7F).collect();
            let mut reply = model::on_the_wire(&characters);
            t.strip(&reply, room)?;
            if length > 0 {
                reply[t.chance.below(length)] ^= 1 << t.chance.below(8);
                t.strip(&reply, room)?;
            }
        }
    }
    for _ in 0..4 {
        let mut reply = model::on_the_wire(&data_block(t));
        for room in (0..8)
            .chain(reply.len() - 50..reply.len() + 50)
            .chain([4096])
        {
            t.strip(&reply, room)?;
        }
        for place in 0..reply.len() {
            for bit in 0..8 {
                reply[place] ^= 1 << bit;
                t.strip(&reply, reply.len())?;
                // Room comes before damage.
                if bit == 0 {
                    t.strip(&reply, reply.len() - 1)?;
                }
                reply[place] ^= 1 << bit;
            }
        }
    }
    for _ in 0..600_000 {
        let longest = if t.chance.one_in(8) { 1_200 } else { 90 };
        let length = t.chance.below(longest);
        let characters: Vec<u8> = (0..length).map(|_| t.chance.byte() & 0x7F).collect();
        let mut reply = model::on_the_wire(&characters);
        if length > 0 && !t.chance.one_in(4) {
            for _ in 0..t.chance.between(1, 4) {
                reply[t.chance.below(length)] ^= 1 << t.chance.below(8);
            }
        }
        let room = match t.chance.below(6) {
            0 => t.chance.below(length + 1),
            1 => (length + 1).saturating_sub(t.chance.below(3)),
            _ => length + t.chance.below(20),
        };
        t.strip(&reply, room)?;
    }
    Ok(())
}

fn parts(t: &mut Trial) -> Outcome {
    every_text(b"\x00\x01\x02\x03AB\x83", 6, |text| t.part(text))?;
    let short = model::block(b"C.1.0(012 3456789)\r\n");
    let whole = data_block(t);
    for good in [short, whole] {
        for length in 0..=good.len() {
            t.part(&good[..length])?;
            t.part(&good[length..])?;
        }
        for place in 0..good.len() {
            let mut block = good.clone();
            for byte in 0..=255 {
                block[place] = byte;
                t.part(&block)?;
            }
            let mut missing = good.clone();
            missing.remove(place);
            t.part(&missing)?;
        }
        broken_inside(t, &good)?;
    }
    // Every BCC that there is, ETX, STX and SOH among them.
    for sum in 0..=0x7F {
        for length in 1..40 {
            let mut data = t.chance.text(VALUE, length);
            data[length - 1] ^= model::bcc(&data) ^ 3 ^ sum;
            t.part(&model::block(&data))?;
        }
    }
    for _ in 0..150_000 {
        let length = t.chance.below(100);
        let data: Vec<u8> = match t.chance.below(3) {
            0 => (0..length).map(|_| t.chance.byte() & 0x7F).collect(),
            1 => (0..length).map(|_| t.chance.odd_byte()).collect(),
            _ => t.chance.text(VALUE, length),
        };
        let mut block = model::block(&data);
        if t.chance.one_in(3) {
            for _ in 0..t.chance.between(1, 3) {
                t.chance.hurt(&mut block);
            }
        }
        t.part(&block)?;
    }
    Ok(())
}

/// Blocks that are broken though their BCC is right, and changes that the BCC can't see.
fn broken_inside(t: &mut Trial, good: &[u8]) -> Outcome {
    let data = &good[1..good.len() - 2];
    for place in 0..data.len() {
        for byte in [0x00, 0x01, 0x02, 0x03, 0x7F, 0x80, 0x83, 0xFF] {
            let mut changed = data.to_vec();
            changed[place] = byte;
            let mut block = model::block(&changed);
            t.part(&block)?;
            *block.last_mut().expect("the BCC") &= 0x7F;
            t.part(&block)?;
        }
        let mut block = good.to_vec();
        let flip = 1 << t.chance.below(8);
        block[1 + place] ^= flip;
        block[1 + t.chance.below(data.len())] ^= flip;
        t.part(&block)?;
    }
    Ok(())
}

/// Lines of each kind that a meter sends, and the shortest and longest that there may be.
fn lines(t: &mut Trial) -> Vec<Vec<u8>> {
    let registers = t.chance.registers_closed(1);
    let mut sets = registers.data_sets();
    let tables = 4 + energies(registers.decimals);
    sets.drain(tables + 2..tables + 22);
    let mut lines: Vec<Vec<u8>> = sets
        .iter()
        .map(|(address, value)| model::line(address, value))
        .collect();
    lines.push(model::line("a", ""));
    lines.push(model::line("Z", "~"));
    lines.push(model::line("ABCDEFGH.abc.xyz", &" }~&'*.0".repeat(4)));
    lines.push(model::line("*", ""));
    lines.push(model::line(&"*".repeat(16), "**"));
    lines
}

fn data_sets(t: &mut Trial) -> Outcome {
    for _ in 0..8 {
        let data = t.chance.registers().data();
        for at in (0..data.len() + 40).chain([u32::MAX as usize, usize::MAX / 2]) {
            t.next(&data, at)?;
        }
        for below_most in 0..70 {
            t.next(&data, usize::MAX - below_most)?;
        }
        for length in 0..data.len() {
            t.next(&data[..length], length - length % 36)?;
        }
    }
    every_text(b"A()!\r\n", 6, |text| {
        t.walk(text)?;
        t.next(text, 1).map(drop)
    })?;
    for address_length in 0..=20 {
        for value_length in 0..=40 {
            let mut text = t.chance.text(ADDRESS, address_length);
            text.push(b'(');
            text.extend(t.chance.text(VALUE, value_length));
            text.extend(b")\r\n");
            t.walk(&text)?;
            for length in 0..text.len() {
                t.next(&text[..length], 0)?;
            }
        }
    }
    // No bracket ever comes: the address or the value runs to the end.
    for length in 0..=64 {
        let text = t.chance.text(ADDRESS, length);
        t.next(&text, 0)?;
        t.next(&[b"A(", &text[..]].concat(), 0)?;
    }
    for line in lines(t) {
        hurt_lines(t, &line)?;
    }
    for _ in 0..6_000 {
        let mut data = t.chance.registers().data();
        for _ in 0..t.chance.between(1, 2) {
            t.chance.hurt(&mut data);
        }
        t.walk(&data)?;
    }
    for _ in 0..60_000 {
        let length = t.chance.below(60);
        let text: Vec<u8> = (0..length).map(|_| t.chance.odd_byte()).collect();
        let at = t.chance.below(length + 3);
        t.next(&text, at)?;
    }
    Ok(())
}

/// A line damaged in every way at every place, first, last and between good ones.
fn hurt_lines(t: &mut Trial, line: &[u8]) -> Outcome {
    let surroundings: [(&[u8], &[u8]); 4] = [
        (b"", b""),
        (b"A()\r\n", b""),
        (b"", b"B(b)\r\n!\r\n"),
        (b"15.8.0(000000.000*kWh)\r\n", b"!\r\nC()\r\n"),
    ];
    let mut number = 0;
    let mut try_line = |hurt: &[u8]| {
        let (before, after) = surroundings[number % surroundings.len()];
        number += 1;
        let text = [before, hurt, after].concat();
        t.next(&text, before.len())?;
        t.walk(&text)
    };
    for place in 0..line.len() {
        let mut changed = line.to_vec();
        for byte in 0..=255 {
            changed[place] = byte;
            try_line(&changed)?;
        }
        let mut missing = line.to_vec();
        missing.remove(place);
        for _ in surroundings {
            try_line(&missing)?;
            try_line(&line[..place])?;
            try_line(&line[place..])?;
        }
        for &byte in EDGES {
            let mut longer = line.to_vec();
            longer.insert(place, byte);
            try_line(&longer)?;
        }
        let (head, tail) = line.split_at(place);
        try_line(&[head, b"!\r\n", tail].concat())?;
        try_line(&[head, b")\r\n", tail].concat())?;
        try_line(&[head, b"\r\n", tail].concat())?;
    }
    Ok(())
}

/// How many lines of energy stand in a block.
fn energies(decimals: u8) -> usize {
    match decimals {
        0 => 5,
        _ => 10,
    }
}

/// A good value of a kind, and the numbers or characters that made it.
fn good_value(t: &mut Trial, kind: Kind) -> (Vec<u8>, Vec<u32>) {
    let decimals = match kind {
        Kind::Eqm(decimals) => decimals,
        _ => 0,
    };
    let registers = t.chance.registers_of(decimals, 1);
    let zone = t.chance.below(5);
    let wide = |characters: &[u8]| characters.iter().map(|&c| u32::from(c)).collect();
    let c = registers.clock;
    let (place, made) = match kind {
        Kind::Serial => (0, wide(&registers.serial)),
        Kind::Date => (1, vec![c.year.into(), c.month.into(), c.day.into()]),
        Kind::Time => (2, wide(&[c.hour, c.minute, c.second])),
        Kind::Account => (3, wide(&registers.account)),
        Kind::Counter => (4, vec![registers.counters[0]]),
        Kind::Eqm(_) => {
            // A counter or the total, of either direction.
            let in_order = |counters: [u32; 4], total| [&counters[..], &[total]].concat();
            match t.chance.one_in(2) {
                true => {
                    let shown = in_order(registers.counters, registers.total());
                    (4 + zone, vec![shown[zone]])
                }
                false => {
                    let shown = in_order(registers.exported, registers.total_out());
                    (9 + zone, vec![shown[zone]])
                }
            }
        }
        Kind::Row => (9, wide(&registers.tables[0])),
        Kind::Period => {
            let Clock {
                year,
                month,
                day,
                hour,
                minute,
                ..
            } = registers.periods[0].closed;
            let rest = [month, day, hour, minute].map(u32::from);
            let behind = 9 + registers.tables.len();
            (behind, [&[year.into()], &rest[..]].concat())
        }
    };
    let (_, value) = registers.data_sets().swap_remove(place);
    (value.into_bytes(), made)
}

fn values(t: &mut Trial) -> Outcome {
    for year in 0..100 {
        for month in 0..=20 {
            for day in 0..=40 {
                let date = format!("{year:02}-{month:02}-{day:02}");
                t.value(Kind::Date, date.as_bytes())?;
                let (hour, minute) = (t.chance.below(26), t.chance.below(64));
                let period = format!("{date} {hour:02}:{minute:02}");
                t.value(Kind::Period, period.as_bytes())?;
            }
        }
    }
    for hour in 0..100 {
        for minute in 0..100 {
            for second in [0, 9, 10, 29, 58, 59, 60, 61, 69, 99] {
                let time = format!("{hour:02}:{minute:02}:{second:02}");
                t.value(Kind::Time, time.as_bytes())?;
            }
            let period = format!("24-02-29 {hour:02}:{minute:02}");
            t.value(Kind::Period, period.as_bytes())?;
        }
    }
    for kind in Kind::ALL {
        for _ in 0..2 {
            let (good, _) = good_value(t, kind);
            for place in 0..good.len() {
                let mut value = good.clone();
                for byte in 0..=255 {
                    value[place] = byte;
                    t.value(kind, &value)?;
                }
                let mut missing = good.clone();
                missing.remove(place);
                t.value(kind, &missing)?;
                t.value(kind, &good[..place])?;
                for &byte in EDGES {
                    let mut longer = good.clone();
                    longer.insert(place, byte);
                    t.value(kind, &longer)?;
                }
            }
            for &byte in EDGES {
                t.value(kind, &[&good[..], &[byte]].concat())?;
            }
            for other in Kind::ALL {
                t.value(other, &good)?;
            }
        }
        for length in 0..=70 {
            for made_of in [DIGITS, ZONES, ACCOUNT, VALUE] {
                let value = t.chance.text(made_of, length);
                t.value(kind, &value)?;
            }
        }
        for _ in 0..30_000 {
            let (mut value, _) = good_value(t, kind);
            for _ in 0..t.chance.between(1, 3) {
                t.chance.hurt(&mut value);
            }
            t.value(kind, &value)?;
        }
    }
    // Decimals that no meter has, whatever the value.
    for decimals in 0..=255 {
        for kind in [Kind::Eqm(2), Kind::Eqm(3), Kind::Eqm(4), Kind::Counter] {
            let (value, _) = good_value(t, kind);
            t.value(Kind::Eqm(decimals), &value)?;
        }
        t.value(Kind::Eqm(decimals), b"")?;
    }
    for _ in 0..400_000 {
        let decimals = t.chance.one_of(&[2, 3, 4]);
        let (mut value, _) = good_value(t, Kind::Eqm(decimals));
        if t.chance.one_in(4) {
            t.chance.hurt(&mut value);
        }
        let read = match t.chance.below(8) {
            0 => t.chance.byte(),
            1 => t.chance.one_of(&[1, 2, 3, 4, 5]),
            _ => decimals,
        };
        t.value(Kind::Eqm(read), &value)?;
    }
    for _ in 0..150_000 {
        let wh = t.chance.counter();
        let counter = format!("{:06}.{:03}*kWh", wh / 1000, wh % 1000);
        t.value(Kind::Counter, counter.as_bytes())?;
    }
    for _ in 0..250_000 {
        let c = t.chance.clock();
        let (month, day, hour, minute) = (c.month % 100, c.day % 100, c.hour % 100, c.minute % 100);
        let date = format!("{:02}-{month:02}-{day:02}", c.year % 100);
        let mut period = format!("{date} {hour:02}:{minute:02}").into_bytes();
        if t.chance.one_in(8) {
            t.chance.hurt(&mut period);
        }
        t.value(Kind::Period, &period)?;
    }
    Ok(())
}

/// What a meter with registers of chance sends reads back to those registers.
fn round_trips(t: &mut Trial) -> Outcome {
    for _ in 0..5_000 {
        let registers = t.chance.registers();
        let wire = model::on_the_wire(&model::block(&registers.data()));
        t.strip(&wire, wire.len())?;
        let mut stripped = vec![0; wire.len()];
        t.head.strip(&wire, &mut stripped);
        t.part(&stripped)?;
        let (_, start, length) = t.head.part(&stripped);
        let data = &stripped[start..start + length];
        let mut at = 0;
        for (place, (address, value)) in registers.data_sets().iter().enumerate() {
            let step = t.next(data, at)?;
            let read = &data[at..step.next];
            if read != model::line(address, value) {
                let sent = model::line(address, value);
                return Err(format!(
                    "set {place} read as {}, sent as {}",
                    hex(read),
                    hex(&sent)
                ));
            }
            let decimals = registers.decimals;
            let (counter, tables) = match decimals {
                0 => (Kind::Counter, 9),
                _ => (Kind::Eqm(decimals), 14),
            };
            // A period has its time, and four counters or eight.
            let period = if decimals == 0 { 5 } else { 9 };
            let kind = match place {
                0 => Kind::Serial,
                1 => Kind::Date,
                2 => Kind::Time,
                3 => Kind::Account,
                _ if place < tables => counter,
                _ if place < tables + registers.tables.len() => Kind::Row,
                _ if (place - tables - registers.tables.len()).is_multiple_of(period) => {
                    Kind::Period
                }
                _ => counter,
            };
            t.value(kind, &read[address.len() + 1..read.len() - 3])?;
            at = step.next;
        }
        t.next(data, at)?;
    }
    for kind in Kind::ALL {
        for _ in 0..10_000 {
            let (value, made) = good_value(t, kind);
            t.value(kind, &value)?;
            let told = t.head.value(kind, &value);
            let ruled = (answer::DONE, made);
            if told != ruled {
                return Err(difference("value", hex(&value), &told, &ruled));
            }
        }
    }
    Ok(())
}

// The trial's own trial: heads that are the model but for one fault.

#[derive(Clone, Copy, Debug)]
enum Fault {
    WritesBeforeItChecks,
    FieldBeforeRoom,
    BuildsInRoom63,
    TakesTable25OfEdition1,
    RefusesTable25,
    RoomBeforeEdition,
    FieldForAnEdition,
    ClearsPastTheCommand,
    ConfirmsEight,
    RefusesSix,
    ClosesByThePlainSignOn,
    ConfirmsAtAnyDigit,
    WritesPastTheReply,
    StripsUpToTheDamage,
    DamageBeforeRoom,
    RefusesEqualRoom,
    NoPlaceOfDamage,
    LastPlaceOfDamage,
    PlaceBeforeRoom,
    PartOneTooLong,
    TakesEtxInside,
    TakesHighBcc,
    RefusalStartsAtOne,
    SkipsABadSet,
    LeavesTheEnd,
    PlaceNotGiven,
    TakesValueOf33,
    TakesNoStar,
    CountsFromOne,
    FindsFromZero,
    FindsBeginnings,
    FindsPastABadSet,
    FindsTheLast,
    FindsPastTheEnd,
    TakesAnyLeapDay,
    SwapsHourAndMinute,
    TakesMinute60,
    KeepsARefusedCounter,
    ZeroCharacters,
    AsksForWhatCameIn,
    AsksForZone0Out,
    PointAnywhere,
    PointOfTwoForThree,
    MalformedBeforeDecimals,
    TakesFiveDecimals,
    KeepsARefusedEqm,
    TakesDocument01sCounter,
}

const FAULTS: [(Fault, Section); 47] = [
    (Fault::WritesBeforeItChecks, commands),
    (Fault::FieldBeforeRoom, commands),
    (Fault::BuildsInRoom63, commands),
    (Fault::TakesTable25OfEdition1, commands),
    (Fault::RefusesTable25, commands),
    (Fault::RoomBeforeEdition, commands),
    (Fault::FieldForAnEdition, commands),
    (Fault::ClearsPastTheCommand, commands),
    (Fault::ConfirmsEight, commands),
    (Fault::RefusesSix, commands),
    (Fault::ClosesByThePlainSignOn, commands),
    (Fault::ConfirmsAtAnyDigit, commands),
    (Fault::WritesPastTheReply, strips),
    (Fault::StripsUpToTheDamage, strips),
    (Fault::DamageBeforeRoom, strips),
    (Fault::RefusesEqualRoom, strips),
    (Fault::NoPlaceOfDamage, strips),
    (Fault::LastPlaceOfDamage, strips),
    (Fault::PlaceBeforeRoom, strips),
    (Fault::PartOneTooLong, parts),
    (Fault::TakesEtxInside, parts),
    (Fault::TakesHighBcc, parts),
    (Fault::RefusalStartsAtOne, parts),
    (Fault::SkipsABadSet, data_sets),
    (Fault::LeavesTheEnd, data_sets),
    (Fault::PlaceNotGiven, data_sets),
    (Fault::TakesValueOf33, data_sets),
    (Fault::TakesNoStar, data_sets),
    (Fault::CountsFromOne, data_sets),
    (Fault::FindsFromZero, lookups),
    (Fault::FindsBeginnings, lookups),
    (Fault::FindsPastABadSet, lookups),
    (Fault::FindsTheLast, lookups),
    (Fault::FindsPastTheEnd, lookups),
    (Fault::TakesAnyLeapDay, values),
    (Fault::SwapsHourAndMinute, values),
    (Fault::TakesMinute60, values),
    (Fault::KeepsARefusedCounter, values),
    (Fault::ZeroCharacters, values),
    (Fault::AsksForWhatCameIn, commands),
    (Fault::AsksForZone0Out, commands),
    (Fault::PointAnywhere, values),
    (Fault::PointOfTwoForThree, values),
    (Fault::MalformedBeforeDecimals, values),
    (Fault::TakesFiveDecimals, values),
    (Fault::KeepsARefusedEqm, values),
    (Fault::TakesDocument01sCounter, values),
];

struct Wrong(Fault);

impl Head for Wrong {
    fn build(&self, command: &Command, out: &mut [u8]) -> (u8, usize) {
        let told = model::build(command, out);
        match (self.0, told) {
            (Fault::WritesBeforeItChecks, (answer::FIELD, _)) => out[0] = 0x81,
            (Fault::FieldBeforeRoom, (answer::SHORT_ROOM, _))
                if model::characters(command).is_none() =>
            {
                return (answer::FIELD, 0)
            }
            (Fault::TakesTable25OfEdition1, (answer::FIELD, _)) => {
                if let Command::ReadTable(1, 25) = *command {
                    return model::build(&Command::ReadTable(2, 25), out);
                }
            }
            (Fault::RefusesTable25, (answer::DONE, _))
                if matches!(command, Command::ReadTable(_, 25)) =>
            {
                return (answer::FIELD, 0)
            }
            (Fault::AsksForWhatCameIn, (answer::DONE, _)) => {
                if let Command::ReadZoneOut(zone) = *command {
                    return model::build(&Command::ReadZone(zone), out);
                }
            }
            (Fault::AsksForZone0Out, (answer::FIELD, _)) if *command == Command::ReadZoneOut(0) => {
                return model::build(&Command::ReadTotalOut, out);
            }
            (Fault::RoomBeforeEdition, (answer::NO_EDITION, _)) if out.len() < 64 => {
                return (answer::SHORT_ROOM, 0)
            }
            (Fault::FieldForAnEdition, (answer::NO_EDITION, _)) => return (answer::FIELD, 0),
            (Fault::BuildsInRoom63, (answer::NO_EDITION, _)) => (),
            (Fault::BuildsInRoom63, _) if out.len() == 63 => {
                let mut wider = [0; 64];
                let told = model::build(command, &mut wider);
                out[..told.1].copy_from_slice(&wider[..told.1]);
                return told;
            }
            (Fault::ClearsPastTheCommand, (answer::DONE, length)) => out[length..].fill(0),
            (Fault::ConfirmsEight, (answer::FIELD, _))
                if *command == Command::Confirm(b'5', b'8') =>
            {
                let told = model::build(&Command::Confirm(b'5', b'0'), out);
                out[3] = b'8' | 0x80;
                return told;
            }
            (Fault::RefusesSix, (answer::DONE, _))
                if matches!(command, Command::Confirm(_, b'6')) =>
            {
                return (answer::FIELD, 0)
            }
            (Fault::ClosesByThePlainSignOn, (answer::DONE, _)) if *command == Command::Close => {
                return model::build(&Command::SignOn, out)
            }
            (Fault::ConfirmsAtAnyDigit, (answer::FIELD, _)) => {
                if let Command::Confirm(speed @ b'1'..=b'4', choice) = *command {
                    let told = model::build(&Command::Confirm(b'5', choice), out);
                    out[2] = speed | (speed.count_ones() as u8 & 1) << 7;
                    return told;
                }
            }
            _ => (),
        }
        told
    }

    fn strip(&self, reply: &[u8], out: &mut [u8]) -> (u8, usize, usize) {
        let told = model::strip(reply, out);
        match (self.0, told) {
            (Fault::WritesPastTheReply, (answer::DONE, length, _)) if out.len() > length => {
                out[length] = 0
            }
            (Fault::StripsUpToTheDamage, (answer::DAMAGED, ..)) => {
                let good = reply.iter().take_while(|&&byte| model::undamaged(byte));
                for (place, byte) in good.enumerate() {
                    out[place] = byte & 0x7F;
                }
            }
            (Fault::DamageBeforeRoom, _) if !reply.iter().all(|&b| model::undamaged(b)) => {
                let whole = &mut vec![0; reply.len()];
                return model::strip(reply, whole);
            }
            (Fault::RefusesEqualRoom, _) if out.len() == reply.len() => {
                return (answer::SHORT_COPY, 0, 0)
            }
            (Fault::NoPlaceOfDamage, (answer::DAMAGED, ..)) => return (told.0, told.1, 0),
            (Fault::LastPlaceOfDamage, (answer::DAMAGED, ..)) => {
                let last = reply.iter().rposition(|&byte| !model::undamaged(byte));
                return (told.0, told.1, last.unwrap_or(0));
            }
            (Fault::PlaceBeforeRoom, (answer::SHORT_COPY, ..)) => {
                let first = reply.iter().position(|&byte| !model::undamaged(byte));
                return (told.0, told.1, first.unwrap_or(0));
            }
            _ => (),
        }
        told
    }

    fn part(&self, stripped: &[u8]) -> (u8, usize, usize) {
        let told = ruled_part(stripped);
        match (self.0, told.0) {
            (Fault::PartOneTooLong, answer::DONE) => (told.0, told.1, told.2 + 1),
            (Fault::RefusalStartsAtOne, answer::WRONG_BCC) => (told.0, 1, 0),
            (Fault::TakesEtxInside, answer::NO_BLOCK) => match stripped {
                [2, inside @ .., 3, sum] if model::bcc(inside) ^ 3 == *sum => {
                    (answer::DONE, 1, inside.len())
                }
                _ => told,
            },
            (Fault::TakesHighBcc, answer::NO_BLOCK) => {
                let mut lowered = stripped.to_vec();
                if let Some(sum) = lowered.last_mut() {
                    *sum &= 0x7F;
                }
                ruled_part(&lowered)
            }
            _ => told,
        }
    }

    fn next(&self, sets: &[u8], at: usize) -> Step {
        let told = model::next(sets, at);
        match (self.0, told.answer) {
            (Fault::SkipsABadSet, answer::MALFORMED) => {
                let after = sets[at..].iter().position(|&c| c == b'\n');
                after.map_or(told, |after| model::next(sets, at + after + 1))
            }
            (Fault::LeavesTheEnd, answer::END) if at < sets.len() => Step {
                next: at + 3,
                ..told
            },
            (Fault::PlaceNotGiven, answer::MALFORMED) => Step { place: 0, ..told },
            (Fault::TakesNoStar, answer::DONE)
                if sets[at..at + told.address_length].contains(&b'*') =>
            {
                Step {
                    answer: answer::MALFORMED,
                    address_length: 0,
                    value_length: 0,
                    next: at,
                    place: at,
                }
            }
            (Fault::TakesValueOf33, answer::MALFORMED) => {
                let mut shorter = sets.to_vec();
                match sets[at..].iter().position(|&c| c == b'(') {
                    Some(bracket) if at + bracket + 1 < sets.len() => {
                        shorter.remove(at + bracket + 1);
                    }
                    _ => return told,
                }
                match model::next(&shorter, at) {
                    step if step.value_length == 32 => Step {
                        value_length: 33,
                        next: step.next + 1,
                        ..step
                    },
                    _ => told,
                }
            }
            _ => told,
        }
    }

    fn set_after(&self, sets: &[u8], count: usize) -> (usize, Step) {
        match self.0 {
            Fault::CountsFromOne => ruled_set_after(sets, count.saturating_sub(1)),
            _ => ruled_set_after(sets, count),
        }
    }

    fn find(&self, sets: &[u8], address: &[u8]) -> Lookup {
        finding::wrongly(self.0, sets, address)
    }

    fn value(&self, kind: Kind, value: &[u8]) -> (u8, Vec<u32>) {
        let told = model::value(kind, value);
        match (self.0, kind, told.0) {
            (Fault::TakesAnyLeapDay, Kind::Date, answer::MALFORMED) if value == b"01-02-29" => {
                (answer::DONE, vec![2001, 2, 29])
            }
            (Fault::SwapsHourAndMinute, Kind::Period, answer::DONE) => {
                let mut read = told.1;
                read.swap(3, 4);
                (told.0, read)
            }
            (Fault::TakesMinute60, Kind::Period, answer::MALFORMED)
                if value == b"24-02-29 23:60" =>
            {
                (answer::DONE, vec![2024, 2, 29, 23, 60])
            }
            (Fault::KeepsARefusedCounter, Kind::Counter, answer::MALFORMED) => {
                (told.0, vec![u32::from(value.len() > 5)])
            }
            (Fault::ZeroCharacters, Kind::Serial, answer::MALFORMED) => (told.0, vec![48; 10]),
            (Fault::PointAnywhere, Kind::Eqm(2..=4), answer::MALFORMED) => {
                let read = (2..=4).find_map(|decimals| model::value_eqm(decimals, value));
                read.map_or(told, |units| (answer::DONE, vec![units]))
            }
            (Fault::PointOfTwoForThree, Kind::Eqm(3), _) => model::value(Kind::Eqm(2), value),
            (Fault::MalformedBeforeDecimals, Kind::Eqm(_), answer::NO_DECIMALS)
                if !value.ends_with(b"*kWh") =>
            {
                (answer::MALFORMED, vec![0])
            }
            (Fault::TakesFiveDecimals, Kind::Eqm(5), _) => model::value(Kind::Eqm(4), value),
            (Fault::KeepsARefusedEqm, Kind::Eqm(2..=4), answer::MALFORMED) => {
                (told.0, vec![u32::from(value.len() > 5)])
            }
            (Fault::TakesDocument01sCounter, Kind::Eqm(2..=4), answer::MALFORMED) => {
                model::value(Kind::Counter, value)
            }
            _ => told,
        }
    }
}

/// Whether each wrong head is noticed.
fn trial_of_the_trial(seed: u64) -> Outcome {
    for (fault, section) in FAULTS {
        if section(&mut Trial::new(&Wrong(fault), seed)).is_ok() {
            return Err(format!("the trial does not notice {fault:?}"));
        }
    }
    Ok(())
}

fn run(seed: u64) -> Result<u64, String> {
    trial_of_the_trial(seed)?;
    println!("head: {} wrong heads noticed", FAULTS.len());
    let proved = Proved::default();
    let mut trial = Trial::new(&proved, seed);
    for (name, section) in SECTIONS {
        let (before, start) = (trial.cases, Instant::now());
        section(&mut trial)?;
        let cases = trial.cases - before;
        println!(
            "head: {cases:>8} {name} in {:.1} s",
            start.elapsed().as_secs_f64()
        );
    }
    println!("head: {:>8} of these of closed months", trial.months);
    if trial.months < 500_000 {
        return Err("too few cases of closed months".into());
    }
    println!("head: {:>8} of these of EQM meters", trial.eqm);
    if trial.eqm < 500_000 {
        return Err("too few cases of EQM meters".into());
    }
    Ok(trial.cases)
}

fn main() -> ExitCode {
    let arguments: Vec<String> = std::env::args().skip(1).collect();
    let seed = match arguments.first().map(|seed| seed.parse()) {
        None => 20_240_229,
        Some(Ok(seed)) if arguments.len() == 1 => seed,
        _ => {
            eprintln!("usage: head [seed], a decimal number");
            return ExitCode::from(2);
        }
    };
    println!("head: seed {seed}");
    match run(seed) {
        Ok(cases) => {
            println!("head: {cases} cases, all equal");
            ExitCode::SUCCESS
        }
        Err(difference) => {
            println!("head: {difference}");
            ExitCode::FAILURE
        }
    }
}
