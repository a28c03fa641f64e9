//! What a head is told to do, and what a meter says to it, by chance: good and nearly good.

use crate::chance::Chance;
use crate::head_words::ZONES;
use model::head::{block, line, on_the_wire, Registers};
use model::post::{tables_of, text_of, Table};
use model::session::{work, Meters, Session};

/// A good read of these meters.
pub fn read(chance: &mut Chance, meters: Meters) -> [u8; 2] {
    match chance.weighed(&[2, 2, 2, 4, 6, 4]) {
        0 => [b'T', without_use(chance)],
        1 => [b'L', without_use(chance)],
        2 => [b'K', without_use(chance)],
        3 => [b'E', chance.between(0, 4) as u8],
        5 if meters.decimals != 0 => [b'G', chance.between(0, 4) as u8],
        _ if meters.edition == 2 && chance.one_in(8) => [b'Z', 25],
        _ => [b'Z', chance.between(1, 24) as u8],
    }
}

/// The number of a read that has none: any will do.
fn without_use(chance: &mut Chance) -> u8 {
    match chance.below(2) {
        0 => 0,
        _ => chance.byte(),
    }
}

/// So many good reads.
pub fn reads(chance: &mut Chance, meters: Meters, count: usize) -> Vec<u8> {
    (0..count).flat_map(|_| read(chance, meters)).collect()
}

/// A post of so many lines, with tables up to the highest.
pub fn post(chance: &mut Chance, highest: u8, count: usize) -> Vec<u8> {
    let mut numbers: Vec<u8> = (1..=highest).collect();
    while numbers.len() > count {
        numbers.remove(chance.below(numbers.len()));
    }
    let tables: Vec<Table> = numbers
        .into_iter()
        .map(|number| Table {
            number,
            row: chance.texts(ZONES),
        })
        .collect();
    text_of(&tables)
}

/// One read of a list spoilt.
pub fn spoil_a_read(chance: &mut Chance, reads: &mut [u8]) {
    let at = chance.below(reads.len() / 2) * 2;
    let spoilt = match chance.below(7) {
        0 => [b'E', chance.between(5, 255) as u8],
        6 => [b'G', chance.one_of(&[5, 6, 255])],
        1 => [b'Z', chance.one_of(&[0, 25, 26, 255])],
        2 => [chance.one_of(b"GPWRBtlkez\0"), chance.below(5) as u8],
        3 => [chance.byte(), chance.byte()],
        4 => [b'Z', 0],
        _ => [b'E', 5],
    };
    reads[at..at + 2].copy_from_slice(&spoilt);
}

/// The lines that a read asks for, of these registers.
fn lines(registers: &Registers, [letter, number]: [u8; 2]) -> Vec<u8> {
    let sets = registers.data_sets();
    // Behind the energy that came in stand five lines of what went out, or none.
    let out = if registers.decimals == 0 { 0 } else { 5 };
    let places = match letter {
        b'T' => vec![2, 1],
        b'L' => vec![0],
        b'K' => vec![3],
        b'E' if number == 0 => vec![8],
        b'E' => vec![3 + usize::from(number)],
        b'G' if number == 0 => vec![8 + out],
        b'G' => vec![3 + out + usize::from(number)],
        _ => vec![8 + out + usize::from(number)],
    };
    let shown = places.into_iter().map(|place| &sets[place]);
    shown
        .flat_map(|(address, value)| line(address, value))
        .collect()
}

pub fn identification(edition: u8) -> Vec<u8> {
    on_the_wire(format!("/ZZZ5SUB-VP0{edition}.00*\r\n").as_bytes())
}

pub fn password_ask() -> Vec<u8> {
    vec![
        0x81, 0x50, 0x30, 0x82, 0x28, 0x30, 0x30, 0x30, 0x30, 0xA9, 0x03, 0x60,
    ]
}

/// A right reply to the message that the session sent last.
pub fn right(chance: &mut Chance, session: &Session, given: &[u8]) -> Vec<u8> {
    match session.sent {
        1 => identification(session.edition),
        2 => password_ask(),
        sent if sent == 3 || sent == session.last() || session.work == work::POST => vec![0x06],
        sent => match given.chunks(2).nth(usize::from(sent) - 4) {
            Some(&[letter, number]) if asks(session.meters(), letter, number) => {
                let shown = registers(chance, session.decimals);
                on_the_wire(&block(&lines(&shown, [letter, number])))
            }
            _ => vec![0x06],
        },
    }
}

/// Registers of a family, with a row for every table that can be asked for.
fn registers(chance: &mut Chance, decimals: u8) -> Registers {
    // A record may say decimals that no meter has; then nothing is right.
    let decimals = match decimals {
        2..=4 => decimals,
        _ => 0,
    };
    let mut registers = chance.registers_of(decimals, 0);
    registers.tables.resize_with(25, || chance.texts(ZONES));
    registers
}

fn asks(meters: Meters, letter: u8, number: u8) -> bool {
    match letter {
        b'T' | b'L' | b'K' => true,
        b'E' => number <= 4,
        b'G' => number <= 4 && meters.decimals != 0,
        b'Z' => tables_of(meters.edition).is_some_and(|highest| (1..=highest).contains(&number)),
        _ => false,
    }
}

/// A block that is nearly the right one; its BCC and parity are good.
fn near(chance: &mut Chance, session: &Session, given: &[u8]) -> Vec<u8> {
    let asked = given
        .chunks(2)
        .nth(usize::from(session.sent).saturating_sub(4));
    let read = match asked {
        Some(&[letter, number]) if asks(session.meters(), letter, number) => [letter, number],
        _ => read(chance, session.meters()),
    };
    // At times in another family's form.
    let any = chance.one_of(&[0, 2, 3, 4]);
    let decimals = chance.one_of(&[session.decimals, session.decimals, session.decimals, any]);
    let mut data = lines(&registers(chance, decimals), read);
    let all = Meters {
        edition: 2,
        decimals,
    };
    match chance.below(9) {
        8 => {}
        0 => data.extend(b"!\r\n"),
        1 => data = [&data[..], &data].concat(),
        2 if read[0] == b'T' => data.rotate_left(17),
        3 => {
            let other = self::read(chance, all);
            data.extend(lines(&registers(chance, decimals), other));
        }
        4 => {
            let other = self::read(chance, all);
            data = lines(&registers(chance, decimals), other);
        }
        5 => {
            // Another number, month, hour or zone: a digit changed.
            let digits: Vec<usize> = (0..data.len())
                .filter(|&at| data[at].is_ascii_digit())
                .collect();
            data[chance.one_of(&digits)] = chance.one_of(b"0123456789");
        }
        _ => {
            chance.hurt(&mut data);
            data.iter_mut().for_each(|byte| *byte &= 0x7F);
        }
    }
    on_the_wire(&block(&data))
}

/// Some other reply, often one that is right elsewhere or nearly right here.
pub fn other(chance: &mut Chance, session: &Session, given: &[u8]) -> Vec<u8> {
    match chance.weighed(&[10, 6, 3, 3, 4, 4, 4, 30, 30, 4, 3, 4, 3]) {
        0 => vec![0x95],
        1 => vec![0x06],
        2 => vec![0x15],
        3 => vec![0x86],
        4 => identification(chance.one_of(&[1, 2])),
        5 => password_ask(),
        6 => Vec::new(),
        7 => near(chance, session, given),
        8 => {
            let mut reply = right(chance, session, given);
            chance.hurt(&mut reply);
            reply
        }
        9 => on_the_wire(&block(&chance.registers().data())),
        10 => (0..chance.below(70)).map(|_| chance.byte()).collect(),
        11 => {
            let mut reply = right(chance, session, given);
            reply.extend(chance.pick::<[u8]>(&[b"\x06", b"\x95", b"\x8D\x0A", b"\0"]));
            reply
        }
        _ => on_the_wire(chance.pick::<[u8]>(&[
            b"/ZZZ5SUB-VP03.00*\r\n",
            b"/ZZZ5SUB-VP00.00*\r\n",
            b"/ZZZ5SUB-VP02.00*\n",
            b"/ZZZ0SUB-VP01.00*\r\n",
            b"/ZZZ5SUB-VP01.00*\n",
            b"\x06\x06",
            b"\x15\x15",
        ])),
    }
}
