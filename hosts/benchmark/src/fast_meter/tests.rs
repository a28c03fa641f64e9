//! The fast meter and the model side by side: answers, buffers and states must be equal.

use super::*;
use trials::chance::Chance;
use trials::words;

struct Pair {
    fast: Meter,
    slow: Meter,
    numbers: [usize; 17],
}

impl Pair {
    fn set(&mut self, meter: Meter) {
        self.fast = meter.clone();
        self.slow = meter;
    }

    fn same(&mut self, fast: Answer, slow: Answer, what: &str) {
        assert_eq!(fast, slow, "{what}");
        assert_eq!(self.fast, self.slow, "{what}");
        self.numbers[usize::from(slow.number)] += 1;
    }

    fn byte(&mut self, byte: u8, room: usize) {
        let mut buffers = [vec![0xAA; room], vec![0xAA; room]];
        let [left, right] = &mut buffers;
        let fast = character(&mut self.fast, byte, left);
        let slow = self.slow.character(byte, right);
        self.same(fast, slow, "character");
        assert_eq!(buffers[0], buffers[1]);
    }

    fn silence(&mut self, room: usize) {
        let mut buffers = [vec![0xAA; room], vec![0xAA; room]];
        let [left, right] = &mut buffers;
        let fast = silence(&mut self.fast, left);
        let slow = self.slow.silence(right);
        self.same(fast, slow, "silence");
        assert_eq!(buffers[0], buffers[1]);
    }

    fn other(&mut self, chance: &mut Chance) {
        match chance.below(4) {
            0 => {
                let (fast, slow) = (power_up(&mut self.fast), self.slow.power_up());
                self.same(fast, slow, "power-up");
            }
            1 => {
                let units = [0, 1, 999_999, 1_000_000, 1_000_001, u32::MAX][chance.below(6)];
                let way = chance.one_of(&[Way::In, Way::Out]);
                let fast = pulse(&mut self.fast, way, units);
                let slow = self.slow.pulse(way, units);
                self.same(fast, slow, "pulse");
            }
            _ => {
                let (fast, slow) = (tick(&mut self.fast), self.slow.tick());
                self.same(fast, slow, "tick");
            }
        }
    }

    /// Characters with good parity, of which some are hurt.
    fn send(&mut self, chance: &mut Chance, message: &[u8], hurt: usize) {
        for &character in message {
            let byte = match chance.below(1_000) < hurt {
                false => parity(character),
                true => match chance.below(3) {
                    0 => parity(character) ^ 0x80,
                    1 => parity(chance.one_of(b"\x01\x02\x03\n\r/0\0")),
                    _ => chance.byte(),
                },
            };
            self.byte(byte, ROOM);
        }
    }
}

fn framed(command: &[u8], data: Option<&[u8]>) -> Vec<u8> {
    let mut frame = [&[SOH], command].concat();
    if let Some(data) = data {
        frame.push(STX);
        frame.extend(data);
    }
    frame.push(ETX);
    frame.push(frame[1..].iter().fold(0, |sum, c| sum ^ c));
    frame
}

/// Of any edition, link and family.
fn state(chance: &mut Chance, mode: u8) -> Meter {
    let meter = words::state(chance, mode);
    words::on_some_link(chance, meter)
}

/// What leads on in this mode, or nearly.
fn message(chance: &mut Chance, meter: &Meter) -> Vec<u8> {
    let serial = &meter.serial;
    match meter.mode {
        0 if meter.link == WIRED => match chance.below(4) {
            0 => words::wired_line(b'A', b"0000000000"),
            1 => words::wired_line(b'A', b"1234567890"),
            2 => b"/?!\r\n".to_vec(),
            _ => words::wired_line(b'A', serial),
        },
        0 => match chance.below(5) {
            0 => b"/?!\r\n".to_vec(),
            1 => b"/?000 0000000!\r\n".to_vec(),
            3 => b"/C!\r\n".to_vec(),
            2 => [b"/", &[b'x'; 40][..26 + chance.below(8)], b"\n"].concat(),
            _ => [b"/?", &serial[..3], b" ", &serial[3..], b"!\r\n"].concat(),
        },
        1 => {
            let speed = chance.one_of(b"05555");
            vec![ACK, b'0', speed, chance.one_of(b"0111726"), CR, LF]
        }
        2 => match chance.below(5) {
            0 => framed(b"P1", Some(b"()")),
            1 => framed(b"P1", Some(b"(1234567a)")),
            2 => framed(b"P1", Some(b"(12345678)")),
            _ => framed(b"P1", Some(&[b"(", &meter.password[..], b")"].concat())),
        },
        _ => command(chance),
    }
}

fn command(chance: &mut Chance) -> Vec<u8> {
    let table = chance.below(27);
    match chance.below(13) {
        12 => framed(b"R1", Some(&[b'G', chance.one_of(b"012345"), b'(', b')'])),
        0 => framed(b"R1", Some(b"T()")),
        1 => framed(b"R1", Some(b"L()")),
        2 => framed(b"R1", Some(b"K()")),
        3 => framed(b"R1", Some(&[b'E', chance.one_of(b"012345"), b'(', b')'])),
        4 => framed(b"R1", Some(format!("Z({table:02})").as_bytes())),
        5 | 6 => {
            let row: String = (0..24)
                .map(|_| char::from(chance.one_of(b"1234")))
                .collect();
            framed(b"W1", Some(format!("Z({table:02};{row})").as_bytes()))
        }
        7 => framed(b"W1", Some(b"K(a_B 9zZ0 x)")),
        8 | 9 => {
            let field = |chance: &mut Chance, most: usize| chance.below(most + 2);
            let told = format!(
                "T({:02}-{:02}-{:04};{:02}:{:02}:{:02})",
                field(chance, 31),
                field(chance, 12),
                1999 + chance.below(102),
                field(chance, 23),
                field(chance, 59),
                field(chance, 59)
            );
            framed(b"W1", Some(told.as_bytes()))
        }
        10 => {
            let data = [b'x'; 60];
            framed(b"W1", Some(&data[..56 + chance.below(4)]))
        }
        _ => match chance.below(8) {
            0 => framed(b"B0", None),
            1 => framed(b"P1", Some(b"()")),
            2 => framed(b"B0", Some(b"")),
            3 => framed(b"R1", Some(b"T(\x1F)")),
            _ => framed(
                &[chance.one_of(b"BPRWx"), chance.one_of(b"01")],
                Some(b"T()"),
            ),
        },
    }
}

/// One field of a state is given any value.
fn spoil(chance: &mut Chance, meter: &mut Meter) {
    let byte = chance.byte();
    match chance.below(27) {
        20 => meter.edition = byte % 4,
        21 => meter.link = byte % 4,
        22 => meter.decimals = byte % 6,
        23 => meter.exported[chance.below(4)] = chance.one_of(&words::ENDS),
        24 => {
            meter.exported[chance.below(4)] = chance.one_of(&words::ENDS);
            *meter = words::totalled(meter.clone());
        }
        25 => meter.exported_total = meter.exported_total.wrapping_add(u32::from(byte % 3)),
        26 => {
            meter.counters[chance.below(4)] = chance.one_of(&words::ENDS);
            *meter = words::totalled(meter.clone());
        }
        0 => meter.mode = byte % 8,
        1 => meter.count = byte % 80,
        2 => meter.held[chance.below(PLACES)] = byte,
        3 => {
            meter.mark = byte % 4;
            meter.place = byte / 4 % 4;
        }
        4 => meter.serial[chance.below(10)] = byte,
        5 => meter.account[chance.below(10)] = byte,
        6 => meter.password[chance.below(8)] = byte,
        7 => meter.attempts = byte % 6,
        8 => meter.clock.year = 1998 + u16::from(byte % 104),
        9 => meter.clock.month = byte % 20,
        10 => meter.clock.day = byte % 34,
        11 => meter.clock.hour = byte % 26,
        12 => meter.clock.second = byte % 62,
        13 => meter.speed = byte % 7,
        14 => meter.counters[chance.below(4)] = 999_999_990 + u32::from(byte % 20),
        15 => meter.total = meter.total.wrapping_add(u32::from(byte % 3)),
        16 => meter.closed = byte % 15,
        17 | 18 => {
            let period = &mut meter.periods[chance.below(PERIODS)];
            match byte % 7 {
                6 => period.exported[chance.below(4)] = chance.one_of(&words::ENDS),
                0 => period.year = 1998 + u16::from(byte % 104),
                1 => period.month = byte % 20,
                2 => period.day = byte % 34,
                3 => period.hour = byte % 26,
                4 => period.minute = byte % 62,
                _ => period.counters[chance.below(4)] = 999_999_990 + u32::from(byte % 20),
            }
        }
        _ => meter.tables[chance.below(25)][chance.below(24)] = byte,
    }
}

#[test]
fn equal_on_random_events() {
    let mut chance = Chance::new(20_000_101);
    let mut pair = Pair {
        fast: Meter::blank(),
        slow: Meter::blank(),
        numbers: [0; 17],
    };
    for step in 0..10_000 {
        if step % 16 == 0 {
            let mode = chance.below(5) as u8;
            let meter = state(&mut chance, mode);
            pair.set(meter);
        }
        match chance.below(20) {
            0 => pair.silence(ROOM - chance.below(2)),
            1 | 2 => pair.other(&mut chance),
            3 => {
                let (byte, room) = (chance.byte(), ROOM - chance.below(2));
                pair.byte(byte, room);
            }
            4 => {
                let mut meter = pair.slow.clone();
                for _ in 0..=chance.below(2) {
                    spoil(&mut chance, &mut meter);
                }
                assert_eq!(well_formed(&meter), meter.well_formed(), "{meter:?}");
                let good = pair.slow.clone();
                pair.set(meter);
                let byte = chance.byte();
                pair.byte(byte, ROOM);
                pair.silence(ROOM);
                pair.other(&mut chance);
                pair.set(good);
            }
            _ => {
                let message = message(&mut chance, &pair.slow);
                let hurt = [0, 0, 30][chance.below(3)];
                pair.send(&mut chance, &message, hurt);
            }
        }
    }
    for number in (0..15).chain([16]) {
        assert!(pair.numbers[number] > 0, "number {number} never came");
    }
}

#[test]
fn frames_that_come_whole() {
    let mut chance = Chance::new(17);
    let mut numbers = [0; 18];
    for _ in 0..20_000 {
        let mode = chance.between(1, 4) as u8;
        let mut slow = state(&mut chance, mode);
        let mut characters = message(&mut chance, &slow);
        if chance.percent(30) {
            let again = message(&mut chance, &slow);
            characters.splice(0..0, again[..chance.below(again.len())].to_vec());
        }
        if chance.percent(20) {
            characters = vec![SOH];
            let count = chance.between(61, 64);
            characters.extend((0..count).map(|_| b'7'));
        }
        if chance.percent(10) {
            if let Some(check) = characters.last_mut() {
                *check ^= 1 << chance.below(7);
            }
        }
        let mut bytes: Vec<u8> = characters.iter().map(|&c| parity(c)).collect();
        if chance.percent(20) && !bytes.is_empty() {
            let place = chance.below(bytes.len());
            bytes[place] ^= 1 << chance.below(8);
        }
        let mut fast = slow.clone();
        let (mut one, mut other) = ([0xAA; ROOM], [0xAA; ROOM]);
        let told = slow.frame(&bytes, &mut one);
        assert_eq!(
            super::frame(&mut fast, &bytes, &mut other),
            told,
            "{bytes:?}"
        );
        assert_eq!((fast, other), (slow, one), "{bytes:?}");
        numbers[usize::from(told.number)] += 1;
    }
    for number in [1, 3, 4, 5, 8, 9, 17] {
        assert!(numbers[number] > 0, "number {number} never came");
    }
}

#[test]
fn data_block_of_any_state() {
    let mut chance = Chance::new(63);
    for _ in 0..200 {
        let meter = state(&mut chance, 0);
        let mut buffer = [0xAA; ROOM];
        let length = data_block(&meter, &mut buffer);
        assert_eq!(length, meter.block_length());
        let block: Vec<u8> = meter.data_block().iter().map(|&c| parity(c)).collect();
        assert_eq!(buffer[..length], block);
        assert!(buffer[length..].iter().all(|&byte| byte == 0xAA));
        let length = block_with_periods(&meter, &mut buffer);
        let block = meter.block_with_periods();
        let block: Vec<u8> = block.iter().map(|&c| parity(c)).collect();
        assert_eq!(buffer[..length], block);
        assert!(buffer[length..].iter().all(|&byte| byte == 0xAA));
    }
}
