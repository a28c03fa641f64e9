//! Scripts that go through a whole range, place by place, where chance could leave gaps.

use crate::player::{wire, Player};
use crate::reached::Reached;
use model::bench::{dump, LINE_MOST};
use model::meter::{
    days_in_month, Clock, Meter, Period, ETX, LF, PERIODS, PLACES, ROOM, SOH, STX, WIRED,
};
use trials::chance::Chance;
use trials::program::Played;
use trials::words::*;

/// All sweeps, each a script of its own.
pub fn all(
    seed: u64,
    reached: &mut Reached,
    hold: &mut dyn FnMut(Played) -> Result<(), String>,
) -> Result<(), String> {
    let sweeps: [(&str, Sweep); 16] = [
        ("every byte in every receiver", every_byte),
        ("edges of the receiver", receiver_edges),
        ("damage at every place", damage_everywhere),
        ("confirmations", confirmations),
        ("commands and shapes", commands),
        ("passwords", passwords),
        ("long frames and lines", long_frames),
        ("all reads", reads),
        ("all writes", writes),
        ("every range broken", broken_states),
        ("every character of a register", register_characters),
        ("rooms", rooms),
        ("the calendar", calendar),
        ("closed months", closed_months),
        ("families", families),
        ("script lines", script_lines),
    ];
    for (place, (name, sweep)) in sweeps.into_iter().enumerate() {
        let mut chance = Chance::new(seed ^ (place as u64 + 1) << 32);
        let mut player = Player::new(name, reached);
        sweep(&mut chance, &mut player);
        player.dump();
        hold(player.done())?;
    }
    Ok(())
}

type Sweep = fn(&mut Chance, &mut Player);

/// Each byte 00 to FF, in states that treat characters differently.
fn every_byte(chance: &mut Chance, player: &mut Player) {
    let receivers: [(u8, &[u8], bool); 20] = [
        (0, b"", false),
        (0, b"/", false),
        (0, b"/?!\r", false),
        (0, b"/?!\r", true),
        (0, b"/C!\r", false),
        (0, b"/C!\r", true),
        (0, b"/234567890123456789012345678901", false),
        (1, b"", false),
        (1, b"\x06051\r", false),
        (1, b"\x06051\r", true),
        (1, b"\x06056\r", false),
        (2, b"", false),
        (2, b"\x01P1\x02()\x03", false),
        (3, b"", false),
        (3, b"\x01B0", false),
        (3, b"\x01B0\x03", false),
        (4, b"", false),
        (4, b"\x01W1", true),
        (4, b"\x01B0\x03", false),
        (4, b"\x01B0\x03", true),
    ];
    for (mode, held, mark) in receivers {
        let meter = holding(state(chance, mode), held, mark);
        for byte in 0..=255 {
            player.set(&meter);
            player.byte(byte);
            player.dump();
        }
    }
}

/// Receivers that hold little, are nearly full and full, whatever stands last, before every kind of
/// character, good and damaged.
fn receiver_edges(chance: &mut Chance, player: &mut Player) {
    let coming = wire(&[SOH, STX, ETX, LF, b'/', b'0', 0, 0x7F]);
    let damaged: Vec<u8> = coming.iter().map(|byte| byte ^ 0x80).collect();
    for mode in 0..=4 {
        let (first, most) = match mode {
            0 => (b'/', 31),
            1 => (0x06, 5),
            _ => (SOH, PLACES),
        };
        for count in [1, 2, 4, most - 2, most - 1, most] {
            for last in [0, ETX, LF, b'/', SOH, b'5'] {
                for mark in [false, true] {
                    let mut held = vec![first];
                    held.extend((1..count).map(|_| chance.one_of(b"0129AZaz(); ")));
                    if count > 1 {
                        held[count - 1] = last;
                    }
                    let meter = holding(state(chance, mode), &held, mark);
                    for &byte in coming.iter().chain(&damaged) {
                        player.set(&meter);
                        player.byte(byte);
                        if chance.percent(50) {
                            player.dump();
                        }
                    }
                }
            }
        }
    }
}

/// Each place of each kind of message: its parity bit, another bit, two bits, and another
/// character in its stead.
fn damage_everywhere(chance: &mut Chance, player: &mut Player) {
    let meters = [0, 1, 2, 3, 4].map(|mode| state(chance, mode));
    let own = &meters[4];
    let mut messages: Vec<(usize, Vec<u8>)> = vec![
        (0, b"/?!\r\n".to_vec()),
        (0, CLOSING.to_vec()),
        (0, sign_on(&meters[0].serial)),
        (0, sign_on(b"0000000000")),
        (0, b"/234567890123456789012345678\r\n".to_vec()),
        (0, b"/2345678901234567890123456789\r\n".to_vec()),
        (0, b"/23456789012345678901234567890\r\n".to_vec()),
        (1, confirmation(b'0')),
        (1, confirmation(b'1')),
        (1, confirmation(b'7')),
        (1, confirmation(b'6')),
        (1, confirmation_at(b'0', b'0')),
        (1, confirmation_at(b'0', b'1')),
        (2, password(b"()")),
        (2, password(&bracketed(&meters[2].password))),
        (2, good_bye()),
        (3, good_bye()),
        (3, read(b"T()")),
        (3, read(b"E0()")),
        (4, good_bye()),
        (4, read(b"L()")),
        (4, read(b"K()")),
        (4, read(b"Z(17)")),
        (4, write(&clock_data(own.clock))),
        (4, write(&[b"K", &bracketed(&own.account)[..]].concat())),
        (4, write(&table_data(4, &[b'1'; 24]))),
        (4, write(&table_data(6, &[b'1'; 24]))),
        (4, write(&table_data(24, &own.tables[23]))),
    ];
    for length in [63, 64, 65] {
        messages.push((4, long_frame(chance, b"W1", length)));
    }
    for (mode, message) in messages {
        for place in 0..message.len() {
            for kind in 0..4 {
                let mut bytes = wire(&message);
                match kind {
                    0 => bytes[place] ^= 0x80,
                    1 => bytes[place] ^= 1 << chance.below(7),
                    2 => {
                        let bit = chance.below(7);
                        bytes[place] ^= 1 << bit | 1 << (bit + 1 + chance.below(7 - bit));
                    }
                    _ => bytes[place] = wire(&[chance.one_of(b"\x01\x02\x03\x06\n\r/!0\0")])[0],
                }
                player.set(&Meter {
                    attempts: chance.below(4) as u8,
                    ..meters[mode].clone()
                });
                player.bytes(&bytes);
                player.dump();
                // What comes next must not suffer from the damage.
                if chance.percent(30) {
                    player.send(&message);
                    player.dump();
                }
            }
        }
    }
    // A damaged BCC after each number of characters held.
    for held in 2..=63 {
        let mut bytes = vec![SOH];
        bytes.resize(held - 1, b'0');
        bytes.push(ETX);
        let mut bytes = wire(&bytes);
        bytes.push(chance.one_of(&[0x01, 0x83, 0x80, 0x31, 0x0B]));
        player.set(&meters[chance.between(2, 4)]);
        player.bytes(&bytes);
        player.dump();
    }
}

/// Every choice and speed, and every character in every place of a confirmation.
fn confirmations(chance: &mut Chance, player: &mut Player) {
    let meter = state(chance, 1);
    let mut play = |message: &[u8]| {
        player.set(&meter);
        player.send(message);
        player.dump();
    };
    for choice in 0..128 {
        play(&confirmation(choice));
    }
    for speed in 0..128 {
        for choice in *b"0167" {
            play(&confirmation_at(speed, choice));
        }
    }
    for choice in 0..128 {
        play(&confirmation_at(b'0', choice));
    }
    for place in [0, 1, 4, 5] {
        for character in [0, SOH, ETX, 0x06, LF, b'\r', 0x15, b'/', b'0', b'5'] {
            let mut message = confirmation(b'1');
            message[place] = character;
            play(&message);
        }
    }
    for start in [
        &b"/?!\r\n/"[..],
        b"\x01\x01\x01\x01\x01\x01",
        b"\n\n\n\n\n\n",
    ] {
        play(start);
    }
}

/// Commands of two characters with and without data in modes 2 to 4, and broken shapes.
fn commands(chance: &mut Chance, player: &mut Player) {
    let codes: [&[u8]; 22] = [
        b"B0", b"B1", b"b0", b"P0", b"P1", b"P2", b"p1", b"R0", b"R1", b"R2", b"r1", b"W0", b"W1",
        b"W2", b"w1", b"0B", b"1W", b"  ", b"~~", b"C0", b"E2", b"RW",
    ];
    let data: [Option<&[u8]>; 9] = [
        None,
        Some(b""),
        Some(b"()"),
        Some(b"T()"),
        Some(b"(00000000)"),
        Some(b"Z(01;111111111111111111111111)"),
        Some(b"K(abcdefghij)"),
        Some(b"\x20~"),
        Some(b"E0()"),
    ];
    let odd: [&[u8]; 30] = [
        b"\x03",
        b"B\x03",
        b"B0B\x03",
        b"B0()\x03",
        b"\x02\x03",
        b"R\x02T()\x03",
        b"R1T()\x03",
        b"R1R1\x02T()\x03",
        b"\x02R1T()\x03",
        b"R1\x02T()\x02\x03",
        b"R1\x02\x02T()\x03",
        b"R1\x02T(\x1F)\x03",
        b"R1\x02T(\x7F)\x03",
        b"R1\x02T(\0)\x03",
        b"R1\x02T()\r\n\x03",
        b"\x1F1\x02T()\x03",
        b"R\x7F\x02T()\x03",
        b"\0\0\x03",
        b"B\0\x03",
        b"\x7F0\x03",
        b"B0\x02\x03",
        b"B0\x02()\x03",
        b"P1\x03",
        b"R1\x03",
        b"W1\x03",
        b"\x06051\r\n\x03",
        b"/?!\r\n\x03",
        b"W1\x02K(abcdefg\x09ij)\x03",
        b"P1\x02(0000\x0A000)\x03",
        b"P1()\x02\x03",
    ];
    for mode in 2..=4 {
        let meter = state(chance, mode);
        let mut play = |characters: &[u8]| {
            player.set(&meter);
            player.send(characters);
            player.dump();
        };
        for code in codes {
            for data in data {
                play(&frame(code, data));
            }
        }
        for body in odd {
            let check = body.iter().fold(0, |sum, c| sum ^ c);
            for check in [check, check ^ 1, SOH, ETX] {
                play(&[&[SOH], body, &[check]].concat());
            }
        }
    }
}

/// Every number of failed attempts before every kind of password.
fn passwords(chance: &mut Chance, player: &mut Player) {
    for attempts in 0..=3 {
        for _ in 0..12 {
            let meter = Meter {
                attempts,
                ..state(chance, 2)
            };
            let right = meter.password;
            let mut tries = vec![b"()".to_vec(), bracketed(&right)];
            for place in 0..8 {
                let mut wrong = right;
                wrong[place] = b'0' + (right[place] - b'0' + 1 + chance.below(9) as u8) % 10;
                tries.push(bracketed(&wrong));
                let mut malformed = right;
                malformed[place] = chance.one_of(b"/:x ");
                tries.push(bracketed(&malformed));
            }
            for _ in 0..12 {
                tries.push(malformed_password(chance, &right));
            }
            for data in tries {
                player.set(&meter);
                player.send(&password(&data));
                player.dump();
            }
        }
    }
}

/// Frames of 62 to 66 and lines of 30 to 34 characters, also with SOH, ETX and '/' at the end.
fn long_frames(chance: &mut Chance, player: &mut Player) {
    for mode in 2..=4 {
        let meter = state(chance, mode);
        for length in 60..=67 {
            for code in [b"W1", b"R1", b"P1", b"B0"] {
                player.set(&meter);
                player.send(&long_frame(chance, code, length));
                player.dump();
            }
            for wanted in [SOH, ETX] {
                player.set(&meter);
                let mut frame = long_frame_with_bcc(chance, length, wanted);
                frame.extend(good_bye());
                player.send(&frame);
                player.dump();
            }
        }
        // The 64th after 62 that neither end nor restart: all that can stand last and come then.
        for last in [b'0', ETX, 0, STX] {
            for next in [SOH, STX, ETX, 0, LF, b'0'] {
                for mark in [false, true] {
                    for damage in [0, 0x80] {
                        let mut bytes = wire(&[&[SOH], &[b'x'; 61][..], &[last, next]].concat());
                        bytes[30] ^= if mark { 0x80 } else { 0 };
                        bytes[63] ^= damage;
                        bytes.extend(wire(&good_bye()));
                        player.set(&meter);
                        player.bytes(&bytes);
                        player.dump();
                    }
                }
            }
        }
    }
    let meter = state(chance, 0);
    for length in 29..=35 {
        for last in [LF, b'/', b'0', b'!', b'\r', 0] {
            for damage in [0, 0x80] {
                let mut line = vec![b'/'];
                line.resize(length - 1, b'?');
                line.push(last);
                let mut bytes = wire(&line);
                bytes[length - 1] ^= damage;
                player.set(&meter);
                player.bytes(&bytes);
                player.dump();
                player.send(b"?!\r\n");
                player.dump();
            }
        }
    }
}

/// Every read in modes 3 and 4 on several states.
fn reads(chance: &mut Chance, player: &mut Player) {
    for _ in 0..20 {
        for mode in [3, 4] {
            let mut meter = state(chance, mode);
            if chance.percent(50) {
                // Sums just around the multiples of the end.
                let last = meter.counter_end() - 1;
                let part = chance.between(1, 3) as u32;
                meter.counters = [last, last, last, part];
                meter.counters[chance.below(3)] = chance.below(4) as u32;
                if meter.decimals != 0 {
                    meter.exported = [part, last, last, last];
                    meter.exported[chance.between(1, 3)] = chance.below(4) as u32;
                }
                meter = totalled(meter);
            }
            player.set(&meter);
            for ask in ["T()", "L()", "K()"] {
                player.send(&read(ask.as_bytes()));
            }
            for zone in 0..=5 {
                for letter in ["E", "G"] {
                    player.send(&read(format!("{letter}{zone}()").as_bytes()));
                }
            }
            for table in 0..=26 {
                player.send(&read(format!("Z({table:02})").as_bytes()));
            }
            player.dump();
            player.set(&Meter { mode: 1, ..meter });
            player.send(&confirmation(chance.one_of(b"07")));
            player.dump();
        }
    }
}

/// The same state in both editions.
fn both_editions(chance: &mut Chance, mode: u8) -> [Meter; 2] {
    let meter = Meter {
        edition: 1,
        ..state(chance, mode)
    };
    let mut first = meter.clone();
    first.tables[24] = [0; 24];
    [first, of_edition_2(meter, row(chance))]
}

/// Every table, every field of the clock and every character of the account, in both editions.
fn writes(chance: &mut Chance, player: &mut Player) {
    for meter in both_editions(chance, 4) {
        writes_to(chance, player, &meter);
    }
}

fn writes_to(chance: &mut Chance, player: &mut Player, meter: &Meter) {
    player.set(meter);
    for number in 0..=99 {
        let row = row(chance);
        player.send(&write(&table_data(number, &row)));
        player.dump();
        player.send(&read(format!("Z({number:02})").as_bytes()));
        let told = [
            format!("T({number:02}-05-2021;01:02:03)"),
            format!("T(15-{number:02}-2021;01:02:03)"),
            format!("T(15-05-20{number:02};01:02:03)"),
            format!("T(15-05-{number:02}21;01:02:03)"),
            format!("T(15-05-2021;{number:02}:02:03)"),
            format!("T(15-05-2021;01:{number:02}:03)"),
            format!("T(15-05-2021;01:02:{number:02})"),
            format!("T(29-02-20{number:02};01:02:03)"),
            format!("T(30-{number:02}-2021;01:02:03)"),
            format!("T(31-{number:02}-2021;01:02:03)"),
        ];
        for told in told {
            player.send(&write(told.as_bytes()));
            player.dump();
        }
    }
    for character in 0x20..=0x7E {
        let mut account = account(chance);
        account[chance.below(10)] = character;
        player.send(&write(&[b"K", &bracketed(&account)[..]].concat()));
        player.dump();
        let mut row = row(chance);
        row[chance.below(24)] = character;
        player.send(&write(&table_data(chance.between(1, 25), &row)));
        player.dump();
        // Another character in every place of the clock's form.
        let mut told = clock_data(meter.clock);
        told[chance.below(22)] = character;
        player.send(&write(&told));
        player.dump();
    }
    for table in 1..=25 {
        for character in *b"1234" {
            player.send(&write(&table_data(table, &[character; 24])));
        }
        player.dump();
    }
    for length in 0..=58 {
        for letter in [b"K", b"Z", b"T"] {
            let data = [letter, &bracketed(&vec![b'1'; length.max(3) - 3])[..]].concat();
            player.send(&write(&data));
        }
    }
    player.dump();
}

/// Every call on a state, with and without room.
fn every_call(chance: &mut Chance, player: &mut Player) {
    let byte = chance.one_of(&[0x81, 0xAF, 0x0A, 0x03, 0x80, 0x71]);
    player.byte(byte);
    player.line(format!("byte {byte:02x} 4095"));
    player.line("silence");
    player.line("silence 1");
    player.line("tick");
    player.line("up");
    player.line("pulse 1000000");
    player.line("pulse 1000001");
    player.line("pulse 1000000 out");
    player.line("pulse 1000001 out");
    player.dump();
}

/// Each range broken alone at each place, by the value next to the range and by another.
fn broken_states(chance: &mut Chance, player: &mut Player) {
    let mut breakings: Vec<(u8, Breaking)> = Vec::new();
    for mode in [5, 6, 127, 255] {
        breakings.push((0, Box::new(move |meter, _| meter.mode = mode)));
    }
    for (mode, first, count) in [
        (0, b'/', 32),
        (0, b'/', 63),
        (0, b'/', 64),
        (0, b'/', 255),
        (1, b'x', 6),
        (1, b'x', 31),
        (1, b'x', 200),
        (2, SOH, 64),
        (3, SOH, 64),
        (4, SOH, 64),
        (2, SOH, 255),
        (3, SOH, 128),
        (4, SOH, 65),
    ] {
        breakings.push((
            mode,
            Box::new(move |meter, _| {
                meter.held = [b'0'; PLACES];
                meter.held[0] = first;
                for place in usize::from(count)..PLACES {
                    meter.held[place] = 0;
                }
                meter.count = count;
            }),
        ));
    }
    for mode in 0..=4 {
        let (first, most) = [(b'/', 31), (b'x', 5), (SOH, 63), (SOH, 63), (SOH, 63)][mode];
        for place in 1..most {
            breakings.push((
                mode as u8,
                Box::new(move |meter, chance| {
                    let mut held = vec![b'0'; most];
                    held[0] = first;
                    held[place] = chance.one_of(&[128, 129, 131, 255]);
                    *meter = holding(meter.clone(), &held, false);
                }),
            ));
        }
        for place in 0..PLACES {
            breakings.push((
                mode as u8,
                Box::new(move |meter, chance| {
                    let mut held = vec![b'0'; chance.below(most.min(place) + 1)];
                    if let Some(start) = held.first_mut() {
                        *start = first;
                    }
                    *meter = holding(meter.clone(), &held, false);
                    meter.held[place] = chance.one_of(&[1, first, 127, 128, 255]);
                }),
            ));
        }
        breakings.push((mode as u8, Box::new(|meter, _| meter.mark = 1)));
        for mark in [2, 3, 128, 129, 254, 255] {
            breakings.push((
                mode as u8,
                Box::new(move |meter, chance| {
                    let mut held = vec![b'0'; chance.between(1, most)];
                    held[0] = first;
                    *meter = holding(meter.clone(), &held, false);
                    meter.mark = mark;
                }),
            ));
        }
        if mode != 1 {
            for start in [0, 1, b'/', 2, 0x2E, 0x30, 0x81, 0xAF] {
                if start != first {
                    breakings.push((
                        mode as u8,
                        Box::new(move |meter, chance| {
                            let mut held = vec![b'0'; chance.between(1, most)];
                            held[0] = start;
                            *meter = holding(meter.clone(), &held, chance.percent(50));
                        }),
                    ));
                }
            }
        }
    }
    for place in 0..10 {
        breakings.push((
            0,
            Box::new(move |meter, chance| {
                meter.serial[place] = chance.one_of(&[0, 0x2F, 0x3A, b' ', 0xB0, 255]);
            }),
        ));
        breakings.push((
            0,
            Box::new(move |meter, chance| {
                meter.account[place] = chance.one_of(b"\0/:@[`{-^\x1F!\xDF\xFF");
            }),
        ));
    }
    for place in 0..8 {
        breakings.push((
            2,
            Box::new(move |meter, chance| {
                meter.password[place] = chance.one_of(&[0, 0x2F, 0x3A, b'a', 0xB0, 255]);
            }),
        ));
    }
    for attempts in [4, 5, 255] {
        breakings.push((2, Box::new(move |meter, _| meter.attempts = attempts)));
    }
    for mode in 0..=4 {
        for speed in [1, 2, 3, 4, 6, b'0', b'5', 255] {
            breakings.push((mode, Box::new(move |meter, _| meter.speed = speed)));
        }
    }
    for mode in 0..=1 {
        breakings.push((mode, Box::new(move |meter, _| meter.speed = 5)));
    }
    for year in [0, 99, 1999, 2100, 2400, 65_535] {
        breakings.push((
            3,
            Box::new(move |meter, _| {
                meter.clock.year = year;
                meter.clock.day = meter.clock.day.min(28);
            }),
        ));
    }
    for month in [0, 13, 24, 255] {
        breakings.push((4, Box::new(move |meter, _| meter.clock.month = month)));
    }
    for month in 1..=12 {
        for over in [1, 2, 100] {
            breakings.push((
                0,
                Box::new(move |meter, _| {
                    meter.clock.month = month;
                    meter.clock.day = days_in_month(meter.clock.year, month) + over;
                }),
            ));
        }
        breakings.push((
            1,
            Box::new(move |meter, _| {
                meter.clock.month = month;
                meter.clock.day = 0;
            }),
        ));
    }
    for year in [2000, 2001, 2096, 2099] {
        breakings.push((
            0,
            Box::new(move |meter, _| {
                meter.clock.year = year;
                meter.clock.month = 2;
                meter.clock.day = if year % 4 == 0 { 30 } else { 29 };
            }),
        ));
    }
    for hour in [24, 25, 255] {
        breakings.push((1, Box::new(move |meter, _| meter.clock.hour = hour)));
    }
    for value in [60, 61, 255] {
        breakings.push((2, Box::new(move |meter, _| meter.clock.minute = value)));
        breakings.push((3, Box::new(move |meter, _| meter.clock.second = value)));
    }
    for zone in 0..4 {
        for counter in [1_000_000_000, 1_000_000_001, u32::MAX] {
            breakings.push((
                4,
                Box::new(move |meter, _| {
                    meter.counters[zone] = counter;
                    *meter = totalled(meter.clone());
                }),
            ));
        }
        for counter in [
            100_000_000,
            100_000_001,
            999_999_999,
            1_000_000_000,
            u32::MAX,
        ] {
            breakings.push((
                3,
                Box::new(move |meter, chance| {
                    let decimals = chance.one_of(&[2, 3, 4]);
                    *meter = of_family(chance, meter.clone(), decimals);
                    let counters = match chance.percent(50) {
                        true => &mut meter.counters,
                        false => &mut meter.exported,
                    };
                    counters[zone] = counter;
                    *meter = totalled(meter.clone());
                }),
            ));
        }
        // What document 01's family does not count, with and without the total of it.
        for counter in [1, 99_999_999, u32::MAX] {
            breakings.push((
                2,
                Box::new(move |meter, chance| {
                    *meter = of_family(chance, meter.clone(), 0);
                    meter.exported[zone] = counter;
                    if chance.percent(30) {
                        *meter = totalled(meter.clone());
                    }
                }),
            ));
        }
    }
    for decimals in (0..=255).filter(|decimals| ![0, 2, 3, 4].contains(decimals)) {
        breakings.push((1, Box::new(move |meter, _| meter.decimals = decimals)));
    }
    for off in [1, u32::MAX, 50_000_000] {
        for decimals in [0, 2, 3, 4] {
            breakings.push((
                4,
                Box::new(move |meter, chance| {
                    *meter = of_family(chance, meter.clone(), decimals);
                    meter.exported_total = meter.exported_total.wrapping_add(off);
                }),
            ));
        }
    }
    for off in [1, u32::MAX, 500_000_000] {
        breakings.push((
            4,
            Box::new(move |meter, _| meter.total = meter.total.wrapping_add(off)),
        ));
    }
    // The sum as it is, where it has to roll over.
    breakings.push((
        4,
        Box::new(|meter, chance| {
            *meter = of_family(chance, meter.clone(), 0);
            meter.counters = [999_999_999, 1, 0, 0];
            meter.total = 1_000_000_000;
        }),
    ));
    breakings.push((
        4,
        Box::new(|meter, chance| {
            *meter = of_family(chance, meter.clone(), 3);
            meter.exported = [1, 99_999_999, 0, 0];
            meter.exported_total = 100_000_000;
        }),
    ));
    for edition in 0..=255 {
        breakings.push((4, Box::new(move |meter, _| meter.edition = edition)));
    }
    for table in 0..25 {
        for hour in [0, 1, 11, 22, 23] {
            breakings.push((
                4,
                Box::new(move |meter, chance| {
                    meter.tables[table][hour] = chance.one_of(&[0, b'0', b'5', 0xB1, 255, 1]);
                }),
            ));
        }
    }
    for place in 0..PERIODS {
        break_period(place, &mut |mode, breaking| {
            breakings.push((mode, breaking))
        });
    }
    for (mode, breaking) in &breakings {
        let mut meter = state(chance, *mode);
        breaking(&mut meter, chance);
        player.set(&meter);
        every_call(chance, player);
    }
    // Several at once.
    for _ in 0..300 {
        let mut meter = state(chance, 4);
        for _ in 0..chance.between(2, 5) {
            breakings[chance.below(breakings.len())].1(&mut meter, chance);
        }
        player.set(&meter);
        every_call(chance, player);
    }
    // The last values inside the ranges are good.
    for mode in 0..=4 {
        let mut meter = state(chance, mode);
        meter.attempts = 3;
        let last = [meter.counter_end() - 1; 4];
        let exported = if meter.decimals == 0 { [0; 4] } else { last };
        (meter.counters, meter.exported) = (last, exported);
        meter = totalled(meter);
        meter.closed = PERIODS as u8;
        for (year, month, day) in [(2000, 1, 1), (2099, 12, 31), (2000, 2, 29), (2099, 2, 28)] {
            meter.periods = [Period {
                year,
                month,
                day,
                hour: 23,
                minute: 59,
                counters: last,
                exported,
            }; PERIODS];
            meter.clock = Clock {
                year,
                month,
                day,
                hour: 23,
                minute: 59,
                second: 59,
            };
            player.set(&meter);
            every_call(chance, player);
        }
    }
}

type Breaking = Box<dyn Fn(&mut Meter, &mut Chance)>;

/// Periods in just the places that are in use.
fn close(chance: &mut Chance, meter: &mut Meter) {
    let (closed, decimals) = (usize::from(meter.closed), meter.decimals);
    meter.periods = [Period::default(); PERIODS];
    meter.periods[..closed].fill_with(|| period(chance, decimals));
}

/// Each range of the period at a place, in an archive that has it, and something where there is none.
fn break_period(place: usize, add: &mut dyn FnMut(u8, Breaking)) {
    let mut one = |breaking: fn(&mut Period, &mut Chance)| {
        add(
            0,
            Box::new(move |meter, chance| {
                meter.closed = chance.between(place + 1, PERIODS) as u8;
                close(chance, meter);
                breaking(&mut meter.periods[place], chance);
            }),
        );
    };
    one(|period, chance| {
        period.year = chance.one_of(&[0, 1, 99, 1_999]);
        period.day = period.day.min(28);
    });
    one(|period, chance| {
        period.year = chance.one_of(&[2_100, 2_101, 65_535]);
        period.day = period.day.min(28);
    });
    one(|period, _| period.month = 0);
    one(|period, chance| period.month = chance.one_of(&[13, 14, 255]));
    one(|period, _| period.day = 0);
    one(|period, chance| {
        let most = days_in_month(period.year, period.month);
        period.day = chance.one_of(&[most + 1, most + 2, 32, 255]);
    });
    one(|period, chance| period.hour = chance.one_of(&[24, 25, 255]));
    one(|period, chance| period.minute = chance.one_of(&[60, 61, 255]));
    one(|period, chance| {
        let count = chance.one_of(&[1_000_000_000, 1_000_000_001, u32::MAX]);
        period.counters[chance.below(4)] = count;
    });
    // One digit too many of an EQM meter, and of another any.
    for _ in 0..4 {
        one(|period, chance| {
            period.counters[chance.below(4)] = chance.one_of(&[100_000_000, 999_999_999]);
        });
        one(|period, chance| {
            let count = chance.one_of(&[100_000_000, 100_000_001, u32::MAX]);
            period.exported[chance.below(4)] = count;
        });
    }
    // A whole period, or one number of it, in an unused place.
    for number in 0..14 {
        add(
            0,
            Box::new(move |meter, chance| {
                meter.closed = chance.below(place + 1) as u8;
                close(chance, meter);
                let decimals = meter.decimals;
                let unused = &mut meter.periods[place];
                match number {
                    0 => *unused = period(chance, decimals),
                    1 => unused.year = 2_000,
                    2 => unused.month = 1,
                    3 => unused.day = 1,
                    4 => unused.hour = 1,
                    5 => unused.minute = 1,
                    counter @ 6..=9 => unused.counters[counter - 6] = 1,
                    counter => unused.exported[counter - 10] = 1,
                }
            }),
        );
    }
    // A number of periods that is not that of the places in use, or none at all.
    for closed in [13, 14, 127, 128, 255] {
        add(
            0,
            Box::new(move |meter, chance| {
                meter.periods = [(); PERIODS].map(|()| period(chance, meter.decimals));
                meter.closed = closed;
            }),
        );
    }
    add(
        0,
        Box::new(move |meter, chance| {
            meter.periods = [Period::default(); PERIODS];
            for kept in &mut meter.periods[..place] {
                *kept = period(chance, meter.decimals);
            }
            meter.closed = place as u8 + 1;
        }),
    );
}

/// Archives of every size: a month closed by a tick in each mode and by the sign-on, what does not
/// close one, and the block with the periods at either speed.
fn closed_months(chance: &mut Chance, player: &mut Player) {
    for count in 0..=PERIODS {
        for mode in 0..=4 {
            for (day, hour, minute, second) in [
                (31, 23, 59, 59),
                (31, 23, 59, 58),
                (30, 23, 59, 59),
                (31, 22, 59, 59),
                (1, 0, 0, 0),
            ] {
                let mut meter = state(chance, mode);
                meter.closed = count as u8;
                close(chance, &mut meter);
                meter.clock = Clock {
                    year: chance.between(2000, 2099) as u16,
                    month: chance.one_of(&[1, 3, 5, 7, 8, 10, 12]),
                    day,
                    hour,
                    minute,
                    second,
                };
                player.set(&meter);
                if mode > 1 && chance.percent(50) {
                    // With a frame half received, which a tick leaves alone.
                    player.send(b"\x01R1");
                }
                player.line("tick");
                player.dump();
                player.line("tick");
                player.dump();
                if mode == 4 {
                    // The first of a month told, which closes nothing, and the second after it.
                    let first = Clock {
                        day: 1,
                        hour: 0,
                        minute: 0,
                        second: 0,
                        ..meter.clock
                    };
                    player.send(&write(&clock_data(first)));
                    player.dump();
                    player.line("tick");
                    player.dump();
                }
                meter.mode = 0;
                meter.speed = 0;
                player.set(&meter);
                player.send(chance.pick(&NEARLY_CLOSING));
                player.line("silence");
                player.send(CLOSING);
                player.dump();
                let speed = chance.one_of(b"05");
                player.send(&confirmation_at(speed, b'6'));
                player.send(b"/?!\r\n");
                let choice = chance.one_of(b"067");
                player.send(&confirmation_at(speed, choice));
                player.dump();
                // Damaged at one place, the line closes nothing.
                let mut line = wire(CLOSING);
                line[chance.between(1, 3)] ^= 0x80;
                player.bytes(&line);
                player.dump();
            }
        }
    }
    // Twenty months one after the other, the oldest pushed out.
    let mut meter = state(chance, 4);
    for _ in 0..40 {
        player.set(&meter);
        for _ in 0..20 {
            let mut now = player.meter().clone();
            let Clock { year, month, .. } = now.clock;
            now.clock.day = days_in_month(year, month);
            (now.clock.hour, now.clock.minute, now.clock.second) = (23, 59, 59);
            player.send(&write(&clock_data(now.clock)));
            player.line(format!("pulse {}", chance.below(1_000_001)));
            player.line("tick");
        }
        player.dump();
        meter = state(chance, 4);
    }
}

/// Every family in every edition on either link: counters of every number of digits, read and in the
/// block, and pulses of either direction up to their roll-over.
fn families(chance: &mut Chance, player: &mut Player) {
    for decimals in [0, 2, 3, 4] {
        for edition in [1, 2] {
            for link in [1, WIRED] {
                for digits in 0..=9 {
                    let mode = chance.one_of(&[3, 4]);
                    let mut meter = Meter {
                        edition: 1,
                        ..state(chance, mode)
                    };
                    meter.tables[24] = [0; 24];
                    if edition == 2 {
                        meter = of_edition_2(meter, row(chance));
                    }
                    meter = of_family(chance, meter, decimals);
                    (meter.link, meter.speed) = (link, 5);
                    let near = 10_u32.pow(digits).min(meter.counter_end());
                    meter.counters[chance.below(4)] = near - 1;
                    if decimals != 0 {
                        meter.exported[chance.below(4)] = near - 1;
                    }
                    meter = totalled(meter);
                    player.set(&meter);
                    for zone in 0..=4 {
                        player.send(&read(format!("E{zone}()").as_bytes()));
                    }
                    for zone in 0..=4 {
                        player.send(&read(format!("G{zone}()").as_bytes()));
                    }
                    player.dump();
                    player.set(&Meter {
                        mode: 1,
                        speed: if link == WIRED { 5 } else { 0 },
                        ..meter.clone()
                    });
                    player.send(&confirmation(chance.one_of(b"067")));
                    player.dump();
                    player.set(&meter);
                    for way in ["", " out"] {
                        for units in [0, 1, 999_999, 1_000_000, 1_000_001, u32::MAX] {
                            player.line(format!("pulse {units}{way}"));
                            player.dump();
                        }
                        for _ in 0..150 {
                            player.line(format!("pulse {}{way}", chance.below(1_000_001)));
                        }
                        player.dump();
                    }
                }
            }
        }
    }
}

/// All 256 values of one character of each register and of the receiver.
fn register_characters(chance: &mut Chance, player: &mut Player) {
    for value in 0..=255 {
        for register in 0..6 {
            let mut meter = state(chance, 3);
            match register {
                0 => meter.serial[chance.below(10)] = value,
                1 => meter.account[chance.below(10)] = value,
                2 => meter.password[chance.below(8)] = value,
                3 => meter.tables[chance.below(25)][chance.below(24)] = value,
                4 => meter = holding(meter, &[SOH, b'R', value, b'0'], false),
                _ => meter = holding(meter, &[value], true),
            }
            player.set(&meter);
            player.byte(chance.one_of(&[0x03, 0xB1, 0x81, 0x01]));
            player.line("pulse 123456");
            if chance.percent(40) {
                player.dump();
            }
        }
        // The link, and the speed that goes with it.
        let mode = chance.below(5) as u8;
        let meter = state(chance, mode);
        let speed = chance.one_of(&[0, 5]);
        for link in [value, WIRED] {
            player.set(&Meter {
                link,
                speed,
                ..meter.clone()
            });
            player.line("tick");
            player.dump();
        }
        // The facts of a new meter, one of them spoiled; the registers are those that were set.
        let good = state(chance, 0);
        let (mut serial, mut account, mut password) = (good.serial, good.account, good.password);
        match chance.below(3) {
            0 => serial[chance.below(10)] = value,
            1 => account[chance.below(10)] = value,
            _ => password[chance.below(8)] = value,
        }
        player.line(new_line(&serial, &account, &password, good.clock));
        player.dump();
        // Edition, link and decimals behind them; any of the three may be none.
        let made = new_line(&good.serial, &good.account, &good.password, good.clock);
        for kind in [
            "2", "2 2", "2 2 0", "1 1 0", "2 3", "2 1 1", "1 1 2", "2 2 3", "1 2 4", "2 3 5",
        ] {
            player.line(format!("{made} {kind}"));
            player.dump();
        }
        player.line(format!("{made} {value} {}", chance.below(4)));
        player.dump();
        player.line(format!("{made} 1 {} {value}", chance.below(4)));
        player.dump();
        player.line(format!("{made} 1 1 0 0"));
        // The decimals of a state.
        player.set(&Meter {
            decimals: value,
            ..meter
        });
        player.line("pulse 5 out");
        player.line("tick");
        player.dump();
    }
    let spoil: [fn(&mut Clock); 10] = [
        |clock| clock.year = 1999,
        |clock| clock.year = 2100,
        |clock| clock.year = 65_535,
        |clock| clock.month = 0,
        |clock| clock.month = 13,
        |clock| clock.day = 0,
        |clock| clock.day = 32,
        |clock| clock.hour = 24,
        |clock| clock.minute = 60,
        |clock| clock.second = 60,
    ];
    for spoil in spoil {
        let good = state(chance, 0);
        let mut clock = good.clock;
        spoil(&mut clock);
        player.line(new_line(&good.serial, &good.account, &good.password, clock));
        player.dump();
        player.line(new_line(
            &good.serial,
            &good.account,
            &good.password,
            good.clock,
        ));
        player.dump();
    }
}

/// The line that makes a new meter.
pub fn new_line(serial: &[u8], account: &[u8], password: &[u8], clock: Clock) -> String {
    let mut line = String::from("new");
    for field in [serial, account, password] {
        line.push(' ');
        model::bench::put_hex(&mut line, field);
    }
    let Clock {
        year,
        month,
        day,
        hour,
        minute,
        second,
    } = clock;
    line + &format!(" {year} {month} {day} {hour} {minute} {second}")
}

/// Each room before calls with and without a reply, in each mode.
fn rooms(chance: &mut Chance, player: &mut Player) {
    let last: [(&[u8], u8); 11] = [
        (b"", b'/'),
        (b"/?!\r", LF),
        (b"/C!\r", LF),
        (b"\x06056\r", LF),
        (b"\x06050\r", LF),
        (b"\x06051\r", LF),
        (b"\x01P1\x02()\x03", 0x61),
        (b"\x01B0\x03", 0x71),
        (b"\x01B0\x03", 0x70),
        (b"\x01R1\x02T()\x03", 0x37),
        (b"\x01", b'x'),
    ];
    for room in [
        0,
        1,
        2,
        19,
        63,
        64,
        1_062,
        1_063,
        2_047,
        2_048,
        2_671,
        ROOM - 2,
        ROOM - 1,
        ROOM,
        ROOM + 1,
        8_191,
        8_192,
    ] {
        for mode in 0..=4 {
            for (held, next) in last {
                let first = held.first().copied().unwrap_or(0);
                let fits = match mode {
                    0 => held.is_empty() || first == b'/',
                    1 => held.len() <= 5,
                    _ => held.is_empty() || first == SOH,
                };
                if fits {
                    player.set(&holding(state(chance, mode), held, false));
                    let byte = wire(&[next])[0];
                    player.line(format!("byte {byte:02x} {room}"));
                    player.dump();
                    player.line(format!("silence {room}"));
                    player.dump();
                }
            }
        }
    }
}

/// Days and months of the whole century: their ends, and the table that each day uses.
fn calendar(chance: &mut Chance, player: &mut Player) {
    for meter in both_editions(chance, 4) {
        century(chance, player, meter);
    }
}

fn century(chance: &mut Chance, player: &mut Player, mut meter: Meter) {
    (meter.counters, meter.exported) = ([0; 4], [0; 4]);
    meter = totalled(meter);
    player.set(&meter);
    for year in 2000..=2099_u16 {
        for month in 1..=12 {
            let most = days_in_month(year, month);
            let clock = Clock {
                year,
                month,
                day: most,
                hour: 23,
                minute: 59,
                second: 58,
            };
            player.send(&write(&clock_data(clock)));
            player.line("pulse 1000000");
            player.line("tick");
            player.line("tick");
            player.line(format!("pulse {}", chance.below(1_000_001)));
            player.send(&read(b"T()"));
            if month % 4 == 0 {
                player.dump();
            }
        }
    }
    // Every day of some years with its own hour.
    for year in [2000, 2001, 2003, 2024, 2098, 2099] {
        for month in 1..=12 {
            for day in 1..=days_in_month(year, month) {
                let clock = Clock {
                    year,
                    month,
                    day,
                    hour: chance.below(24) as u8,
                    minute: 0,
                    second: 0,
                };
                player.send(&write(&clock_data(clock)));
                player.line(format!("pulse {}", chance.below(1_000_001)));
                if day % 5 == 0 {
                    player.dump();
                }
            }
        }
    }
    // Every hour of every table.
    for month in 1..=12 {
        for ahead in 0..=2 {
            // In 2000 some day from the 1st to the 7th is a Saturday, and two days on a Monday.
            let day = (1..=7)
                .find(|&day| {
                    let clock = Clock {
                        month,
                        day,
                        ..Clock::FIRST
                    };
                    let next = Clock {
                        day: day + 1,
                        ..clock
                    };
                    clock.saturday() && next.sunday()
                })
                .expect("each week has a Saturday");
            for hour in 0..24 {
                meter.clock = Clock {
                    month,
                    day: day + ahead,
                    hour,
                    ..Clock::FIRST
                };
                player.send(&write(&clock_data(meter.clock)));
                player.line(format!("pulse {}", 1 + chance.below(1_000_000)));
                player.line(format!("pulse {} out", 1 + chance.below(1_000_000)));
                if hour % 6 == 5 {
                    player.dump();
                }
            }
        }
    }
}

/// Lines that are no commands, or commands in an unusual dress; each leaves the state alone or
/// changes it as a plain one would.
fn script_lines(chance: &mut Chance, player: &mut Player) {
    player.set(&state(chance, 4));
    let lines: [&[u8]; 102] = [
        b"",
        b" ",
        b"  ",
        b"\t",
        b"\r",
        b"x",
        b"error",
        b"ok",
        b"#",
        b"-",
        b"0",
        b"\0",
        b"\xFF\xFE",
        b"dump ",
        b" dump",
        b"dump\r",
        b"dump x",
        b"dumps",
        b"Dump",
        b"DUMP",
        b"dump\t",
        b"dum",
        b"tick ",
        b" tick",
        b"tick 1",
        b"ticks",
        b"Tick",
        b"tick\r",
        b"tick\0",
        b"up ",
        b"up 1",
        b"UP",
        b"upp",
        b"u",
        b"pulse",
        b"pulse ",
        b"pulse -1",
        b"pulse +1",
        b"pulse 1 ",
        b"pulse  1",
        b"pulse 1 1",
        b"pulse 0x1",
        b"pulse 1e3",
        b"pulse 1.0",
        b"pulse 1,000",
        b"pulse 4294967296",
        b"pulse 18446744073709551616",
        b"pulse 99999999999999999999999999",
        b"pulse a",
        b"pulse -",
        b"pulse 1\r",
        b"pulse 1 out ",
        b"pulse 1  out",
        b"pulse 1 Out",
        b"pulse 1 ou",
        b"pulse 1 outs",
        b"pulse 1 in",
        b"pulse out",
        b"pulse out 1",
        b"pulse 1 out 1",
        b"pulse 4294967296 out",
        b"byte",
        b"byte ",
        b"byte -",
        b"byte 8",
        b"byte 081",
        b"byte 8181",
        b"byte AF",
        b"byte aF",
        b"byte 0g",
        b"byte 0x81",
        b"byte 81 ",
        b"byte 81  4096",
        b"byte 81 4096 ",
        b"byte 81 8193",
        b"byte 81 65536",
        b"byte 81 67584",
        b"byte 81 -1",
        b"byte 81 +1",
        b"byte 81 x",
        b"byte 81 4096 1",
        b"byte 81 4294969344",
        b"byte  81",
        b"byte\t81",
        b"bytes",
        b"bytes ",
        b"bytes 8",
        b"bytes 818",
        b"bytes 81 ",
        b"bytes 81 81",
        b"bytes AF",
        b"bytes 81--",
        b"bytes --",
        b"bytes 81 4096",
        b"bytes 8g",
        b"silence ",
        b"silence 8193",
        b"silence -",
        b"silence 1 1",
        b"silence x",
        b"Silence",
        b"new",
    ];
    for line in lines {
        player.line(line);
    }
    player.dump();
    // Unusual and good.
    let good = [
        "bytes -",
        "byte 81 0",
        "byte 81 00",
        "byte 81 0004096",
        "byte 80 00000000000000000000000000008192",
        "silence 08192",
        "silence 0",
        "pulse 0",
        "pulse 000",
        "pulse 0000000000000000000000001000000",
        "pulse 1000001",
        "pulse 4294967295",
        "pulse 0 out",
        "pulse 0000000000000000000000001000000 out",
        "pulse 4294967295 out",
        "bytes 00",
        "bytes ff",
    ];
    for line in good {
        player.line(line);
        player.dump();
    }
    // Fields of `new` and `set`, each spoiled in turn.
    let meter = state(chance, 0);
    let new = new_line(&meter.serial, &meter.account, &meter.password, meter.clock);
    let set = format!("set {}", dump(&meter));
    for line in [&new, &set] {
        player.line(line);
        let fields: Vec<&str> = line.split(' ').collect();
        for place in 0..fields.len() {
            let field = fields[place];
            let spoiled = [
                String::new(),
                "-".into(),
                "x".into(),
                "-1".into(),
                "+1".into(),
                format!("{field} "),
                format!(" {field}"),
                format!("{field}0"),
                format!("{field}00"),
                format!("0{field}"),
                format!("00{field}"),
                field.to_uppercase(),
                field[1..].to_string(),
                field.get(2..).unwrap_or("").to_string(),
                format!("{field}\t"),
                "256".into(),
                "255".into(),
                "65535".into(),
                "65536".into(),
                "4294967295".into(),
                "4294967296".into(),
                "18446744073709551617".into(),
                "2".into(),
            ];
            for spoiled in spoiled {
                let mut fields = fields.clone();
                fields[place] = &spoiled;
                player.line(fields.join(" "));
                player.line("tick");
                player.dump();
            }
            let mut fewer = fields.clone();
            fewer.remove(place);
            player.line(fewer.join(" "));
            let mut more = fields.clone();
            more.insert(place, field);
            player.line(more.join(" "));
            player.dump();
        }
        player.line(format!("{line}\r"));
        player.line(format!("{line} 0"));
        player.line(line.to_uppercase());
        player.dump();
    }
    // A long line is a line.
    let mut long = Vec::new();
    while long.len() < 20_000 {
        long.extend(wire(&sign_on(&meter.serial)));
        long.extend(wire(&confirmation(b'3')));
    }
    player.bytes(&long);
    player.dump();
    // So is the longest, and one character more is an error.
    for length in [LINE_MOST, LINE_MOST + 1] {
        player.line(format!("pulse {}1", "0".repeat(length - "pulse 1".len())));
        player.dump();
    }
}
