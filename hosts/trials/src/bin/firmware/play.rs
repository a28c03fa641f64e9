//! What happens to the meters: dialogues, noise, time, energy, facts good and bad, broken records.

use crate::{Clock, Meter, Pair};
use model::meter::{with_parity, Period, PERIODS, PLACES, ROOM, WIRED};
use trials::chance::Chance;
use trials::words::*;

/// What a meter is made from, of any lengths.
#[derive(Clone, Debug)]
pub struct Facts {
    pub serial: Vec<u8>,
    pub account: Vec<u8>,
    pub password: Vec<u8>,
    pub clock: Clock,
    /// Edition, link and decimals.
    pub kind: [u8; 3],
}

type Outcome = Result<(), String>;

/// So many events and more.
pub fn play(pair: &mut Pair, seed: u64, events: u64) -> Outcome {
    let chance = &mut Chance::new(seed);
    wrong_twice(pair)?;
    while pair.reached.events < events {
        let filling = chance.byte();
        match chance.weighed(&[80, 5, 5, 4, 3, 4, 4, 3, 2, 2, 1, 60, 100, 10]) {
            0 => {
                for character in message(chance, &pair.model) {
                    let damage = u8::from(chance.one_in(400)) << 7;
                    let byte = with_parity(character) ^ damage;
                    pair.meet(0, byte.into(), ROOM, filling)?;
                }
            }
            1 => {
                for _ in 0..chance.between(1, 40) {
                    let byte = chance.byte();
                    pair.meet(0, byte.into(), ROOM + chance.below(3), filling)?;
                }
            }
            2 => {
                let mode = chance.below(5) as u8;
                let meter = state(chance, mode);
                pair.put(on_some_link(chance, meter));
            }
            3 => broken_record(pair, chance, filling)?,
            4 => {
                let room = chance.one_of(&[0, 1, 19, 2_000, ROOM - 1]);
                let kind = chance.below(6) as u8;
                let value = u32::from(chance.byte());
                pair.meet(kind, value, room, filling)?;
            }
            5 => ticks(pair, chance, filling)?,
            6 => pulses(pair, chance, filling)?,
            7 => interruption(pair, chance, filling)?,
            8 => pair.make(&facts(chance))?,
            9 => {
                pair.check()?;
                let (kind, value) = no_event(chance);
                pair.meet(kind, value, chance.one_of(&[0, ROOM]), filling)?;
            }
            11 => hurt_frame(pair, chance, filling)?,
            12 => months(pair, chance, filling)?,
            13 => both_ways(pair, chance, filling)?,
            _ => {
                let meter = any_bytes(chance);
                let kept = std::mem::replace(&mut pair.model, Meter::blank());
                pair.put(meter);
                pair.reached.reach("any bytes in the record");
                pair.check()?;
                any_event(pair, chance, filling)?;
                pair.put(kept);
            }
        }
    }
    Ok(())
}

/// Facts with more than one fault, which chance seldom has: the edition is named before the decimals, and these before all else.
fn wrong_twice(pair: &mut Pair) -> Outcome {
    let kept = std::mem::replace(&mut pair.model, Meter::blank());
    for kind in [[0, 1, 1], [3, 2, 5], [0, 3, 0], [1, 3, 1], [2, 0, 255]] {
        pair.make(&Facts {
            serial: b"1234567890".to_vec(),
            account: b"Kiln_7 old".to_vec(),
            password: b"00000000".to_vec(),
            clock: Meter::blank().clock,
            kind,
        })?;
    }
    pair.put(kept);
    Ok(())
}

/// What a head might say to this meter, or nearly.
fn message(chance: &mut Chance, meter: &Meter) -> Vec<u8> {
    let mut message = match meter.mode {
        0 if meter.link == WIRED && chance.percent(75) => match chance.below(6) {
            0 => wired_line(b'A', b"0000000000"),
            1 => wired_line(b'A', &digits::<10>(chance)),
            2 => wired_line(b'g', &meter.serial),
            _ => wired_line(b'A', &meter.serial),
        },
        0 => match chance.weighed(&[3, 2, 1, 1, 2, 1]) {
            0 => b"/?!\r\n".to_vec(),
            1 => sign_on(&meter.serial),
            2 => sign_on(b"0000000000"),
            4 => CLOSING.to_vec(),
            5 => chance.pick(&NEARLY_CLOSING).to_vec(),
            _ => {
                let mut line = vec![b'/'];
                let most = chance.between(1, 34);
                line.extend((0..most).map(|_| chance.between(0x20, 0x2E) as u8));
                line.push(b'\n');
                line
            }
        },
        1 => {
            let wanted = chance.byte() & 0x7F;
            let speed = chance.one_of(b"0000555554");
            let choice = chance.one_of(&[b'1', b'1', b'1', b'1', b'0', b'6', b'7', wanted]);
            confirmation_at(speed, choice)
        }
        2 => match chance.weighed(&[2, 6, 1, 1]) {
            0 => password(b"()"),
            1 => password(&bracketed(&meter.password)),
            2 => password(&bracketed(&wrong_password(chance, &meter.password))),
            _ => password(&malformed_password(chance, &meter.password)),
        },
        _ => match chance.weighed(&[4, 2, 6, 3, 1, 1, 1]) {
            0 => read(&good_read(chance)),
            1 => read(&bad_read(chance)),
            2 => write(&good_write(chance)),
            3 => write(&bad_write(chance)),
            4 => {
                let length = chance.between(60, 66);
                long_frame(chance, b"W1", length)
            }
            5 => good_bye(),
            _ => frame(&[chance.byte() & 0x7F, b'1'], Some(b"T()")),
        },
    };
    if chance.percent(8) {
        let at = chance.below(message.len());
        message[at] = chance.byte() & 0x7F;
    }
    message
}

/// A frame with a few damaged characters, now and then begun once more before or after them.
fn hurt_frame(pair: &mut Pair, chance: &mut Chance, filling: u8) -> Outcome {
    if pair.model.mode < 2 || chance.one_in(8) {
        let mode = chance.weighed(&[1, 3, 3]) as u8 + 2;
        let meter = state(chance, mode);
        pair.put(on_some_link(chance, meter));
    }
    let message = message(chance, &pair.model);
    let mut bytes: Vec<u8> = message.iter().map(|&c| with_parity(c)).collect();
    for _ in 0..chance.one_of(&[1, 1, 2, 3, 8]) {
        let any = chance.below(bytes.len());
        let at = chance.one_of(&[1, 2, 3, any]).min(bytes.len() - 1);
        bytes[at] ^= 1 << chance.below(8);
    }
    if chance.one_in(6) {
        let last = bytes.len() - 1;
        bytes[last] ^= 1 << chance.below(8);
    }
    if chance.one_in(4) {
        let cut = chance.below(bytes.len());
        bytes = [&bytes[..cut], &bytes].concat();
    }
    for byte in bytes {
        pair.meet(0, byte.into(), ROOM, filling)?;
    }
    Ok(())
}

/// Midnights, of a first or not, reached by a tick or told by a write; the closing sign-on, whole and
/// hurt; the block with the periods.
fn months(pair: &mut Pair, chance: &mut Chance, filling: u8) -> Outcome {
    let mut meter = pair.model.clone();
    if chance.percent(10) {
        close_some(chance, &mut meter);
    }
    pair.put(meter);
    for _ in 0..chance.between(1, 12) {
        let mut meter = pair.model.clone();
        meter.clock = midnight(chance);
        pair.put(meter);
        for _ in 0..chance.one_of(&[1, 1, 1, 2, 3]) {
            pair.meet(2, chance.bits() as u32, 0, filling)?;
        }
    }
    match chance.below(64) {
        0..=7 => {
            let mut meter = holding(pair.model.clone(), &[], false);
            (meter.mode, meter.speed) = (0, 0);
            pair.put(meter);
            let mut line = CLOSING.iter().map(|&c| with_parity(c)).collect::<Vec<_>>();
            if chance.percent(40) {
                line[chance.between(1, 3)] ^= 0x80;
            }
            for byte in line {
                pair.meet(0, byte.into(), ROOM, filling)?;
            }
            if pair.model.mode == 1 && chance.percent(30) {
                let speed = chance.one_of(b"05");
                for character in confirmation_at(speed, b'6') {
                    pair.meet(0, with_parity(character).into(), ROOM, filling)?;
                }
            }
        }
        8 if pair.model.mode == 4 => {
            // A first of a month told, which closes nothing.
            let first = Clock {
                day: 1,
                hour: 0,
                minute: 0,
                second: 0,
                ..clock(chance)
            };
            for character in write(&clock_data(first)) {
                pair.meet(0, with_parity(character).into(), ROOM, filling)?;
            }
        }
        9 => {
            let kept = pair.model.clone();
            let mut meter = kept.clone();
            break_periods(chance, &mut meter);
            pair.put(meter);
            pair.check()?;
            any_event(pair, chance, filling)?;
            pair.put(kept);
        }
        _ => {}
    }
    Ok(())
}

/// Seconds, often around the end of a day, a month, a year or the century.
fn ticks(pair: &mut Pair, chance: &mut Chance, filling: u8) -> Outcome {
    let mut meter = pair.model.clone();
    meter.clock = clock(chance);
    if chance.percent(20) {
        let last = Clock {
            year: chance.one_of(&[2000, 2023, 2024, 2099, 2099]),
            month: chance.one_of(&[2, 12]),
            day: 28,
            hour: 23,
            minute: 59,
            second: 59,
        };
        meter.clock = last;
        if last.month == 12 {
            meter.clock.day = 31;
        }
    }
    pair.put(meter);
    for _ in 0..chance.between(1, 4) {
        let room = chance.one_of(&[0, 0, ROOM]);
        pair.meet(2, chance.bits() as u32, room, filling)?;
    }
    Ok(())
}

fn pulses(pair: &mut Pair, chance: &mut Chance, filling: u8) -> Outcome {
    for _ in 0..chance.between(1, 3) {
        let kind = chance.one_of(&[3, 5]);
        let units = match chance.below(6) {
            0 => chance.one_of(&[0, 1_000_000, 1_000_001, u32::MAX]),
            1 => chance.bits() as u32,
            2 => {
                // Just up to the roll-over of some zone, when it is near.
                let counters = match kind {
                    3 => pair.model.counters,
                    _ => pair.model.exported,
                };
                let end = pair.model.counter_end();
                end.saturating_sub(chance.one_of(&counters)).min(1_000_000)
            }
            _ => chance.below(1_000_001) as u32,
        };
        pair.meet(kind, units, chance.one_of(&[0, ROOM]), filling)?;
    }
    Ok(())
}

/// Energy of an EQM meter in either direction, in the zones of any hour; what it then shows.
fn both_ways(pair: &mut Pair, chance: &mut Chance, filling: u8) -> Outcome {
    let mode = chance.weighed(&[3, 1, 1, 3, 3]) as u8;
    let decimals = chance.one_of(&[2, 3, 4]);
    let mut meter = state(chance, mode);
    meter = of_family(chance, meter, decimals);
    meter = on_some_link(chance, meter);
    pair.put(meter);
    for _ in 0..chance.between(10, 30) {
        if chance.one_in(3) {
            let mut meter = pair.model.clone();
            meter.clock = clock(chance);
            pair.put(meter);
        }
        pulses(pair, chance, filling)?;
    }
    let asked = match mode {
        1 => confirmation(chance.one_of(b"06")),
        3 | 4 => {
            let (letter, zone) = (chance.one_of(b"EG"), chance.one_of(b"012345"));
            read(&[letter, zone, b'(', b')'])
        }
        _ => return Ok(()),
    };
    for character in asked {
        pair.meet(0, with_parity(character).into(), ROOM, filling)?;
    }
    Ok(())
}

/// Silence or power-up, most of the time in the middle of something.
fn interruption(pair: &mut Pair, chance: &mut Chance, filling: u8) -> Outcome {
    if chance.percent(60) {
        let start: &[u8] = match pair.model.mode {
            0 => b"/?12",
            1 => b"\x0605",
            _ => b"\x01R1\x02",
        };
        for &character in start {
            pair.meet(0, with_parity(character).into(), ROOM, filling)?;
        }
    }
    let kind = chance.one_of(&[1, 1, 4]);
    pair.meet(kind, chance.bits() as u32, ROOM, filling)
}

/// A kind or a value of no event.
fn no_event(chance: &mut Chance) -> (u8, u32) {
    match chance.below(3) {
        0 => (chance.between(6, 255) as u8, chance.below(300) as u32),
        1 => (6, chance.bits() as u32),
        _ => {
            let far = chance.bits() as u32 >> 1;
            (0, 256 + chance.one_of(&[0, 0x0A, 0x81, far]))
        }
    }
}

/// Any event, in any room.
fn any_event(pair: &mut Pair, chance: &mut Chance, filling: u8) -> Outcome {
    let kind = chance.below(7) as u8;
    let value = match kind {
        0 => u32::from(chance.byte()),
        3 | 5 => chance.one_of(&[7, 1_000_000, 1_000_001]),
        _ => chance.bits() as u32,
    };
    let room = chance.one_of(&[0, ROOM - 1, ROOM, ROOM, ROOM, ROOM + 1]);
    pair.meet(kind, value, room, filling)
}

/// A record with something wrong in one place, and what happens to it.
fn broken_record(pair: &mut Pair, chance: &mut Chance, filling: u8) -> Outcome {
    let kept = pair.model.clone();
    pair.put(broken(chance));
    pair.check()?;
    for _ in 0..3 {
        any_event(pair, chance, filling)?;
    }
    pair.put(kept);
    Ok(())
}

fn broken(chance: &mut Chance) -> Meter {
    let mode = chance.below(5) as u8;
    let meter = state(chance, mode);
    let mut meter = on_some_link(chance, meter);
    if mode == 4 && chance.percent(30) {
        // A whole write that came damaged, and one character before its end.
        let frame = write(&good_write(chance));
        meter = holding(meter, &frame[..frame.len() - 1], true);
    }
    let odd = chance.byte();
    match chance.below(41) {
        33 | 34 => meter.decimals = chance.one_of(&[1, 5, 0, 2, 3, 4, odd]),
        35 => meter.exported[chance.below(4)] = chance.one_of(&ENDS),
        36 => {
            // In range or not, with the total that would be theirs.
            meter.exported[chance.below(4)] = chance.one_of(&ENDS);
            meter = totalled(meter);
        }
        37 => meter.exported_total = meter.exported_total.wrapping_add(1 + u32::from(odd) % 2),
        38 => {
            let sum = meter.exported.iter().copied();
            meter.exported_total = sum.fold(0, u32::wrapping_add);
        }
        39 => {
            meter.counters[chance.below(4)] = chance.one_of(&ENDS);
            meter = totalled(meter);
        }
        40 => {
            // Another family with the counters of this one.
            meter.decimals = chance.one_of(&[0, 2, 3, 4]);
            if chance.percent(50) {
                meter = totalled(meter);
            }
        }
        22..=29 => meter.mark = 2,
        30 | 31 => meter.edition = chance.one_of(&[0, 3, odd]),
        32 => meter.tables[24] = [chance.one_of(&[0, b'1', b'5', 1]); 24],
        20 => meter.link = chance.one_of(&[0, 3, odd]),
        21 => meter.speed = 5 - meter.speed,
        0 => meter.mode = odd,
        1 => meter.attempts = odd,
        2 => meter.count = odd,
        3 | 4 => meter.mark = chance.one_of(&[1, 2, 2, 3, 255]),
        5 => meter.held[chance.below(PLACES)] = odd,
        6 => meter.serial[chance.below(10)] = odd,
        7 => meter.account[chance.below(10)] = chance.one_of(&[odd, b'-']),
        8 => meter.password[chance.below(8)] = odd,
        9 => meter.clock.day = odd,
        10 => meter.counters[chance.below(4)] = chance.bits() as u32,
        11 => meter.total = meter.total.wrapping_add(chance.one_of(&[1, u32::MAX])),
        12 => {
            meter.total = meter
                .counters
                .iter()
                .fold(0, |sum, wh| sum.wrapping_add(*wh))
        }
        13 => meter.speed = chance.one_of(&[5, odd]),
        14 => meter.place = chance.one_of(&[1, odd, meter.count]),
        15 if mode != 1 => {
            // Just one beyond the last held, or just it.
            let held: &[u8] = if mode == 0 { b"/?\0" } else { b"\x01B\0" };
            meter = holding(meter, held, true);
            meter.place = chance.one_of(&[2, 3, 3, odd]);
        }
        16..=18 => break_periods(chance, &mut meter),
        _ => meter.tables[chance.below(25)][chance.below(24)] = odd,
    }
    meter
}

/// A record of any bytes at all.
fn any_bytes(chance: &mut Chance) -> Meter {
    Meter {
        mode: chance.byte(),
        count: chance.byte(),
        mark: chance.byte(),
        place: chance.byte(),
        held: [0; PLACES].map(|_| chance.byte()),
        serial: [0; 10].map(|_| chance.byte()),
        account: [0; 10].map(|_| chance.byte()),
        password: [0; 8].map(|_| chance.byte()),
        attempts: chance.byte(),
        speed: chance.byte(),
        clock: Clock {
            year: chance.bits() as u16,
            month: chance.byte(),
            day: chance.byte(),
            hour: chance.byte(),
            minute: chance.byte(),
            second: chance.byte(),
        },
        counters: [0; 4].map(|_| chance.bits() as u32),
        total: chance.bits() as u32,
        exported: [0; 4].map(|_| chance.bits() as u32),
        exported_total: chance.bits() as u32,
        tables: [[0; 24]; 25].map(|row| row.map(|_| chance.byte())),
        closed: chance.byte(),
        periods: [(); PERIODS].map(|()| Period {
            year: chance.bits() as u16,
            month: chance.byte(),
            day: chance.byte(),
            hour: chance.byte(),
            minute: chance.byte(),
            counters: [0; 4].map(|_| chance.bits() as u32),
            exported: [0; 4].map(|_| chance.bits() as u32),
        }),
        link: chance.byte(),
        edition: chance.one_of(&[1, 2, 0, 3]),
        decimals: chance.byte(),
    }
}

/// Facts, good more often than not.
fn facts(chance: &mut Chance) -> Facts {
    let mut facts = Facts {
        serial: digits::<10>(chance).to_vec(),
        account: account(chance).to_vec(),
        password: digits::<8>(chance).to_vec(),
        clock: clock(chance),
        kind: [
            chance.one_of(&[1, 2]),
            chance.one_of(&[1, 2]),
            family(chance),
        ],
    };
    let odd = chance.byte();
    match chance.below(18) {
        14 => facts.kind[1] = chance.one_of(&[0, 3, odd]),
        15 => facts.kind[0] = chance.one_of(&[0, 3, 255]),
        16 => {
            facts.kind[2] = chance.one_of(&[1, 5, 255, odd]);
            if chance.percent(50) {
                facts.clock.day = 32;
            }
        }
        17 => {
            facts.kind = [
                chance.one_of(&[0, 1, 2]),
                chance.one_of(&[1, 3]),
                chance.one_of(&[0, 1, 4, 5]),
            ]
        }
        0 => facts.serial[chance.below(10)] = odd,
        1 => facts.account[chance.below(10)] = odd,
        2 => facts.password[chance.below(8)] = odd,
        3 => facts.serial.truncate(chance.one_of(&[0, 9])),
        4 => facts.account.push(b'1'),
        5 => facts.password.truncate(chance.below(8)),
        6 => facts.serial.push(b'1'),
        7 => facts.clock.second = chance.one_of(&[60, odd]),
        8 => facts.clock.day = chance.one_of(&[0, 30, 31, 32]),
        9 => facts.clock.year = chance.one_of(&[0, 1999, 2100, 65_535]),
        _ => {}
    }
    facts
}
