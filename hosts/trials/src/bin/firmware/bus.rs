//! Eight meters on one wire: each hears every line, and just the one that is called answers.

use crate::library::{Clock, Date, Event, Kind, Meter, Time, REPLY_ROOM};
use trials::chance::Chance;
use trials::words::wired_line;

const METERS: usize = 8;
const LINES: usize = 20_000;

fn meters(chance: &mut Chance) -> Vec<([u8; 10], Meter)> {
    let clock = Clock {
        date: Date {
            year: 2026,
            month: 3,
            day: 1,
        },
        time: Time {
            hour: 7,
            minute: 30,
            second: 0,
        },
    };
    let kind = Kind {
        link: 2,
        ..Kind::default()
    };
    (0..METERS)
        .map(|place| {
            let mut serial: [u8; 10] = trials::words::digits(chance);
            // One digit apart, so that they are eight and near to each other.
            serial[9] = b'0' + place as u8;
            let (number, meter) = Meter::make(&serial, b"Kiln_7 old", b"20304050", clock, kind);
            assert_eq!(number, 1);
            (serial, meter)
        })
        .collect()
}

/// A line that calls one of them, none, or is not of this link.
fn line(chance: &mut Chance, meters: &[([u8; 10], Meter)]) -> Vec<u8> {
    let (serial, _) = meters[chance.below(METERS)];
    match chance.below(8) {
        0 => wired_line(b'g', &serial),
        1 => b"/?!\r\n".to_vec(),
        2 => b"/C!\r\n".to_vec(),
        3 => wired_line(b'A', &trials::words::digits::<10>(chance)),
        4 => {
            let mut near = wired_line(b'A', &serial);
            let at = chance.below(near.len() - 2);
            near[at] = chance.byte() & 0x7F;
            near
        }
        _ => wired_line(b'A', &serial),
    }
}

/// Each line to all of them: who says something is who was called, and the others keep all but what
/// they have received.
pub fn trial(seed: u64) -> Result<usize, String> {
    let chance = &mut Chance::new(seed);
    let mut answered = [0; METERS];
    for _ in 0..LINES {
        let mut meters = meters(chance);
        let line = line(chance, &meters);
        for (place, (serial, meter)) in meters.iter_mut().enumerate() {
            let before = *meter;
            let mut said = Vec::new();
            for &character in &line {
                let byte = model::meter::with_parity(character);
                let mut reply = [0; REPLY_ROOM];
                let answer = meter.meet(Event::Character(byte), &mut reply);
                said.extend(reply[..answer.length].iter().map(|byte| byte & 0x7F));
            }
            let called = line == wired_line(b'A', serial);
            let wanted = if called {
                wired_line(b'g', serial)
            } else {
                Vec::new()
            };
            if said != wanted {
                return Err(format!(
                    "meter {place} of {serial:?} on {line:?}: said {said:?}"
                ));
            }
            let kept = Meter {
                receiver: before.receiver,
                ..*meter
            };
            if !called && kept != before {
                return Err(format!("meter {place} of {serial:?} on {line:?}: changed"));
            }
            answered[place] += usize::from(called);
        }
    }
    if answered.contains(&0) {
        return Err("a meter of the wire was never called".into());
    }
    Ok(LINES)
}
