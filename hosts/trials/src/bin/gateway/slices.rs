//! Slices that a gateway might hand over: whole frames, and all that only look like one.

use model::meter::{with_parity, Meter, ETX, PLACES, SOH, STX};
use trials::chance::Chance;
use trials::words;

/// A frame for this meter in characters, good more often than not.
fn characters(chance: &mut Chance, meter: &Meter) -> Vec<u8> {
    match chance.below(13) {
        0 => words::good_bye(),
        12 => {
            let code = [0; 2].map(|_| chance.one_of(b"BPRWbprw0123 ~"));
            let data = chance.percent(70).then_some(&b"T()"[..]);
            words::frame(&code, data)
        }
        1 => words::password(b"()"),
        2 => words::password(&words::bracketed(&meter.password)),
        3 => {
            let wrong = words::wrong_password(chance, &meter.password);
            words::password(&words::bracketed(&wrong))
        }
        4 | 5 => words::read(&words::good_read(chance)),
        6 => words::read(&words::bad_read(chance)),
        7 | 8 => words::write(&words::good_write(chance)),
        9 => words::write(&words::bad_write(chance)),
        10 => {
            let wanted = chance.one_of(&[SOH, ETX]);
            words::write_with_bcc(chance, wanted).unwrap_or_else(words::good_bye)
        }
        _ => {
            let length = chance.between(60, 66);
            words::long_frame(chance, b"W1", length)
        }
    }
}

/// Some characters that a frame holds.
fn plain(chance: &mut Chance, count: usize) -> Vec<u8> {
    (0..count)
        .map(|_| chance.between(0x20, 0x7E) as u8)
        .collect()
}

/// SOH and characters, once or more often, each begun anew before it ends.
fn begun(chance: &mut Chance) -> Vec<u8> {
    let times = chance.between(1, 4);
    let mut all = Vec::new();
    for _ in 0..times {
        let count = match chance.below(4) {
            0 => PLACES - 1,
            1 => chance.between(PLACES - 2, PLACES + 1),
            _ => chance.below(20),
        };
        all.push(SOH);
        all.extend(plain(chance, count));
    }
    all
}

pub fn slice(chance: &mut Chance, meter: &Meter) -> Vec<u8> {
    let mut all = characters(chance, meter);
    match chance.below(20) {
        // a restart, or some, before it
        0..=3 => all.splice(0..0, begun(chance)).for_each(drop),
        // more behind it
        4 => {
            let count = chance.between(1, 3);
            all.extend(plain(chance, count));
        }
        5 => {
            let again = characters(chance, meter);
            all.extend(again);
        }
        // too short
        6 => all.truncate(chance.below(all.len() + 1)),
        // a wrong BCC, or one that is a control character
        7 => *all.last_mut().expect("a frame has a BCC") = chance.one_of(&[SOH, STX, ETX, 0, 0x7F]),
        // too long, or nearly
        8 | 9 => {
            all = vec![SOH];
            let count = chance.between(PLACES - 2, PLACES + 2);
            all.extend(plain(chance, count));
            if chance.percent(20) {
                all.splice(0..0, begun(chance)).for_each(drop);
            }
            if chance.percent(10) {
                *all.last_mut().expect("it is long") = chance.one_of(&[SOH, ETX]);
            }
        }
        // no SOH first
        10 => all[0] = chance.one_of(&[STX, ETX, b'/', 0]),
        // control characters and few others
        11 | 12 => {
            let count = chance.below(12);
            all = vec![SOH];
            all.extend((0..count).map(|_| chance.one_of(&[SOH, STX, ETX, b'B', b'0'])));
        }
        _ => (),
    }
    let mut bytes: Vec<u8> = all.into_iter().map(with_parity).collect();
    if chance.percent(15) && !bytes.is_empty() {
        for _ in 0..chance.between(1, 2) {
            let place = match chance.below(4) {
                0 => bytes.len() - 1,
                1 => chance.below(2).min(bytes.len() - 1),
                _ => chance.below(bytes.len()),
            };
            bytes[place] ^= 1 << chance.below(8);
        }
    }
    bytes
}
