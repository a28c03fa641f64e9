//! The speed of a Mercury meter's reading: the proved library beside Rust by hand, in one run, on
//! the same bytes.

use benchmark::fast_mercury;
use benchmark::turns::{compared, medians, show};
use dirgemist::mercury as library;
use model::mercury as model;
use std::hint::black_box;
use std::process::ExitCode;

const ADDRESS: u8 = 0x80;

#[inline(never)]
fn fast_crc(message: &[u8]) -> u16 {
    fast_mercury::crc(message)
}

#[inline(never)]
fn fast_crc_of_eights(message: &[u8]) -> u16 {
    fast_mercury::crc_of_eights(message)
}

#[inline(never)]
fn fast_read(address: u8, answer: &[u8]) -> library::Told {
    fast_mercury::read(address, answer)
}

/// Both sides give the same, on the bytes that are timed and with every bit of the answer hurt.
fn all_equal(message: &[u8], answer: &[u8]) -> bool {
    let crcs = |length: usize| {
        let message = &message[..length];
        let crc = library::crc(message);
        fast_mercury::crc(message) == crc && fast_mercury::crc_of_eights(message) == crc
    };
    let reads = |address: u8, answer: &[u8]| {
        fast_mercury::read(address, answer) == library::told(address, answer)
    };
    (0..=message.len()).all(crcs)
        && (0..=255).all(|address| reads(address, answer))
        && (0..=message.len()).all(|length| reads(ADDRESS, &message[..length]))
        && (0..=255).all(|code| reads(ADDRESS, &model::closed(vec![ADDRESS, code])))
        && (0..8 * answer.len()).all(|bit| {
            let mut hurt = answer.to_vec();
            hurt[bit / 8] ^= 1 << (bit % 8);
            reads(ADDRESS, &hurt)
        })
}

fn main() -> ExitCode {
    let message: Vec<u8> = (0..1024_u32).map(|i| (i * 37 % 251) as u8).collect();
    let answer = model::energy(ADDRESS, [Some(2672), None, Some(1000), Some(0)]);
    if let Some(status) = compared("mercury", all_equal(&message, &answer)) {
        return status;
    }
    let by_byte = medians(
        &mut [],
        |_| {
            black_box(fast_crc(black_box(&message)));
        },
        |_| {
            black_box(library::crc(black_box(&message)));
        },
    );
    let by_eights = medians(
        &mut [],
        |_| {
            black_box(fast_crc_of_eights(black_box(&message)));
        },
        |_| {
            black_box(library::crc(black_box(&message)));
        },
    );
    let read = medians(
        &mut [],
        |_| {
            black_box(fast_read(ADDRESS, black_box(&answer)));
        },
        |_| {
            black_box(library::told(ADDRESS, black_box(&answer)));
        },
    );
    show([
        ("CRC of 1 KiB, Rust by bytes", by_byte),
        ("CRC of 1 KiB, Rust by eights", by_eights),
        ("an answer read", read),
    ])
}
