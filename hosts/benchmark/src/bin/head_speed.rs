//! The speed of the head's reading: the proved library beside Rust by hand, in one run, on the same
//! data block.

use benchmark::fast_head;
use benchmark::turns::{compared, medians, show};
use dirgemist::head as library;
use model::head::{self, answer, Clock, Lookup, Registers, Step};
use std::hint::black_box;
use std::process::ExitCode;

/// The address of the total, the ninth of the 33 sets, and that of the last table.
const TOTAL: &[u8] = b"15.8.0";
const LAST: &[u8] = b"131.0.24";

/// A meter's registers, each its own.
fn registers() -> Registers {
    Registers {
        serial: *b"0123456789",
        account: *b"Kiln_7 Abc",
        clock: Clock {
            year: 2024,
            month: 2,
            day: 29,
            hour: 23,
            minute: 59,
            second: 58,
        },
        decimals: 0,
        counters: [1_500, 999_999_999, 0, 123_456_789],
        exported: [0; 4],
        tables: (0..24)
            .map(|table| std::array::from_fn(|hour| b'1' + ((7 * table + 3 * hour) % 4) as u8))
            .collect(),
        periods: Vec::new(),
    }
}

/// The library's step in the words of the other side.
#[inline(always)]
fn library_next(sets: &[u8], at: usize) -> Step {
    let step = library::next(sets, at);
    Step {
        answer: step.number,
        address_length: step.address_length,
        value_length: step.value_length,
        next: step.next,
        place: step.place,
    }
}

/// The same of a lookup.
#[inline(always)]
fn library_find(sets: &[u8], address: &[u8]) -> Lookup {
    let found = library::find(sets, address);
    Lookup {
        answer: found.number,
        count: found.count,
        place: found.place,
        address_start: found.address_start,
        address_length: found.address_length,
        value_start: found.value_start,
        value_length: found.value_length,
    }
}

// The hand-written side behind calls that are not inlined, as the library's are.

#[inline(never)]
fn fast_strip(reply: &[u8], out: &mut [u8]) -> (u8, usize, usize) {
    fast_head::strip(reply, out)
}

#[inline(never)]
fn fast_part(stripped: &[u8]) -> (u8, usize, usize) {
    fast_head::part(stripped)
}

#[inline(never)]
fn fast_next(sets: &[u8], at: usize) -> Step {
    fast_head::next(sets, at)
}

#[inline(never)]
fn fast_find(sets: &[u8], address: &[u8]) -> Lookup {
    fast_head::find(sets, address)
}

/// Reads all data sets through one reader: the last answer, how many were read, and where it stays.
#[inline(always)]
fn read_all(next: impl Fn(&[u8], usize) -> Step, sets: &[u8]) -> (u8, usize, usize) {
    let (mut count, mut at) = (0, 0);
    loop {
        let step = next(sets, at);
        if step.answer != answer::DONE {
            return (step.answer, count, at);
        }
        count += 1;
        at = step.next;
    }
}

/// Both sides give the same answers and the same bytes, on the block that is timed and on it
/// with every byte hurt.
fn all_equal(wire: &[u8], block: &[u8], sets: &[u8]) -> bool {
    let strips = |reply: &[u8]| {
        let (mut one, mut other) = (vec![0x5A; reply.len() + 1], vec![0x5A; reply.len() + 1]);
        fast_head::strip(reply, &mut one) == library::strip(reply, &mut other) && one == other
    };
    let hurt = |bytes: &[u8], place: usize, bit: u32| {
        let mut bytes = bytes.to_vec();
        bytes[place] ^= 1 << bit;
        bytes
    };
    let bits = || 0..8;
    strips(wire)
        && fast_head::part(block) == library::part(block)
        && read_all(fast_next, sets) == read_all(library_next, sets)
        && (0..wire.len()).all(|place| bits().all(|bit| strips(&hurt(wire, place, bit))))
        && (0..block.len()).all(|place| {
            bits().all(|bit| {
                let block = hurt(block, place, bit);
                fast_head::part(&block) == library::part(&block)
            })
        })
        && (0..sets.len()).all(|place| {
            bits().all(|bit| {
                let sets = hurt(sets, place, bit);
                fast_head::next(&sets, place / 36 * 36) == library_next(&sets, place / 36 * 36)
                    && fast_find(&sets, TOTAL) == library_find(&sets, TOTAL)
            })
        })
}

fn main() -> ExitCode {
    let sets = registers().data();
    let block = head::block(&sets);
    let wire = head::on_the_wire(&block);
    assert_eq!(wire.len(), 1_063);
    if let Some(status) = compared("head", all_equal(&wire, &block, &sets)) {
        return status;
    }
    let strip = medians(
        &mut vec![0; wire.len()],
        |out| {
            black_box(fast_strip(black_box(&wire), black_box(out)));
        },
        |out| {
            black_box(library::strip(black_box(&wire), black_box(out)));
        },
    );
    let part = medians(
        &mut [],
        |_| {
            black_box(fast_part(black_box(&block)));
        },
        |_| {
            black_box(library::part(black_box(&block)));
        },
    );
    let called = medians(
        &mut [],
        |_| {
            black_box(read_all(fast_next, black_box(&sets)));
        },
        |_| {
            black_box(read_all(library_next, black_box(&sets)));
        },
    );
    let inlined = medians(
        &mut [],
        |_| {
            black_box(fast_head::read_all(black_box(&sets)));
        },
        |_| {
            black_box(read_all(library_next, black_box(&sets)));
        },
    );
    let [total, last] = [TOTAL, LAST].map(|address| {
        medians(
            &mut [],
            |_| {
                black_box(fast_find(black_box(&sets), black_box(address)));
            },
            |_| {
                black_box(library_find(black_box(&sets), black_box(address)));
            },
        )
    });
    show([
        ("strip, data block", strip),
        ("part, data block", part),
        ("33 data sets, each a call", called),
        ("33 data sets, Rust inlined", inlined),
        ("find the total, ninth of 33", total),
        ("find the last of 33", last),
    ])
}
