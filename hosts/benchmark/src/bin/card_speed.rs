//! The speed of a card's check and reading: the proved library beside Rust by hand, in one run, on
//! the same bytes.

use ::model::card::Card;
use ::model::meter::Meter;
use benchmark::fast_card;
use benchmark::turns::{compared, medians, show};
use dirgemist::card as library;
use model::card as model;
use std::hint::black_box;
use std::process::ExitCode;
use trials::record::record_of;

#[inline(never)]
fn fast_check(edition: u8, text: &[u8]) -> (u8, usize) {
    fast_card::check(edition, text)
}

#[inline(never)]
fn fast_read(edition: u8, text: &[u8], out: &mut [u8]) -> (u8, usize, usize) {
    fast_card::read(edition, text, out)
}

#[inline(never)]
fn fast_write(meter: &Meter, out: &mut [u8]) -> (u8, usize) {
    fast_card::write(meter, out)
}

/// Both sides and the model give the same answers and the same bytes, for both editions and for
/// one that there is not.
fn equal(text: &[u8]) -> bool {
    (1..=3).all(|edition| equal_for(edition, text, library::FRAMES_LONGEST))
}

fn equal_for(edition: u8, text: &[u8], room: usize) -> bool {
    let mut outs = [(); 3].map(|()| vec![0x5A; room]);
    let [model_out, fast_out, library_out] = &mut outs;
    let answers = [
        model::export(edition, text, model_out),
        fast_card::read(edition, text, fast_out),
        library::read(edition, text, library_out),
    ];
    let checks = [
        model::check(edition, text),
        fast_card::check(edition, text),
        library::check(edition, text),
    ];
    answers[0] == answers[1]
        && answers[1] == answers[2]
        && checks[0] == checks[1]
        && checks[1] == checks[2]
        && outs[0] == outs[1]
        && outs[1] == outs[2]
}

/// The writers make the same of a record: answer and every byte of the buffer.
fn writes_equal(meter: &Meter, room: usize) -> bool {
    let (mut ours, mut theirs) = (vec![0x5A; room], vec![0x5A; room]);
    let record = record_of(meter);
    fast_write(meter, &mut ours) == library::write(&record, &mut theirs) && ours == theirs
}

/// The longest cards for every edition number and in every room, and cut anywhere; a short one with
/// every byte in every column. A good record in every room, and one that is none.
fn all_equal(longest: [&[u8]; 2], short: &[u8], meter: &Meter) -> bool {
    let damaged = |column: usize, byte: u8| {
        let mut text = short.to_vec();
        text[column] = byte;
        text
    };
    let most = library::FRAMES_LONGEST;
    let none = Meter {
        attempts: 4,
        ..meter.clone()
    };
    longest.iter().all(|card| {
        (0..=255).all(|edition| equal_for(edition, card, most))
            && (0..=most).all(|room| (1..=2).all(|edition| equal_for(edition, card, room)))
            && (0..=card.len()).all(|length| equal(&card[..length]))
    }) && (0..short.len()).all(|column| (0..=255).all(|byte| equal(&damaged(column, byte))))
        && (0..=most).all(|room| writes_equal(meter, room) && writes_equal(&none, room))
}

fn main() -> ExitCode {
    let card = |numbers: &[u8]| {
        let tables = numbers.iter().map(|&number| ::model::post::Table {
            number,
            row: std::array::from_fn(|hour| b'1' + (hour as u8 * 5 + number) / 3 % 4),
        });
        model::text_of(&Card {
            account: *b"STUDIO_7  ",
            tables: tables.collect(),
        })
    };
    let all: Vec<u8> = (1..=25).collect();
    let (longest, saturday, short) = (card(&all[..24]), card(&all), card(&[3, 25]));
    assert_eq!((longest.len(), saturday.len()), (685, library::LONGEST));
    let meter = Meter::blank();
    let mut two = Meter {
        edition: 2,
        ..meter.clone()
    };
    two.tables[24] = [b'1'; 24];
    let equal = [&meter, &two]
        .iter()
        .all(|meter| all_equal([&longest, &saturday], &short, meter));
    if let Some(status) = compared("card", equal) {
        return status;
    }
    let mut hurt = longest.clone();
    let last = hurt.len() - 1;
    hurt[last] = b'5';
    let check = |edition: u8, text: &[u8]| {
        medians(
            &mut [],
            |_| {
                black_box(fast_check(black_box(edition), black_box(text)));
            },
            |_| {
                black_box(library::check(black_box(edition), black_box(text)));
            },
        )
    };
    let read = |edition: u8, text: &[u8]| {
        medians(
            &mut [0; 1024],
            |out| {
                black_box(fast_read(
                    black_box(edition),
                    black_box(text),
                    black_box(out),
                ));
            },
            |out| {
                black_box(library::read(
                    black_box(edition),
                    black_box(text),
                    black_box(out),
                ));
            },
        )
    };
    let write = |meter: &Meter| {
        let record = record_of(meter);
        assert_eq!(fast_write(meter, &mut [0; 1024]).0, 1);
        medians(
            &mut [0; 1024],
            |out| {
                black_box(fast_write(black_box(meter), black_box(out)));
            },
            |out| {
                black_box(library::write(black_box(&record), black_box(out)));
            },
        )
    };
    show([
        ("check, longest card of edition 1", check(1, &longest)),
        ("check, longest card of edition 2", check(2, &saturday)),
        (
            "check, a wrong zone at the end of edition 1's",
            check(1, &hurt),
        ),
        ("read, longest card of edition 1", read(1, &longest)),
        ("read, longest card of edition 2", read(2, &saturday)),
        ("write, edition 1, the record checked", write(&meter)),
        ("write, edition 2, the record checked", write(&two)),
    ])
}
