//! The speed of the meter that is changed in place: the proved library beside Rust by hand, in one run, on the
//! same bytes. A character in programming mode and the data block, the whole state checked at every call.

use benchmark::fast_meter;
use benchmark::turns::only_compares;
use dirgemist::meter::{self as library, Event};
use model::meter::{bcc, with_parity, Answer, Clock, Meter, Period, Way, PERIODS, ROOM};
use std::hint::black_box;
use std::time::Instant;
use trials::record::record_of;
use trials::words::totalled;

/// Batches; the median counts. They are short, so that whatever else the machine does spoils few.
const BATCHES: usize = 401;
/// Times that a batch plays its messages.
const TURNS: u32 = 50;

/// Bytes of a table's write.
const WRITE: usize = 36;

/// A meter that is changed in place: the model's record, or the one that the library lays out.
trait Side {
    fn of(meter: &Meter) -> Self;
    fn character(&mut self, byte: u8, buffer: &mut [u8]) -> Answer;
    /// A second goes by, and the clock is put back.
    fn tick(&mut self) -> u8;
    /// Energy goes out.
    fn out(&mut self, units: u32) -> u8;
    /// Waits for the LF of a confirmation whose first five characters are these.
    fn wait(&mut self, held: &[u8; 5]);
}

struct ByHand(Meter);

impl Side for ByHand {
    fn of(meter: &Meter) -> ByHand {
        ByHand(meter.clone())
    }

    fn character(&mut self, byte: u8, buffer: &mut [u8]) -> Answer {
        fast_meter::character(&mut self.0, byte, buffer)
    }

    fn tick(&mut self) -> u8 {
        let before = self.0.clock;
        let number = fast_meter::tick(&mut self.0).number;
        self.0.clock = before;
        number
    }

    fn out(&mut self, units: u32) -> u8 {
        fast_meter::pulse(&mut self.0, Way::Out, units).number
    }

    fn wait(&mut self, held: &[u8; 5]) {
        self.0.mode = 1;
        self.0.count = 5;
        self.0.held[..5].copy_from_slice(held);
    }
}

impl Side for library::Meter {
    fn of(meter: &Meter) -> library::Meter {
        record_of(meter)
    }

    fn character(&mut self, byte: u8, buffer: &mut [u8]) -> Answer {
        let answer = self.meet(Event::Character(byte), buffer);
        Answer {
            number: answer.number,
            speed: answer.speed,
            length: answer.length,
            place: answer.place,
        }
    }

    fn tick(&mut self) -> u8 {
        let before = self.registers.clock;
        let number = self.meet(Event::Tick, &mut []).number;
        self.registers.clock = before;
        number
    }

    fn out(&mut self, units: u32) -> u8 {
        self.meet(Event::PulseOut(units), &mut []).number
    }

    fn wait(&mut self, held: &[u8; 5]) {
        self.mode = 1;
        self.receiver.count = 5;
        self.receiver.held[..5].copy_from_slice(held);
    }
}

/// A meter of a family with something in every register.
fn meter_of(mode: u8, decimals: u8) -> Meter {
    let mut meter = Meter::blank();
    meter.mode = mode;
    meter.speed = if mode < 2 { 0 } else { 5 };
    meter.serial = *b"1234567890";
    meter.account = *b"Kiln_7 old";
    meter.password = *b"20304050";
    meter.decimals = decimals;
    meter.counters = [meter.counter_end() - 1, 1_500, 23_456_789, 400];
    if decimals != 0 {
        meter.exported = [7, 99_999_999, 0, 65_536];
    }
    meter = totalled(meter);
    meter.clock = Clock {
        year: 2024,
        month: 2,
        day: 29,
        hour: 23,
        minute: 5,
        second: 9,
    };
    for (number, row) in meter.tables[..24].iter_mut().enumerate() {
        *row = std::array::from_fn(|hour| b'1' + ((hour * 5 + number) / 3 % 4) as u8);
    }
    meter.closed = PERIODS as u8;
    for (place, period) in meter.periods.iter_mut().enumerate() {
        *period = Period {
            year: 2024,
            month: 12 - place as u8,
            day: 1,
            hour: 0,
            minute: 0,
            counters: meter.counters.map(|wh| wh / (place as u32 + 1)),
            exported: meter.exported.map(|units| units / (place as u32 + 1)),
        };
    }
    meter
}

fn meter(mode: u8) -> Meter {
    meter_of(mode, 0)
}

/// A meter of edition 2, with its table of Saturdays.
fn kilns(mode: u8) -> Meter {
    let mut meter = meter(mode);
    meter.edition = 2;
    meter.tables[24] = *b"111111112222222233333333";
    meter
}

/// A frame on the wire.
fn frame(command: &str, data: &str) -> Vec<u8> {
    let mut frame = format!("\x01{command}\x02{data}\x03").into_bytes();
    frame.push(bcc(&frame[1..]));
    frame.iter().map(|&c| with_parity(c)).collect()
}

/// The median time of a batch's part on either side, in nanoseconds. The sides take turns, so that
/// whatever else the machine does meets both.
fn medians(parts: usize, mut rust: impl FnMut(), mut library: impl FnMut()) -> (f64, f64) {
    let batch = |call: &mut dyn FnMut()| {
        let start = Instant::now();
        call();
        start.elapsed().as_nanos() as f64 / parts as f64
    };
    let mut times = (Vec::new(), Vec::new());
    // One batch is enough to compare what the sides come to.
    let batches = if only_compares() { 1 } else { BATCHES };
    for _ in 0..batches {
        times.0.push(batch(&mut rust));
        times.1.push(batch(&mut library));
    }
    let median = |mut times: Vec<f64>| {
        times.sort_by(f64::total_cmp);
        times[batches / 2]
    };
    (median(times.0), median(times.1))
}

/// Plays a stream that leaves the meter programming, so many times.
fn play(side: &mut impl Side, bytes: &[u8], buffer: &mut [u8]) {
    for _ in 0..TURNS {
        for &byte in bytes {
            let answer = black_box(&mut *side).character(black_box(byte), buffer);
            assert!(black_box(answer).number <= 1);
        }
    }
}

/// Nanoseconds for each character of such a stream.
fn stream(bytes: &[u8]) -> (f64, f64) {
    let start = meter(4);
    let (mut rust, mut library) = (ByHand::of(&start), library::Meter::of(&start));
    let (mut one, mut other) = ([0xAA; ROOM], [0xAA; ROOM]);
    let times = medians(
        TURNS as usize * bytes.len(),
        || play(&mut rust, bytes, &mut one),
        || play(&mut library, bytes, &mut other),
    );
    assert_eq!(library, record_of(&rust.0));
    assert_eq!((rust.0.mode, rust.0.count), (4, 0));
    assert_eq!(one, other);
    times
}

/// Nanoseconds for a table write of 36 bytes that comes whole.
fn whole(bytes: &[u8]) -> (f64, f64) {
    let start = meter(4);
    let (mut rust, mut library) = (start.clone(), record_of(&start));
    let (mut one, mut other) = ([0xAA; ROOM], [0xAA; ROOM]);
    let times = medians(
        TURNS as usize * bytes.len() / WRITE,
        || {
            for frame in bytes
                .chunks(WRITE)
                .cycle()
                .take(TURNS as usize * bytes.len() / WRITE)
            {
                let answer = fast_meter::frame(black_box(&mut rust), black_box(frame), &mut one);
                assert_eq!(black_box(answer).number, 1);
            }
        },
        || {
            for frame in bytes
                .chunks(WRITE)
                .cycle()
                .take(TURNS as usize * bytes.len() / WRITE)
            {
                let answer = black_box(&mut library).frame(black_box(frame), &mut other);
                assert_eq!(black_box(answer).number, 1);
            }
        },
    );
    assert_eq!(library, record_of(&rust));
    assert_eq!(one, other);
    times
}

/// Answers a confirmation by a block of some length, so many times; the five characters before the LF are
/// put back.
fn send(side: &mut impl Side, held: &[u8; 5], length: usize, buffer: &mut [u8]) {
    for _ in 0..TURNS {
        side.wait(held);
        let answer = black_box(&mut *side).character(black_box(0x0A), buffer);
        assert_eq!(black_box(answer).length, length);
    }
}

/// Nanoseconds for the call that sends the data block, with or without the closed periods.
fn block(held: &[u8; 5], start: &Meter) -> (f64, f64) {
    let periods = if held[3] == b'6' { PERIODS } else { 0 };
    let length = start.block_length() + periods * start.period_length();
    let (mut rust, mut library) = (ByHand::of(start), library::Meter::of(start));
    let (mut one, mut other) = ([0xAA; ROOM], [0xAA; ROOM]);
    let times = medians(
        TURNS as usize,
        || send(&mut rust, held, length, &mut one),
        || send(&mut library, held, length, &mut other),
    );
    assert_eq!(one, other);
    times
}

/// A meter at the last second of a month.
fn at_the_end() -> Meter {
    let mut meter = meter(4);
    (meter.clock.minute, meter.clock.second) = (59, 59);
    meter
}

/// Nanoseconds for a tick, the clock being put back.
fn tick(start: &Meter) -> (f64, f64) {
    let (mut rust, mut library) = (ByHand::of(start), library::Meter::of(start));
    let times = medians(
        TURNS as usize,
        || {
            for _ in 0..TURNS {
                assert_eq!(black_box(black_box(&mut rust).tick()), 1);
            }
        },
        || {
            for _ in 0..TURNS {
                assert_eq!(black_box(black_box(&mut library).tick()), 1);
            }
        },
    );
    assert_eq!(library, record_of(&rust.0));
    times
}

/// Nanoseconds for a pulse out of an EQM meter.
fn pulse_out() -> (f64, f64) {
    let start = meter_of(4, 3);
    let (mut rust, mut library) = (ByHand::of(&start), library::Meter::of(&start));
    let times = medians(
        TURNS as usize,
        || {
            for _ in 0..TURNS {
                assert_eq!(black_box(black_box(&mut rust).out(black_box(1_000))), 1);
            }
        },
        || {
            for _ in 0..TURNS {
                assert_eq!(black_box(black_box(&mut library).out(black_box(1_000))), 1);
            }
        },
    );
    assert_eq!(library, record_of(&rust.0));
    times
}

/// Nanoseconds for the call that gives a display the total.
fn display() -> (f64, f64) {
    let start = meter(4);
    let record = record_of(&start);
    medians(
        TURNS as usize,
        || {
            for _ in 0..TURNS {
                assert_eq!(black_box(fast_meter::total(black_box(&start))).0, 1);
            }
        },
        || {
            for _ in 0..TURNS {
                assert_eq!(black_box(black_box(&record).total()).0, 1);
            }
        },
    )
}

fn main() {
    let writes = [
        frame("W1", "Z(04;111111111111111111111111)"),
        frame("W1", "Z(17;123412341234123412341234)"),
        frame("W1", "Z(24;444433332222111144443333)"),
    ]
    .concat();
    let mixed = [
        &writes[..],
        &frame("W1", "K(Kiln_7 old)"),
        &frame("W1", "T(29-02-2024;23:05:09)"),
        &frame("R1", "T()"),
        &frame("R1", "L()"),
        &frame("R1", "K()"),
        &frame("R1", "E0()"),
        &frame("R1", "E3()"),
        &frame("R1", "Z(17)"),
    ]
    .concat();
    let rows = [
        ("a character of table writes", stream(&writes)),
        ("a character of mixed frames", stream(&mixed)),
        ("a table write that comes whole", whole(&writes)),
        (
            "the call that sends the data block",
            block(b"\x06050\r", &meter(1)),
        ),
        (
            "the same with twelve periods",
            block(b"\x06056\r", &meter(1)),
        ),
        (
            "the data block of edition 2",
            block(b"\x06050\r", &kilns(1)),
        ),
        (
            "the data block of an EQM meter",
            block(b"\x06050\r", &meter_of(1, 3)),
        ),
        (
            "the same with twelve periods",
            block(b"\x06056\r", &meter_of(1, 3)),
        ),
        ("a pulse out of an EQM meter", pulse_out()),
        ("a second", tick(&meter(4))),
        ("the second that closes a month", tick(&at_the_end())),
        ("the total for a display", display()),
    ];
    if only_compares() {
        println!("meter: the sides are equal");
        return;
    }
    println!(
        "{:<34}{:>9}{:>11}{:>7}",
        "name", "rust_ns", "rattle_ns", "ratio"
    );
    for (name, (rust, library)) in rows {
        println!(
            "{name:<34}{rust:>9.1}{library:>11.1}{:>7.2}",
            library / rust
        );
    }
}
