//! What the speed programs share: the word `equal`, two sides timed in turns, the table.

use std::env;
use std::process::{exit, ExitCode};
use std::time::Instant;

/// Calls in a batch, and batches on each side; the median batch counts. Most batches are short
/// beside another process's turn, so that few are cut in two by one.
const CALLS: u32 = 1_000;
const BATCHES: usize = 801;

/// Whether the program was asked to compare the sides and to time nothing.
pub fn only_compares() -> bool {
    let words: Vec<String> = env::args().skip(1).collect();
    if !words.is_empty() && words != ["equal"] {
        eprintln!("the only word there is: equal, to compare the sides and time nothing");
        exit(2);
    }
    !words.is_empty()
}

/// Says whether the sides are equal. Hands back the exit status where that is all: they differ, or
/// nothing is to be timed.
pub fn compared(name: &str, equal: bool) -> Option<ExitCode> {
    let only_compares = only_compares();
    if equal {
        println!("{name}: the sides are equal");
        only_compares.then_some(ExitCode::SUCCESS)
    } else {
        println!("{name}: the sides differ; nothing is timed");
        Some(ExitCode::FAILURE)
    }
}

/// The median time of a call on either side, in nanoseconds. The sides take turns, so that whatever
/// else the machine does meets both, and write to one buffer.
pub fn medians(
    out: &mut [u8],
    mut rust: impl FnMut(&mut [u8]),
    mut library: impl FnMut(&mut [u8]),
) -> (f64, f64) {
    let mut times = (Vec::new(), Vec::new());
    for _ in 0..BATCHES {
        let start = Instant::now();
        (0..CALLS).for_each(|_| rust(out));
        let between = Instant::now();
        (0..CALLS).for_each(|_| library(out));
        times.0.push(between - start);
        times.1.push(between.elapsed());
    }
    let [hand, proved] = [times.0, times.1].map(|mut times| {
        times.sort();
        times[BATCHES / 2].as_nanos() as f64 / f64::from(CALLS)
    });
    (hand, proved)
}

/// Prints the table of what was timed.
pub fn show<'a>(rows: impl IntoIterator<Item = (&'a str, (f64, f64))>) -> ExitCode {
    println!(
        "{:<46}{:>10}{:>11}{:>7}",
        "name", "rust_ns", "rattle_ns", "ratio"
    );
    for (name, (rust, library)) in rows {
        println!(
            "{name:<46}{rust:>10.1}{library:>11.1}{:>7.2}",
            library / rust
        );
    }
    ExitCode::SUCCESS
}
