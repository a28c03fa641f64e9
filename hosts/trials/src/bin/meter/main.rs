//! Holds a bench program against the model: fixed scripts, sweeps and scripts by chance.
//!
//! `meter PROGRAM [SEED [EVENTS [brief]]]`; PROGRAM may be `'hosts/run bench'`, with its arguments.
//! A brief trial has no sweeps, and of what has to be reached only every answer.

mod aims;
mod fixed;
mod player;
mod reached;
mod sweeps;

use reached::Reached;
use std::process::ExitCode;
use std::time::Instant;
use trials::chance::Chance;
use trials::program::{self, Played};

const SEED: u64 = 1;
const EVENTS: u64 = 1_500_000;
/// Events of one script by chance.
const SCRIPT_EVENTS: u64 = 60_000;

fn main() -> ExitCode {
    match trial() {
        Ok(summary) => {
            println!("{summary}");
            ExitCode::SUCCESS
        }
        Err(complaint) => {
            println!("meter: {complaint}");
            ExitCode::FAILURE
        }
    }
}

fn trial() -> Result<String, String> {
    let arguments: Vec<String> = std::env::args().skip(1).collect();
    let number = |place: usize, default| match arguments.get(place) {
        None => Ok(default),
        Some(text) => text
            .parse::<u64>()
            .map_err(|_| format!("'{text}' is not a number")),
    };
    let brief = arguments.get(3).is_some_and(|word| word == "brief");
    let most = if brief { 4 } else { 3 };
    let Some(program) = arguments.first().filter(|_| arguments.len() <= most) else {
        return Err("usage: meter PROGRAM [SEED [EVENTS [brief]]]".into());
    };
    let seed = number(1, SEED)?;
    let events = number(2, EVENTS)?;
    println!("seed {seed}, at least {events} events");

    let start = Instant::now();
    let scripts = fixed::all();
    for played in &scripts {
        let mut transcript = Vec::new();
        model::bench::run(&played.script[..], &mut transcript)
            .map_err(|error| error.to_string())?;
        program::difference(played, &transcript)
            .map_err(|difference| format!("the model fails a fixed script\n{difference}"))?;
        program::compare(program, played)?;
    }
    println!("fixed scripts: {}", scripts.len());

    let mut reached = Reached::new();
    let mut sizes = (0, 0);
    let mut hold = |played: Played| {
        sizes.0 += played.script.len();
        sizes.1 += played.transcript.len();
        program::compare(program, &played)
    };
    if !brief {
        sweeps::all(seed, &mut reached, &mut hold)?;
        println!("events of the sweeps: {}", reached.events);
    }
    let mut seeds = Chance::new(seed);
    while reached.events < events {
        let seed = seeds.bits();
        let most = SCRIPT_EVENTS.min(events - reached.events);
        let name = format!("by chance, {seed:016x}");
        hold(aims::script(name, seed, most, &mut reached))?;
    }

    let missed = if brief {
        reached.print_answers()
    } else {
        reached.print()
    };
    println!("script bytes: {}, transcript bytes: {}", sizes.0, sizes.1);
    println!("seconds: {:.1}", start.elapsed().as_secs_f64());
    if !missed.is_empty() {
        return Err(format!("never reached: {}", missed.join("; ")));
    }
    Ok(format!(
        "meter: {} events, {} fixed scripts, all equal",
        reached.events,
        scripts.len()
    ))
}
