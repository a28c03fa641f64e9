//! Holds the head's bench against the model: fixed lines, then lines by chance, good and damaged.
//!
//! `headbench PROGRAM [SEED [LINES]]`; PROGRAM may be `'hosts/run headbench'`, with its arguments

mod lines;
mod reached;

use model::headbench::Bench;
use model::session::{fact, Meters};
use reached::Reached;
use std::process::ExitCode;
use trials::chance::Chance;
use trials::program::{self, Played};

const SEED: u64 = 24;
const LINES: u64 = 500_000;
/// Lines of one script.
const SCRIPT_LINES: u64 = 20_000;

/// A script in the making, with the model's answers.
struct Script<'a> {
    played: Played,
    bench: Bench,
    reached: &'a mut Reached,
}

impl Script<'_> {
    fn new(name: String, reached: &mut Reached) -> Script<'_> {
        Script {
            played: Played {
                name,
                script: Vec::new(),
                transcript: String::new(),
                answered: Vec::new(),
                state: |_| String::new(),
            },
            bench: Bench::default(),
            reached,
        }
    }

    fn line(&mut self, line: &[u8]) {
        let standing = self.bench.session().map(|(session, _)| *session);
        let told = self.bench.answer(line);
        if let (Some(before), Some((after, work))) = (standing, self.bench.session()) {
            if line.starts_with(b"reply") && (before.fact, after.fact) == (0, fact::WRONG) {
                self.reached.wrong(&before, work);
            }
        }
        self.reached.line(line, told.as_deref());
        self.reached.around(line, told.as_deref(), standing);
        let played = &mut self.played;
        played.answered.push(played.answered.len());
        played.script.extend(line);
        played.script.push(b'\n');
        played.transcript += told.as_deref().unwrap_or("error");
        played.transcript.push('\n');
    }
}

/// Whole sessions, of 1 to 32 reads and of posts of 1 to 24 lines, or to 25 of edition 2.
fn sessions(script: &mut Script, chance: &mut Chance) {
    let kinds = [
        (1, 0, "reads", 32),
        (2, 0, "reads", 32),
        (1, 2, "reads", 32),
        (2, 3, "reads", 32),
        (1, 4, "reads", 32),
        (1, 0, "post", 24),
        (2, 0, "post", 25),
        (2, 4, "post", 25),
    ];
    for (edition, decimals, kind, most) in kinds {
        for count in 1..=most {
            let meters = Meters { edition, decimals };
            script.line(&lines::session(chance, meters, kind, count));
            while let Some(line) = lines::right(chance, script.bench.session()) {
                script.line(&line);
            }
            script.line(b"quiet");
        }
    }
}

fn trial() -> Result<String, String> {
    let arguments: Vec<String> = std::env::args().skip(1).collect();
    let number = |place: usize, default| match arguments.get(place) {
        None => Ok(default),
        Some(text) => text
            .parse::<u64>()
            .map_err(|_| format!("'{text}' is not a number")),
    };
    let (seed, lines) = (number(1, SEED)?, number(2, LINES)?);
    let Some(program) = arguments.first().filter(|_| arguments.len() <= 3) else {
        return Err("usage: headbench PROGRAM [SEED [LINES]]".into());
    };
    println!("headbench: seed {seed}, at least {lines} lines");
    let mut reached = Reached::default();

    let mut fixed = Script::new("fixed lines".into(), &mut reached);
    for line in lines::fixed() {
        fixed.line(&line);
    }
    sessions(&mut fixed, &mut Chance::new(seed));
    fixed.line(b"build any 64");
    let mut played = fixed.played;
    program::compare(program, &played)?;
    played.name += ", the last without its LF";
    played.script.pop();
    program::compare(program, &played)?;

    let mut seeds = Chance::new(seed);
    while reached.lines < lines {
        let seed = seeds.bits();
        let mut chance = Chance::new(seed);
        let mut script = Script::new(format!("by chance, {seed:016x}"), &mut reached);
        for _ in 0..SCRIPT_LINES {
            let line = lines::any(&mut chance, script.bench.session());
            script.line(&line);
        }
        let played = script.played;
        // A transcript that differs in its last byte but one has to be noticed.
        let mut wrong = played.transcript.clone().into_bytes();
        let place = wrong.len() - 2;
        wrong[place] ^= 1;
        if program::difference(&played, &wrong).is_ok() {
            return Err("a wrong transcript passes".into());
        }
        program::compare(program, &played)?;
    }
    let missed = reached.missed();
    if !missed.is_empty() {
        return Err(format!("never reached: {}", missed.join("; ")));
    }
    Ok(format!(
        "headbench: {} lines, {} of them errors, all equal; reached all of {}",
        reached.lines,
        reached.errors,
        reached::aims().len()
    ))
}

fn main() -> ExitCode {
    match trial() {
        Ok(summary) => {
            println!("{summary}");
            ExitCode::SUCCESS
        }
        Err(complaint) => {
            println!("headbench: {complaint}");
            ExitCode::FAILURE
        }
    }
}
