//! The trial of posts: the proved library against the independent model, over its C boundary.
//!
//!     post [--selftest] [--seed NUMBER] [--texts NUMBER]
//!     post --answers STEP [--seed NUMBER] [--texts NUMBER]
//!
//! With `--answers` nothing is compared: every STEPth text goes to standard output with the model's
//! answers, for a trial elsewhere.

mod answers;
mod compare;
mod fixed;
mod texts;
mod wrong;

use compare::{Comparison, Exporter, Tally, Text};
use std::cell::{Cell, RefCell};
use std::ops::ControlFlow;
use std::process::ExitCode;
use trials::chance::Chance;
use trials::memory::Guarded;

const SEED: u64 = 131;
const TEXTS: u64 = 2_000_000;

/// The texts by chance that a wrong exporter may pass at most before it is found out.
const PATIENCE: u64 = 20_000;

/// The proved library. Every other text lies in guarded memory, the rest where they are, with what
/// stands behind them.
struct Library {
    texts: RefCell<Guarded>,
    calls: Cell<u64>,
}

impl Library {
    fn new() -> Library {
        Library {
            texts: RefCell::new(Guarded::new(4_096)),
            calls: Cell::new(0),
        }
    }

    fn on<T>(&self, text: &[u8], call: impl FnOnce(&[u8]) -> T) -> T {
        self.calls.set(self.calls.get() + 1);
        if self.calls.get().is_multiple_of(2) {
            call(text)
        } else {
            call(self.texts.borrow_mut().copy(text))
        }
    }
}

impl Exporter for Library {
    fn check(&self, edition: u8, text: &[u8]) -> (u8, usize) {
        self.on(text, |text| dirgemist::post::check(edition, text))
    }
    fn export(&self, edition: u8, text: &[u8], out: &mut [u8]) -> (u8, usize, usize) {
        self.on(text, |text| dirgemist::post::export(edition, text, out))
    }
}

/// What the command line asks for.
struct Asked {
    selftest: bool,
    answers: u64,
    seed: u64,
    texts: u64,
}

fn asked() -> Result<Asked, String> {
    let mut asked = Asked {
        selftest: false,
        answers: 0,
        seed: SEED,
        texts: TEXTS,
    };
    let mut words = std::env::args().skip(1);
    while let Some(word) = words.next() {
        let mut number = || {
            let given = words.next().and_then(|word| word.parse().ok());
            given.ok_or(format!("{word} wants a number"))
        };
        match word.as_str() {
            "--selftest" => asked.selftest = true,
            "--answers" => asked.answers = number()?,
            "--seed" => asked.seed = number()?,
            "--texts" => asked.texts = number()?,
            _ => return Err(format!("unknown: {word}")),
        }
    }
    Ok(asked)
}

/// The comparison itself: every wrong exporter is found out and the right one passes.
fn selftest(seed: u64) -> Result<(), String> {
    let first_texts = |exporter: &dyn Exporter| {
        let mut chance = Chance::new(seed);
        let mut comparison = Comparison::new(exporter);
        (0..PATIENCE).try_for_each(|_| {
            let text = texts::any(&mut chance);
            let rooms = texts::rooms(text.bytes(), &mut chance);
            comparison.text(&text, &rooms)
        })
    };
    let cases = fixed::cases();
    let held = |exporter: &dyn Exporter| {
        cases
            .iter()
            .try_for_each(|case| fixed::hold(case, exporter))
    };
    for exporter in wrong::WRONG {
        // Chance alone has to find it: the fixed cases come on top.
        if first_texts(exporter).is_ok() {
            return Err(format!("selftest: not found out: {}", exporter.name));
        }
    }
    first_texts(&wrong::RIGHT).and_then(|()| held(&wrong::RIGHT))?;
    // A case that is never held to anything would pass a wrong exporter too.
    match held(&wrong::WRONG[0]) {
        Ok(()) => Err("selftest: the fixed cases pass an exporter that refuses all".into()),
        Err(_) => Ok(()),
    }
}

/// The families for either edition and then chance, up to `texts` in all: each text with its sizes of buffer.
fn each_text(
    seed: u64,
    texts: u64,
    mut each: impl FnMut(&Text, &[usize]) -> Result<(), String>,
) -> Result<(), String> {
    let mut chance = Chance::new(seed);
    let mut count = 0;
    let mut next = |text: Text, rooms: Option<&[usize]>| {
        let chosen = match rooms {
            Some(rooms) => rooms.to_vec(),
            None => texts::rooms(text.bytes(), &mut chance),
        };
        count += 1;
        match each(&text, &chosen) {
            Ok(()) => ControlFlow::Continue(()),
            Err(difference) => ControlFlow::Break(difference),
        }
    };
    for edition in [1, 2] {
        let families = texts::families(|text, rooms| next(text.of(edition), rooms));
        if let ControlFlow::Break(difference) = families {
            return Err(difference);
        }
    }
    while count < texts {
        let text = texts::any(&mut chance);
        let rooms = texts::rooms(text.bytes(), &mut chance);
        count += 1;
        each(&text, &rooms)?;
    }
    Ok(())
}

/// The fixed cases, and then every text.
fn trial(seed: u64, texts: u64) -> Result<(Tally, usize), String> {
    let library = Library::new();
    let cases = fixed::cases();
    for case in &cases {
        fixed::hold(case, &library)?;
    }
    let mut comparison = Comparison::new(&library);
    each_text(seed, texts, |text, rooms| comparison.text(text, rooms))?;
    Ok((comparison.tally, cases.len()))
}

fn run() -> Result<(), String> {
    let asked = asked()?;
    if asked.answers > 0 {
        let mut answers = answers::Answers::new(asked.answers);
        return each_text(asked.seed, asked.texts, |text, rooms| {
            answers.text(text, rooms)
        });
    }
    println!("post: seed {}", asked.seed);
    selftest(asked.seed)?;
    println!(
        "post: selftest: {} wrong exporters found out",
        wrong::WRONG.len()
    );
    if asked.selftest {
        return Ok(());
    }
    let (tally, cases) = trial(asked.seed, asked.texts)?;
    println!(
        "post: {} posts among the texts; exports done {}, refused with 16 {}, with 20 {}, with 21 {}",
        tally.posts, tally.done, tally.no_edition, tally.not_a_post, tally.no_room
    );
    println!(
        "post: {} texts for edition 2, {} of them posts, {} with a table 25",
        tally.second, tally.second_posts, tally.saturdays
    );
    if tally.second < 500_000 || tally.saturdays < 10_000 || tally.no_edition < 10_000 {
        return Err("too few texts for edition 2, or for none".into());
    }
    println!(
        "post: {} texts, {cases} fixed cases, all equal",
        tally.texts
    );
    Ok(())
}

fn main() -> ExitCode {
    match run() {
        Ok(()) => ExitCode::SUCCESS,
        Err(difference) => {
            println!("post: {difference}");
            ExitCode::FAILURE
        }
    }
}
