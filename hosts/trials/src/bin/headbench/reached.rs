//! Counts what the lines reached, from the line and its answer and not from what was meant.

use model::session::Session;
use std::collections::BTreeMap;
use trials::session_words::identification;

/// Each call with the numbers that it can answer.
const CALLS: &[(&str, &[u8])] = &[
    ("build any", &[1, 19]),
    ("build close", &[1, 19]),
    ("build serial", &[1, 9, 19]),
    ("build wired", &[1, 9, 19]),
    ("build confirm", &[1, 9, 19]),
    ("build readonly", &[1, 19]),
    ("build password", &[1, 9, 19]),
    ("build clock", &[1, 19]),
    ("build number", &[1, 19]),
    ("build account", &[1, 19]),
    ("build energy", &[1, 9, 19]),
    ("build out", &[1, 9, 19]),
    ("build table", &[1, 9, 16, 19]),
    ("build setclock", &[1, 9, 19]),
    ("build setaccount", &[1, 9, 19]),
    ("build settable", &[1, 9, 16, 19]),
    ("build break", &[1, 19]),
    ("value serial", &[1, 25]),
    ("value account", &[1, 25]),
    ("value row", &[1, 25]),
    ("value counter", &[1, 25]),
    ("value eqm", &[1, 18, 25]),
    ("value date", &[1, 25]),
    ("value time", &[1, 25]),
    ("value period", &[1, 25]),
    ("mercury ask", &[1, 54, 55]),
    ("mercury read", &[1, 50, 51, 52, 53]),
    ("check", &[1, 16, 20]),
    ("export", &[1, 16, 20, 21]),
    ("card", &[1, 16, 40, 41]),
    ("strip", &[1, 24, 26]),
    ("part", &[1, 22, 23]),
    ("next", &[0, 1, 25]),
    ("find", &[1, 25, 27]),
    ("session", &[1, 9, 16, 18, 20, 28, 29, 30]),
];

/// What must have happened beside that.
const MORE: &[&str] = &[
    "room of more than 32 bits",
    "room of 64 bits and one",
    "room exact: build",
    "room exact: export",
    "room exact: card",
    "room exact: strip",
    "empty text",
    "empty line",
    "capital hex",
    "word too many",
    "word missing",
    "number too great for 8 bits",
    "number too great for 16 bits",
    "number with zeros before it",
    "odd hex",
    "line of the greatest length",
    "line that is one too long",
    "total asked for",
    "total of what went out asked for",
    "a value of 2 decimals",
    "a value of 3 decimals",
    "a value of 4 decimals",
    "a value of other decimals",
    "session: 9 for G in document 01's family",
    "a session of 2 decimals done",
    "a session of 3 decimals done",
    "a session of 4 decimals done",
    "a wrong reply to E of EQM meters",
    "a wrong reply to G",
    "table 24",
    "table 25",
    "table 25 of edition 1",
    "16 with too little room",
    "25 lines exported",
    "25 lines for edition 1",
    "a card of 25 tables read",
    "a session of edition 2 done",
    "the last message of 25 lines",
    "the other edition's identification",
    "24 lines exported",
    "a card of 24 tables read",
    "place past the end",
    "a filling byte that was written",
    "a register found behind others",
    "a quantity that was not measured",
    "reply: next",
    "reply: done",
    "reply: nak",
    "reply: wrong",
    "reply: silence",
    "quiet: done",
    "quiet: nak",
    "quiet: wrong",
    "quiet: silence",
    "reply with no session",
    "quiet with no session",
    "session that is an error in the middle of another",
    "session in the middle of another",
    "the last message of 32 reads",
    "the last message of 24 lines",
    "damage at the first byte",
    "damage at the last byte",
    "damage at more than one byte",
    "the block with periods confirmed",
    "a period's line read",
    "a period's line found",
];

#[derive(Default)]
pub struct Reached {
    pub lines: u64,
    pub errors: u64,
    met: BTreeMap<String, u64>,
}

/// Everything that must be reached.
pub fn aims() -> Vec<String> {
    let calls = CALLS.iter().flat_map(|(call, numbers)| {
        numbers
            .iter()
            .map(move |number| format!("{call}: {number}"))
    });
    calls.chain(MORE.iter().map(|&aim| aim.into())).collect()
}

/// The line that brings the other edition's identification.
fn other(edition: u8) -> String {
    let mut line = String::from("reply ");
    model::bench::put_hex(&mut line, &identification(3 - edition));
    line
}

fn hex_length(word: &str) -> usize {
    if word == "-" {
        0
    } else {
        word.len() / 2
    }
}

/// Whether an address, by where it stands in data of hex, holds '*'.
fn has_star(data: &str, start: &str, length: &str) -> bool {
    let number = |word: &str| word.parse::<usize>().expect("it was told");
    let (start, length) = (number(start), number(length));
    let address = &data.as_bytes()[2 * start..2 * (start + length)];
    address.chunks(2).any(|pair| pair == b"2a")
}

impl Reached {
    fn reach(&mut self, aim: &str) {
        *self.met.entry(aim.into()).or_default() += 1;
    }

    pub fn missed(&self) -> Vec<String> {
        let mut missed = aims();
        missed.retain(|aim| !self.met.contains_key(aim));
        missed
    }

    /// A line and its answer.
    pub fn line(&mut self, line: &[u8], told: Option<&str>) {
        self.lines += 1;
        let words: Vec<&str> = match std::str::from_utf8(line) {
            Ok(text) => text.split(' ').collect(),
            Err(_) => Vec::new(),
        };
        match told {
            Some(told) => self.answered(&words, told),
            None => self.refused(line, &words),
        }
    }

    /// The same line, and the session that stood before it.
    pub fn around(&mut self, line: &[u8], told: Option<&str>, standing: Option<Session>) {
        let middle = standing.is_some_and(|session| session.fact == 0 && session.sent > 1);
        if line.starts_with(b"session ") && middle {
            self.reach(match told {
                Some(_) => "session in the middle of another",
                None => "session that is an error in the middle of another",
            });
        }
        match line {
            b"reply 06" if standing.is_none() => self.reach("reply with no session"),
            b"quiet" if standing.is_none() => self.reach("quiet with no session"),
            _ => {}
        }
        match (standing, told) {
            (Some(session), Some("next 36 8142300371")) if session.count == 32 => {
                self.reach("the last message of 32 reads");
            }
            (Some(session), Some("next 28 8142300371")) if session.count == 24 => {
                self.reach("the last message of 24 lines");
            }
            (Some(session), Some("next 29 8142300371")) if session.work == 1 => {
                self.reach("the last message of 25 lines");
            }
            (Some(session), Some("wrong 1 -")) if line == other(session.edition).as_bytes() => {
                self.reach("the other edition's identification");
            }
            (Some(session), Some(told)) if session.edition == 2 && told.starts_with("done ") => {
                self.reach("a session of edition 2 done");
            }
            _ => {}
        }
        if let (Some(session), Some(told)) = (standing, told) {
            if told.starts_with("done ") && (2..=4).contains(&session.decimals) {
                self.reach(&format!("a session of {} decimals done", session.decimals));
            }
        }
    }

    /// A reply that was wrong to a question for energy of EQM meters.
    pub fn wrong(&mut self, session: &Session, work: &[u8]) {
        let asked = work.get(usize::from(session.sent).wrapping_sub(4) * 2);
        match asked {
            Some(b'E') if session.decimals != 0 => self.reach("a wrong reply to E of EQM meters"),
            Some(b'G') => self.reach("a wrong reply to G"),
            _ => {}
        }
    }

    fn answered(&mut self, words: &[&str], told: &str) {
        let told: Vec<&str> = told.split(' ').collect();
        let (call, rest) = match words[0] {
            "build" | "value" | "mercury" => (words[..2].join(" "), &words[2..]),
            _ => (words[0].to_string(), &words[1..]),
        };
        self.reach(&format!("{call}: {}", told[0]));
        let done = told[0] == "1";
        let has_room =
            call.starts_with("build") || matches!(&call[..], "export" | "card" | "strip");
        // The edition stands before the room of these, and behind that of a table's command.
        let (edition, rest) = match &call[..] {
            "check" | "export" | "card" | "session" => (Some(rest[0]), &rest[1..]),
            "build table" | "build settable" => (Some(rest[1]), rest),
            _ => (None, rest),
        };
        if has_room {
            let room: u64 = rest[0].parse().expect("it was taken");
            let exact = match (words[0], done) {
                ("build", true) => room == 64,
                (_, true) => Some(room) == told[1].parse().ok(),
                _ => false,
            };
            if exact {
                self.reach(&format!("room exact: {}", words[0]));
            }
            if room > u64::from(u32::MAX) {
                self.reach("room of more than 32 bits");
            }
            if rest[0].starts_with('0') && rest[0].len() > 1 {
                self.reach("number with zeros before it");
            }
            if done && told[2].ends_with("aa") {
                self.reach("a filling byte that was written");
            }
        }
        match (&call[..], done) {
            ("build energy", true) if rest[1] == "0" => self.reach("total asked for"),
            ("build out", true) if rest[1] == "0" => {
                self.reach("total of what went out asked for");
            }
            ("value eqm", true) => self.reach(&format!("a value of {} decimals", rest[0])),
            ("value eqm", false) if told[0] == "25" => {
                let read = |decimals: &str| {
                    let line = ["value eqm", decimals, rest[1]].join(" ");
                    model::headbench::answer(line.as_bytes()).is_some_and(|told| &told[..2] == "1 ")
                };
                if ["2", "3", "4"].into_iter().any(read) {
                    self.reach("a value of other decimals");
                }
            }
            ("session", false)
                if told[0] == "9"
                    && rest[0] == "0"
                    && rest.iter().any(|word| word.starts_with('G')) =>
            {
                self.reach("session: 9 for G in document 01's family");
            }
            ("build table" | "build settable", true) if rest[2] == "24" => self.reach("table 24"),
            ("build table" | "build settable", true) if rest[2] == "25" => self.reach("table 25"),
            ("build table", false) if edition == Some("1") && rest[2] == "25" => {
                self.reach("table 25 of edition 1");
            }
            ("build table" | "export" | "card", false)
                if told[0] == "16" && rest[0].parse::<u64>().is_ok_and(|room| room < 19) =>
            {
                self.reach("16 with too little room");
            }
            ("export", true) if told[1] == "900" => self.reach("25 lines exported"),
            ("check", false) if told[1] == "864" && edition == Some("1") => {
                self.reach("25 lines for edition 1");
            }
            ("card", true) if told[1] == "919" => self.reach("a card of 25 tables read"),
            ("strip", false) if told[0] == "24" => self.hurt(rest[1], told[3]),
            ("build confirm", true) if rest[2] == "36" => {
                self.reach("the block with periods confirmed");
            }
            ("next", true) if has_star(rest[1], told[2], told[3]) => {
                self.reach("a period's line read");
            }
            ("find", true) if has_star(rest[1], told[3], told[4]) => {
                self.reach("a period's line found");
            }
            ("card", true) if told[1] == "883" => self.reach("a card of 24 tables read"),
            ("export", true) if told[1] == "864" => self.reach("24 lines exported"),
            ("find", true) if told[1] != "1" => self.reach("a register found behind others"),
            ("mercury read", true) if told.contains(&"-") => {
                self.reach("a quantity that was not measured");
            }
            ("next", false) => {
                let at: u64 = rest[0].parse().expect("it was taken");
                if at > hex_length(rest[1]) as u64 {
                    self.reach("place past the end");
                }
            }
            _ => {}
        }
        if rest.last() == Some(&"-") {
            self.reach("empty text");
        }
        let length = words.iter().map(|word| word.len() + 1).sum::<usize>() - 1;
        if length == model::bench::LINE_MOST {
            self.reach("line of the greatest length");
        }
    }

    /// A damaged reply, and the place that was told.
    fn hurt(&mut self, reply: &str, place: &str) {
        let length = hex_length(reply);
        let damaged = (0..length).filter(|at| {
            let byte = u8::from_str_radix(&reply[2 * at..2 * at + 2], 16);
            byte.expect("it was taken").count_ones() % 2 == 1
        });
        if damaged.count() > 1 {
            self.reach("damage at more than one byte");
        }
        match place.parse() {
            Ok(0) => self.reach("damage at the first byte"),
            Ok(at) if at + 1 == length => self.reach("damage at the last byte"),
            _ => {}
        }
    }

    fn refused(&mut self, line: &[u8], words: &[&str]) {
        self.errors += 1;
        if line.is_empty() {
            self.reach("empty line");
        }
        if line.len() == model::bench::LINE_MOST + 1 {
            self.reach("line that is one too long");
        }
        // What the line would be without the one thing that is wrong with it.
        let taken = |words: &[&str]| model::headbench::answer(words.join(" ").as_bytes()).is_some();
        if words.len() > 20 || line.len() > 4_000 {
            return;
        }
        if words.len() > 1 && taken(&words[..words.len() - 1]) {
            self.reach("word too many");
        }
        for more in ["64", "-", "00"] {
            if taken(&[words, &[more]].concat()) {
                self.reach("word missing");
            }
        }
        for (place, word) in words.iter().enumerate() {
            let with = |other: &str| {
                let mut words = words.to_vec();
                words[place] = other;
                taken(&words)
            };
            let small = word.to_ascii_lowercase();
            if small != *word && with(&small) {
                self.reach("capital hex");
            }
            if word.len() % 2 == 1 && with(&word[1..]) && !with("7") {
                self.reach("odd hex");
            }
            match word.parse::<u128>() {
                Ok(256..=999) if with("255") => self.reach("number too great for 8 bits"),
                Ok(65_536..=99_999) if with("65535") => {
                    self.reach("number too great for 16 bits");
                }
                Ok(18_446_744_073_709_551_616) if with("18446744073709551615") => {
                    self.reach("room of 64 bits and one");
                }
                _ => {}
            }
        }
    }
}
