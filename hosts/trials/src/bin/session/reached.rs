//! Counts what the calls reached, from what was told and answered and not from what was meant.

use model::session::{answer, fact, start, tells, work, Heard, Meters, Session, Started, Told};
use std::collections::BTreeMap;
use trials::session_words::identification;

/// Each has to be met so often at least.
const OFTEN: u64 = 3;

const FACTS: [&str; 5] = ["goes on", "over", "nak", "wrong", "silent"];

#[derive(Default)]
pub struct Reached {
    pub calls: u64,
    starts: u64,
    replies: u64,
    silences: u64,
    conversations: u64,
    /// Replies to questions for energy of EQM meters.
    energies: u64,
    met: BTreeMap<String, u64>,
}

/// Everything that must be reached.
pub fn aims() -> Vec<String> {
    let mut aims = Vec::new();
    for number in [1, 9, 16, 18, 19, 20, 28, 29, 30] {
        aims.push(format!("start: {number}"));
    }
    for number in [1, 19, 31] {
        aims.push(format!("reply: {number}"));
    }
    for number in [1, 31] {
        aims.push(format!("silence: {number}"));
    }
    // Each fact at each message that can have it, by kind of work.
    for (kind, most) in [("reads", 32), ("post", 25)] {
        for message in 1..=most + 4 {
            for fact in [fact::NAK, fact::WRONG, fact::SILENT] {
                aims.push(format!("{kind}: {} at {message}", FACTS[usize::from(fact)]));
            }
            if message > 1 {
                aims.push(format!("{kind}: goes on at {message}"));
            }
            if message > 4 {
                aims.push(format!("{kind}: over at {message}"));
            }
        }
        for count in 1..=most {
            aims.push(format!("{kind}: a calm conversation of {count}"));
        }
    }
    for (letter, numbers) in [
        ("T", 0..=0),
        ("L", 0..=0),
        ("K", 0..=0),
        ("E", 0..=4),
        ("G", 0..=4),
        ("Z", 1..=25),
    ] {
        for number in numbers {
            aims.push(format!("{letter}{number} answered"));
            aims.push(format!("{letter}{number} answered by another block"));
        }
    }
    for decimals in 2..=4 {
        for letter in ["E", "G"] {
            for number in 0..=4 {
                aims.push(format!("{letter}{number} of {decimals} decimals answered"));
            }
            aims.push(format!(
                "{letter} of {decimals} decimals, and the form of other decimals came"
            ));
        }
        aims.push(format!("a calm conversation with {decimals} decimals"));
        aims.push(format!(
            "a calm conversation with {decimals} decimals of edition 2"
        ));
        aims.push(format!("{decimals} decimals, and document 01's form came"));
    }
    for fact in &FACTS[1..] {
        aims.push(format!("{fact}, and again"));
        aims.push(format!("{fact}, and silence after it"));
    }
    let more = [
        "start: 9 for the serial",
        "start: 9 for the password",
        "start: 9 for a read",
        "start: 9 for a flag",
        "start: 9 for a kind",
        "start: 9 for half a read",
        "start: 9 for one byte",
        "start: 29 for 32 reads and a half",
        "start: 29 for 33",
        "start: 30 with a bad serial",
        "start: 20 with `()`",
        "start: 20 at a place that is not 0",
        "start: 19 with an empty list",
        "start: 1 with 32 reads",
        "start: 1 with 24 lines",
        "start: 1 with 25 lines",
        "start: 1 for edition 2",
        "start: 9 for table 25 of edition 1",
        "start: 16 and no room",
        "start: 16 and an empty list",
        "start: 16 and decimals of no family",
        "start: 18 and no room",
        "start: 18 and an empty list",
        "start: 9 for G in document 01's family",
        "start: 9 for G5",
        "start: 1 with G",
        "document 01's family, and an EQM form came",
        "the other direction's line came",
        "start: 20 for table 25 of edition 1",
        "reply: the other edition's identification",
        "reply: 19 to no session",
        "reply: 31 of a record",
        "reply: 31 of the work",
        "reply: 31 at the last message of work",
        "reply: an empty one",
        "reply: other work, and its message",
        "reply: half a read lent, and its message",
        "reply: a block, damaged",
        "a post delivered",
        "a post delivered to edition 2",
    ];
    aims.extend(more.map(String::from));
    aims
}

impl Reached {
    fn reach(&mut self, aim: &str) {
        match self.met.get_mut(aim) {
            Some(times) => *times += 1,
            None => drop(self.met.insert(aim.into(), 1)),
        }
    }

    fn when(&mut self, reached: bool, aim: &str) {
        if reached {
            self.reach(aim);
        }
    }

    pub fn missed(&self) -> Vec<String> {
        let mut missed = aims();
        missed.retain(|aim| self.met.get(aim).copied().unwrap_or(0) < OFTEN);
        missed
    }

    pub fn said(&self) -> String {
        format!(
            "session: {} calls, all equal: {} starts, {} replies, {} silences; {} whole \
             conversations, {} replies to questions for energy of EQM meters; reached all of {}",
            self.calls,
            self.starts,
            self.replies,
            self.silences,
            self.conversations,
            self.energies,
            aims().len()
        )
    }

    pub fn started(&mut self, told: &Told, room: usize, started: &Started) {
        self.calls += 1;
        self.starts += 1;
        let number = started.number;
        self.reach(&format!("start: {number}"));
        let digits =
            |field: &[u8], length| field.len() == length && field.iter().all(u8::is_ascii_digit);
        let serial = told.named != 1 || digits(told.serial, 10);
        let password = told.access != 1 || digits(told.password, 8);
        let (reads, post) = (told.kind == work::READS, told.kind == work::POST);
        let refused = number == answer::FIELD;
        let flags = told.named <= 1 && told.access <= 1 && told.kind <= 1;
        self.when(
            refused && !serial && password && flags,
            "start: 9 for the serial",
        );
        self.when(
            refused && serial && !password && flags,
            "start: 9 for the password",
        );
        let fields = serial && password && flags;
        let half = told.work.len() % 2 == 1;
        self.when(refused && fields && !half, "start: 9 for a read");
        self.when(
            refused && fields && reads && half,
            "start: 9 for half a read",
        );
        self.when(
            refused && told.named.max(told.access) > 1 && told.kind <= 1,
            "start: 9 for a flag",
        );
        self.when(refused && told.kind > 1, "start: 9 for a kind");
        let count = told.work.len() / 2;
        self.when(
            number == answer::MANY_READS && count == 33,
            "start: 29 for 33",
        );
        self.when(
            number == answer::MANY_READS && told.work.len() == 65,
            "start: 29 for 32 reads and a half",
        );
        self.when(
            refused && reads && told.work.len() == 1,
            "start: 9 for one byte",
        );
        let done = number == answer::DONE;
        self.when(done && reads && count == 32, "start: 1 with 32 reads");
        self.when(
            done && post && told.work.len() == 867,
            "start: 1 with 24 lines",
        );
        self.when(
            done && post && told.work.len() == 903,
            "start: 1 with 25 lines",
        );
        let second = told.edition == 2;
        self.when(done && second, "start: 1 for edition 2");
        let other = Told {
            edition: 2,
            ..*told
        };
        let taken = || start(&mut Session::default(), &other, &mut vec![0; room]).number;
        let first = told.edition == 1;
        self.when(
            first && refused && fields && reads && taken() == answer::DONE,
            "start: 9 for table 25 of edition 1",
        );
        self.when(
            first && number == answer::NO_POST && taken() == answer::DONE,
            "start: 20 for table 25 of edition 1",
        );
        let family = matches!(told.decimals, 0 | 2 | 3 | 4);
        let no_family = number == answer::NO_DECIMALS;
        self.when(no_family && room < 64, "start: 18 and no room");
        self.when(
            no_family && reads && told.work.is_empty(),
            "start: 18 and an empty list",
        );
        let asks = |letter, most| {
            let mut all = told.work.chunks(2);
            reads
                && all.any(|read| matches!(read, [at, number] if *at == letter && *number <= most))
        };
        let eqm = Told {
            decimals: 3,
            ..*told
        };
        let counted = || start(&mut Session::default(), &eqm, &mut vec![0; room]).number;
        self.when(
            told.decimals == 0 && refused && asks(b'G', 4) && counted() == answer::DONE,
            "start: 9 for G in document 01's family",
        );
        self.when(
            refused && told.decimals != 0 && told.work.chunks(2).any(|read| read == b"G\x05"),
            "start: 9 for G5",
        );
        self.when(done && asks(b'G', 4), "start: 1 with G");
        let none = number == answer::NO_EDITION;
        self.when(none && !family, "start: 16 and decimals of no family");
        self.when(none && room < 64, "start: 16 and no room");
        self.when(
            none && reads && told.work.is_empty(),
            "start: 16 and an empty list",
        );
        self.when(
            number == answer::READ_ONLY && !serial,
            "start: 30 with a bad serial",
        );
        let no_post = number == answer::NO_POST;
        self.when(no_post && told.access == 0, "start: 20 with `()`");
        self.when(
            no_post && started.place > 0,
            "start: 20 at a place that is not 0",
        );
        self.when(
            room < 64 && reads && told.work.is_empty(),
            "start: 19 with an empty list",
        );
    }

    /// How a session that goes on came to stand.
    fn stands(&mut self, before: &Session, heard: &Heard) {
        let kind = match before.work {
            work::READS => "reads",
            _ => "post",
        };
        let fact = FACTS[usize::from(heard.fact)];
        self.reach(&format!("{kind}: {fact} at {}", heard.message));
    }

    pub fn heard(&mut self, before: &Session, lent: &[u8], reply: &[u8], heard: &Heard) {
        self.calls += 1;
        self.replies += 1;
        self.reach(&format!("reply: {}", heard.number));
        let session = before.reached();
        self.when(
            heard.number == answer::SHORT_ROOM && !session,
            "reply: 19 to no session",
        );
        if heard.number == answer::NO_SESSION {
            self.when(!session, "reply: 31 of a record");
            self.when(session, "reply: 31 of the work");
            self.when(
                session && before.sent + 2 == before.last(),
                "reply: 31 at the last message of work",
            );
        }
        if heard.number != answer::DONE {
            return;
        }
        if before.fact != fact::GOES_ON {
            self.reach(&format!("{}, and again", FACTS[usize::from(before.fact)]));
            return;
        }
        self.stands(before, heard);
        self.when(reply.is_empty(), "reply: an empty one");
        let other = reply == identification(3 - before.edition);
        self.when(
            before.sent == 1 && heard.fact == fact::WRONG && other,
            "reply: the other edition's identification",
        );
        let half = before.work == work::READS
            && heard.fact == fact::GOES_ON
            && usize::from(heard.message) * 2 == lent.len() + 7;
        self.when(half, "reply: half a read lent, and its message");
        let of_work = 4 <= before.sent && before.sent < before.last();
        if !of_work || before.work == work::POST {
            let next = heard.fact == fact::GOES_ON && heard.message >= 4;
            let lines = match before.work {
                work::READS => lent.len() / 2,
                _ => lent.len() / 36,
            };
            let other = lines != usize::from(before.count) && heard.message < before.last();
            self.when(next && other, "reply: other work, and its message");
            return;
        }
        let place = usize::from(before.sent - 4) * 2;
        let Some(&[letter, number]) = lent.get(place..place + 2) else {
            return;
        };
        let number = match letter {
            b'E' | b'G' | b'Z' => number,
            _ => 0,
        };
        if matches!(letter, b'E' | b'G') && number <= 4 {
            self.energy(before.decimals, letter, number, reply, heard);
        }
        let read = format!("{}{number}", char::from(letter));
        let block = reply.len() > 10 && reply[0] == 0x82;
        match heard.fact {
            fact::WRONG if block && reply.iter().all(|byte| byte.count_ones() % 2 == 0) => {
                self.reach(&format!("{read} answered by another block"));
            }
            fact::WRONG => self.when(block, "reply: a block, damaged"),
            fact::NAK => {}
            _ => self.reach(&format!("{read} answered")),
        }
    }

    /// A reply to a question for energy.
    fn energy(&mut self, decimals: u8, letter: u8, number: u8, reply: &[u8], heard: &Heard) {
        let name = char::from(letter);
        let good = !matches!(heard.fact, fact::WRONG | fact::NAK);
        let told = |decimals, letter| {
            let meters = Meters {
                edition: 1,
                decimals,
            };
            tells(meters, letter, number, reply)
        };
        if decimals == 0 {
            let other = (2..=4).any(|decimals| told(decimals, b'E'));
            self.when(other, "document 01's family, and an EQM form came");
            return;
        }
        self.energies += 1;
        self.when(
            good,
            &format!("{name}{number} of {decimals} decimals answered"),
        );
        let others = (2..=4).filter(|&other| other != decimals);
        self.when(
            others.into_iter().any(|other| told(other, letter)),
            &format!("{name} of {decimals} decimals, and the form of other decimals came"),
        );
        self.when(
            told(0, b'E'),
            &format!("{decimals} decimals, and document 01's form came"),
        );
        let other = if letter == b'E' { b'G' } else { b'E' };
        self.when(told(decimals, other), "the other direction's line came");
    }

    pub fn silent(&mut self, before: &Session, heard: &Heard) {
        self.calls += 1;
        self.silences += 1;
        self.reach(&format!("silence: {}", heard.number));
        if heard.number != answer::DONE {
            return;
        }
        if before.fact != fact::GOES_ON {
            let fact = FACTS[usize::from(before.fact)];
            self.reach(&format!("{fact}, and silence after it"));
            return;
        }
        self.stands(before, heard);
    }

    /// A conversation that went to its end without a disturbance.
    pub fn calm(&mut self, session: &Session) {
        self.conversations += 1;
        let kind = match session.work {
            work::READS => "reads",
            _ => "post",
        };
        self.reach(&format!("{kind}: a calm conversation of {}", session.count));
        let family = format!("a calm conversation with {} decimals", session.decimals);
        self.reach(&family);
        self.when(session.edition == 2, &format!("{family} of edition 2"));
    }

    pub fn delivered(&mut self, edition: u8) {
        self.when(edition == 1, "a post delivered");
        self.when(edition == 2, "a post delivered to edition 2");
    }
}
