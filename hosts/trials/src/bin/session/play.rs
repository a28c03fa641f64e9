//! What happens to the heads: whole conversations, calm and disturbed; sessions told good and bad
//! things; records of any kind.

use crate::line::Line;
use crate::Pair;
use model::meter::Meter;
use model::post::tables_of;
use model::session::{answer, fact, work, Heard, Meters, Session, Told};
use trials::chance::Chance;
use trials::head_words::DIGITS;
use trials::session_words::{other, post, reads, right, spoil_a_read};
use trials::words::{of_family, state};

type Outcome = Result<(), String>;

/// The room that a message is built in.
const ROOM: usize = 64;

/// So many calls and more.
pub fn play(pair: &mut Pair, seed: u64, calls: u64) -> Outcome {
    let chance = &mut Chance::new(seed);
    while pair.reached.calls < calls {
        match chance.weighed(&[2, 5, 20, 40]) {
            0 => calm(pair, chance)?,
            1 => disturbed(pair, chance)?,
            2 => told(pair, chance)?,
            _ => recorded(pair, chance)?,
        }
    }
    Ok(())
}

/// What a session is told, kept while it goes on.
struct Task {
    edition: u8,
    decimals: u8,
    named: u8,
    serial: Vec<u8>,
    access: u8,
    password: Vec<u8>,
    kind: u8,
    work: Vec<u8>,
}

impl Task {
    fn told(&self) -> Told<'_> {
        Told {
            edition: self.edition,
            decimals: self.decimals,
            named: self.named,
            serial: &self.serial,
            access: self.access,
            password: &self.password,
            kind: self.kind,
            work: &self.work,
        }
    }
}

/// A good task for this meter.
fn good(chance: &mut Chance, meter: &Meter) -> Task {
    let (edition, decimals) = (meter.edition, meter.decimals);
    let kind = chance.one_of(&[work::READS, work::READS, work::POST]);
    let access = match kind {
        work::POST => 1,
        _ => chance.below(2) as u8,
    };
    let work = match kind {
        work::READS => {
            let count = chance.between(1, 32);
            reads(chance, Meters { edition, decimals }, count)
        }
        _ => {
            let highest = tables_of(edition).unwrap_or(0);
            let count = chance.between(1, highest.into());
            post(chance, highest, count)
        }
    };
    let named = chance.below(2) as u8;
    let password = match access {
        1 => meter.password.to_vec(),
        _ => not_looked_at(chance),
    };
    let serial = match named {
        1 if chance.one_in(6) => vec![b'0'; 10],
        1 => meter.serial.to_vec(),
        _ => not_looked_at(chance),
    };
    Task {
        edition,
        decimals,
        named,
        serial,
        access,
        password,
        kind,
        work,
    }
}

/// Bytes at a place that the call has no use for.
fn not_looked_at(chance: &mut Chance) -> Vec<u8> {
    (0..chance.one_of(&[0, 0, 3, 8, 10]))
        .map(|_| chance.byte())
        .collect()
}

/// A meter that listens, with nothing received.
fn listening(chance: &mut Chance) -> Meter {
    let mut meter = state(chance, 0);
    meter.attempts = chance.below(3) as u8;
    meter
}

/// A conversation with a meter that is ready for it: as many exchanges as messages of work, and
/// four.
fn calm(pair: &mut Pair, chance: &mut Chance) -> Outcome {
    let meter = listening(chance);
    let task = good(chance, &meter);
    let mut line = Line::to(chance, &meter);
    let filling = chance.byte();
    let (started, buffer) = pair.start(&task.told(), ROOM + chance.below(2), filling)?;
    let mut message = buffer[..started.length].to_vec();
    for exchange in 1.. {
        let reply = line.said(chance, &pair.session, &task.work, &message);
        let (heard, buffer) = pair.reply(&task.work, &reply, ROOM, filling)?;
        if heard.fact != fact::GOES_ON {
            let wanted = usize::from(pair.session.count) + 4;
            if (heard.fact, exchange) != (fact::OVER, wanted) {
                return Err(format!(
                    "a calm conversation ends with {heard:?} after {exchange} exchanges, not {wanted}"
                ));
            }
            break;
        }
        message = buffer[..heard.length].to_vec();
    }
    if let (work::POST, Some(tables)) = (task.kind, line.tables()) {
        let mut wanted = meter.tables;
        for table in model::post::read(25, &task.work).expect("it is a post") {
            wanted[usize::from(table.number) - 1] = table.row;
        }
        if tables != wanted {
            return Err("a post was delivered, and the tables are not its".into());
        }
        pair.reached.delivered(meter.edition);
    }
    pair.reached.calm(&pair.session);
    again(pair, chance, &task.work)
}

/// What an ended session says to whatever comes.
fn again(pair: &mut Pair, chance: &mut Chance, work: &[u8]) -> Outcome {
    if chance.one_in(2) {
        pair.silence()?;
    }
    let reply = match chance.below(3) {
        0 => vec![0x06],
        1 => vec![0x95],
        _ => other(chance, &pair.session, work),
    };
    let other = b"??".repeat(chance.below(3));
    let lent = chance.pick::<[u8]>(&[work, b"", &other]);
    pair.reply(lent, &reply, ROOM, chance.byte()).map(drop)
}

/// A conversation in which something goes wrong at some message.
fn disturbed(pair: &mut Pair, chance: &mut Chance) -> Outcome {
    let mut meter = listening(chance);
    let mut task = good(chance, &meter);
    match chance.below(14) {
        12 => task.decimals = chance.one_of(&[0, 1, 2, 3, 4, 5, 255]),
        13 => {
            // A head that was told of another family than the meter's.
            let other = chance.one_of(&[0, 2, 3, 4]);
            meter = of_family(chance, meter, other);
        }
        0 => meter.attempts = 3,
        1 => meter.mode = chance.between(1, 4) as u8,
        2 => task.password = chance.texts::<8>(DIGITS).to_vec(),
        3 => task.serial = chance.texts::<10>(DIGITS).to_vec(),
        4 => task.edition = chance.one_of(&[0, 1, 2, 3, 255]),
        _ => {}
    }
    let mut line = Line::to(chance, &meter);
    let filling = chance.byte();
    let (started, buffer) = pair.start(&task.told(), ROOM, filling)?;
    if started.number != answer::DONE {
        return Ok(());
    }
    let mut message = buffer[..started.length].to_vec();
    let mut replies: Vec<Vec<u8>> = Vec::new();
    let at = chance.between(1, usize::from(pair.session.last())) as u8;
    let how = chance.below(12);
    loop {
        let now = pair.session.sent == at;
        if now && how < 2 {
            // The line hurts or loses a character of the message.
            match how {
                0 => {
                    let place = chance.below(message.len());
                    message[place] ^= 1 << chance.below(8);
                }
                _ => drop(message.remove(chance.below(message.len()))),
            }
        }
        let mut reply = line.said(chance, &pair.session, &task.work, &message);
        let mut lent = task.work.clone();
        if now {
            match how {
                2 => chance.hurt(&mut reply),
                3 if !reply.is_empty() => {
                    let place = chance.below(reply.len());
                    reply[place] ^= 1 << chance.below(8);
                }
                4 => reply = other(chance, &pair.session, &task.work),
                5 if !replies.is_empty() => reply = replies[chance.below(replies.len())].clone(),
                6 => reply = vec![0x95],
                7 => reply.clear(),
                8 => lent = other_work(chance, &task),
                9 => {
                    pair.reply(&lent, &reply, chance.below(ROOM), filling)?;
                    if chance.one_in(2) {
                        pair.silence()?;
                    }
                }
                10 => {
                    let mut record = pair.session;
                    spoil(chance, &mut record);
                    pair.put(record);
                }
                _ => {}
            }
        }
        let heard = match reply.is_empty() {
            true if !chance.one_in(8) => pair.silence()?,
            _ => {
                let (heard, buffer) = pair.reply(&lent, &reply, ROOM, filling)?;
                message = buffer[..heard.length].to_vec();
                heard
            }
        };
        replies.push(reply);
        if heard.number != answer::DONE || heard.fact != fact::GOES_ON {
            return again(pair, chance, &task.work);
        }
    }
}

/// Work that is not this session's, or not all of it.
fn other_work(chance: &mut Chance, task: &Task) -> Vec<u8> {
    let mut work = task.work.clone();
    match chance.below(6) {
        0 => {
            let count = chance.between(1, 32);
            let meters = Meters {
                edition: 2,
                decimals: chance.one_of(&[0, 3]),
            };
            reads(chance, meters, count)
        }
        1 => {
            let count = chance.between(1, 25);
            post(chance, 25, count)
        }
        2 => Vec::new(),
        3 => {
            work.truncate(chance.below(work.len()));
            work
        }
        4 if task.kind == work::READS => {
            spoil_a_read(chance, &mut work);
            work
        }
        _ => {
            chance.hurt(&mut work);
            work
        }
    }
}

/// One thing changed in a record; seldom it is a session's still.
fn spoil(chance: &mut Chance, session: &mut Session) {
    match chance.below(15) {
        14 => session.decimals = chance.one_of(&[0, 1, 2, 3, 4, 5, 255]),
        13 => session.count = chance.one_of(&[24, 25, 26]),
        12 => session.edition = chance.one_of(&[0, 1, 2, 3, 255]),
        0 => session.serial[chance.below(10)] = chance.odd_byte(),
        1 => session.password[chance.below(8)] = chance.odd_byte(),
        2 => session.named = chance.one_of(&[0, 1, 2, 255]),
        3 => session.access = chance.one_of(&[0, 1, 2, 255]),
        4 => session.work = chance.one_of(&[0, 1, 1, 2, 255]),
        5 => session.count = chance.one_of(&[0, 1, 23, 24, 25, 31, 32, 33, 252, 255]),
        6 => session.sent = chance.one_of(&[0, 1, session.last(), 37, 255]),
        7 => session.sent = session.last().wrapping_add(1),
        8 => session.fact = chance.one_of(&[1, 1, 2, 3, 4, 5, 255]),
        9 => (session.named, session.serial) = (0, [0; 10]),
        10 => (session.access, session.password) = (0, [0; 8]),
        _ => session.fact = chance.byte(),
    }
}

/// A field of digits, or nearly.
fn field(chance: &mut Chance, length: usize) -> Vec<u8> {
    let mut field = chance.text(DIGITS, length);
    match chance.below(12) {
        0 => chance.hurt(&mut field),
        1 => {
            let length = chance.below(40);
            field = chance.text(DIGITS, length);
        }
        _ => {}
    }
    field
}

fn flag(chance: &mut Chance) -> u8 {
    match chance.below(25) {
        0 => chance.byte(),
        odd => (odd % 2) as u8,
    }
}

/// An edition, at times one that there is not.
fn edition(chance: &mut Chance) -> u8 {
    match chance.below(20) {
        0 => chance.byte(),
        1 => chance.one_of(&[0, 3]),
        odd => 1 + odd as u8 % 2,
    }
}

/// Decimals, at times those of no family.
fn decimals(chance: &mut Chance) -> u8 {
    match chance.below(20) {
        0 => chance.byte(),
        1 => chance.one_of(&[1, 5]),
        odd => [0, 2, 3, 4][odd % 4],
    }
}

/// A session told anything, on a record that may hold anything.
fn told(pair: &mut Pair, chance: &mut Chance) -> Outcome {
    let (edition, kind) = (edition(chance), flag(chance));
    let decimals = decimals(chance);
    let meters = Meters {
        edition,
        // At times with what only another family counts.
        decimals: if chance.one_in(10) { 2 } else { decimals },
    };
    let mut work = match (kind, chance.below(12)) {
        (_, 0) => Vec::new(),
        (work::READS, 1..=2) => {
            let count = chance.between(31, 40);
            reads(chance, meters, count)
        }
        (_, 3) => (0..chance.below(80)).map(|_| chance.byte()).collect(),
        (work::READS, 4) => {
            let mut half = reads(chance, meters, 33);
            half.truncate(chance.one_of(&[1, 1, 3, 63, 65, 65]));
            half
        }
        (work::READS, _) => {
            let count = chance.between(1, 32);
            reads(chance, meters, count)
        }
        _ => {
            let highest = chance.one_of(&[24, 25]);
            let count = chance.between(1, highest.into());
            post(chance, highest, count)
        }
    };
    match chance.below(6) {
        0 => chance.hurt(&mut work),
        1 if kind == work::READS && work.len() > 1 => spoil_a_read(chance, &mut work),
        _ => {}
    }
    let task = Task {
        edition,
        decimals,
        named: flag(chance),
        serial: field(chance, 10),
        access: flag(chance),
        password: field(chance, 8),
        kind,
        work,
    };
    let room = match chance.below(12) {
        0 => chance.below(64),
        1 => 63,
        2 => chance.between(65, 300),
        _ => ROOM,
    };
    let mut record = Session::default();
    spoil(chance, &mut record);
    pair.put(record);
    pair.start(&task.told(), room, chance.byte()).map(drop)
}

/// A record that a host kept, at any message of any session, or one that is none; and what comes.
fn recorded(pair: &mut Pair, chance: &mut Chance) -> Outcome {
    let meter = listening(chance);
    let task = good(chance, &meter);
    let mut record = Session {
        edition: task.edition,
        decimals: task.decimals,
        named: task.named,
        access: task.access,
        work: task.kind,
        count: match task.kind {
            work::READS => task.work.len() / 2,
            _ => task.work.len() / 36,
        } as u8,
        ..Session::default()
    };
    if record.named == 1 {
        record.serial = task.serial[..].try_into().expect("ten digits");
    }
    if record.access == 1 {
        record.password = task.password[..].try_into().expect("eight digits");
    }
    record.sent = chance.between(1, usize::from(record.last())) as u8;
    if chance.one_in(12) {
        record.fact = chance.between(2, 4) as u8;
    }
    if chance.percent(15) {
        spoil(chance, &mut record);
    }
    if chance.one_in(40) {
        record = any(chance);
    }
    pair.put(record);
    let work = match chance.below(8) {
        0 => other_work(chance, &task),
        _ => task.work,
    };
    let room = match chance.below(16) {
        0 => chance.below(ROOM + 1),
        1 => ROOM - 1,
        2 => ROOM + chance.below(100),
        _ => ROOM,
    };
    let heard: Heard = match chance.weighed(&[6, 9, 1, 1]) {
        0 => {
            let reply = right(chance, &pair.session, &work);
            pair.reply(&work, &reply, room, chance.byte())?.0
        }
        1 => {
            let reply = other(chance, &pair.session, &work);
            pair.reply(&work, &reply, room, chance.byte())?.0
        }
        2 => pair.reply(&work, &[0x95], room, chance.byte())?.0,
        _ => pair.silence()?,
    };
    if heard.number == answer::DONE && heard.fact != fact::GOES_ON && chance.one_in(4) {
        again(pair, chance, &work)?;
    }
    Ok(())
}

/// Any bytes.
fn any(chance: &mut Chance) -> Session {
    Session {
        serial: std::array::from_fn(|_| chance.byte()),
        password: std::array::from_fn(|_| chance.byte()),
        named: chance.byte(),
        access: chance.byte(),
        work: chance.byte(),
        count: chance.byte(),
        sent: chance.byte(),
        fact: chance.byte(),
        edition: chance.one_of(&[1, 2, 3]),
        decimals: chance.one_of(&[0, 1, 2, 3, 4, 5]),
    }
}
