//! The head's half of a conversation, from document 02, [7]: sign on, confirm, enter, a list of
//! reads or one post, and B0. It takes each reply and gives the next message, or a stop. What work
//! that is lent anew must be for a message to be made of it is the proved session's reading.

use crate::head::{self, Command};
use crate::line::{self, ACK, ETX, NAK, SOH, STX};
use crate::post;

/// The most reads of a list.
pub const READS_MOST: usize = 32;
/// The bytes of a read in a list: its letter, and its number.
pub const READ: usize = 2;
/// The messages that every session has beside its work: sign-on, confirmation, P1 and B0.
pub const BESIDE: u8 = 4;

/// The numbers that start, reply and silence answer.
pub mod answer {
    pub const DONE: u8 = 1;
    pub const FIELD: u8 = 9;
    pub const NO_EDITION: u8 = 16;
    pub const NO_DECIMALS: u8 = 18;
    pub const SHORT_ROOM: u8 = 19;
    pub const NO_POST: u8 = 20;
    pub const NO_READS: u8 = 28;
    pub const MANY_READS: u8 = 29;
    pub const READ_ONLY: u8 = 30;
    pub const NO_SESSION: u8 = 31;
}

/// How a session stands.
pub mod fact {
    pub const GOES_ON: u8 = 0;
    pub const OVER: u8 = 1;
    pub const NAK: u8 = 2;
    pub const WRONG: u8 = 3;
    pub const SILENT: u8 = 4;
}

/// The kinds of work.
pub mod work {
    pub const READS: u8 = 0;
    pub const POST: u8 = 1;
}

/// The record that the host keeps. Any numbers can stand here; `reached` tells those of a session.
#[derive(Clone, Copy, Debug, Default, PartialEq, Eq)]
pub struct Session {
    pub serial: [u8; 10],
    pub password: [u8; 8],
    pub named: u8,
    pub access: u8,
    pub work: u8,
    pub count: u8,
    pub sent: u8,
    pub fact: u8,
    pub edition: u8,
    pub decimals: u8,
}

/// What a session is told at its start.
#[derive(Clone, Copy, Debug)]
pub struct Told<'a> {
    pub edition: u8,
    /// The family: 0, or an EQM meter's decimals.
    pub decimals: u8,
    pub named: u8,
    pub serial: &'a [u8],
    pub access: u8,
    pub password: &'a [u8],
    pub kind: u8,
    pub work: &'a [u8],
}

/// What the start hands out.
#[derive(Clone, Copy, Debug, Default, PartialEq, Eq)]
pub struct Started {
    pub number: u8,
    pub length: usize,
    pub place: usize,
}

/// What a reply or silence comes to.
#[derive(Clone, Copy, Debug, Default, PartialEq, Eq)]
pub struct Heard {
    pub number: u8,
    pub fact: u8,
    pub message: u8,
    pub length: usize,
}

/// The meters that are called: their edition, and their family.
#[derive(Clone, Copy, Debug, PartialEq, Eq)]
pub struct Meters {
    pub edition: u8,
    pub decimals: u8,
}

/// Whether some family has these decimals.
fn family(decimals: u8) -> bool {
    matches!(decimals, 0 | 2 | 3 | 4)
}

/// The command of one read, by its letter and number; nothing for a letter that asks for nothing, or
/// for what these meters do not count.
/// Whether the number is one that the command takes is the command's own rule.
pub fn asked(meters: Meters, letter: u8, number: u8) -> Option<Command<'static>> {
    match (letter, number) {
        (b'T', _) => Some(Command::ReadClock),
        (b'L', _) => Some(Command::ReadSerial),
        (b'K', _) => Some(Command::ReadAccount),
        (b'E', 0) => Some(Command::ReadTotal),
        (b'E', zone) => Some(Command::ReadZone(zone)),
        (b'G', _) if meters.decimals == 0 => None,
        (b'G', 0) => Some(Command::ReadTotalOut),
        (b'G', zone) => Some(Command::ReadZoneOut(zone)),
        (b'Z', table) => Some(Command::ReadTable(meters.edition, table)),
        _ => None,
    }
}

/// The letter and the number of a read of the list that is lent. What is not there is 0.
fn read_at(given: &[u8], place: usize) -> [u8; READ] {
    let byte = |at| given.get(at).copied().unwrap_or(0);
    [byte(READ * place), byte(READ * place + 1)]
}

/// The message of a place of some work; nothing where it can't be built.
fn work_message(meters: Meters, kind: u8, given: &[u8], place: usize) -> Option<Vec<u8>> {
    let edition = meters.edition;
    let wire = |command: Command| Some(line::wires(&head::characters(&command)?));
    match kind {
        work::READS => {
            let [letter, number] = read_at(given, place);
            wire(asked(meters, letter, number)?)
        }
        work::POST => {
            // A line is one that makes a post alone.
            let line = given.chunks(post::LINE).nth(place)?;
            let highest = post::tables_of(edition)?;
            let [table] = post::read(highest, &[line, post::LAST].concat())?[..] else {
                return None;
            };
            wire(Command::WriteTable(edition, table.number, &table.row))
        }
        _ => None,
    }
}

/// How many messages some work has; nothing for work of no kind, or half a read.
fn count_of(kind: u8, given: &[u8]) -> Option<usize> {
    match kind {
        work::READS => given
            .len()
            .is_multiple_of(READ)
            .then_some(given.len() / READ),
        work::POST => Some(given.len() / post::LINE),
        _ => None,
    }
}

fn sign_on(named: u8, serial: &[u8]) -> Option<Vec<u8>> {
    let command = match named {
        0 => Command::SignOn,
        1 => Command::SignOnTo(serial),
        _ => return None,
    };
    Some(line::wires(&head::characters(&command)?))
}

fn enter(access: u8, password: &[u8]) -> Option<Vec<u8>> {
    let command = match access {
        0 => Command::Enter,
        1 => Command::Password(password),
        _ => return None,
    };
    Some(line::wires(&head::characters(&command)?))
}

/// The number of the refusal and the place, or the messages that can be told before any reply.
fn looked_at(told: &Told, room: usize) -> Result<Vec<Vec<u8>>, (u8, usize)> {
    let (reads, post) = (told.kind == work::READS, told.kind == work::POST);
    let highest = post::tables_of(told.edition).ok_or((answer::NO_EDITION, 0))?;
    if !family(told.decimals) {
        return Err((answer::NO_DECIMALS, 0));
    }
    if room < head::COMMAND_ROOM {
        return Err((answer::SHORT_ROOM, 0));
    }
    if reads && told.work.is_empty() {
        return Err((answer::NO_READS, 0));
    }
    if reads && told.work.len() > READ * READS_MOST {
        return Err((answer::MANY_READS, 0));
    }
    if post && post::read(highest, told.work).is_none() {
        return Err((answer::NO_POST, post::place(highest, told.work)));
    }
    if post && told.access == 0 {
        return Err((answer::READ_ONLY, 0));
    }
    messages(told).ok_or((answer::FIELD, 0))
}

/// The sign-on, P1 and the messages of the work; nothing where one of them can't be built.
fn messages(told: &Told) -> Option<Vec<Vec<u8>>> {
    let mut messages = vec![
        sign_on(told.named, told.serial)?,
        enter(told.access, told.password)?,
    ];
    let meters = Meters {
        edition: told.edition,
        decimals: told.decimals,
    };
    for place in 0..count_of(told.kind, told.work)? {
        messages.push(work_message(meters, told.kind, told.work, place)?);
    }
    Some(messages)
}

/// Starts a session: the sign-on stands at the front of `out`.
pub fn start(session: &mut Session, told: &Told, out: &mut [u8]) -> Started {
    *session = Session::default();
    let messages = match looked_at(told, out.len()) {
        Ok(messages) => messages,
        Err((number, place)) => {
            return Started {
                number,
                length: 0,
                place,
            }
        }
    };
    if told.named == 1 {
        session.serial.copy_from_slice(told.serial);
    }
    if told.access == 1 {
        session.password.copy_from_slice(told.password);
    }
    session.edition = told.edition;
    session.decimals = told.decimals;
    session.named = told.named;
    session.access = told.access;
    session.work = told.kind;
    // The sign-on and P1 are among them.
    session.count = messages.len() as u8 - 2;
    session.sent = 1;
    out[..messages[0].len()].copy_from_slice(&messages[0]);
    Started {
        number: answer::DONE,
        length: messages[0].len(),
        place: 0,
    }
}

impl Session {
    /// The meters that it calls.
    pub fn meters(&self) -> Meters {
        Meters {
            edition: self.edition,
            decimals: self.decimals,
        }
    }

    /// The number of its last message, B0.
    pub fn last(&self) -> u8 {
        self.count.saturating_add(BESIDE)
    }

    /// Whether some session has this record.
    pub fn reached(&self) -> bool {
        let digits = |field: &[u8]| field.iter().all(u8::is_ascii_digit);
        let zeros = |field: &[u8]| field.iter().all(|&byte| byte == 0);
        let told = |flag: u8, field: &[u8]| match flag {
            0 => zeros(field),
            1 => digits(field),
            _ => false,
        };
        let Some(highest) = post::tables_of(self.edition) else {
            return false;
        };
        let counted = match self.work {
            work::READS => 1..=READS_MOST as u8,
            work::POST => 1..=highest,
            _ => return false,
        };
        family(self.decimals)
            && told(self.named, &self.serial)
            && told(self.access, &self.password)
            && (self.work == work::READS || self.access == 1)
            && counted.contains(&self.count)
            && (1..=self.last()).contains(&self.sent)
            && self.fact <= fact::SILENT
            && (self.fact != fact::OVER || self.sent == self.last())
    }

    /// The message of a number, made from this work; nothing where it can't be built.
    fn message(&self, number: u8, given: &[u8]) -> Option<Vec<u8>> {
        let wire = |command| Some(line::wires(&head::characters(&command)?));
        match number {
            1 => sign_on(self.named, &self.serial),
            2 => wire(Command::Confirm(b'5', b'1')),
            3 => enter(self.access, &self.password),
            _ if number == self.last() => wire(Command::SignOff),
            _ => {
                let place = usize::from(number - BESIDE);
                work_message(self.meters(), self.work, given, place)
            }
        }
    }

    /// Whether a reply is the right one to the message sent last.
    fn right(&self, given: &[u8], reply: &[u8]) -> bool {
        let identification = format!("/ZZZ5SUB-VP0{}.00*\r\n", self.edition);
        let ask = [&[SOH], &b"P0"[..], &[STX], b"(0000)", &[ETX]].concat();
        match self.sent {
            1 => reply == line::wires(identification.as_bytes()),
            2 => reply == line::wires(&line::with_bcc(&ask)),
            3 => reply == [ACK],
            sent if sent == self.last() || self.work == work::POST => reply == [ACK],
            sent => {
                let [letter, number] = read_at(given, usize::from(sent - BESIDE));
                tells(self.meters(), letter, number, reply)
            }
        }
    }

    fn heard(&self, message: u8, length: usize) -> Heard {
        Heard {
            number: answer::DONE,
            fact: self.fact,
            message,
            length,
        }
    }

    /// A reply has come.
    pub fn reply(&mut self, given: &[u8], reply: &[u8], out: &mut [u8]) -> Heard {
        let refused = |number| Heard {
            number,
            ..Heard::default()
        };
        if out.len() < head::COMMAND_ROOM {
            return refused(answer::SHORT_ROOM);
        }
        if !self.reached() {
            return refused(answer::NO_SESSION);
        }
        if self.fact != fact::GOES_ON {
            return self.heard(self.sent, 0);
        }
        let ends = if reply == [line::wire(NAK)] {
            Some(fact::NAK)
        } else if !self.right(given, reply) {
            Some(fact::WRONG)
        } else if self.sent == self.last() {
            Some(fact::OVER)
        } else {
            None
        };
        if let Some(fact) = ends {
            self.fact = fact;
            return self.heard(self.sent, 0);
        }
        match self.message(self.sent + 1, given) {
            None => refused(answer::NO_SESSION),
            Some(message) => {
                self.sent += 1;
                out[..message.len()].copy_from_slice(&message);
                self.heard(self.sent, message.len())
            }
        }
    }

    /// No reply came.
    pub fn silence(&mut self) -> Heard {
        if !self.reached() {
            return Heard {
                number: answer::NO_SESSION,
                ..Heard::default()
            };
        }
        if self.fact == fact::GOES_ON {
            self.fact = fact::SILENT;
        }
        self.heard(self.sent, 0)
    }
}

/// Whether a reply is a block with just the lines that a read asks for, in their form.
pub fn tells(meters: Meters, letter: u8, number: u8, reply: &[u8]) -> bool {
    let mut stripped = vec![0; reply.len()];
    if head::strip(reply, &mut stripped).0 != head::answer::DONE {
        return false;
    }
    let Ok(part) = head::part(&stripped) else {
        return false;
    };
    let data = &stripped[part];
    let shown = number.to_string();
    match letter {
        b'T' => {
            // Two lines of one length each: the first ends where the second starts.
            let (time, date) = data.split_at(data.len().min(b"0.9.1(hh:nn:ss)\r\n".len()));
            line_of(time, "0.9.1").is_some_and(|value| head::value_time(value).is_some())
                && line_of(date, "0.9.2").is_some_and(|value| head::value_date(value).is_some())
        }
        b'L' => line_of(data, "C.1.0").is_some_and(|value| head::value_serial(value).is_some()),
        b'K' => line_of(data, "0.0.0").is_some_and(|value| head::value_account(value).is_some()),
        b'E' if number <= 4 && meters.decimals == 0 => line_of(data, &format!("15.8.{shown}"))
            .is_some_and(|value| head::value_counter(value).is_some()),
        b'E' if number <= 4 => eqm_line(data, &format!("1.8.{shown}"), meters.decimals),
        b'G' if number <= 4 && meters.decimals != 0 => {
            eqm_line(data, &format!("2.8.{shown}"), meters.decimals)
        }
        b'Z' if post::tables_of(meters.edition)
            .is_some_and(|highest| (1..=highest).contains(&number)) =>
        {
            line_of(data, &format!("131.0.{shown:0>2}"))
                .is_some_and(|value| head::value_row(value).is_some())
        }
        _ => false,
    }
}

/// Whether this is the line of an EQM counter with these decimals.
fn eqm_line(line: &[u8], address: &str, decimals: u8) -> bool {
    line_of(line, address).is_some_and(|value| head::value_eqm(decimals, value).is_some())
}

/// What stands between the brackets of a line with this address.
fn line_of<'a>(line: &'a [u8], address: &str) -> Option<&'a [u8]> {
    line.strip_prefix(address.as_bytes())?
        .strip_prefix(b"(")?
        .strip_suffix(b")\r\n")
}

#[cfg(test)]
mod tests;
