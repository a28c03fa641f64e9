//! The trial's own trial: heads that are the model but for one mistake.

use crate::{Head, Heard, Session, Started, Told};
use model::head::{characters, on_the_wire, part, strip, Command};
use model::session::{answer, fact, start, tells, work, Meters};
use trials::chance::Chance;
use trials::session_words::{identification, right};

#[derive(Clone, Copy, Debug, PartialEq, Eq)]
pub enum Fault {
    SkipsTheBreak,
    CountsTheSignOnAsZero,
    NamesTheNextMessage,
    TakesAnyBlock,
    TakesAnyTable,
    TakesAnyZone,
    TakesLinesBehind,
    TakesUnrealDates,
    TakesTheDateFirst,
    ComparesTheSerial,
    TakesAnyEdition,
    GoesOnAfterNak,
    TakesNakWithoutParity,
    TakesAckWithAHighBit,
    TakesAnAckBeforeMore,
    TakesNothingForSilence,
    EntersBeforeTheAsk,
    SendsThePasswordWithOpen,
    ConfirmsSlow,
    AsksTheFirstReadAgain,
    WritesTheRowBefore,
    ForgetsThatItEnded,
    SilenceOverridesTheEnd,
    SilenceGoesOn,
    TakesThirtyThree,
    RefusesThirtyTwo,
    BadReadBeforeTheCount,
    ReadOnlyBeforeThePost,
    FieldBeforeReadOnly,
    ChecksTheFirstReadOnly,
    LooksAtAnUnnamedSerial,
    KeepsAnUnnamedSerial,
    KeepsTheRecordWhenRefused,
    SaysAPlaceWithThirty,
    SpoilsTheBufferBeforeItRefuses,
    WritesPastTheMessage,
    RecordBeforeRoom,
    TakesOverInTheMiddle,
    TakesTwentyFiveLines,
    TakesAPostWithoutAPassword,
    CountsWorkThatIsLentOnly,
    MovesOnWithoutItsWork,
    WorksInRoomOfItsOwn,
    HasOneEdition,
    TakesTheOtherEdition,
    RoomBeforeTheEdition,
    ReadsBeforeTheEdition,
    HasNoTable25,
    TakesTable25OfEdition1,
    HasOneFamily,
    DropsTheDecimals,
    DecimalsBeforeTheEdition,
    RoomBeforeTheDecimals,
    ReadsBeforeTheDecimals,
    TakesGInDocument01sFamily,
    TakesAnyDecimals,
    TakesDocument01sForm,
    TakesTheOtherDirection,
    AsksForEInPlaceOfG,
}

use Fault::*;

pub const FAULTS: [Fault; 59] = [
    SkipsTheBreak,
    CountsTheSignOnAsZero,
    NamesTheNextMessage,
    TakesAnyBlock,
    TakesAnyTable,
    TakesAnyZone,
    TakesLinesBehind,
    TakesUnrealDates,
    TakesTheDateFirst,
    ComparesTheSerial,
    TakesAnyEdition,
    GoesOnAfterNak,
    TakesNakWithoutParity,
    TakesAckWithAHighBit,
    TakesAnAckBeforeMore,
    TakesNothingForSilence,
    EntersBeforeTheAsk,
    SendsThePasswordWithOpen,
    ConfirmsSlow,
    AsksTheFirstReadAgain,
    WritesTheRowBefore,
    ForgetsThatItEnded,
    SilenceOverridesTheEnd,
    SilenceGoesOn,
    TakesThirtyThree,
    RefusesThirtyTwo,
    BadReadBeforeTheCount,
    ReadOnlyBeforeThePost,
    FieldBeforeReadOnly,
    ChecksTheFirstReadOnly,
    LooksAtAnUnnamedSerial,
    KeepsAnUnnamedSerial,
    KeepsTheRecordWhenRefused,
    SaysAPlaceWithThirty,
    SpoilsTheBufferBeforeItRefuses,
    WritesPastTheMessage,
    RecordBeforeRoom,
    TakesOverInTheMiddle,
    TakesTwentyFiveLines,
    TakesAPostWithoutAPassword,
    CountsWorkThatIsLentOnly,
    MovesOnWithoutItsWork,
    WorksInRoomOfItsOwn,
    HasOneEdition,
    TakesTheOtherEdition,
    RoomBeforeTheEdition,
    ReadsBeforeTheEdition,
    HasNoTable25,
    TakesTable25OfEdition1,
    HasOneFamily,
    DropsTheDecimals,
    DecimalsBeforeTheEdition,
    RoomBeforeTheDecimals,
    ReadsBeforeTheDecimals,
    TakesGInDocument01sFamily,
    TakesAnyDecimals,
    TakesDocument01sForm,
    TakesTheOtherDirection,
    AsksForEInPlaceOfG,
];

pub struct Wrong {
    fault: Option<Fault>,
    chance: Chance,
}

impl Wrong {
    /// The model itself, which must pass.
    pub fn right() -> Wrong {
        Wrong {
            fault: None,
            chance: Chance::new(1),
        }
    }

    pub fn with(fault: Fault) -> Wrong {
        Wrong {
            fault: Some(fault),
            ..Wrong::right()
        }
    }
}

fn refused(number: u8) -> Started {
    Started {
        number,
        ..Started::default()
    }
}

/// The data of a reply that is a block.
fn data(reply: &[u8]) -> Option<Vec<u8>> {
    let mut stripped = vec![0; reply.len()];
    let good = strip(reply, &mut stripped).0 == 1;
    let part = part(&stripped).ok().filter(|_| good)?;
    Some(stripped[part].to_vec())
}

/// A message in place of the one that was given.
fn instead(command: &Command, heard: &mut Heard, out: &mut [u8], filling: &[u8]) {
    let message = on_the_wire(&characters(command).expect("it is good"));
    out.copy_from_slice(filling);
    out[..message.len()].copy_from_slice(&message);
    heard.length = message.len();
}

impl Head for Wrong {
    fn start(&mut self, session: &mut Session, told: &Told, out: &mut [u8]) -> Started {
        let before = *session;
        let (reads, post) = (told.kind == work::READS, told.kind == work::POST);
        let count = told.work.len() / 2;
        let no_family = !matches!(told.decimals, 0 | 2 | 3 | 4);
        let mut turned = *told;
        match self.fault {
            Some(TakesThirtyThree) if reads && told.work.len() == 66 => {
                turned.work = &told.work[..64];
            }
            Some(RefusesThirtyTwo) if reads && count == 32 && out.len() >= 64 => {
                *session = Session::default();
                return refused(answer::MANY_READS);
            }
            Some(BadReadBeforeTheCount) if reads && count > 32 && told.named > 1 => {
                turned.work = &told.work[..2];
            }
            Some(ReadOnlyBeforeThePost) if post && told.access == 0 && out.len() >= 64 => {
                *session = Session::default();
                return refused(answer::READ_ONLY);
            }
            Some(FieldBeforeReadOnly) if post && told.access == 0 && told.named == 1 => {
                turned.access = 2;
            }
            Some(ChecksTheFirstReadOnly) if reads && (2..=32).contains(&count) => {
                turned.work = &told.work[..2];
            }
            Some(HasOneEdition) if told.edition == 2 => turned.edition = 1,
            Some(RoomBeforeTheEdition | ReadsBeforeTheEdition)
                if ![1, 2].contains(&told.edition) =>
            {
                let room = self.fault == Some(RoomBeforeTheEdition);
                turned.edition = match (room, out.len() < 64, told.work.is_empty()) {
                    (true, true, _) | (false, false, true) => 2,
                    _ => told.edition,
                };
            }
            Some(HasNoTable25) if told.edition == 2 && reads && told.work.contains(&25) => {
                turned.edition = 1;
            }
            Some(TakesTable25OfEdition1) if told.edition == 1 && post => turned.edition = 2,
            Some(HasOneFamily) => turned.decimals = 0,
            Some(DecimalsBeforeTheEdition) if no_family => turned.edition = 1,
            Some(RoomBeforeTheDecimals) if no_family && out.len() < 64 => turned.decimals = 0,
            Some(ReadsBeforeTheDecimals)
                if no_family && reads && told.work.is_empty() && out.len() >= 64 =>
            {
                turned.decimals = 0;
            }
            Some(TakesGInDocument01sFamily) if told.decimals == 0 => turned.decimals = 2,
            Some(LooksAtAnUnnamedSerial) if told.named == 0 && told.serial.is_empty() => {
                turned.named = 2;
            }
            _ => {}
        }
        let mut started = start(session, &turned, out);
        match self.fault {
            Some(ChecksTheFirstReadOnly) if started.number == 1 && reads => {
                session.count = count as u8;
            }
            Some(TakesTable25OfEdition1) if started.number == 1 => session.edition = told.edition,
            Some(DropsTheDecimals) => session.decimals = 0,
            Some(TakesGInDocument01sFamily) if started.number == 1 => {
                session.decimals = told.decimals;
            }
            Some(TakesThirtyThree) if started.number == 1 && count == 33 => session.count = 33,
            Some(KeepsAnUnnamedSerial) if started.number == 1 && told.serial.len() == 10 => {
                session.serial.copy_from_slice(told.serial);
            }
            Some(KeepsTheRecordWhenRefused) if started.number != 1 => *session = before,
            Some(SaysAPlaceWithThirty) if started.number == answer::READ_ONLY => {
                started.place = told.work.len();
            }
            Some(SpoilsTheBufferBeforeItRefuses) if started.number == answer::FIELD => {
                out[0] = !out[0];
            }
            Some(WritesPastTheMessage) if started.number == 1 => {
                out[started.length] = !out[started.length];
            }
            _ => {}
        }
        started
    }

    fn reply(&mut self, session: &mut Session, work: &[u8], reply: &[u8], out: &mut [u8]) -> Heard {
        let (before, filling) = (*session, out.to_vec());
        let goes_on = before.reached() && before.fact == fact::GOES_ON;
        let of_work = goes_on && 4 <= before.sent && before.sent < before.last();
        let of_reads = of_work && before.work == work::READS;
        let read = match of_reads {
            true => work.chunks(2).nth(usize::from(before.sent) - 4),
            false => None,
        };
        let letter = read.map_or(0, |read| read[0]);
        let number = read.and_then(|read| read.get(1)).copied().unwrap_or(0);
        let energy = matches!(letter, b'E' | b'G') && number <= 4;
        // Whether the reply tells of this energy in the form of one of these decimals.
        let of = |decimals: &[u8], letter: u8| {
            decimals.iter().any(|&decimals| {
                let meters = Meters {
                    edition: 1,
                    decimals,
                };
                tells(meters, letter, number, reply)
            })
        };
        let inside = data(reply).unwrap_or_default();
        let good = right(&mut self.chance, &before, work);
        // What it takes for the right reply.
        let taken = match self.fault {
            Some(TakesAnyBlock) => of_reads && !inside.is_empty(),
            Some(TakesAnyTable) => {
                let number = inside.get(6..8).unwrap_or(b"00");
                let number = String::from_utf8_lossy(number).parse().unwrap_or(0);
                letter == b'Z' && tells(before.meters(), b'Z', number, reply)
            }
            Some(TakesAnyZone) => {
                let meters = before.meters();
                letter == b'E' && (0..5).any(|zone| tells(meters, b'E', zone, reply))
            }
            Some(TakesAnyDecimals) => energy && before.decimals != 0 && of(&[2, 3, 4], letter),
            Some(TakesDocument01sForm) => {
                energy && before.decimals != 0 && letter == b'E' && of(&[0], letter)
            }
            Some(TakesTheOtherDirection) => {
                let other = if letter == b'E' { b'G' } else { b'E' };
                energy && before.decimals != 0 && of(&[before.decimals], other)
            }
            Some(TakesLinesBehind) => {
                let lines = inside.split_inclusive(|&byte| byte == b'\n').count();
                letter == b'L' && lines > 1 && inside.starts_with(b"C.1.0(")
            }
            Some(TakesUnrealDates) => {
                letter == b'T' && inside.len() == 34 && inside.starts_with(b"0.9.1(")
            }
            Some(TakesTheDateFirst) => letter == b'T' && inside.starts_with(b"0.9.2("),
            Some(TakesAnyEdition) => {
                goes_on && before.sent == 1 && reply.starts_with(&on_the_wire(b"/ZZZ5SUB-VP"))
            }
            Some(TakesTheOtherEdition) => {
                let both = [1, 2].map(identification);
                goes_on && before.sent == 1 && both.iter().any(|id| id == reply)
            }
            Some(GoesOnAfterNak) => goes_on && reply == [0x95],
            Some(TakesAckWithAHighBit) => goes_on && good == [0x06] && reply == [0x86],
            Some(TakesAnAckBeforeMore) => goes_on && good == [0x06] && reply.starts_with(&good),
            _ => false,
        };
        let mut reply = if taken { &good[..] } else { reply };
        let mut given = work.to_vec();
        match self.fault {
            Some(ComparesTheSerial) if letter == b'L' && before.named == 1 => {
                let shown = [&before.serial[..3], b" ", &before.serial[3..]].concat();
                if !inside.windows(11).any(|part| part == shown) {
                    reply = b"";
                }
            }
            Some(TakesNakWithoutParity) if goes_on && reply == [0x15] => reply = &[0x95],
            Some(TakesNothingForSilence) if goes_on && reply.is_empty() && out.len() >= 64 => {
                return session.silence();
            }
            Some(AsksTheFirstReadAgain) if of_reads && work.len() > 4 => {
                let (first, place) = ([work[0], work[1]], usize::from(before.sent) * 2 - 6);
                if let Some(next) = given.get_mut(place..place + 2) {
                    next.copy_from_slice(&first);
                }
            }
            Some(WritesTheRowBefore) if of_work && before.work == work::POST => {
                let place = (usize::from(before.sent) - 4) * 36;
                if place + 72 <= work.len() {
                    given[place + 45..place + 69].copy_from_slice(&work[place + 9..place + 33]);
                }
            }
            Some(AsksForEInPlaceOfG) if goes_on && before.work == work::READS => {
                let place = (usize::from(before.sent) + 1).saturating_sub(4) * 2;
                if given.get(place) == Some(&b'G') && before.decimals != 0 {
                    given[place] = b'E';
                }
            }
            Some(ForgetsThatItEnded) if before.reached() => session.fact = fact::GOES_ON,
            Some(RecordBeforeRoom) if out.len() < 64 && !before.reached() => {
                return Heard {
                    number: answer::NO_SESSION,
                    ..Heard::default()
                };
            }
            Some(TakesOverInTheMiddle) if before.fact == fact::OVER => session.fact = fact::NAK,
            Some(TakesTwentyFiveLines)
                if before.work == work::POST && before.count == 25 && before.edition == 1 =>
            {
                session.count = 24;
            }
            Some(TakesAPostWithoutAPassword) if before.access == 0 && before.work == 1 => {
                session.work = work::READS;
            }
            Some(CountsWorkThatIsLentOnly)
                if goes_on
                    && before.work == work::READS
                    && work.len() != usize::from(before.count) * 2 =>
            {
                return Heard {
                    number: answer::NO_SESSION,
                    ..Heard::default()
                };
            }
            _ => {}
        }
        let mut heard = session.reply(&given, reply, out);
        let next = heard.number == 1 && heard.fact == fact::GOES_ON && goes_on;
        match self.fault {
            Some(SkipsTheBreak) if next && heard.message == before.last() => {
                out.copy_from_slice(&filling);
                *session = before;
                session.sent = before.last();
                session.fact = fact::OVER;
                heard.fact = fact::OVER;
                heard.length = 0;
            }
            Some(CountsTheSignOnAsZero) if heard.message > 0 => heard.message -= 1,
            Some(NamesTheNextMessage) if heard.fact > fact::OVER => heard.message += 1,
            Some(EntersBeforeTheAsk) if next && heard.message == 2 => {
                instead(&Command::Enter, &mut heard, out, &filling);
            }
            Some(SendsThePasswordWithOpen) if next && heard.message == 3 && before.access == 0 => {
                let command = Command::Password(b"00000000");
                instead(&command, &mut heard, out, &filling);
            }
            Some(ConfirmsSlow) if next && heard.message == 2 => {
                instead(&Command::Confirm(b'0', b'1'), &mut heard, out, &filling);
            }
            Some(ForgetsThatItEnded) if before.fact != 0 && heard.number != 1 => *session = before,
            Some(WritesPastTheMessage) if next => out[heard.length] = !out[heard.length],
            Some(SpoilsTheBufferBeforeItRefuses) if heard.number == answer::NO_SESSION => {
                out[0] = !out[0];
            }
            Some(TakesOverInTheMiddle | TakesTwentyFiveLines | TakesAPostWithoutAPassword)
                if heard.number != 1 =>
            {
                *session = before;
            }
            Some(MovesOnWithoutItsWork) if goes_on && heard.number == answer::NO_SESSION => {
                session.sent += 1;
            }
            Some(WorksInRoomOfItsOwn) if out.len() < 64 && out.len() > 40 => {
                let mut room = [0; 64];
                heard = session.reply(work, reply, &mut room);
                out[..heard.length].copy_from_slice(&room[..heard.length]);
            }
            _ => {}
        }
        heard
    }

    fn silence(&mut self, session: &mut Session) -> Heard {
        let before = *session;
        let mut heard = session.silence();
        match self.fault {
            Some(SilenceOverridesTheEnd) if heard.number == 1 => {
                session.fact = fact::SILENT;
                heard.fact = fact::SILENT;
            }
            Some(SilenceGoesOn) if heard.number == 1 => *session = before,
            Some(CountsTheSignOnAsZero) if heard.message > 0 => heard.message -= 1,
            Some(NamesTheNextMessage) if heard.fact == fact::SILENT => heard.message += 1,
            _ => {}
        }
        heard
    }
}
