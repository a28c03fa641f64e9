//! The head's script over the model: one call a line in, its answer out.

use crate::bench::{decimal, exactly, hex, put_hex, FILLING, LINE_MOST};
use crate::card;
use crate::head::{self, answer, Clock, Command, Kind};
use crate::mercury::{self, Read};
use crate::post;
use crate::session::{self, fact, work, Heard, Meters, Session, Told};
use std::io::{self, BufRead, Write};

/// The most room that is lent. Nothing that a line can ask for is longer than the line, so in any
/// greater room the answer is the same, and so is what is shown.
const ROOM_LENT: usize = LINE_MOST;

/// A head on the bench: the session that was started last, and its work.
#[derive(Default)]
pub struct Bench {
    session: Option<(Session, Vec<u8>)>,
}

impl Bench {
    /// The session that goes on or has ended, and its work.
    pub fn session(&self) -> Option<(&Session, &[u8])> {
        self.session
            .as_ref()
            .map(|(session, work)| (session, &work[..]))
    }

    /// The answer to one line, given without its LF; nothing for an error.
    pub fn answer(&mut self, line: &[u8]) -> Option<String> {
        if line.len() > LINE_MOST {
            return None;
        }
        let words: Vec<&[u8]> = line.split(|&byte| byte == b' ').collect();
        match words[..] {
            [b"session", edition, decimals, start, access, ref work @ ..] => {
                let meters = Meters {
                    edition: decimal(edition)?,
                    decimals: decimal(decimals)?,
                };
                self.start(meters, start, access, work)
            }
            [b"reply", reply] => {
                let (reply, mut out) = (hex(reply)?, [FILLING; head::COMMAND_ROOM]);
                let (session, work) = self.session.as_mut()?;
                let heard = session.reply(work, &reply, &mut out);
                Some(heard_shown(&heard, &out))
            }
            [b"quiet"] => {
                let (session, _) = self.session.as_mut()?;
                Some(heard_shown(&session.silence(), &[]))
            }
            _ => call(&words),
        }
    }

    /// A session started; one that is refused leaves none.
    fn start(
        &mut self,
        meters: Meters,
        start: &[u8],
        access: &[u8],
        given: &[&[u8]],
    ) -> Option<String> {
        let field = |word: &[u8], without: &[u8]| match word == without {
            true => Some((0, Vec::new())),
            false => Some((1, hex(word)?)),
        };
        let (named, serial) = field(start, b"any")?;
        let (access, password) = field(access, b"open")?;
        let (kind, work) = match given {
            [b"post", text] => (work::POST, hex(text)?),
            [b"reads", reads @ ..] => {
                let reads: Option<Vec<[u8; 2]>> = reads.iter().map(|read| read_of(read)).collect();
                (work::READS, reads?.concat())
            }
            _ => return None,
        };
        let told = Told {
            edition: meters.edition,
            decimals: meters.decimals,
            named,
            serial: &serial,
            access,
            password: &password,
            kind,
            work: &work,
        };
        let (mut session, mut out) = (Session::default(), [FILLING; head::COMMAND_ROOM]);
        let started = session::start(&mut session, &told, &mut out);
        self.session = (started.number == session::answer::DONE).then_some((session, work));
        Some(written(started.number, started.place, started.length, &out))
    }
}

/// A read of a list, as `session` takes it: the letter, and the number of those that have one.
fn read_of(word: &[u8]) -> Option<[u8; 2]> {
    match word {
        [b'T' | b'L' | b'K'] => Some([word[0], 0]),
        [b'E' | b'G' | b'Z', number @ ..] => Some([word[0], decimal(number)?]),
        _ => None,
    }
}

fn heard_shown(heard: &Heard, out: &[u8]) -> String {
    let word = match heard.fact {
        fact::GOES_ON => "next",
        fact::OVER => "done",
        fact::NAK => "nak",
        fact::WRONG => "wrong",
        _ => "silence",
    };
    let changed = out.iter().rposition(|&byte| byte != FILLING);
    let shown = heard.length.max(changed.map_or(0, |place| place + 1));
    let mut line = format!("{word} {} ", heard.message);
    put_hex(&mut line, &out[..shown]);
    line
}

/// The answer to a line of its own, which no session takes part in.
pub fn answer(line: &[u8]) -> Option<String> {
    Bench::default().answer(line)
}

/// A call that keeps nothing.
fn call(words: &[&[u8]]) -> Option<String> {
    match words[..] {
        [b"build", name, room, ref fields @ ..] => build(name, room, fields),
        [b"value", b"eqm", decimals, value] => {
            let (number, read) = head::value(Kind::Eqm(decimal(decimals)?), &hex(value)?);
            Some(format!("{number} {}", read[0]))
        }
        [b"value", kind, value] => value_of(kind, value),
        [b"check", edition, text] => {
            let (number, place) = post::check(decimal(edition)?, &hex(text)?);
            Some(format!("{number} {place}"))
        }
        [b"export", edition, room, text] => {
            let (text, mut out) = (hex(text)?, lent(room)?);
            let (number, length, place) = post::export(decimal(edition)?, &text, &mut out);
            let beside = if number == post::DONE { length } else { place };
            Some(written(number, beside, length, &out))
        }
        [b"card", edition, room, text] => {
            let (text, mut out) = (hex(text)?, lent(room)?);
            let (number, length, place) = card::export(decimal(edition)?, &text, &mut out);
            let beside = if number == card::DONE { length } else { place };
            Some(written(number, beside, length, &out))
        }
        [b"strip", room, reply] => {
            let (reply, mut out) = (hex(reply)?, lent(room)?);
            let (number, length, place) = head::strip(&reply, &mut out);
            Some(written(number, length, length, &out) + &format!(" {place}"))
        }
        [b"mercury", b"ask", room, address, array, month, tariff] => {
            let mut out = lent(room)?;
            let fields = [address, array, month, tariff].map(decimal::<u8>);
            let [Some(address), Some(array), Some(month), Some(tariff)] = fields else {
                return None;
            };
            let (number, length) = mercury::ask(address, array, month, tariff, &mut out);
            Some(written(number, length, length, &out))
        }
        [b"mercury", b"read", address, answer] => {
            Some(match mercury::read(decimal(address)?, &hex(answer)?) {
                Read::Energy(quantities) => {
                    let shown = quantities.map(|quantity| match quantity {
                        Some(number) => number.to_string(),
                        None => "-".into(),
                    });
                    format!("{} 0 {}", mercury::answer::DONE, shown.join(" "))
                }
                Read::Not { number, status } => format!("{number} {status} 0 0 0 0"),
            })
        }
        [b"part", stripped] => Some(match head::part(&hex(stripped)?) {
            Ok(part) => format!("{} {} {}", answer::DONE, part.start, part.len()),
            Err(number) => format!("{number} 0 0"),
        }),
        [b"next", at, sets] => {
            let (at, sets) = (decimal::<u64>(at)?, hex(sets)?);
            let step = head::next(&sets, at as usize);
            let (address, value) = (step.address_length, step.value_length);
            let set = match step.answer {
                answer::DONE => [at, address as u64, at + address as u64 + 1, value as u64],
                _ => [0; 4],
            };
            let [start, address, behind, value] = set;
            let (number, place, next) = (step.answer, step.place, step.next);
            Some(format!(
                "{number} {place} {start} {address} {behind} {value} {next}"
            ))
        }
        [b"find", address, sets] => {
            let found = head::find(&hex(sets)?, &hex(address)?);
            let numbers = [
                found.count,
                found.place,
                found.address_start,
                found.address_length,
                found.value_start,
                found.value_length,
            ];
            let shown = numbers.map(|number| format!(" {number}")).concat();
            Some(format!("{}{shown}", found.answer))
        }
        _ => None,
    }
}

/// A command built, by its name and the words behind the room.
fn build(name: &[u8], room: &[u8], fields: &[&[u8]]) -> Option<String> {
    let mut out = lent(room)?;
    let text = match (name, fields) {
        (b"serial" | b"wired" | b"password" | b"setaccount", [field]) => hex(field)?,
        (b"settable", [_, _, row]) => hex(row)?,
        _ => Vec::new(),
    };
    let command = match (name, fields) {
        (b"any", []) => Command::SignOn,
        (b"close", []) => Command::Close,
        (b"serial", [_]) => Command::SignOnTo(&text),
        (b"wired", [_]) => Command::SignOnWired(&text),
        (b"confirm", [speed, choice]) => {
            let ([speed], [choice]) = (exactly(speed)?, exactly(choice)?);
            Command::Confirm(speed, choice)
        }
        (b"readonly", []) => Command::Enter,
        (b"password", [_]) => Command::Password(&text),
        (b"clock", []) => Command::ReadClock,
        (b"number", []) => Command::ReadSerial,
        (b"account", []) => Command::ReadAccount,
        (b"energy", [zone]) => match decimal(zone)? {
            0 => Command::ReadTotal,
            zone => Command::ReadZone(zone),
        },
        (b"out", [zone]) => match decimal(zone)? {
            0 => Command::ReadTotalOut,
            zone => Command::ReadZoneOut(zone),
        },
        (b"table", [edition, table]) => Command::ReadTable(decimal(edition)?, decimal(table)?),
        (b"setclock", [year, month, day, hour, minute, second]) => Command::WriteClock(Clock {
            year: decimal(year)?,
            month: decimal(month)?,
            day: decimal(day)?,
            hour: decimal(hour)?,
            minute: decimal(minute)?,
            second: decimal(second)?,
        }),
        (b"setaccount", [_]) => Command::WriteAccount(&text),
        (b"settable", [edition, table, _]) => {
            Command::WriteTable(decimal(edition)?, decimal(table)?, &text)
        }
        (b"break", []) => Command::SignOff,
        _ => return None,
    };
    let (number, length) = head::build(&command, &mut out);
    Some(written(number, length, length, &out))
}

fn value_of(kind: &[u8], value: &[u8]) -> Option<String> {
    let kind = match kind {
        b"serial" => Kind::Serial,
        b"account" => Kind::Account,
        b"row" => Kind::Row,
        b"date" => Kind::Date,
        b"time" => Kind::Time,
        b"period" => Kind::Period,
        b"counter" => Kind::Counter,
        _ => return None,
    };
    let (number, read) = head::value(kind, &hex(value)?);
    let mut line = number.to_string();
    if let Kind::Serial | Kind::Account | Kind::Row = kind {
        let characters: Vec<u8> = read.iter().map(|&c| c as u8).collect();
        line.push(' ');
        put_hex(&mut line, &characters);
    } else {
        for number in read {
            line += &format!(" {number}");
        }
    }
    Some(line)
}

/// A buffer of so many bytes.
fn lent(room: &[u8]) -> Option<Vec<u8>> {
    let room = decimal::<u64>(room)?;
    let room = usize::try_from(room).map_or(ROOM_LENT, |room| room.min(ROOM_LENT));
    Some(vec![FILLING; room])
}

/// Two numbers and a buffer, without the filling that ends it behind what was written.
fn written(number: u8, beside: usize, length: usize, buffer: &[u8]) -> String {
    let changed = buffer.iter().rposition(|&byte| byte != FILLING);
    let shown = length.max(changed.map_or(0, |place| place + 1));
    let mut line = format!("{number} {beside} ");
    put_hex(&mut line, &buffer[..shown]);
    line
}

/// Plays a script from start to end; the last line may lack its LF.
pub fn run(mut script: impl BufRead, mut transcript: impl Write) -> io::Result<()> {
    let mut line = Vec::new();
    let mut bench = Bench::default();
    loop {
        line.clear();
        if script.read_until(b'\n', &mut line)? == 0 {
            return transcript.flush();
        }
        let told = bench.answer(line.strip_suffix(b"\n").unwrap_or(&line));
        transcript.write_all(told.as_deref().unwrap_or("error").as_bytes())?;
        transcript.write_all(b"\n")?;
    }
}

#[cfg(test)]
mod tests {
    use super::*;

    #[test]
    fn calls_by_hand() {
        let ones = "31".repeat(24);
        let frame = format!("81d7b1825a2830b1bb{}a90306", "b1".repeat(24));
        let line = format!("3133312e302e303128{ones}290d0a");
        for (asked, told) in [
            ("build any 64", "1 5 af3f218d0a"),
            ("build any 63", "19 0 -"),
            ("build any 18446744073709551615", "1 5 af3f218d0a"),
            ("build break 64", "1 5 8142300371"),
            ("build confirm 64 35 31", "1 6 063035b18d0a"),
            ("build confirm 64 30 31", "1 6 063030b18d0a"),
            ("build confirm 64 31 31", "9 0 -"),
            ("build confirm 64 35 36", "1 6 063035368d0a"),
            ("build confirm 64 35 38", "9 0 -"),
            ("build close 64", "1 5 afc3218d0a"),
            ("build close 63", "19 0 -"),
            ("build close 64 00", "error"),
            ("build energy 64 5", "9 0 -"),
            ("build out 64 0", "1 10 81d2b182473028a90314"),
            ("build out 64 5", "9 0 -"),
            ("build out 63 5", "19 0 -"),
            ("build out 64", "error"),
            ("build out 64 256", "error"),
            ("build serial 64 -", "9 0 -"),
            ("build serial 0 -", "19 0 -"),
            (
                &format!("build settable 64 1 1 {ones}"),
                &format!("1 36 {frame}"),
            ),
            (&format!("build settable 64 1 25 {ones}"), "9 0 -"),
            (&format!("build settable 64 1 {ones}"), "error"),
            ("build settable 63 2 25 -", "19 0 -"),
            ("build settable 63 3 25 -", "16 0 -"),
            ("build table 64 1 24", "1 11 81d2b1825a28b2b4a9033f"),
            ("build table 64 2 25", "1 11 81d2b1825a28b235a903be"),
            ("build table 64 1 25", "9 0 -"),
            ("build table 64 2 26", "9 0 -"),
            ("build table 63 0 26", "16 0 -"),
            ("build table 64 256 1", "error"),
            ("build table 64 1", "error"),
            (&format!("check 1 {line}210d0a"), "1 0"),
            (&format!("check 2 {line}"), "20 36"),
            (&format!("check 0 {line}"), "16 0"),
            (&format!("check {line}"), "error"),
            (
                &format!("export 1 36 {line}210d0a"),
                &format!("1 36 {frame}"),
            ),
            (&format!("export 2 35 {line}210d0a"), "21 0 -"),
            ("export 1 0 31", "20 1 -"),
            ("export 255 0 31", "16 0 -"),
            ("export 256 0 31", "error"),
            ("card 2 0 01000b", "40 2 -"),
            ("card 3 0 01000b", "16 0 -"),
            ("strip 3 8182aa", "1 3 01022a 0"),
            ("strip 2 8182aa", "26 0 - 0"),
            ("strip 2 01", "24 0 - 0"),
            ("strip 4 81820101", "24 0 - 2"),
            ("strip 0 -", "1 0 - 0"),
            ("part 02410342", "1 1 1"),
            ("part 02410343", "23 0 0"),
            ("part -", "22 0 0"),
            ("next 0 41284229 ", "error"),
            ("next 0 412842290d0a", "1 0 0 1 2 1 6"),
            ("next 1 412842290d0a", "25 1 0 0 0 0 1"),
            (
                "next 18446744073709551615 -",
                "0 0 0 0 0 0 18446744073709551615",
            ),
            ("find 42 412831290d0a422832290d0a", "1 2 0 6 1 8 1"),
            ("find 43 412831290d0a422832290d0a", "27 2 0 0 0 0 0"),
            ("find 42 412831290d0a4228320d0a", "25 1 6 0 0 0 0"),
            ("find - -", "27 0 0 0 0 0 0"),
            ("find 42", "error"),
            ("value counter 3030303030312e3530302a6b5768", "1 1500"),
            ("value eqm 3 30303030312e3530302a6b5768", "1 1500"),
            ("value eqm 2 30303030312e3530302a6b5768", "25 0"),
            ("value eqm 0 30303030312e3530302a6b5768", "18 0"),
            ("value eqm 5 -", "18 0"),
            ("value eqm 256 -", "error"),
            ("value eqm 3", "error"),
            ("value date 32342d30322d3239", "1 2024 2 29"),
            ("value time 32333a35393a3630", "25 0 0 0"),
            (
                "value period 32342d30332d30312030303a3030",
                "1 2024 3 1 0 0",
            ),
            ("value period 32342d30332d30312030303a3630", "25 0 0 0 0 0"),
            (
                "find 302e312e322a3031 302e312e322a303128290d0a",
                "1 1 0 0 8 9 0",
            ),
            ("value serial -", &format!("25 {}", "00".repeat(10))),
            ("mercury ask 6 128 3 1 0", "1 6 800531002c75"),
            ("mercury ask 5 128 3 1 0", "55 0 -"),
            ("mercury ask 0 128 4 1 0", "54 0 -"),
            ("mercury ask 6 256 0 0 0", "error"),
            (
                "mercury read 128 800000700affffffff0000e803000000003f0f",
                "1 0 2672 - 1000 0",
            ),
            ("mercury read 1 01000020", "53 0 0 0 0 0"),
            ("mercury read 0 01000020", "52 0 0 0 0 0"),
            ("mercury read 0 -", "50 0 0 0 0 0"),
            ("build any 18446744073709551616", "error"),
            ("build energy 64 256", "error"),
            ("build any 64 ", "error"),
            ("build any", "error"),
            ("build", "error"),
            ("strip 1 AF", "error"),
            ("", "error"),
        ] {
            let mut got = Vec::new();
            run(asked.as_bytes(), &mut got).unwrap();
            let wanted = match asked {
                "" => String::new(),
                _ => format!("{told}\n"),
            };
            assert_eq!(String::from_utf8(got).unwrap(), wanted, "{asked}");
        }
    }

    /// Lines of one script, each with what it is answered.
    fn played(lines: &[(&str, &str)]) {
        let asked: String = lines
            .iter()
            .map(|(asked, _)| format!("{asked}\n"))
            .collect();
        let mut got = Vec::new();
        run(asked.as_bytes(), &mut got).unwrap();
        let got = String::from_utf8(got).unwrap();
        for (got, (asked, told)) in got.lines().zip(lines) {
            assert_eq!(&got, told, "{asked}");
        }
        assert_eq!(got.lines().count(), lines.len());
    }

    const IDENTIFIED: &str = "reply af5a5a5a355355422d565030b12e3030aa8d0a";
    const ASKED: &str = "reply 815030822830303030a90360";

    #[test]
    fn a_session_by_hand() {
        let serial = "3132333435363738393030";
        played(&[
            ("quiet", "error"),
            ("reply 06", "error"),
            ("session 1 0 any open reads L", "1 0 af3f218d0a"),
            (IDENTIFIED, "next 2 063035b18d0a"),
            ("session 1 0 any open reads X", "error"),
            (ASKED, "next 3 8150b18228a903e1"),
            ("reply 06", "next 4 81d2b182cc28a903af"),
            ("reply 06", "wrong 4 -"),
            ("reply 95", "wrong 4 -"),
            ("quiet", "wrong 4 -"),
            (
                &format!("session 1 0 {} open reads Z24 E0", &serial[..20]),
                "1 0 af3fb1b233a0b43536b7b83930218d0a",
            ),
            ("reply 95", "nak 1 -"),
            ("session 1 0 any open reads Z24 E0", "1 0 af3f218d0a"),
            ("quiet", "silence 1 -"),
            ("reply 06", "silence 1 -"),
            ("session 1 0 any open reads", "28 0 -"),
            ("quiet", "error"),
        ]);
    }

    #[test]
    fn a_session_that_is_done() {
        let line = format!("3133312e302e303128{}290d0a", "31".repeat(24));
        let frame = format!("81d7b1825a2830b1bb{}a90306", "b1".repeat(24));
        played(&[
            (
                &format!("session 1 0 any 3230333034303530 post {line}210d0a"),
                "1 0 af3f218d0a",
            ),
            (IDENTIFIED, "next 2 063035b18d0a"),
            (ASKED, "next 3 8150b18228b2303330b4303530a903e1"),
            ("reply 06", &format!("next 4 {frame}")),
            ("reply 06", "next 5 8142300371"),
            ("reply 06", "done 5 -"),
            ("quiet", "done 5 -"),
            ("reply -", "done 5 -"),
        ]);
    }

    #[test]
    fn sessions_refused() {
        let many = " T".repeat(33);
        for (asked, told) in [
            (&format!("session 1 0 any open reads{many}")[..], "29 0 -"),
            (&format!("session 1 0 - open reads{}", &many[2..]), "9 0 -"),
            ("session 1 0 any open post 31333132", "20 3 -"),
            ("session 1 0 any open post -", "20 0 -"),
            ("session 1 0 any open reads E5", "9 0 -"),
            ("session 1 0 any open reads Z0", "9 0 -"),
            ("session 1 0 any open reads E255", "9 0 -"),
            ("session 1 0 any open reads E256", "error"),
            ("session 1 0 any open reads E", "error"),
            ("session 1 0 any open reads T0", "error"),
            ("session 1 0 any open reads G1", "9 0 -"),
            ("session 1 0 any open reads t", "error"),
            ("session 1 0 any - reads T", "9 0 -"),
            ("session 1 0 any open post", "error"),
            ("session 1 0 any open post - -", "error"),
            ("session 1 0 any open", "error"),
            ("session 1 0 any open T", "error"),
            ("session 1 0 1 open reads T", "error"),
            ("session 1 any open reads T", "error"),
            ("session 2 0 any open reads Z25", "1 0 af3f218d0a"),
            ("session 1 0 any open reads Z25", "9 0 -"),
            ("session 2 0 any open reads Z26", "9 0 -"),
            ("session 3 0 any open reads", "16 0 -"),
            ("session 256 0 any open reads T", "error"),
            ("session 1 256 any open reads T", "error"),
            ("session 1 2 any open reads G0 G4 E0", "1 0 af3f218d0a"),
            ("session 1 4 any open reads G5", "9 0 -"),
            ("session 1 4 any open reads G", "error"),
            ("session 1 4 any open reads G256", "error"),
            ("session 1 1 any open reads", "18 0 -"),
            ("session 1 5 any open post -", "18 0 -"),
            ("session 3 5 any open reads", "16 0 -"),
            ("session 1 0 any open reads ", "error"),
            ("quiet 1", "error"),
            ("reply", "error"),
        ] {
            played(&[(asked, told)]);
        }
    }
}
