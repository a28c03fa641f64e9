use super::*;
use crate::meter::{Clock, Meter, ROOM};
use crate::post::{text_of, Table};

const SERIAL: &[u8; 10] = b"1234567890";
const PASSWORD: &[u8; 8] = b"20304050";
const ALL: &[u8] = b"T\0L\0K\0E\0E\x01E\x02E\x03E\x04Z\x01Z\x18";

/// Meters of edition 1 and of document 01's family.
const OURS: Meters = Meters {
    edition: 1,
    decimals: 0,
};

fn reads(work: &[u8]) -> Told<'_> {
    Told {
        edition: 1,
        decimals: 0,
        named: 0,
        serial: b"",
        access: 0,
        password: b"",
        kind: work::READS,
        work,
    }
}

fn post(text: &[u8]) -> Told<'_> {
    Told {
        edition: 1,
        decimals: 0,
        named: 1,
        serial: SERIAL,
        access: 1,
        password: PASSWORD,
        kind: work::POST,
        work: text,
    }
}

fn winter() -> Vec<u8> {
    let table = |number| Table {
        number,
        row: [b'2'; 24],
    };
    text_of(&[table(1), table(4), table(6)])
}

fn meter() -> Meter {
    meter_of(1)
}

fn meter_of(edition: u8) -> Meter {
    meter_like(edition, 0)
}

fn meter_like(edition: u8, decimals: u8) -> Meter {
    let clock = Clock {
        year: 2024,
        month: 2,
        day: 29,
        hour: 23,
        minute: 5,
        second: 9,
    };
    let (number, meter) = Meter::new(
        *SERIAL,
        *b"Kiln_7 old",
        *PASSWORD,
        clock,
        [edition, 1, decimals],
    );
    assert_eq!(number, 1);
    meter
}

/// What the meter says to a message.
fn said(meter: &mut Meter, message: &[u8]) -> Vec<u8> {
    let mut reply = Vec::new();
    for &byte in message {
        let mut out = [0; ROOM];
        let answer = meter.character(byte, &mut out);
        reply.extend(&out[..answer.length]);
    }
    reply
}

fn started(told: &Told) -> (Session, Vec<u8>) {
    let (mut session, mut out) = (Session::default(), [0x5A; 80]);
    let started = start(&mut session, told, &mut out);
    assert_eq!((started.number, started.place), (1, 0));
    assert!(out[started.length..].iter().all(|&byte| byte == 0x5A));
    (session, out[..started.length].to_vec())
}

/// A conversation: how it ended, at which message, and the messages.
fn visit(meter: &mut Meter, told: &Told) -> (u8, u8, Vec<Vec<u8>>) {
    let (mut session, mut message) = started(told);
    let mut messages = vec![message.clone()];
    loop {
        let reply = said(meter, &message);
        let mut out = [0x5A; 64];
        let heard = match reply.is_empty() {
            true => session.silence(),
            false => session.reply(told.work, &reply, &mut out),
        };
        assert_eq!(heard.number, 1);
        if heard.fact != fact::GOES_ON {
            assert_eq!(out, [0x5A; 64]);
            let again = (
                session,
                session.silence(),
                session.reply(b"", b"", &mut out),
            );
            assert_eq!((again.1, again.2), (heard, heard));
            return (heard.fact, heard.message, messages);
        }
        message = out[..heard.length].to_vec();
        messages.push(message.clone());
        assert_eq!(usize::from(heard.message), messages.len());
    }
}

#[test]
fn a_list_of_reads_takes_its_length_and_four() {
    let mut meter = meter();
    let (fact, message, messages) = visit(&mut meter, &reads(ALL));
    assert_eq!((fact, message), (fact::OVER, 14));
    assert_eq!(messages.len(), 14);
    assert_eq!(messages[0], line::wires(b"/?!\r\n"));
    assert_eq!(messages[1], line::wires(b"\x06051\r\n"));
    assert_eq!(messages[2], line::wires(b"\x01P1\x02()\x03\x61"));
    assert_eq!(messages[13], [0x81, 0x42, 0x30, 0x03, 0x71]);
    assert_eq!(meter.mode, 0);
}

#[test]
fn a_post_is_delivered() {
    let (mut meter, text) = (meter(), winter());
    let (fact, message, messages) = visit(&mut meter, &post(&text));
    assert_eq!((fact, message), (fact::OVER, 7));
    assert_eq!(messages[0], line::wires(b"/?123 4567890!\r\n"));
    let mut frames = [0; 108];
    assert_eq!(crate::post::export(1, &text, &mut frames), (1, 108, 0));
    assert_eq!(messages[3..6].concat(), frames);
    for table in [1, 4, 6] {
        assert_eq!(meter.tables[table - 1], [b'2'; 24]);
    }
    assert_eq!(meter.tables[1], [b'1'; 24]);
}

#[test]
fn each_edition_answers_its_own_head() {
    let table = |number| Table {
        number,
        row: [b'3'; 24],
    };
    let saturday = text_of(&[table(24), table(25)]);
    let told = Told {
        edition: 2,
        ..post(&saturday)
    };
    let mut meter = meter_of(2);
    let (fact, message, messages) = visit(&mut meter, &told);
    assert_eq!((fact, message, messages.len()), (fact::OVER, 6, 6));
    assert_eq!(meter.tables[23..], [[b'3'; 24]; 2]);
    let read = Told {
        edition: 2,
        ..reads(b"Z\x19")
    };
    assert_eq!(visit(&mut meter, &read).0, fact::OVER);
    // The other edition's identification is a wrong reply.
    let (fact, message, _) = visit(&mut meter_of(1), &read);
    assert_eq!((fact, message), (fact::WRONG, 1));
    let (fact, message, _) = visit(&mut meter_of(2), &reads(ALL));
    assert_eq!((fact, message), (fact::WRONG, 1));
}

#[test]
fn an_eqm_meter_is_read_in_its_own_form() {
    let all = b"E\0E\x01E\x04G\0G\x01G\x02G\x03G\x04T\0Z\x01";
    for decimals in 2..=4 {
        for edition in [1, 2] {
            let told = Told {
                edition,
                decimals,
                ..reads(all)
            };
            let (fact, message, messages) = visit(&mut meter_like(edition, decimals), &told);
            assert_eq!((fact, message, messages.len()), (fact::OVER, 14, 14));
            // A meter of another family, or of other decimals, is found out at the first energy.
            for other in [0, 2, 3, 4] {
                if other != decimals {
                    let (fact, message, _) = visit(&mut meter_like(edition, other), &told);
                    assert_eq!((fact, message), (fact::WRONG, 4));
                }
            }
        }
        // What is exported is nothing to a head that was told of document 01's family.
        let (fact, message, _) = visit(&mut meter_like(1, decimals), &reads(ALL));
        assert_eq!((fact, message), (fact::WRONG, 7));
    }
}

#[test]
fn what_stops_it() {
    let text = winter();
    let mut other = meter();
    other.password = *b"99999999";
    assert_eq!(visit(&mut other, &post(&text)).1, 3);
    let (fact, message, _) = visit(&mut other, &post(&text));
    assert_eq!((fact, message), (fact::NAK, 3));
    let mut far = meter();
    far.serial = *b"1234567891";
    let (fact, message, _) = visit(&mut far, &post(&text));
    assert_eq!((fact, message), (fact::SILENT, 1));
    // A meter that stands in the middle of another session does not answer the sign-on.
    let mut held = meter();
    held.mode = 3;
    held.speed = 5;
    assert_eq!(visit(&mut held, &reads(ALL)).0, fact::SILENT);
}

#[test]
fn refusals_in_their_order() {
    let number = |told: &Told, room: usize| {
        let mut session = Session {
            sent: 7,
            ..Session::default()
        };
        let mut out = vec![0x5A; room];
        let told = start(&mut session, told, &mut out);
        if told.number != 1 {
            assert_eq!((session, told.length), (Session::default(), 0));
            assert!(out.iter().all(|&byte| byte == 0x5A));
        }
        (told.number, told.place)
    };
    let text = winter();
    let many = b"T\0".repeat(33);
    for edition in [0, 3, 255] {
        let other = Told {
            edition,
            ..reads(b"")
        };
        assert_eq!(number(&other, 63), (16, 0));
    }
    for decimals in (1..=255).filter(|decimals| !(2..=4).contains(decimals)) {
        let other = Told {
            decimals,
            ..reads(b"")
        };
        assert_eq!(number(&other, 63), (18, 0));
        let other = Told {
            edition: 3,
            ..other
        };
        assert_eq!(number(&other, 63), (16, 0));
    }
    for (read, told) in [(b"G\0", 1), (b"G\x04", 1), (b"G\x05", 9), (b"E\x05", 9)] {
        let eqm = Told {
            decimals: 4,
            ..reads(read)
        };
        assert_eq!(number(&eqm, 64), (told, 0));
    }
    assert_eq!(number(&reads(b""), 63), (19, 0));
    assert_eq!(number(&reads(b""), 64), (28, 0));
    assert_eq!(number(&reads(&many), 64), (29, 0));
    assert_eq!(number(&reads(&many[..64]), 64), (1, 0));
    assert_eq!(number(&reads(b"T"), 64), (9, 0));
    for read in [b"E\x05", b"Z\0", b"Z\x19", b"G\0", b"t\0"] {
        assert_eq!(number(&reads(read), 64), (9, 0));
    }
    assert_eq!(number(&reads(b"T\xFF"), 64), (1, 0));
    let spoilt = Told {
        named: 1,
        serial: b"123",
        access: 0,
        ..post(&text)
    };
    assert_eq!(number(&spoilt, 64), (30, 0));
    assert_eq!(
        number(
            &Told {
                work: &text[1..],
                ..spoilt
            },
            64
        ),
        (20, 0)
    );
    assert_eq!(
        number(
            &Told {
                access: 1,
                ..spoilt
            },
            64
        ),
        (9, 0)
    );
    for flag in [2, 255] {
        let told = post(&text);
        assert_eq!(
            number(
                &Told {
                    named: flag,
                    ..told
                },
                64
            ),
            (9, 0)
        );
        assert_eq!(
            number(
                &Told {
                    access: flag,
                    ..told
                },
                64
            ),
            (9, 0)
        );
        assert_eq!(number(&Told { kind: flag, ..told }, 64), (9, 0));
    }
}

#[test]
fn records_that_no_session_reaches() {
    let text = winter();
    let (good, _) = started(&post(&text));
    assert!(good.reached());
    assert!(!Session::default().reached());
    let broken: [fn(&mut Session); 18] = [
        |s| s.serial[3] = 0,
        |s| s.password[3] = b'a',
        |s| s.named = 0,
        |s| s.named = 2,
        |s| s.access = 0,
        |s| (s.access, s.password) = (0, [0; 8]),
        |s| s.work = 2,
        |s| s.count = 0,
        |s| s.count = 25,
        |s| s.sent = 0,
        |s| s.sent = 8,
        |s| s.fact = 1,
        |s| s.fact = 5,
        |s| s.count = 255,
        |s| s.edition = 0,
        |s| s.edition = 3,
        |s| s.decimals = 1,
        |s| s.decimals = 5,
    ];
    for spoil in broken {
        let mut session = good;
        spoil(&mut session);
        let kept = session;
        let none = Heard {
            number: 31,
            ..Heard::default()
        };
        assert_eq!(session.reply(&text, &[ACK], &mut [0; 64]), none);
        assert_eq!(session.silence(), none);
        assert_eq!(session, kept);
    }
    let over = Session {
        sent: 7,
        fact: 1,
        ..good
    };
    assert!(over.reached());
}

#[test]
fn other_work_gives_its_own_messages_or_none() {
    let (mut session, _) = started(&reads(b"T\0K\0"));
    session.sent = 3;
    let kept = session;
    let mut out = [0; 64];
    assert_eq!(session.reply(b"", &[ACK], &mut out).number, 31);
    assert_eq!(session.reply(b"E\x09", &[ACK], &mut out).number, 31);
    assert_eq!((session, out), (kept, [0; 64]));
    // What is not there counts as 0.
    let mut half = session;
    assert_eq!(half.reply(b"E", &[ACK], &mut [0; 64]).message, 4);
    let heard = session.reply(b"L\0", &[ACK], &mut out);
    assert_eq!((heard.number, heard.message), (1, 4));
    let asked = head::characters(&Command::ReadSerial).unwrap();
    assert_eq!(out[..heard.length], line::wires(&asked));
}

#[test]
fn a_reply_has_just_the_lines_that_were_asked_for() {
    let block = |data: &str| head::on_the_wire(&head::block(data.as_bytes()));
    let clock = "0.9.1(23:59:59)\r\n0.9.2(00-02-29)\r\n";
    assert!(tells(OURS, b'T', 9, &block(clock)));
    for other in [
        "0.9.2(00-02-29)\r\n0.9.1(23:59:59)\r\n",
        "0.9.1(23:59:59)\r\n",
        "0.9.1(23:59:59)\r\n0.9.2(01-02-29)\r\n",
        "0.9.1(24:00:00)\r\n0.9.2(00-02-29)\r\n",
        "0.9.1(23:59:59)\r\n0.9.2(00-02-29)\r\n!\r\n",
        "",
    ] {
        assert!(!tells(OURS, b'T', 0, &block(other)), "{other}");
    }
    let energy = "15.8.3(000001.500*kWh)\r\n";
    assert!(tells(OURS, b'E', 3, &block(energy)));
    assert!(!tells(OURS, b'E', 2, &block(energy)) && !tells(OURS, b'Z', 3, &block(energy)));
    for decimals in 2..=4 {
        let meters = Meters { decimals, ..OURS };
        let (whole, rest) = "00001500".split_at(8 - usize::from(decimals));
        let line = |name, zone| block(&format!("{name}.8.{zone}({whole}.{rest}*kWh)\r\n"));
        assert!(tells(meters, b'E', 3, &line(1, 3)) && tells(meters, b'G', 0, &line(2, 0)));
        assert!(!tells(meters, b'E', 3, &line(2, 3)) && !tells(meters, b'G', 0, &line(1, 0)));
        assert!(!tells(meters, b'G', 1, &line(2, 2)) && !tells(meters, b'G', 5, &line(2, 5)));
        assert!(!tells(meters, b'E', 3, &block(energy)) && !tells(OURS, b'E', 3, &line(1, 3)));
        assert!(!tells(OURS, b'G', 0, &line(2, 0)));
        let other = Meters {
            decimals: decimals % 3 + 2,
            ..OURS
        };
        assert!(!tells(other, b'E', 3, &line(1, 3)));
    }
    let row = format!("131.0.07({})\r\n", "4".repeat(24));
    assert!(tells(OURS, b'Z', 7, &block(&row)) && !tells(OURS, b'Z', 8, &block(&row)));
    assert!(tells(OURS, b'L', 0, &block("C.1.0(123 4567890)\r\n")));
    assert!(tells(OURS, b'K', 0, &block("0.0.0(Kiln_7 old)\r\n")));
    assert!(!tells(OURS, b'K', 0, &block("0.0.0(Kiln_7 ol)\r\n")));
    let mut damaged = block(energy);
    damaged[5] ^= 0x80;
    assert!(!tells(OURS, b'E', 3, &damaged));
    let mut wrong = block(energy);
    *wrong.last_mut().unwrap() ^= 3;
    assert!(!tells(OURS, b'E', 3, &wrong));
}
