//! The speed of the head's session: the proved library beside Rust by hand, in one run, on the same
//! starts and replies.

use benchmark::fast_session;
use benchmark::turns::{compared, medians, show};
use dirgemist::session::{Session, Started, Told, Turn, DONE, GOES_ON, MESSAGE_ROOM, OVER};
use model::head::{block, line, on_the_wire};
use std::hint::black_box;
use std::process::ExitCode;

const SERIAL: &[u8] = b"1234567890";
const PASSWORD: &[u8] = b"20304050";
const READS: &[u8] = b"T\0L\0K\0E\0E\x01E\x04Z\x07Z\x18";

// The hand-written side behind calls that are not inlined, as the library's are.

#[inline(never)]
fn fast_start(told: &Told, out: &mut [u8]) -> (Started, Session) {
    fast_session::start(told, out)
}

#[inline(never)]
fn fast_reply(session: &mut Session, work: &[u8], reply: &[u8], out: &mut [u8]) -> Turn {
    fast_session::reply(session, work, reply, out)
}

/// The longest post of an edition.
fn post(edition: u8) -> Vec<u8> {
    let mut text = Vec::new();
    for table in 1..=23 + edition {
        text.extend(format!("131.0.{table:02}(123412341234123412341234)\r\n").bytes());
    }
    text.extend(b"!\r\n");
    text
}

/// The right reply to a message of a session.
fn right(session: &Session, work: &[u8]) -> Vec<u8> {
    let read = usize::from(session.sent).wrapping_sub(4) * 2;
    let text = match session.sent {
        1 => format!("/ZZZ5SUB-VP0{}.00*\r\n", session.edition).into_bytes(),
        2 => b"\x01P0\x02(0000)\x03\x60".to_vec(),
        n if n > 3 && n < session.count + 4 && session.work == 0 => {
            let n = work[read + 1];
            let (whole, part) = "01234567".split_at(8 - usize::from(session.decimals));
            let energy = format!("{whole}.{part}*kWh");
            let data = match work[read] {
                b'T' => [line("0.9.1", "23:59:58"), line("0.9.2", "28-02-29")].concat(),
                b'L' => line("C.1.0", "123 4567890"),
                b'K' => line("0.0.0", "Kiln_7 old"),
                b'E' if session.decimals == 0 => line(&format!("15.8.{n}"), "000123.456*kWh"),
                b'E' => line(&format!("1.8.{n}"), &energy),
                b'G' => line(&format!("2.8.{n}"), &energy),
                _ => line(&format!("131.0.{n:02}"), "123412341234123412341234"),
            };
            block(&data)
        }
        _ => b"\x06".to_vec(),
    };
    on_the_wire(&text)
}

/// Both sides make the same of a reply: answer, record and every byte of the buffer.
fn same_turn(session: Session, work: &[u8], reply: &[u8], room: usize) -> bool {
    let (mut one, mut other) = (session, session);
    let (mut out, mut wire) = (vec![0x5A; room], vec![0x5A; room]);
    let turn = fast_session::reply(&mut one, work, reply, &mut out);
    turn == other.reply(work, reply, &mut wire) && one == other && out == wire
}

fn same_start(told: &Told, room: usize) -> bool {
    let (mut out, mut wire) = (vec![0x5A; room], vec![0x5A; room]);
    fast_session::start(told, &mut out) == told.start(&mut wire) && out == wire
}

/// A session of the right replies, and at each message every reply that is hurt, other work, a
/// small buffer, and each byte of the record hurt; its start with every edition and family, and with
/// the work cut and hurt. Nothing where the sides differ somewhere.
fn same(told: &Told) -> Option<()> {
    let mut out = [0; MESSAGE_ROOM];
    let (started, mut session) = told.start(&mut out);
    let see = |right: bool| right.then_some(());
    see(started.number == DONE)?;
    for number in 0..=255 {
        for told in [told.of(number), told.eqm(number)] {
            see(same_start(&told, MESSAGE_ROOM) && same_start(&told, 63))?;
        }
    }
    for cut in 0..told.work.len() {
        let work = &told.work[..cut];
        see(same_start(&Told { work, ..*told }, MESSAGE_ROOM))?;
        let mut hurt = told.work.to_vec();
        for bit in 0..8 {
            hurt[cut] ^= 1 << bit;
            see(same_start(
                &Told {
                    work: &hurt,
                    ..*told
                },
                MESSAGE_ROOM,
            ))?;
            hurt[cut] ^= 1 << bit;
        }
    }
    while session.fact == GOES_ON {
        let reply = right(&session, told.work);
        for place in 0..reply.len() {
            see(same_turn(session, told.work, &reply[..place], MESSAGE_ROOM))?;
            for bit in 0..8 {
                let mut hurt = reply.clone();
                hurt[place] ^= 1 << bit;
                see(same_turn(session, told.work, &hurt, MESSAGE_ROOM))?;
            }
        }
        see(same_turn(session, told.work, &reply, 63))?;
        see(same_turn(session, READS, &reply, MESSAGE_ROOM))?;
        see(same_turn(session, told.work, b"\x95", MESSAGE_ROOM))?;
        for value in 0..=255 {
            for damaged in [
                Session {
                    named: value,
                    ..session
                },
                Session {
                    access: value,
                    ..session
                },
                Session {
                    work: value,
                    ..session
                },
                Session {
                    count: value,
                    ..session
                },
                Session {
                    sent: value,
                    ..session
                },
                Session {
                    fact: value,
                    ..session
                },
                Session {
                    edition: value,
                    ..session
                },
                Session {
                    decimals: value,
                    ..session
                },
                Session {
                    serial: [value; 10],
                    ..session
                },
                Session {
                    password: [value; 8],
                    ..session
                },
            ] {
                see(same_turn(damaged, told.work, &reply, MESSAGE_ROOM))?;
            }
        }
        see(same_turn(session, told.work, &reply, MESSAGE_ROOM))?;
        session.reply(told.work, &reply, &mut out);
    }
    see(session.fact == OVER)
}

fn starts(told: &Told) -> (f64, f64) {
    medians(
        &mut [0; MESSAGE_ROOM],
        |out| {
            black_box(fast_start(black_box(told), black_box(out)));
        },
        |out| {
            black_box(black_box(told).start(black_box(out)));
        },
    )
}

/// A right reply to the message of a number, and the next one built.
fn replies(told: &Told, sent: u8) -> (f64, f64) {
    let mut out = [0; MESSAGE_ROOM];
    let (_, mut session) = told.start(&mut out);
    while session.sent < sent {
        let reply = right(&session, told.work);
        let turn = session.reply(told.work, &reply, &mut out);
        assert_eq!((turn.number, turn.fact), (DONE, GOES_ON));
    }
    let reply = right(&session, told.work);
    let (work, reply) = (told.work, &reply[..]);
    medians(
        &mut out,
        |out| {
            let mut now = black_box(session);
            black_box(fast_reply(
                &mut now,
                black_box(work),
                black_box(reply),
                black_box(out),
            ));
            black_box(now);
        },
        |out| {
            let mut now = black_box(session);
            black_box(now.reply(black_box(work), black_box(reply), black_box(out)));
            black_box(now);
        },
    )
}

fn main() -> ExitCode {
    let (post, saturday) = (post(1), post(2));
    let reading = Told::reads(READS).to(SERIAL).with(PASSWORD);
    let posting = Told::post(&post).to(SERIAL).with(PASSWORD);
    let posting_two = Told::post(&saturday).to(SERIAL).with(PASSWORD).of(2);
    let any = Told::reads(b"E\0K\0");
    let last = Told::reads(b"Z\x19").of(2);
    let eqm = Told::reads(b"E\0G\0G\x04K\0").eqm(3);
    let eqm_two = Told::reads(b"G\x01Z\x19").eqm(4).of(2);
    let equal = [
        &reading,
        &posting,
        &posting_two,
        &any,
        &last,
        &eqm,
        &eqm_two,
    ]
    .iter()
    .all(|told| same(told).is_some());
    if let Some(status) = compared("session", equal) {
        return status;
    }
    show([
        ("start, eight reads", starts(&reading)),
        ("start, longest post of edition 1", starts(&posting)),
        ("start, longest post of edition 2", starts(&posting_two)),
        ("identification heard, confirmation", replies(&reading, 1)),
        ("a row heard, the next read", replies(&reading, 10)),
        ("an EQM counter heard, the next read", replies(&eqm, 5)),
        ("ACK heard, the next row written", replies(&posting, 10)),
    ])
}
