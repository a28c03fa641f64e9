//! Fixed scripts with transcripts written from document 01: its facts, its traps and its edges.
//! Texts stand without parity, checksums as the last character; nothing here asks the model.

use crate::player::state_after;
use trials::program::Played;

const ALL_ONES: &str = "111111111111111111111111";
const ACK: &str = "\x06";
const NAK: &str = "\x15";
const IDENTIFICATION: &str = "/ZZZ5SUB-VP01.00*\r\n";
const ASK_PASSWORD: &str = "\x01P0\x02(0000)\x03\x60";
const NO_PASSWORD: &str = "\x01P1\x02()\x03\x61";
const RIGHT: &str = "\x01P1\x02(20304050)\x03\x61";
const WRONG: &str = "\x01P1\x02(20304051)\x03\x60";
const BYE: &str = "\x01B0\x03\x71";

/// A script that grows together with its transcript.
struct Fixed {
    name: &'static str,
    lines: Vec<(String, Vec<String>)>,
}

/// The fields of a dump, in words.
#[derive(Clone, Copy)]
struct Shown {
    mode: u8,
    held: &'static str,
    mark: u8,
    place: u8,
    serial: &'static str,
    account: &'static str,
    password: &'static str,
    attempts: u8,
    clock: &'static str,
    counters: &'static str,
    decimals: u8,
    /// Counters of what went out.
    exported: &'static str,
    /// Table and row, where not all '1'.
    row: (usize, &'static str),
    speed: u8,
    /// The periods, each in nine fields, or of an EQM meter in thirteen, the newest first.
    periods: &'static [&'static str],
}

/// The meter of these scripts, just made. Its date is a Thursday.
const MADE: Shown = Shown {
    mode: 0,
    held: "",
    mark: 0,
    place: 0,
    serial: "1234567890",
    account: "Kiln_7 old",
    password: "20304050",
    attempts: 0,
    clock: "2024 2 29 8 5 9",
    counters: "0 0 0 0",
    decimals: 0,
    exported: "0 0 0 0",
    row: (1, ALL_ONES),
    speed: 0,
    periods: &[],
};

const BLANK: Shown = Shown {
    serial: "0000000000",
    account: "          ",
    password: "00000000",
    clock: "2000 1 1 0 0 0",
    ..MADE
};

const PROGRAMMING: Shown = Shown {
    mode: 4,
    speed: 5,
    ..MADE
};

fn hex(bytes: impl IntoIterator<Item = u8>) -> String {
    bytes
        .into_iter()
        .map(|byte| format!("{byte:02x}"))
        .collect()
}

/// Even parity for every character.
fn wire(text: &str) -> String {
    assert!(text.is_ascii());
    hex(text.bytes().map(|c| c | ((c.count_ones() as u8) & 1) << 7))
}

impl Shown {
    fn fields(&self) -> String {
        let mut held = hex(self.held.bytes());
        let count = self.held.len();
        held += &"00".repeat(63 - count);
        let mut tables = String::new();
        for table in 1..=24 {
            let (changed, row) = self.row;
            tables += &hex(if table == changed { row } else { ALL_ONES }.bytes());
        }
        tables += &"00".repeat(24);
        let end = match self.decimals {
            0 => 1_000_000_000,
            _ => 100_000_000,
        };
        let total = |counters: &str| {
            let counters = counters
                .split(' ')
                .map(|count| count.parse::<u64>().unwrap());
            counters.sum::<u64>() % end
        };
        let (total, out) = (total(self.counters), total(self.exported));
        let told = format!("{total} {} {} {out}", self.decimals, self.exported);
        let mut periods = self.periods.len().to_string();
        for place in 0..12 {
            let fields = self.periods.get(place).unwrap_or(&"0 0 0 0 0 0 0 0 0");
            periods += " ";
            periods += fields;
            if fields.split(' ').count() == 9 {
                periods += " 0 0 0 0";
            }
        }
        format!(
            "{} {count} {} {held} {} {} {} {} {} {} {tables} {} {} 1 {told} {periods} 1",
            self.mode,
            self.mark,
            hex(self.serial.bytes()),
            hex(self.account.bytes()),
            hex(self.password.bytes()),
            self.attempts,
            self.clock,
            self.counters,
            self.speed,
            self.place,
        )
    }
}

impl Fixed {
    fn empty(name: &'static str) -> Fixed {
        Fixed {
            name,
            lines: Vec::new(),
        }
    }

    /// A new meter, listening.
    fn listening(name: &'static str) -> Fixed {
        let new = "new 31323334353637383930 4b696c6e5f37206f6c64 3230333034303530 2024 2 29 8 5 9";
        Fixed::empty(name).line(new, "1")
    }

    /// Signed on.
    fn confirming(name: &'static str) -> Fixed {
        Fixed::listening(name).sign_on()
    }

    /// Confirmed with '1'.
    fn asked(name: &'static str) -> Fixed {
        Fixed::listening(name).ask()
    }

    /// Read-only.
    fn reading(name: &'static str) -> Fixed {
        Fixed::asked(name).frame(NO_PASSWORD, 1, ACK)
    }

    fn programming(name: &'static str) -> Fixed {
        Fixed::asked(name).frame(RIGHT, 1, ACK)
    }

    /// A line and its answers as they stand; none for an empty text.
    fn line(mut self, line: &str, answers: &str) -> Fixed {
        let answers = answers.lines().map(String::from).collect();
        self.lines.push((line.into(), answers));
        self
    }

    /// Wire bytes in hex: all but the last answered 0 at a speed, the last as told.
    fn wire(mut self, bytes: &str, quiet: u8, number: u8, speed: u8, reply: &str) -> Fixed {
        let mut answers = vec![format!("0 {quiet} 0 - 0"); bytes.len() / 2 - 1];
        let sent = if reply.is_empty() {
            "-".into()
        } else {
            wire(reply)
        };
        answers.push(format!("{number} {speed} {} {sent} 0", reply.len()));
        self.lines.push((format!("bytes {bytes}"), answers));
        self
    }

    /// Wire bytes of a frame at 9600 baud that was damaged first at this place.
    fn hurt(mut self, bytes: &str, place: usize) -> Fixed {
        let mut answers = vec!["0 5 0 - 0".to_string(); bytes.len() / 2 - 1];
        answers.push(format!("3 5 1 95 {place}"));
        self.lines.push((format!("bytes {bytes}"), answers));
        self
    }

    /// Characters with good parity, answered in the same way.
    fn send(self, text: &str, quiet: u8, number: u8, speed: u8, reply: &str) -> Fixed {
        self.wire(&wire(text), quiet, number, speed, reply)
    }

    /// Characters that are all taken in silence.
    fn quiet(self, text: &str, speed: u8) -> Fixed {
        self.send(text, speed, 0, speed, "")
    }

    /// Wire bytes that are all taken in silence.
    fn quiet_wire(self, bytes: &str, speed: u8) -> Fixed {
        self.wire(bytes, speed, 0, speed, "")
    }

    /// A whole frame of a session at 9600 baud.
    fn frame(self, text: &str, number: u8, reply: &str) -> Fixed {
        self.send(text, 5, number, 5, reply)
    }

    fn sign_on(self) -> Fixed {
        self.send("/?!\r\n", 0, 1, 0, IDENTIFICATION)
    }

    /// From listening to the password.
    fn ask(self) -> Fixed {
        self.sign_on().send("\x06051\r\n", 0, 1, 5, ASK_PASSWORD)
    }

    fn set(self, state: Shown) -> Fixed {
        self.line(&format!("set {}", state.fields()), "ok")
    }

    fn dump(self, state: Shown) -> Fixed {
        self.line("dump", &state.fields())
    }

    /// The state before is set, and nothing of it changes.
    fn kept(self, state: Shown, line: &str, answer: &str) -> Fixed {
        self.set(state).line(line, answer).dump(state)
    }

    fn done(self) -> Played {
        let mut played = Played {
            name: self.name.into(),
            script: Vec::new(),
            transcript: String::new(),
            answered: Vec::new(),
            state: state_after,
        };
        let mut answered = 0;
        for (line, answers) in self.lines {
            played.script.extend(line.bytes());
            played.script.push(b'\n');
            played.answered.push(answered);
            answered += answers.len();
            for answer in answers {
                played.transcript += &answer;
                played.transcript.push('\n');
            }
        }
        played
    }

    /// The same without the last LF.
    fn cut_off(self) -> Played {
        let mut played = self.done();
        played.script.pop();
        played
    }
}

pub fn all() -> Vec<Played> {
    let mut scripts = vec![
        by_hand().done(),
        last_line_without_lf(),
        Fixed::empty("nothing at all").done(),
    ];
    scripts.extend(
        [
            facts(),
            signing_on(),
            confirming(),
            frames(),
            passwords(),
            registers(),
            events(),
            months(),
            eqm(),
            states(),
            script_rules(),
        ]
        .into_iter()
        .flatten()
        .map(Fixed::done),
    );
    scripts
}

/// Every byte written out: sign-on, password, table 01, good-bye.
fn by_hand() -> Fixed {
    let row = "b1".repeat(24);
    let tables = "31".repeat(576) + &"00".repeat(24);
    let write = format!("bytes 81d7b1825a2830b1bb{row}a90306");
    let taken = "0 5 0 - 0\n".repeat(35) + "1 5 1 06 0";
    let state = format!(
        "4 0 0 {} 31323334353637383930 4b696c6e5f37206f6c64 3230333034303530 0 2024 2 29 8 5 9 \
         0 0 0 0 {tables} 5 0 1 0 0 0 0 0 0 0 0{} 1",
        "00".repeat(63),
        " 0 0 0 0 0 0 0 0 0 0 0 0 0".repeat(12)
    );
    Fixed::empty("a session byte by byte")
        .line(
            "new 31323334353637383930 4b696c6e5f37206f6c64 3230333034303530 2024 2 29 8 5 9",
            "1",
        )
        .line(
            "bytes af3f218d0a",
            "0 0 0 - 0\n0 0 0 - 0\n0 0 0 - 0\n0 0 0 - 0\n1 0 19 af5a5a5a355355422d565030b12e3030aa8d0a 0",
        )
        .line(
            "bytes 063035b18d0a",
            "0 0 0 - 0\n0 0 0 - 0\n0 0 0 - 0\n0 0 0 - 0\n0 0 0 - 0\n1 5 12 815030822830303030a90360 0",
        )
        .line(
            "bytes 8150b18228b2303330b4303530a903",
            &"0 5 0 - 0\n".repeat(15),
        )
        .line("byte e1", "1 5 1 06 0")
        .line(&write, &taken)
        .line("dump", &state)
        .line(
            "bytes 8142300371",
            "0 5 0 - 0\n0 5 0 - 0\n0 5 0 - 0\n0 5 0 - 0\n1 5 1 06 0",
        )
        .line("byte 00", "0 0 0 - 0")
}

fn last_line_without_lf() -> Played {
    Fixed::listening("last line without LF")
        .line("tick", "1 0")
        .dump(Shown {
            clock: "2024 2 29 8 5 10",
            ..MADE
        })
        .cut_off()
}

/// Document 01's facts that concern the meter.
fn facts() -> Vec<Fixed> {
    let mut block = String::from(
        "\x02C.1.0(123 4567890)\r\n0.9.2(24-02-29)\r\n0.9.1(08:05:09)\r\n0.0.0(Kiln_7 old)\r\n",
    );
    for zone in [1, 2, 3, 4, 0] {
        block += &format!("15.8.{zone}(000000.000*kWh)\r\n");
    }
    for table in 1..=24 {
        block += &format!("131.0.{table:02}({ALL_ONES})\r\n");
    }
    block += "!\r\n\x03\x19";
    assert_eq!(block.len(), 1_063);
    let all_ones = |table: &str, check: &str| format!("\x01W1\x02Z({table};{ALL_ONES})\x03{check}");
    let twos = |table| Shown {
        row: (table, "222222222222222222222222"),
        ..PROGRAMMING
    };
    vec![
        Fixed::programming("BCC of B0 is 71")
            .frame("\x01B0\x03\x71", 1, ACK)
            .dump(MADE),
        Fixed::confirming("BCC of P0 (0000) is 60")
            .send("\x06051\r\n", 0, 1, 5, "\x01P0\x02(0000)\x03\x60")
            .dump(Shown {
                mode: 2,
                speed: 5,
                ..MADE
            }),
        Fixed::asked("BCC of P1 () is 61, on the wire e1")
            .quiet("\x01P1\x02()\x03", 5)
            .line("byte e1", "1 5 1 06 0")
            .dump(Shown {
                mode: 3,
                speed: 5,
                ..MADE
            }),
        Fixed::programming("table 01 in all '1' has BCC 06")
            .set(twos(1))
            .frame(&all_ones("01", "\x06"), 1, ACK)
            .dump(PROGRAMMING),
        Fixed::programming("table 04 in all '1' has BCC 03, an ETX")
            .set(twos(4))
            .frame(&all_ones("04", "\x03"), 1, ACK)
            .dump(PROGRAMMING)
            // Nothing is left over that would take this for a BCC.
            .quiet("q", 5)
            .frame(BYE, 1, ACK)
            .dump(MADE),
        Fixed::programming("table 06 in all '1' has BCC 01, a SOH")
            .set(twos(6))
            .frame(&all_ones("06", "\x01"), 1, ACK)
            .dump(PROGRAMMING)
            // Nothing was started by it.
            .quiet("B0\x03\x71", 5)
            .dump(PROGRAMMING)
            .frame(BYE, 1, ACK),
        Fixed::programming("table 24 in all '1' has BCC 01 too")
            .set(twos(24))
            .frame(&all_ones("24", "\x01"), 1, ACK)
            .dump(PROGRAMMING),
        Fixed::reading("1,500 Wh in T1")
            .set(Shown {
                mode: 3,
                speed: 5,
                counters: "1500 0 0 0",
                ..MADE
            })
            .frame(
                "\x01R1\x02E1()\x03\x17",
                1,
                "\x0215.8.1(000001.500*kWh)\r\n\x03\x6C",
            ),
        Fixed::empty("2000-01-01 is a Saturday: table 13")
            .set(Shown {
                row: (13, "311111111111111111111111"),
                ..BLANK
            })
            .line("pulse 7", "1 0")
            .dump(Shown {
                counters: "0 0 7 0",
                row: (13, "311111111111111111111111"),
                ..BLANK
            }),
        Fixed::empty("999,999,999 + 1 Wh gives 0")
            .set(Shown {
                counters: "999999999 0 0 0",
                ..BLANK
            })
            .line("pulse 1", "1 0")
            .dump(BLANK),
        Fixed::programming("29-02-2000 is accepted, 29-02-2001 refused with 9")
            .frame("\x01W1\x02T(29-02-2000;12:34:56)\x03\x05", 1, ACK)
            .dump(Shown {
                clock: "2000 2 29 12 34 56",
                ..PROGRAMMING
            })
            .frame("\x01W1\x02T(29-02-2001;12:34:56)\x03\x04", 9, NAK)
            .dump(Shown {
                clock: "2000 2 29 12 34 56",
                ..PROGRAMMING
            }),
        Fixed::programming("the export of table 01 in all '1' is taken as it stands")
            .set(twos(1))
            .wire(
                &format!("81d7b1825a2830b1bb{}a90306", "b1".repeat(24)),
                5,
                1,
                5,
                ACK,
            )
            .dump(PROGRAMMING),
        Fixed::confirming("data block of 1,063 characters by '0'")
            .send("\x06050\r\n", 0, 1, 5, &block)
            .dump(MADE)
            .quiet("x", 0),
        Fixed::confirming("data block of 1,063 characters by '7'")
            .send("\x06057\r\n", 0, 1, 5, &block)
            .dump(MADE),
    ]
}

fn signing_on() -> Vec<Fixed> {
    let confirming = Shown { mode: 1, ..MADE };
    vec![
        Fixed::listening("sign-on in three ways")
            .send("/?123 4567890!\r\n", 0, 1, 0, IDENTIFICATION)
            .dump(confirming)
            .line("silence", "1 0 1 95 0")
            .send("/?000 0000000!\r\n", 0, 1, 0, IDENTIFICATION)
            .line("up", "1 0")
            .send("/?!\r\n", 0, 1, 0, IDENTIFICATION)
            .dump(confirming),
        Fixed::listening("lines that are not ours")
            .quiet(
                "/?123 4567891!\r\n/?1234567890!\r\n/?!\n/?\r\n/?!\r\r\n/?!!\r\n?!\r\n",
                0,
            )
            .quiet("/?123 4567890!\n/?123 4567890\r\n/? !\r\n", 0)
            .dump(MADE),
        Fixed::empty("a serial of all '0' is ours")
            .send("/?000 0000000!\r\n", 0, 1, 0, IDENTIFICATION)
            .dump(Shown { mode: 1, ..BLANK }),
        Fixed::listening("'/' always restarts the line")
            .quiet("/?123 45", 0)
            .sign_on()
            .line("up", "1 0")
            .quiet("///", 0)
            .dump(Shown { held: "/", ..MADE })
            .send("?!\r\n", 0, 1, 0, IDENTIFICATION),
        Fixed::listening("'/' clears the mark")
            .quiet_wire("afbf", 0)
            .dump(Shown {
                held: "/\0",
                mark: 1,
                place: 1,
                ..MADE
            })
            .sign_on(),
        Fixed::listening("a marked line is not answered, the next one is")
            // The '?' is damaged; as 3F it would have been good.
            .quiet_wire("afbf218d0a", 0)
            .dump(MADE)
            .sign_on(),
        Fixed::listening("damage in an empty receiver is dropped")
            .quiet_wire("2fff01", 0)
            .dump(MADE)
            .ask()
            .quiet_wire("0183", 5)
            .dump(Shown {
                mode: 2,
                speed: 5,
                ..MADE
            }),
        Fixed::listening("a damaged '/' or LF does not count")
            .quiet_wire("af3f218d8a", 0)
            .dump(Shown {
                held: "/?!\r\0",
                mark: 1,
                place: 4,
                ..MADE
            })
            .quiet_wire("2f", 0)
            .dump(Shown {
                held: "/?!\r\0\0",
                mark: 1,
                place: 4,
                ..MADE
            }),
        Fixed::listening("a good NUL is held without the mark")
            .quiet_wire("af00", 0)
            .dump(Shown {
                held: "/\0",
                ..MADE
            }),
        Fixed::listening("lines of 31, 32 and 33 characters")
            .quiet("/23456789012345678901234567890\n", 0)
            .dump(MADE)
            .quiet("/234567890123456789012345678901", 0)
            .dump(Shown {
                held: "/234567890123456789012345678901",
                ..MADE
            })
            .quiet("\n", 0)
            .dump(MADE)
            .quiet("/2345678901234567890123456789012", 0)
            .dump(MADE)
            .quiet("?!\r\n", 0)
            .dump(MADE)
            .sign_on(),
        Fixed::listening("a 32nd character that is '/' restarts")
            .quiet("/234567890123456789012345678901", 0)
            .sign_on(),
        Fixed::listening("a damaged 32nd character empties the receiver")
            .quiet("/234567890123456789012345678901", 0)
            .quiet_wire("2f", 0)
            .dump(MADE),
    ]
}

fn confirming() -> Vec<Fixed> {
    let wrong = |name, text: &str| Fixed::confirming(name).send(text, 0, 2, 0, "").dump(MADE);
    vec![
        wrong("choice '2' is wrong", "\x06052\r\n"),
        wrong("choice '8' is wrong", "\x06058\r\n"),
        wrong("speed '1' is wrong", "\x06011\r\n"),
        wrong("speed '4' is wrong", "\x06041\r\n"),
        wrong("speed '6' is wrong", "\x06061\r\n"),
        wrong("NAK in place of ACK is wrong", "\x15051\r\n"),
        wrong("LF CR is wrong", "\x06051\n\r"),
        wrong(
            "six are collected whatever the first: a sign-on",
            "/?!\r\n/",
        ),
        wrong(
            "six are collected whatever the first: SOH",
            "\x01\x01\x01\x01\x01\x01",
        ),
        Fixed::confirming("a head that stays slow: its whole session at 300 baud")
            .send("\x06001\r\n", 0, 1, 0, ASK_PASSWORD)
            .dump(Shown { mode: 2, ..MADE })
            .send(RIGHT, 0, 1, 0, ACK)
            .dump(Shown { mode: 4, ..MADE })
            .line("tick", "1 0")
            .send("\x01B0\x03\x72", 0, 4, 0, NAK)
            .send("\x01B0\x03\x71", 0, 1, 0, ACK)
            .dump(Shown {
                clock: "2024 2 29 8 5 10",
                ..MADE
            }),
        Fixed::confirming("a slow head's wrong password: the NAK out of mode 2 at 300 baud")
            .send("\x06001\r\n", 0, 1, 0, ASK_PASSWORD)
            .send(WRONG, 0, 10, 0, NAK)
            .dump(Shown {
                attempts: 1,
                ..MADE
            }),
        Fixed::confirming("damage counts as one of the six, the first too")
            .wire("863035b18d0a", 0, 2, 0, "")
            .dump(MADE)
            .sign_on()
            .quiet_wire("86", 0)
            .dump(Shown {
                mode: 1,
                held: "\0",
                mark: 1,
                ..MADE
            })
            // Five more end it, ACK or not.
            .send("\x06051\r", 0, 2, 0, "")
            .dump(MADE),
        Fixed::confirming("damage in the last place")
            .wire("063035b18d8a", 0, 2, 0, "")
            .dump(MADE),
    ]
}

fn frames() -> Vec<Fixed> {
    let x57 = "x".repeat(57);
    let x58 = "x".repeat(58);
    let x61 = "x".repeat(61);
    let x62 = "x".repeat(62);
    vec![
        Fixed::programming("SOH clears the mark")
            .quiet_wire("8101", 5)
            .dump(Shown {
                held: "\x01\0",
                mark: 1,
                place: 1,
                ..PROGRAMMING
            })
            .frame(BYE, 1, ACK)
            .dump(MADE),
        Fixed::programming("one bad character spoils one frame")
            .hurt("8142b00371", 2)
            .dump(PROGRAMMING)
            .frame(BYE, 1, ACK),
        Fixed::programming("a damaged BCC gives 3")
            .hurt("81423003f1", 4)
            .dump(PROGRAMMING)
            // Also one that would be SOH or ETX.
            .hurt("8142300301", 4)
            .hurt("8142300383", 4)
            .dump(PROGRAMMING),
        Fixed::programming("the first of several, and not the last")
            .hurt("81c2b00371", 1)
            .hurt("8142b003f1", 2)
            .hurt("81c2b003f1", 1)
            .dump(PROGRAMMING),
        Fixed::programming("a restart forgets the place, and counts anew")
            .quiet_wire("8142b0b0", 5)
            .dump(Shown {
                held: "\x01B\0\0",
                mark: 1,
                place: 2,
                ..PROGRAMMING
            })
            .quiet_wire("81", 5)
            .dump(Shown {
                held: "\x01",
                ..PROGRAMMING
            })
            .hurt("42300331", 4)
            .quiet_wire("81c242", 5)
            .hurt("8142b00371", 2)
            .quiet_wire("81c2", 5)
            .frame(BYE, 1, ACK)
            .dump(MADE),
        Fixed::programming("a frame too long has no place")
            .quiet_wire(&("8101".to_string() + &"f8".repeat(61)), 5)
            .send("x", 5, 5, 5, NAK)
            .dump(PROGRAMMING),
        Fixed::programming("a wrong BCC that is SOH is used up")
            .frame("\x01B0\x03\x01", 4, NAK)
            .quiet("B0\x03\x71", 5)
            .dump(PROGRAMMING)
            .frame("\x01B0\x03\x03", 4, NAK)
            .quiet("\x71", 5)
            .dump(PROGRAMMING),
        Fixed::programming("a damaged ETX or SOH does not count")
            .quiet_wire("8142308301", 5)
            .dump(Shown {
                held: "\x01B0\0\0",
                mark: 1,
                place: 3,
                ..PROGRAMMING
            }),
        Fixed::reading("order of deciding: 3, 4, 6, 7, 8, 9")
            // Marked, wrong BCC, no shape.
            .hurt("81010300", 1)
            .frame("\x01\x02\x03\x00", 4, NAK)
            .frame("\x01\x03\x03", 6, NAK)
            .frame("\x01R1T()\x03\x35", 6, NAK)
            .frame("\x01b0\x03\x51", 7, NAK)
            .frame("\x01B0\x02\x03\x73", 7, NAK)
            .frame("\x01R1\x03\x60", 7, NAK)
            .frame("\x01W1\x03\x65", 7, NAK)
            .frame("\x01P1\x03\x62", 7, NAK)
            .frame("\x01W1\x02\x03\x67", 8, NAK)
            .frame(NO_PASSWORD, 8, NAK)
            .frame("\x01R1\x02E5()\x03\x13", 9, NAK)
            .dump(Shown {
                mode: 3,
                speed: 5,
                ..MADE
            }),
        Fixed::programming("P1 is not allowed while programming")
            .frame(NO_PASSWORD, 8, NAK)
            .frame(WRONG, 8, NAK)
            .dump(PROGRAMMING),
        Fixed::asked("R1 is not allowed before the password")
            .frame("\x01R1\x02T()\x03\x37", 8, NAK)
            .dump(MADE),
        Fixed::asked("B0 before the password")
            .frame(BYE, 1, ACK)
            .dump(MADE),
        Fixed::reading("B0 while reading")
            .frame(BYE, 1, ACK)
            .dump(MADE),
        Fixed::asked("mode 2 falls at a bad frame, the NAK at speed 5")
            .frame("\x01B0\x03\x70", 4, NAK)
            .dump(MADE)
            .quiet("x", 0)
            .line("tick", "1 0"),
        Fixed::asked("mode 2 falls at a frame too long")
            .frame(&format!("\x01{x62}x"), 5, NAK)
            .dump(MADE),
        Fixed::programming("frames of 63 and 64 characters are decided")
            .frame(&format!("\x01W1\x02{x57}\x03\x1F"), 9, NAK)
            .frame(&format!("\x01W1\x02{x58}\x03\x67"), 9, NAK)
            .dump(PROGRAMMING),
        Fixed::programming("of 65 the 64th is too long, an ETX too")
            .frame(&format!("\x01W1\x02{x58}x\x03"), 5, NAK)
            .dump(PROGRAMMING)
            .quiet("\x1F", 5)
            .frame(&format!("\x01{x62}x"), 5, NAK)
            .dump(PROGRAMMING),
        Fixed::programming("a 64th SOH restarts, unless it is the BCC")
            .quiet(&format!("\x01{x62}\x01"), 5)
            .dump(Shown {
                held: "\x01",
                ..PROGRAMMING
            })
            .frame(&format!("{x61}\x03\x01"), 4, NAK)
            .dump(PROGRAMMING),
        Fixed::programming("a damaged 64th is too long, or the BCC")
            .wire(&format!("{}80", wire(&format!("\x01{x62}"))), 5, 5, 5, NAK)
            .hurt(&format!("{}80", wire(&format!("\x01{x61}\x03"))), 63)
            .dump(PROGRAMMING),
        Fixed::programming("a 64th while marked is too long")
            .wire(&format!("8180{}", wire(&x62)), 5, 5, 5, NAK)
            .dump(PROGRAMMING),
    ]
}

fn passwords() -> Vec<Fixed> {
    let failed = |attempts| Shown { attempts, ..MADE };
    vec![
        Fixed::asked("malformed passwords are no attempts")
            .frame("\x01P1\x02(2030405)\x03\x51", 9, NAK)
            .dump(MADE)
            .ask()
            .frame("\x01P1\x02(203040500)\x03\x51", 9, NAK)
            .ask()
            .frame("\x01P1\x02(2030405x)\x03\x29", 9, NAK)
            .ask()
            .frame("\x01P1\x0220304050\x03\x60", 9, NAK)
            .dump(MADE)
            .ask()
            .frame(WRONG, 10, NAK)
            .dump(failed(1)),
        Fixed::asked("three wrong passwords lock; the third still gives 10")
            .frame(WRONG, 10, NAK)
            .ask()
            .frame(WRONG, 10, NAK)
            .dump(failed(2))
            .ask()
            .frame(WRONG, 10, NAK)
            .dump(failed(3))
            .ask()
            .frame(WRONG, 11, NAK)
            .ask()
            .frame(RIGHT, 11, NAK)
            .dump(failed(3))
            .ask()
            .frame("\x01P1\x02(2030405)\x03\x51", 9, NAK)
            .dump(failed(3))
            .ask()
            .frame(NO_PASSWORD, 1, ACK)
            .dump(Shown {
                mode: 3,
                speed: 5,
                ..failed(3)
            })
            .line("up", "1 0")
            .ask()
            .frame(RIGHT, 1, ACK)
            .dump(PROGRAMMING),
        Fixed::asked("the right password forgives two wrong ones")
            .frame(WRONG, 10, NAK)
            .ask()
            .frame(WRONG, 10, NAK)
            .ask()
            .frame(RIGHT, 1, ACK)
            .dump(PROGRAMMING),
        Fixed::asked("P1 () and silence leave the attempts alone")
            .frame(WRONG, 10, NAK)
            .ask()
            .frame(NO_PASSWORD, 1, ACK)
            .dump(Shown {
                mode: 3,
                speed: 5,
                ..failed(1)
            })
            .line("silence", "1 0 0 - 0")
            .dump(failed(1)),
    ]
}

fn registers() -> Vec<Fixed> {
    let counted = Shown {
        mode: 3,
        speed: 5,
        counters: "999999999 2 30 400",
        ..MADE
    };
    vec![
        Fixed::reading("all kinds of reads")
            .set(counted)
            .frame(
                "\x01R1\x02T()\x03\x37",
                1,
                "\x020.9.1(08:05:09)\r\n0.9.2(24-02-29)\r\n\x03\x0B",
            )
            .frame(
                "\x01R1\x02L()\x03\x2F",
                1,
                "\x02C.1.0(123 4567890)\r\n\x03\x66",
            )
            .frame(
                "\x01R1\x02K()\x03\x28",
                1,
                "\x020.0.0(Kiln_7 old)\r\n\x03\x3A",
            )
            .frame(
                "\x01R1\x02E0()\x03\x16",
                1,
                "\x0215.8.0(000000.431*kWh)\r\n\x03\x6F",
            )
            .frame(
                "\x01R1\x02E1()\x03\x17",
                1,
                "\x0215.8.1(999999.999*kWh)\r\n\x03\x61",
            )
            .frame(
                "\x01R1\x02E2()\x03\x14",
                1,
                "\x0215.8.2(000000.002*kWh)\r\n\x03\x69",
            )
            .frame(
                "\x01R1\x02E3()\x03\x15",
                1,
                "\x0215.8.3(000000.030*kWh)\r\n\x03\x69",
            )
            .frame(
                "\x01R1\x02E4()\x03\x12",
                1,
                "\x0215.8.4(000000.400*kWh)\r\n\x03\x69",
            )
            .frame(
                "\x01R1\x02Z(24)\x03\x3F",
                1,
                "\x02131.0.24(111111111111111111111111)\r\n\x03\0",
            )
            .frame("\x01R1\x02Z(25)\x03\x3E", 9, NAK)
            .frame("\x01R1\x02Z(00)\x03\x39", 9, NAK)
            .dump(counted),
        Fixed::reading("the total of four full counters")
            .set(Shown {
                mode: 3,
                speed: 5,
                counters: "999999999 999999999 999999999 999999999",
                ..MADE
            })
            .frame(
                "\x01R1\x02E0()\x03\x16",
                1,
                "\x0215.8.0(999999.996*kWh)\r\n\x03\x6F",
            ),
        Fixed::programming("a write changes its register only")
            .frame("\x01W1\x02Z(02;432143214321432143214321)\x03\x05", 1, ACK)
            .dump(Shown {
                row: (2, "432143214321432143214321"),
                ..PROGRAMMING
            })
            .frame("\x01W1\x02K(New owner )\x03\x10", 1, ACK)
            .dump(Shown {
                row: (2, "432143214321432143214321"),
                account: "New owner ",
                ..PROGRAMMING
            })
            .frame("\x01W1\x02T(31-12-2099;23:59:59)\x03\x0B", 1, ACK)
            .dump(Shown {
                row: (2, "432143214321432143214321"),
                account: "New owner ",
                clock: "2099 12 31 23 59 59",
                ..PROGRAMMING
            }),
        Fixed::programming("writes outside their rules give 9")
            .frame("\x01W1\x02T(31-12-1999;23:59:59)\x03\x01", 9, NAK)
            .frame("\x01W1\x02T(01-01-2100;00:00:00)\x03\x0A", 9, NAK)
            .frame("\x01W1\x02T(01-01-2024;24:00:00)\x03\x0B", 9, NAK)
            .frame("\x01W1\x02T(01-01-2024;00:60:00)\x03\x0B", 9, NAK)
            .frame("\x01W1\x02T(01-01-2024;00:00:60)\x03\x0B", 9, NAK)
            .frame("\x01W1\x02K(New-owner )\x03\x1D", 9, NAK)
            .frame("\x01W1\x02Z(25;111111111111111111111111)\x03\0", 9, NAK)
            .frame("\x01W1\x02Z(00;111111111111111111111111)\x03\x07", 9, NAK)
            .frame("\x01W1\x02T()\x03\x32", 9, NAK)
            .dump(PROGRAMMING),
    ]
}

fn events() -> Vec<Fixed> {
    let evening = |clock, periods| Shown {
        clock,
        periods,
        ..MADE
    };
    let mut ticks = Fixed::empty("clock ends");
    // The first of a month closes a period.
    let ends: [(_, _, &[&str]); 9] = [
        ("2024 2 28 23 59 59", "2024 2 29 0 0 0", &[]),
        (
            "2024 2 29 23 59 59",
            "2024 3 1 0 0 0",
            &["2024 3 1 0 0 0 0 0 0"],
        ),
        (
            "2023 2 28 23 59 59",
            "2023 3 1 0 0 0",
            &["2023 3 1 0 0 0 0 0 0"],
        ),
        ("2000 2 28 23 59 59", "2000 2 29 0 0 0", &[]),
        (
            "2023 4 30 23 59 59",
            "2023 5 1 0 0 0",
            &["2023 5 1 0 0 0 0 0 0"],
        ),
        (
            "2023 12 31 23 59 59",
            "2024 1 1 0 0 0",
            &["2024 1 1 0 0 0 0 0 0"],
        ),
        (
            "2099 12 31 23 59 59",
            "2000 1 1 0 0 0",
            &["2000 1 1 0 0 0 0 0 0"],
        ),
        ("2024 5 5 5 59 59", "2024 5 5 6 0 0", &[]),
        ("2024 5 5 5 5 59", "2024 5 5 5 6 0", &[]),
    ];
    for (from, to, closed) in ends {
        ticks = ticks
            .set(evening(from, &[]))
            .line("tick", "1 0")
            .dump(evening(to, closed));
    }
    vec![
        ticks,
        Fixed::listening("silence in every mode")
            .quiet("/?", 0)
            .line("silence", "0 0 0 - 0")
            .dump(MADE)
            .sign_on()
            .quiet("\x0605", 0)
            .line("silence", "1 0 1 95 0")
            .dump(MADE)
            .ask()
            .quiet("\x01P", 5)
            .line("silence", "1 0 0 - 0")
            .dump(MADE)
            .ask()
            .frame(NO_PASSWORD, 1, ACK)
            .line("silence", "1 0 0 - 0")
            .dump(MADE)
            .ask()
            .frame(RIGHT, 1, ACK)
            .quiet("\x01W1", 5)
            .line("silence", "1 0 0 - 0")
            .dump(MADE),
        Fixed::asked("power-up in a session")
            .frame(WRONG, 10, NAK)
            .ask()
            .frame(NO_PASSWORD, 1, ACK)
            .quiet("\x01R1", 5)
            .line("up", "1 0")
            .dump(MADE),
        Fixed::programming("tick and pulse give the mode's speed and leave the receiver")
            .quiet("\x01B0\x03", 5)
            .line("tick", "1 5")
            .line("pulse 12", "1 5")
            .dump(Shown {
                held: "\x01B0\x03",
                clock: "2024 2 29 8 5 10",
                counters: "12 0 0 0",
                ..PROGRAMMING
            })
            .send("\x71", 5, 1, 5, ACK)
            .line("tick", "1 0")
            .line("pulse 0", "1 0"),
        Fixed::listening("pulses up to 1,000,000")
            .line("pulse 1000000", "1 0")
            .line("pulse 1000001", "13 0")
            .line("pulse 4294967295", "13 0")
            .dump(Shown {
                counters: "1000000 0 0 0",
                ..MADE
            }),
        Fixed::empty("zone by day and hour")
            // A Thursday in February at 8: table 02, ninth character.
            .set(Shown {
                row: (2, "111111114111111111111111"),
                ..MADE
            })
            .line("pulse 5", "1 0")
            .dump(Shown {
                row: (2, "111111114111111111111111"),
                counters: "0 0 0 5",
                ..MADE
            })
            // The Sunday after at 23, in March: table 15, last character.
            .set(Shown {
                row: (15, "111111111111111111111112"),
                clock: "2024 3 3 23 0 0",
                ..MADE
            })
            .line("pulse 6", "1 0")
            .dump(Shown {
                row: (15, "111111111111111111111112"),
                clock: "2024 3 3 23 0 0",
                counters: "0 6 0 0",
                ..MADE
            })
            // And on Monday not.
            .set(Shown {
                row: (15, "222222222222222222222222"),
                clock: "2024 3 4 23 0 0",
                ..MADE
            })
            .line("pulse 6", "1 0")
            .dump(Shown {
                row: (15, "222222222222222222222222"),
                clock: "2024 3 4 23 0 0",
                counters: "6 0 0 0",
                ..MADE
            }),
        Fixed::listening("a reply buffer under 4,096 takes no character")
            .line("byte af 4095", "12 0 0 - 0")
            .line("byte af 0", "12 0 0 - 0")
            .line("silence 4095", "12 0 0 - 0")
            .dump(MADE)
            .line("byte af 4096", "0 0 0 - 0")
            .quiet("?!\r", 0)
            .line(
                "byte 0a 8192",
                "1 0 19 af5a5a5a355355422d565030b12e3030aa8d0a 0",
            )
            .line("silence 1", "12 0 0 - 0")
            .dump(Shown { mode: 1, ..MADE })
            .line("silence 4097", "1 0 1 95 0"),
    ]
}

/// Closed months: what closes a period, what does not, and how they are sent.
fn months() -> Vec<Fixed> {
    let closing = |script: Fixed| script.send("/C!\r\n", 0, 1, 0, IDENTIFICATION);
    const FEBRUARY: &str = "2024 2 29 8 5 0 0 0 0";
    let mut block = String::from(
        "\x02C.1.0(123 4567890)\r\n0.9.2(24-02-29)\r\n0.9.1(08:05:09)\r\n0.0.0(Kiln_7 old)\r\n",
    );
    for zone in [1, 2, 3, 4, 0] {
        block += &format!("15.8.{zone}(000000.000*kWh)\r\n");
    }
    for table in 1..=24 {
        block += &format!("131.0.{table:02}({ALL_ONES})\r\n");
    }
    let none = block.clone() + "!\r\n\x03\x19";
    block += "0.1.2*01(24-02-29 08:05)\r\n";
    for zone in 1..=4 {
        block += &format!("15.8.{zone}*01(000000.000*kWh)\r\n");
    }
    let one = block + "!\r\n\x03\x1b";
    vec![
        closing(Fixed::listening("/C! closes and is answered"))
            .dump(Shown {
                mode: 1,
                periods: &[FEBRUARY],
                ..MADE
            })
            .send("\x06056\r\n", 0, 1, 5, &one)
            .dump(Shown {
                periods: &[FEBRUARY],
                ..MADE
            })
            .sign_on()
            .send("\x06006\r\n", 0, 1, 0, &one)
            .sign_on()
            .send("\x06050\r\n", 0, 1, 5, &none)
            .sign_on()
            .send("\x06007\r\n", 0, 1, 0, &none),
        Fixed::confirming("'6' without a period is the block").send("\x06056\r\n", 0, 1, 5, &none),
        Fixed::listening("a marked /C! closes nothing")
            .quiet_wire("af43218d0a", 0)
            .dump(MADE)
            .quiet_wire("afc3a18d0a", 0)
            .dump(MADE)
            // A restart forgets the damage.
            .wire("af43afc3218d0a", 0, 1, 0, IDENTIFICATION)
            .dump(Shown {
                mode: 1,
                periods: &[FEBRUARY],
                ..MADE
            }),
        Fixed::listening("lines that are nearly /C!")
            .quiet("/C!\n", 0)
            .quiet("/c!\r\n", 0)
            .quiet("/C\r\n", 0)
            .quiet("/CC!\r\n", 0)
            .quiet("/C123 4567890!\r\n", 0)
            .quiet("/C000 0000000!\r\n", 0)
            .quiet("/?C!\r\n", 0)
            .dump(MADE),
        closing(
            Fixed::listening("the newest comes first, and the counters go on")
                .line("pulse 1500", "1 0")
                .set(Shown {
                    counters: "1500 0 0 0",
                    periods: &["2099 12 31 23 59 1 2 3 4"],
                    ..MADE
                }),
        )
        .dump(Shown {
            mode: 1,
            counters: "1500 0 0 0",
            periods: &["2024 2 29 8 5 1500 0 0 0", "2099 12 31 23 59 1 2 3 4"],
            ..MADE
        }),
        closing(
            Fixed::listening("a thirteenth pushes out the oldest").set(Shown {
                periods: &[
                    "2000 1 1 0 0 12 0 0 0",
                    "2000 1 1 0 0 11 0 0 0",
                    "2000 1 1 0 0 10 0 0 0",
                    "2000 1 1 0 0 9 0 0 0",
                    "2000 1 1 0 0 8 0 0 0",
                    "2000 1 1 0 0 7 0 0 0",
                    "2000 1 1 0 0 6 0 0 0",
                    "2000 1 1 0 0 5 0 0 0",
                    "2000 1 1 0 0 4 0 0 0",
                    "2000 1 1 0 0 3 0 0 0",
                    "2000 1 1 0 0 2 0 0 0",
                    "2000 1 1 0 0 1 0 0 0",
                ],
                ..MADE
            }),
        )
        .dump(Shown {
            mode: 1,
            periods: &[
                FEBRUARY,
                "2000 1 1 0 0 12 0 0 0",
                "2000 1 1 0 0 11 0 0 0",
                "2000 1 1 0 0 10 0 0 0",
                "2000 1 1 0 0 9 0 0 0",
                "2000 1 1 0 0 8 0 0 0",
                "2000 1 1 0 0 7 0 0 0",
                "2000 1 1 0 0 6 0 0 0",
                "2000 1 1 0 0 5 0 0 0",
                "2000 1 1 0 0 4 0 0 0",
                "2000 1 1 0 0 3 0 0 0",
                "2000 1 1 0 0 2 0 0 0",
            ],
            ..MADE
        }),
        Fixed::empty("the tick that reaches a first closes, in any mode")
            .set(Shown {
                mode: 4,
                speed: 5,
                held: "\x01R1",
                clock: "2024 2 29 23 59 58",
                counters: "7 0 0 999999999",
                ..MADE
            })
            .line("tick", "1 5")
            .dump(Shown {
                mode: 4,
                speed: 5,
                held: "\x01R1",
                clock: "2024 2 29 23 59 59",
                counters: "7 0 0 999999999",
                ..MADE
            })
            .line("tick", "1 5")
            .dump(Shown {
                mode: 4,
                speed: 5,
                held: "\x01R1",
                clock: "2024 3 1 0 0 0",
                counters: "7 0 0 999999999",
                periods: &["2024 3 1 0 0 7 0 0 999999999"],
                ..MADE
            })
            .line("tick", "1 5")
            .dump(Shown {
                mode: 4,
                speed: 5,
                held: "\x01R1",
                clock: "2024 3 1 0 0 1",
                counters: "7 0 0 999999999",
                periods: &["2024 3 1 0 0 7 0 0 999999999"],
                ..MADE
            }),
        Fixed::empty("another midnight closes nothing")
            .set(Shown {
                clock: "2024 2 28 23 59 59",
                ..MADE
            })
            .line("tick", "1 0")
            .dump(Shown {
                clock: "2024 2 29 0 0 0",
                ..MADE
            }),
        Fixed::programming("a clock written to a first closes nothing")
            .frame("\x01W1\x02T(01-03-2024;00:00:00)\x03\x0f", 1, ACK)
            .line("tick", "1 5")
            .dump(Shown {
                clock: "2024 3 1 0 0 1",
                ..PROGRAMMING
            })
            .frame("\x01W1\x02T(31-12-2099;23:59:59)\x03\x0b", 1, ACK)
            .line("tick", "1 5")
            .dump(Shown {
                clock: "2000 1 1 0 0 0",
                periods: &["2000 1 1 0 0 0 0 0 0"],
                ..PROGRAMMING
            }),
        Fixed::empty("an archive out of its ranges")
            .kept(
                Shown {
                    periods: &["2024 2 30 8 5 0 0 0 0"],
                    ..MADE
                },
                "tick",
                "14 0",
            )
            .kept(
                Shown {
                    periods: &["2024 2 29 24 5 0 0 0 0"],
                    ..MADE
                },
                "up",
                "14 0",
            )
            .kept(
                Shown {
                    periods: &["2024 2 29 8 60 0 0 0 0"],
                    ..MADE
                },
                "byte af",
                "14 0 0 - 0",
            )
            .kept(
                Shown {
                    periods: &["2024 2 29 8 5 0 0 0 1000000000"],
                    ..MADE
                },
                "pulse 1",
                "14 0",
            )
            .kept(
                Shown {
                    periods: &[FEBRUARY, "0 0 0 0 0 0 0 0 0"],
                    ..MADE
                },
                "silence",
                "14 0 0 - 0",
            ),
    ]
}

/// EQM meters: counters of eight digits in either direction.
fn eqm() -> Vec<Fixed> {
    let new = |kind: &str| {
        format!(
            "new 31323334353637383930 4b696c6e5f37206f6c64 3230333034303530 2024 2 29 8 5 9 {kind}"
        )
    };
    let counted = Shown {
        counters: "99999999 2 30 400",
        exported: "1500 0 0 99999999",
        ..MADE
    };
    let reading = |decimals| Shown {
        mode: 3,
        speed: 5,
        decimals,
        ..counted
    };
    let lines = [
        "\x02C.1.0(123 4567890)\r\n0.9.2(24-02-29)\r\n0.9.1(08:05:09)\r\n0.0.0(Kiln_7 old)\r\n",
        "1.8.1(99999.999*kWh)\r\n1.8.2(00000.002*kWh)\r\n1.8.3(00000.030*kWh)\r\n",
        "1.8.4(00000.400*kWh)\r\n1.8.0(00000.431*kWh)\r\n2.8.1(00001.500*kWh)\r\n",
        "2.8.2(00000.000*kWh)\r\n2.8.3(00000.000*kWh)\r\n2.8.4(99999.999*kWh)\r\n",
        "2.8.0(00001.499*kWh)\r\n",
    ];
    let mut block = lines.concat();
    for table in 1..=24 {
        block += &format!("131.0.{table:02}({ALL_ONES})\r\n");
    }
    let period = [
        "0.1.2*01(24-02-29 08:05)\r\n1.8.1*01(99999.999*kWh)\r\n1.8.2*01(00000.002*kWh)\r\n",
        "1.8.3*01(00000.030*kWh)\r\n1.8.4*01(00000.400*kWh)\r\n2.8.1*01(00001.500*kWh)\r\n",
        "2.8.2*01(00000.000*kWh)\r\n2.8.3*01(00000.000*kWh)\r\n2.8.4*01(99999.999*kWh)\r\n",
    ];
    let with_period = block.clone() + &period.concat() + "!\r\n\x03\x71";
    block += "!\r\n\x03\x76";
    assert_eq!((block.len(), with_period.len()), (1_163, 1_389));
    let mut scripts = vec![
        Fixed::empty("the factory looks at edition, decimals and facts")
            .line(&new("1 1 2"), "1")
            .dump(Shown {
                decimals: 2,
                ..MADE
            })
            .line(&new("1 1 1"), "18")
            .dump(BLANK)
            .line(&new("1 1 5"), "18")
            .line(&new("1 1 255"), "18")
            .line(&new("1 3 5"), "18")
            .line(&new("1 3 4"), "15")
            .line(&new("3 3 5"), "16")
            .line(&new("1 1 256"), "error")
            .line(&new("1 1 0 0"), "error")
            .dump(BLANK),
        Fixed::empty("three decimals, both directions")
            .set(reading(3))
            .frame(
                "\x01R1\x02E0()\x03\x16",
                1,
                "\x021.8.0(00000.431*kWh)\r\n\x03\x6A",
            )
            .frame(
                "\x01R1\x02E1()\x03\x17",
                1,
                "\x021.8.1(99999.999*kWh)\r\n\x03\x6D",
            )
            .frame(
                "\x01R1\x02G0()\x03\x14",
                1,
                "\x022.8.0(00001.499*kWh)\r\n\x03\x6A",
            )
            .frame(
                "\x01R1\x02G1()\x03\x15",
                1,
                "\x022.8.1(00001.500*kWh)\r\n\x03\x6A",
            )
            .frame(
                "\x01R1\x02G4()\x03\x10",
                1,
                "\x022.8.4(99999.999*kWh)\r\n\x03\x6B",
            )
            .frame("\x01R1\x02G5()\x03\x11", 9, NAK)
            .frame("\x01R1\x02E5()\x03\x13", 9, NAK)
            .frame("\x01R1\x02G()\x03\x24", 9, NAK)
            .dump(reading(3)),
        Fixed::reading("no export in document 01's family")
            .frame("\x01R1\x02G0()\x03\x14", 9, NAK)
            .frame("\x01R1\x02G1()\x03\x15", 9, NAK),
        Fixed::empty("the block has ten lines of energy")
            .set(Shown {
                mode: 1,
                decimals: 3,
                ..counted
            })
            .send("\x06050\r\n", 0, 1, 5, &block),
        Fixed::empty("a closed period of an EQM meter has eight counters")
            .set(Shown {
                decimals: 3,
                ..counted
            })
            .send("/C!\r\n", 0, 1, 0, IDENTIFICATION)
            .send("\x06056\r\n", 0, 1, 5, &with_period)
            .dump(Shown {
                decimals: 3,
                periods: &["2024 2 29 8 5 99999999 2 30 400 1500 0 0 99999999"],
                ..counted
            }),
        Fixed::empty("a pulse says its direction, and each rolls over on its own")
            .set(Shown {
                decimals: 4,
                counters: "99999999 0 0 5",
                exported: "99000000 0 0 7",
                ..MADE
            })
            .line("pulse 1", "1 0")
            .line("pulse 1000000 out", "1 0")
            .line("pulse 0 out", "1 0")
            .line("pulse 3", "1 0")
            .line("pulse 1000001 out", "13 0")
            .line("pulse 4294967295 out", "13 0")
            .line("pulse 1000001", "13 0")
            .dump(Shown {
                decimals: 4,
                counters: "3 0 0 5",
                exported: "0 0 0 7",
                ..MADE
            }),
        Fixed::listening("document 01's family counts nothing out")
            .line("pulse 0 out", "13 0")
            .line("pulse 1000001 out", "13 0")
            .dump(MADE)
            .kept(
                Shown {
                    attempts: 4,
                    ..MADE
                },
                "pulse 1 out",
                "13 0",
            )
            .kept(
                Shown {
                    decimals: 1,
                    ..MADE
                },
                "pulse 1 out",
                "14 0",
            ),
    ];
    for (decimals, first, total, out, total_out) in [
        (2, "999999.99", "000004.31", "000015.00", "000014.99"),
        (4, "9999.9999", "0000.0431", "0000.1500", "0000.1499"),
    ] {
        scripts.push(
            Fixed::empty("two decimals, and four")
                .set(reading(decimals))
                .frame(
                    "\x01R1\x02E1()\x03\x17",
                    1,
                    &format!("\x021.8.1({first}*kWh)\r\n\x03\x6D"),
                )
                .frame(
                    "\x01R1\x02E0()\x03\x16",
                    1,
                    &format!("\x021.8.0({total}*kWh)\r\n\x03\x6A"),
                )
                .frame(
                    "\x01R1\x02G1()\x03\x15",
                    1,
                    &format!("\x022.8.1({out}*kWh)\r\n\x03\x6A"),
                )
                .frame(
                    "\x01R1\x02G0()\x03\x14",
                    1,
                    &format!("\x022.8.0({total_out}*kWh)\r\n\x03\x6A"),
                ),
        );
    }
    for (malformed, name) in [
        (
            Shown {
                decimals: 1,
                ..MADE
            },
            "decimals that are none",
        ),
        (
            Shown {
                decimals: 5,
                ..MADE
            },
            "five decimals",
        ),
        (
            Shown {
                exported: "0 0 1 0",
                ..MADE
            },
            "an exported counter in document 01's family",
        ),
        (
            Shown {
                periods: &["2024 2 29 8 5 0 0 0 0 0 0 0 1"],
                ..MADE
            },
            "an exported counter of a period in document 01's family",
        ),
        (
            Shown {
                decimals: 2,
                counters: "100000000 0 0 0",
                ..MADE
            },
            "a counter of nine digits",
        ),
        (
            Shown {
                decimals: 2,
                exported: "0 0 0 100000000",
                ..MADE
            },
            "an exported counter of nine digits",
        ),
        (
            Shown {
                decimals: 2,
                periods: &["2024 2 29 8 5 0 0 0 0 0 0 100000000 0"],
                ..MADE
            },
            "an exported counter of a period of nine digits",
        ),
    ] {
        scripts.push(Fixed::empty(name).kept(malformed, "tick", "14 0"));
    }
    scripts
}

fn states() -> Vec<Fixed> {
    let broken = Shown {
        attempts: 4,
        ..PROGRAMMING
    };
    vec![
        Fixed::empty("a malformed state is kept by every call")
            .kept(broken, "byte 81", "14 0 0 - 0")
            .kept(broken, "byte 81 4095", "12 0 0 - 0")
            .kept(broken, "silence", "14 0 0 - 0")
            .kept(broken, "silence 0", "12 0 0 - 0")
            .kept(broken, "tick", "14 0")
            .kept(broken, "up", "14 0")
            .kept(broken, "pulse 1000000", "14 0")
            .kept(broken, "pulse 1000001", "13 0"),
        Fixed::empty("bad facts give the blank state")
            .dump(BLANK)
            .set(PROGRAMMING)
            .line(
                "new 3132333435363738392f 4b696c6e5f37206f6c64 3230333034303530 2024 2 29 8 5 9",
                "15",
            )
            .dump(BLANK)
            .set(PROGRAMMING)
            .line(
                "new 31323334353637383930 4b696c6e2d37206f6c64 3230333034303530 2024 2 29 8 5 9",
                "15",
            )
            .dump(BLANK)
            .set(PROGRAMMING)
            .line(
                "new 31323334353637383930 4b696c6e5f37206f6c64 323033303430353a 2024 2 29 8 5 9",
                "15",
            )
            .dump(BLANK)
            .set(PROGRAMMING)
            .line(
                "new 31323334353637383930 4b696c6e5f37206f6c64 3230333034303530 2023 2 29 8 5 9",
                "15",
            )
            .dump(BLANK),
        Fixed::empty("unreachable: LF or a second '/' held in mode 0")
            .set(Shown {
                held: "/\n/?!\r",
                ..MADE
            })
            .quiet("\n", 0)
            .dump(MADE),
        Fixed::empty("unreachable: a mark with no 0 held")
            .set(Shown {
                held: "/?!\r",
                mark: 1,
                ..MADE
            })
            .quiet("\n", 0)
            .dump(MADE)
            .set(Shown {
                held: "\x01B0\x03",
                mark: 1,
                ..PROGRAMMING
            })
            .hurt("71", 0)
            .set(Shown {
                held: "\x01B0\x03",
                mark: 1,
                place: 3,
                ..PROGRAMMING
            })
            .hurt("71", 3)
            .dump(PROGRAMMING)
            .set(Shown {
                mode: 1,
                held: "\x06051\r",
                mark: 1,
                ..MADE
            })
            .send("\n", 0, 2, 0, "")
            .dump(MADE),
        Fixed::empty("unreachable: SOH or ETX inside a frame")
            // The checksum goes from the second character to the last ETX.
            .set(Shown {
                held: "\x01B0\x03\x71\x01\x03",
                ..PROGRAMMING
            })
            .send("\x71", 5, 4, 5, NAK)
            .set(Shown {
                held: "\x01B0\x03\x71\x01\x03",
                ..PROGRAMMING
            })
            // 42, 30, 03, 71, 01 and 03 come to 02.
            .wire("82", 5, 6, 5, NAK)
            .dump(PROGRAMMING),
        Fixed::empty("mode 1 may hold anything")
            .set(Shown {
                mode: 1,
                held: "\x01/\n\x03\x7F",
                ..MADE
            })
            .send("\n", 0, 2, 0, "")
            .dump(MADE),
    ]
}

fn script_rules() -> Vec<Fixed> {
    let mut errors = Fixed::listening("lines that are no commands");
    for line in [
        "",
        " ",
        "dump ",
        " dump",
        "DUMP",
        "tick 1",
        "up 1",
        "pulse",
        "pulse -1",
        "pulse 4294967296",
        "pulse 1 in",
        "pulse 1 OUT",
        "pulse out",
        "pulse 1 out 1",
        "pulse 4294967296 out",
        "byte",
        "byte AF",
        "byte af 8193",
        "byte af  4096",
        "byte af3f",
        "bytes",
        "bytes a",
        "bytes af 3f",
        "silence 8193",
        "new",
        "set",
        "dump\r",
        "hello",
    ] {
        errors = errors.line(line, "error");
    }
    let shown = MADE.fields();
    // The state's line with the field at a place put another way.
    let spoiled = |place: usize, field: &str| {
        let mut fields: Vec<&str> = shown.split(' ').collect();
        fields[place] = field;
        format!("set {}", fields.join(" "))
    };
    let tables = "31".repeat(576);
    vec![
        errors.dump(MADE),
        Fixed::listening("a spoiled set changes nothing")
            .line(&format!("set {shown} "), "error")
            .line(&format!("set {}", &shown[..shown.len() - 2]), "error")
            .line(&format!("set {shown} 31"), "error")
            .line(&format!("set {shown}4294967296"), "error")
            .line(&spoiled(18, &tables), "error")
            .line(&spoiled(19, "256"), "error")
            .line(&spoiled(20, "256"), "error")
            .line(&spoiled(21, "256"), "error")
            .line(&spoiled(22, "4294967296"), "error")
            .line(&spoiled(23, "256"), "error")
            .line(&spoiled(24, "4294967296"), "error")
            .line(&spoiled(28, "4294967296"), "error")
            .line(&spoiled(29, "256"), "error")
            .line(&spoiled(30, "65536"), "error")
            .line(&spoiled(34, "256"), "error")
            .line(&spoiled(35, "4294967296"), "error")
            .line(&spoiled(42, "4294967296"), "error")
            .line(&spoiled(29, "0 0"), "error")
            .line(&format!("set 256{}", &shown[1..]), "error")
            .line(&format!("set 0 0 256{}", &shown[5..]), "error")
            .dump(MADE)
            .line(&format!("set 255{}", &shown[1..]), "ok")
            .line("tick", "14 0"),
        Fixed::listening("a mark is any number of 8 bits, and well-formed as 0 and 1")
            .line(&format!("set 0 0 2{}", &shown[5..]), "ok")
            .line("byte af", "14 0 0 - 0")
            .line("silence", "14 0 0 - 0")
            .line("up", "14 0")
            .dump(Shown { mark: 2, ..MADE })
            .line(&format!("set 0 0 255{}", &shown[5..]), "ok")
            .line("tick", "14 0")
            .dump(Shown { mark: 255, ..MADE }),
        Fixed::listening("no bytes, no answer")
            .line("bytes -", "")
            .line("tick", "1 0")
            .line("pulse 0000000007", "1 0")
            .line("byte 00 0004096", "0 0 0 - 0")
            .dump(Shown {
                clock: "2024 2 29 8 5 10",
                counters: "7 0 0 0",
                ..MADE
            }),
    ]
}
