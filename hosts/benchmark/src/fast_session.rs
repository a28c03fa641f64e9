//! The head's session written by hand for speed in safe Rust: the yardstick for the proved one. The
//! same checks and answers; `session_speed` holds the two equal before it times them.

use crate::fast_head;
use crate::fast_post::{self, tables_of};
use crate::fast_values;
use dirgemist::session::{
    Session, Started, Told, Turn, DONE, FIELD, GOES_ON, MANY_READS, MESSAGE_ROOM, NAK, NONE,
    NO_DECIMALS, NO_EDITION, NO_POST, NO_READS, NO_ROOM, OVER, READ_ONLY, SILENT, WRONG,
};

const LINE: usize = 36;

/// The fixed replies, as they come over the line; the identification of either edition.
const IDENTIFICATIONS: [&[u8]; 2] = [
    b"\xAFZZZ5SUB-VP0\xB1.00\xAA\x8D\n",
    b"\xAFZZZ5SUB-VP0\xB2.00\xAA\x8D\n",
];
const PASSWORD_ASK: &[u8] = b"\x81P0\x82(0000\xA9\x03\x60";
const ACK: &[u8] = b"\x06";
const NOT_ACK: &[u8] = b"\x95";

/// Each character as it is sent.
static SENT: [u8; 256] = {
    let mut sent = [0; 256];
    let mut c = 0;
    while c < 256 {
        sent[c] = (c as u8 & 0x7F) | (((c as u8 & 0x7F).count_ones() as u8 & 1) << 7);
        c += 1;
    }
    sent
};

/// A message as it grows at the front of a buffer.
struct Writer<'a> {
    out: &'a mut [u8],
    length: usize,
    sum: u8,
}

impl Writer<'_> {
    #[inline(always)]
    fn put(&mut self, text: &[u8]) {
        let to = &mut self.out[self.length..self.length + text.len()];
        for (byte, &c) in to.iter_mut().zip(text) {
            *byte = SENT[usize::from(c)];
            self.sum ^= c;
        }
        self.length += text.len();
    }

    /// The BCC, of all but the first character, which is SOH.
    #[inline(always)]
    fn sealed(mut self) -> usize {
        let bcc = self.sum ^ 1;
        self.put(&[bcc]);
        self.length
    }
}

#[inline(always)]
fn writer(out: &mut [u8]) -> Writer<'_> {
    Writer {
        out,
        length: 0,
        sum: 0,
    }
}

fn sign_on(s: &Session, out: &mut [u8]) -> usize {
    let mut w = writer(out);
    if s.named == 0 {
        w.put(b"/?!\r\n");
    } else {
        w.put(b"/?");
        w.put(&s.serial[..3]);
        w.put(b" ");
        w.put(&s.serial[3..]);
        w.put(b"!\r\n");
    }
    w.length
}

#[inline(always)]
fn is_family(decimals: u8) -> bool {
    matches!(decimals, 0 | 2..=4)
}

/// What may be asked of meters that have so many tables and write energy with so many decimals.
#[inline(always)]
fn good_read(highest: u8, decimals: u8, letter: u8, n: u8) -> bool {
    match letter {
        b'T' | b'L' | b'K' => true,
        b'E' => n <= 4,
        b'G' => n <= 4 && decimals != 0,
        b'Z' => (1..=highest).contains(&n),
        _ => false,
    }
}

#[inline(always)]
fn is_row(row: &[u8]) -> bool {
    row.len() == 24 && row.iter().fold(0, |all, c| all | c.wrapping_sub(b'1')) <= 3
}

#[inline(always)]
fn two(digits: [u8; 2]) -> Option<u8> {
    let [tens, units] = digits.map(|c| c.wrapping_sub(b'0'));
    (tens <= 9 && units <= 9).then_some(tens * 10 + units)
}

/// A read of the work; zeros where there is none.
#[inline(always)]
fn read_at(work: &[u8], i: usize) -> (u8, u8) {
    let at = |place: usize| work.get(place).copied().unwrap_or(0);
    (at(2 * i), at(2 * i + 1))
}

/// The message of a number, or nothing where the work has none.
fn message(s: &Session, highest: u8, work: &[u8], n: u8, out: &mut [u8]) -> Option<usize> {
    let mut w = writer(out);
    match n {
        2 => {
            w.put(b"\x06051\r\n");
            return Some(w.length);
        }
        3 => {
            w.put(b"\x01P1\x02(");
            if s.access == 1 {
                w.put(&s.password);
            }
            w.put(b")\x03");
        }
        n if n > s.count + 3 => w.put(b"\x01B0\x03"),
        n if s.work == 1 => {
            let start = usize::from(n - 4) * LINE;
            let line = work.get(start..start + LINE)?;
            let (number, row) = (&line[6..8], &line[9..33]);
            let table = two([number[0], number[1]])?;
            let framed = line.starts_with(b"131.0.") && line[8] == b'(' && line[33..] == *b")\r\n";
            if !framed || !(1..=highest).contains(&table) || !is_row(row) {
                return None;
            }
            w.put(b"\x01W1\x02Z(");
            w.put(number);
            w.put(b";");
            w.put(row);
            w.put(b")\x03");
        }
        n => {
            let (letter, number) = read_at(work, usize::from(n - 4));
            if !good_read(highest, s.decimals, letter, number) {
                return None;
            }
            w.put(b"\x01R1\x02");
            match letter {
                b'E' | b'G' => w.put(&[letter, b'0' + number, b'(', b')']),
                b'Z' => w.put(&[b'Z', b'(', b'0' + number / 10, b'0' + number % 10, b')']),
                _ => w.put(&[letter, b'(', b')']),
            }
            w.put(b"\x03");
        }
    }
    Some(w.sealed())
}

/// Whether a text has a form, in which `d` is a digit.
#[inline(always)]
fn fits(form: &[u8], text: &[u8]) -> bool {
    form.len() == text.len()
        && form.iter().zip(text).all(|(&f, &c)| match f {
            b'd' => c.is_ascii_digit(),
            f => c == f,
        })
}

fn is_date(year: u8, month: u8, day: u8) -> bool {
    let days = match month {
        4 | 6 | 9 | 11 => 30,
        2 => 28 + u8::from(year.is_multiple_of(4)),
        _ => 31,
    };
    (1..=12).contains(&month) && (1..=days).contains(&day)
}

/// Whether data is just what a read asked for.
fn tells(decimals: u8, letter: u8, n: u8, data: &[u8]) -> bool {
    let pair = |at: usize| two([data[at], data[at + 1]]).unwrap_or(99);
    match letter {
        b'T' => {
            fits(b"0.9.1(dd:dd:dd)\r\n0.9.2(dd-dd-dd)\r\n", data)
                && pair(6) < 24
                && pair(9) < 60
                && pair(12) < 60
                && is_date(pair(23), pair(26), pair(29))
        }
        b'L' => fits(b"C.1.0(ddd ddddddd)\r\n", data),
        b'K' => {
            data.len() == 19
                && data.starts_with(b"0.0.0(")
                && data.ends_with(b")\r\n")
                && data[6..16]
                    .iter()
                    .all(|&c| c.is_ascii_alphanumeric() || c == b' ' || c == b'_')
        }
        b'E' | b'G' if decimals != 0 => {
            data.len() == 22
                && data[..6]
                    == [
                        b'1' + u8::from(letter == b'G'),
                        b'.',
                        b'8',
                        b'.',
                        b'0' + n,
                        b'(',
                    ]
                && fast_values::eqm(decimals, &data[6..19]).0 == DONE
                && data.ends_with(b")\r\n")
        }
        b'E' => {
            data.len() == 24 && data[5] == b'0' + n && {
                let (front, rest) = (&data[..5], &data[6..]);
                front == b"15.8." && fits(b"(dddddd.ddd*kWh)\r\n", rest)
            }
        }
        _ => {
            data.len() == LINE
                && data.starts_with(b"131.0.")
                && data[6..9] == [b'0' + n / 10, b'0' + n % 10, b'(']
                && is_row(&data[9..33])
                && data.ends_with(b")\r\n")
        }
    }
}

fn answers(highest: u8, decimals: u8, letter: u8, n: u8, reply: &[u8]) -> bool {
    let mut plain = [0; 64];
    if !good_read(highest, decimals, letter, n) || fast_head::strip(reply, &mut plain).0 != 1 {
        return false;
    }
    let (number, start, length) = fast_head::part(&plain[..reply.len()]);
    number == 1 && tells(decimals, letter, n, &plain[start..start + length])
}

fn right(s: &Session, highest: u8, work: &[u8], reply: &[u8]) -> bool {
    match s.sent {
        1 => reply == IDENTIFICATIONS[usize::from(s.edition == 2)],
        2 => reply == PASSWORD_ASK,
        n if n > 3 && n <= s.count + 3 && s.work == 0 => {
            let (letter, number) = read_at(work, usize::from(n - 4));
            answers(highest, s.decimals, letter, number, reply)
        }
        _ => reply == ACK,
    }
}

/// A flag of 1 with digits, or of 0 with zeros.
#[inline(always)]
fn told_well(flag: u8, bytes: &[u8]) -> bool {
    match flag {
        0 => bytes.iter().fold(0, |all, b| all | b) == 0,
        1 => bytes.iter().all(u8::is_ascii_digit),
        _ => false,
    }
}

/// Whether a session with meters that have so many tables may stand so.
#[inline(always)]
fn good(s: &Session, highest: u8) -> bool {
    let work = s.work == 0 || (s.work == 1 && s.access == 1 && s.count <= highest);
    let place = (1..=32).contains(&s.count) && (1..=s.count + 4).contains(&s.sent);
    place
        && is_family(s.decimals)
        && work
        && s.fact <= SILENT
        && (s.fact != OVER || s.sent == s.count + 4)
        && told_well(s.named, &s.serial)
        && told_well(s.access, &s.password)
}

#[inline(always)]
fn reads_good(told: &Told, highest: u8) -> bool {
    told.work
        .chunks_exact(2)
        .all(|r| good_read(highest, told.decimals, r[0], r[1]))
}

/// Starts a session.
pub fn start(told: &Told, out: &mut [u8]) -> (Started, Session) {
    let mut session = Session {
        serial: [0; 10],
        password: [0; 8],
        named: 0,
        access: 0,
        work: 0,
        count: 0,
        sent: 0,
        fact: 0,
        edition: 0,
        decimals: 0,
    };
    let mut started = Started {
        number: DONE,
        place: 0,
        length: 0,
    };
    let length = told.work.len();
    let Some(highest) = tables_of(told.edition) else {
        started.number = NO_EDITION;
        return (started, session);
    };
    started.number = if !is_family(told.decimals) {
        NO_DECIMALS
    } else if out.len() < MESSAGE_ROOM {
        NO_ROOM
    } else {
        match told.kind {
            0 if length == 0 => NO_READS,
            0 if length > 64 => MANY_READS,
            0 if length % 2 == 1 => FIELD,
            0 if !reads_good(told, highest) => FIELD,
            0 => DONE,
            1 if fast_post::check(told.edition, told.work, &mut started.place) != 1 => NO_POST,
            1 if told.access == 0 => READ_ONLY,
            1 => DONE,
            _ => FIELD,
        }
    };
    if started.number == DONE {
        let serial = <&[u8; 10]>::try_from(told.serial);
        let password = <&[u8; 8]>::try_from(told.password);
        let called = match (told.named, serial) {
            (0, _) => Some([0; 10]),
            (1, Ok(serial)) if serial.iter().all(u8::is_ascii_digit) => Some(*serial),
            _ => None,
        };
        let entered = match (told.access, password) {
            (0, _) => Some([0; 8]),
            (1, Ok(password)) if password.iter().all(u8::is_ascii_digit) => Some(*password),
            _ => None,
        };
        let (Some(serial), Some(password)) = (called, entered) else {
            started.number = FIELD;
            return (started, session);
        };
        session = Session {
            serial,
            password,
            named: told.named,
            access: told.access,
            work: told.kind,
            count: (length / if told.kind == 1 { LINE } else { 2 }) as u8,
            sent: 1,
            fact: GOES_ON,
            edition: told.edition,
            decimals: told.decimals,
        };
        started.length = sign_on(&session, out);
    }
    (started, session)
}

/// A reply has come.
pub fn reply(s: &mut Session, work: &[u8], reply: &[u8], out: &mut [u8]) -> Turn {
    let unturned = |number: u8| Turn {
        number,
        fact: 0,
        message: 0,
        length: 0,
    };
    if out.len() < MESSAGE_ROOM {
        return unturned(NO_ROOM);
    }
    let Some(highest) = tables_of(s.edition).filter(|&highest| good(s, highest)) else {
        return unturned(NONE);
    };
    if s.fact == GOES_ON {
        if reply == NOT_ACK {
            s.fact = NAK;
        } else if !right(s, highest, work, reply) {
            s.fact = WRONG;
        } else if s.sent == s.count + 4 {
            s.fact = OVER;
        } else {
            let Some(length) = message(s, highest, work, s.sent + 1, out) else {
                return unturned(NONE);
            };
            s.sent += 1;
            return Turn {
                number: DONE,
                fact: GOES_ON,
                message: s.sent,
                length,
            };
        }
    }
    Turn {
        number: DONE,
        fact: s.fact,
        message: s.sent,
        length: 0,
    }
}
