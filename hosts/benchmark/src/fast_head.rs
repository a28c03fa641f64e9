//! The head's reading of replies, and what it asks an EQM meter, written by hand for speed in safe
//! Rust: the yardstick for the proved head. The same checks and answers as the model, which the tests
//! below hold it to.

use model::head::{answer, Lookup, Step};

const STX: u8 = 0x02;
const ETX: u8 = 0x03;

/// Whether some byte has an odd count of ones: without a way out, so that many are taken at a time;
/// eight as one number, or by the vectors' count of ones where they have it.
#[inline(always)]
fn any_damaged(reply: &[u8]) -> bool {
    if cfg!(target_arch = "aarch64") {
        return reply.iter().fold(0, |all, b| all | b.count_ones() as u8) & 1 == 1;
    }
    let odd = |eight: u64| {
        let four = eight ^ eight >> 4;
        let two = four ^ four >> 2;
        two ^ two >> 1
    };
    let (eights, rest) = reply.as_chunks::<8>();
    let eights = eights
        .iter()
        .fold(0, |all, eight| all | odd(u64::from_le_bytes(*eight)));
    let all = rest.iter().fold(eights, |all, &b| all | odd(u64::from(b)));
    all & 0x0101_0101_0101_0101 != 0
}

/// Strips a reply's parity into `out`: answer, length, and with 24 the place of the first damaged byte.
pub fn strip(reply: &[u8], out: &mut [u8]) -> (u8, usize, usize) {
    let Some(copy) = out.get_mut(..reply.len()) else {
        return (answer::SHORT_COPY, 0, 0);
    };
    if any_damaged(reply) {
        let first = reply.iter().position(|b| b.count_ones() % 2 == 1);
        return (answer::DAMAGED, 0, first.unwrap_or(0));
    }
    for (character, byte) in copy.iter_mut().zip(reply) {
        *character = byte & 0x7F;
    }
    (answer::DONE, reply.len(), 0)
}

/// Finds the part of a stripped block: answer, start and length.
pub fn part(stripped: &[u8]) -> (u8, usize, usize) {
    let [STX, data @ .., ETX, bcc] = stripped else {
        return (answer::NO_BLOCK, 0, 0);
    };
    let (mut bits, mut etx, mut sum) = (*bcc, 0, ETX);
    for &c in data {
        bits |= c;
        etx |= u8::from(c == ETX);
        sum ^= c;
    }
    if bits > 0x7F || etx != 0 {
        (answer::NO_BLOCK, 0, 0)
    } else if sum != *bcc {
        (answer::WRONG_BCC, 0, 0)
    } else {
        (answer::DONE, 1, data.len())
    }
}

/// The characters that may stand in an address.
static IN_ADDRESS: [bool; 256] = {
    let mut allowed = [false; 256];
    let mut c = 0;
    while c < 256 {
        allowed[c] = (c as u8).is_ascii_alphanumeric() || matches!(c as u8, b'.' | b'*');
        c += 1;
    }
    allowed
};

/// The characters that may stand in a value.
static IN_VALUE: [bool; 256] = {
    let mut allowed = [false; 256];
    let mut c = 0x20;
    while c <= 0x7E {
        allowed[c] = !matches!(c as u8, b'(' | b')' | b'/' | b'!');
        c += 1;
    }
    allowed
};

/// How many allowed characters `text` starts with; nothing where they are more than `most` or run to
/// the end. One short slice and one look into a table for each character is the quickest way found.
#[inline(always)]
fn run(text: &[u8], allowed: &[bool; 256], most: usize) -> Option<usize> {
    let within = &text[..text.len().min(most + 1)];
    within.iter().position(|&c| !allowed[usize::from(c)])
}

/// The lengths of address and value of the data set that `rest` starts with.
#[inline(always)]
fn set_at_start(rest: &[u8]) -> Option<(usize, usize)> {
    let address_length = run(rest, &IN_ADDRESS, 16)?;
    if address_length == 0 || rest[address_length] != b'(' {
        return None;
    }
    let value = &rest[address_length + 1..];
    let value_length = run(value, &IN_VALUE, 32)?;
    value[value_length..]
        .starts_with(b")\r\n")
        .then_some((address_length, value_length))
}

/// Reads the data set that starts at a place.
#[inline]
pub fn next(sets: &[u8], at: usize) -> Step {
    let mut step = Step {
        answer: answer::END,
        address_length: 0,
        value_length: 0,
        next: at,
        place: 0,
    };
    let rest = sets.get(at..).unwrap_or(&[]);
    if let Some((address_length, value_length)) = set_at_start(rest) {
        step.answer = answer::DONE;
        step.address_length = address_length;
        step.value_length = value_length;
        step.next = at + address_length + value_length + 4;
    } else if !rest.is_empty() && !rest.starts_with(b"!\r\n") {
        step.answer = answer::MALFORMED;
        step.place = at;
    }
    step
}

/// Reads all data sets: the last answer, how many were read, and the place where the reader stays.
pub fn read_all(sets: &[u8]) -> (u8, usize, usize) {
    let (mut count, mut at) = (0, 0);
    loop {
        let step = next(sets, at);
        if step.answer != answer::DONE {
            return (step.answer, count, at);
        }
        count += 1;
        at = step.next;
    }
}

/// Finds the first data set with an address.
pub fn find(sets: &[u8], address: &[u8]) -> Lookup {
    let mut found = Lookup {
        answer: answer::MISSING,
        count: 0,
        place: 0,
        address_start: 0,
        address_length: 0,
        value_start: 0,
        value_length: 0,
    };
    let mut at = 0;
    loop {
        let step = next(sets, at);
        if step.answer != answer::DONE {
            if step.answer == answer::MALFORMED {
                found.answer = answer::MALFORMED;
                found.place = at;
            }
            return found;
        }
        found.count += 1;
        let bracket = at + step.address_length;
        if sets[at..bracket] == *address {
            found.answer = answer::DONE;
            found.address_start = at;
            found.address_length = step.address_length;
            found.value_start = bracket + 1;
            found.value_length = step.value_length;
            return found;
        }
        at = step.next;
    }
}

#[cfg(test)]
mod tests {
    use super::*;
    use ::model::head::{self as model, Clock, Period, Registers};

    const EDGES: &[u8] = b"\x00\x02\x03\n\r\x1F !()*-./09:@AZ[_`az{~\x7F\x80\x82\x83\xAE\xFF";

    fn registers() -> Registers {
        Registers {
            serial: *b"0123456789",
            account: *b"Kiln_7 Abc",
            clock: Clock {
                year: 2024,
                month: 2,
                day: 29,
                hour: 23,
                minute: 59,
                second: 58,
            },
            decimals: 0,
            counters: [1_500, 999_999_999, 0, 123_456_789],
            exported: [0; 4],
            tables: Vec::from_iter(
                (0..24).map(|t| std::array::from_fn(|h| b'1' + ((7 * t + 3 * h) % 4) as u8)),
            ),
            periods: vec![Period {
                closed: Clock {
                    year: 2024,
                    month: 2,
                    day: 1,
                    ..Clock::default()
                },
                counters: [1_500, 999_999_998, 0, 7],
                exported: [0; 4],
            }],
        }
    }

    fn same_strip(reply: &[u8], room: usize) {
        let mut fast: Vec<u8> = (0..room).map(|n| (n * 167 + 13) as u8).collect();
        let mut plain = fast.clone();
        assert_eq!(strip(reply, &mut fast), model::strip(reply, &mut plain));
        assert_eq!(fast, plain);
    }

    fn same_part(stripped: &[u8]) {
        let plain = match model::part(stripped) {
            Ok(part) => (answer::DONE, part.start, part.len()),
            Err(refusal) => (refusal, 0, 0),
        };
        assert_eq!(part(stripped), plain);
    }

    fn same_next(sets: &[u8], at: usize) {
        assert_eq!(next(sets, at), model::next(sets, at), "{sets:X?} at {at}");
    }

    #[test]
    fn strips_as_the_model_does() {
        let mut reply = model::on_the_wire(&model::block(&registers().data()));
        for room in (0..3).chain(reply.len() - 2..reply.len() + 3) {
            same_strip(&reply, room);
        }
        for length in 0..=130 {
            same_strip(&reply[..length], length);
            same_strip(&reply[..length], length + 5);
        }
        for place in 0..reply.len() {
            reply[place] ^= 1 << (place % 8);
            same_strip(&reply, reply.len());
            reply[place] ^= 1 << (place % 8);
        }
        for byte in 0..=255 {
            same_strip(&[byte], 1);
            same_strip(&[0x81, byte, 0x03], 4);
        }
    }

    #[test]
    fn parts_as_the_model_does() {
        let mut block = model::block(&registers().data());
        for length in 0..=block.len() {
            same_part(&block[..length]);
            same_part(&block[length..]);
        }
        for place in 0..block.len() {
            let good = block[place];
            for &byte in EDGES {
                block[place] = byte;
                same_part(&block);
            }
            block[place] = good;
        }
        for byte in 0..=255 {
            same_part(&model::block(&[byte]));
            same_part(&[STX, ETX, byte]);
            same_part(&[STX, 0x41, ETX, byte]);
        }
    }

    #[test]
    fn reads_sets_as_the_model_does() {
        let data = registers().data();
        assert_eq!(read_all(&data), (answer::END, 38, data.len() - 3));
        for at in (0..data.len() + 3).chain([usize::MAX]) {
            same_next(&data, at);
        }
        for text in [
            model::line("C.1.0", "012 3456789"),
            model::line("15.8.1", "000001.500*kWh"),
            model::line("ABCDEFGH.abc.xyz", &" }~&'*.0".repeat(4)),
            b"!\r\n".to_vec(),
        ] {
            for place in 0..text.len() {
                same_next(&text[..place], 0);
                same_next(&text[place..], 0);
                for byte in 0..=255 {
                    let (before, after) = text.split_at(place);
                    same_next(&[before, &[byte], after].concat(), 0);
                    same_next(&[before, &[byte], &after[1..]].concat(), 0);
                }
            }
        }
        for address_length in 0..=18 {
            for value_length in 0..=34 {
                let (address, value) = ("a".repeat(address_length), "v".repeat(value_length));
                same_next(&model::line(&address, &value), 0);
            }
        }
    }

    #[test]
    fn finds_as_the_model_does() {
        let data = registers().data();
        for (address, _) in registers().data_sets() {
            let address = address.as_bytes();
            for asked in [address, &address[..address.len() - 1], &address[1..], b""] {
                assert_eq!(find(&data, asked), model::find(&data, asked));
            }
        }
        let mut hurt = data.clone();
        for place in 0..data.len() {
            hurt[place] ^= 0x80;
            assert_eq!(find(&hurt, b"15.8.0"), model::find(&hurt, b"15.8.0"));
            hurt[place] = data[place];
            let cut = &data[..place];
            assert_eq!(find(cut, b"15.8.0"), model::find(cut, b"15.8.0"));
        }
    }
}
