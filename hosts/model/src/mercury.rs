//! A Mercury meter's energy, made from document 02 and its source alone: the request 05h, and what
//! comes back.

/// The numbers that the request of document 02 gives.
pub mod answer {
    pub const DONE: u8 = 1;
    pub const LENGTH: u8 = 50;
    pub const CRC: u8 = 51;
    pub const ADDRESS: u8 = 52;
    pub const STATUS: u8 = 53;
    pub const FIELD: u8 = 54;
    pub const ROOM: u8 = 55;
}

/// The CRC of the Modbus serial line, bit by bit.
pub fn crc(message: &[u8]) -> u16 {
    let mut register = 0xFFFF_u16;
    for &byte in message {
        register ^= u16::from(byte);
        for _ in 0..8 {
            let one = register & 1 == 1;
            register >>= 1;
            if one {
                register ^= 0xA001;
            }
        }
    }
    register
}

/// A message with its CRC behind it, the low byte first.
pub fn closed(mut message: Vec<u8>) -> Vec<u8> {
    let crc = crc(&message);
    message.extend(crc.to_le_bytes());
    message
}

/// Whether array, month and tariff may be asked for.
fn in_range(array: u8, month: u8, tariff: u8) -> bool {
    let months = if matches!(array, 3 | 0xB) {
        1..=12
    } else {
        0..=0
    };
    matches!(array, 0..=5 | 9..=0xD) && months.contains(&month) && tariff <= 4
}

/// Builds the request: the number, and its length.
pub fn ask(address: u8, array: u8, month: u8, tariff: u8, out: &mut [u8]) -> (u8, usize) {
    if !in_range(array, month, tariff) {
        return (answer::FIELD, 0);
    }
    let request = closed(vec![address, 0x05, array << 4 | month, tariff]);
    match out.get_mut(..request.len()) {
        None => (answer::ROOM, 0),
        Some(front) => {
            front.copy_from_slice(&request);
            (answer::DONE, request.len())
        }
    }
}

/// What an answer says: four quantities, those that were not measured left out; or a number and the
/// code of a status.
#[derive(Clone, Copy, Debug, PartialEq, Eq)]
pub enum Read {
    Energy([Option<u32>; 4]),
    Not { number: u8, status: u8 },
}

/// The four bytes of a quantity, from the second, the first, the fourth and the third.
fn quantity(bytes: &[u8]) -> Option<u32> {
    let number = u32::from_be_bytes([bytes[1], bytes[0], bytes[3], bytes[2]]);
    (number != u32::MAX).then_some(number)
}

/// Reads the answer of the meter of an address.
pub fn read(address: u8, answer: &[u8]) -> Read {
    let not = |number| Read::Not { number, status: 0 };
    let Some((message, sent)) = answer.split_last_chunk::<2>() else {
        return not(answer::LENGTH);
    };
    match message {
        _ if !matches!(message.len(), 17 | 2) => not(answer::LENGTH),
        _ if u16::from_le_bytes(*sent) != crc(message) => not(answer::CRC),
        [from, ..] if *from != address => not(answer::ADDRESS),
        [_, code] => Read::Not {
            number: answer::STATUS,
            status: *code,
        },
        _ => Read::Energy([1, 5, 9, 13].map(|at| quantity(&message[at..at + 4]))),
    }
}

/// The answer of a meter with these quantities.
pub fn energy(address: u8, quantities: [Option<u32>; 4]) -> Vec<u8> {
    let mut message = vec![address];
    for quantity in quantities {
        let [first, second, third, fourth] = quantity.unwrap_or(u32::MAX).to_be_bytes();
        message.extend([second, first, fourth, third]);
    }
    closed(message)
}

#[cfg(test)]
mod tests {
    use super::*;

    #[test]
    fn the_examples_of_the_description() {
        for example in [
            &b"\x22\x08\x18\xD6\x00"[..],
            b"\x22\x00\x08\xD0\x0C",
            b"\0\0\x01\xB0",
            b"\x01\0\0\x20",
        ] {
            let (message, _) = example.split_at(example.len() - 2);
            assert_eq!(closed(message.to_vec()), example);
        }
        let january = [Some(2672), None, Some(1000), Some(0)];
        let answer = energy(0x80, january);
        assert_eq!(
            answer[..17],
            *b"\x80\0\0\x70\x0A\xFF\xFF\xFF\xFF\0\0\xE8\x03\0\0\0\0"
        );
        assert_eq!(read(0x80, &answer), Read::Energy(january));
        let mut out = [0; 6];
        assert_eq!(ask(0x80, 3, 1, 0, &mut out), (answer::DONE, 6));
        assert_eq!(out[..4], [0x80, 0x05, 0x31, 0x00]);
    }

    #[test]
    fn refusals_in_their_order() {
        let not = |number, status| Read::Not { number, status };
        assert_eq!(read(1, b""), not(50, 0));
        assert_eq!(read(1, &closed(vec![1])), not(50, 0));
        assert_eq!(read(1, b"\x02\0\0\0"), not(51, 0));
        assert_eq!(read(1, &closed(vec![2, 0])), not(52, 0));
        assert_eq!(read(1, &closed(vec![1, 0])), not(53, 0));
        let mut none = [];
        assert_eq!(ask(1, 4, 1, 0, &mut none), (54, 0));
        assert_eq!(ask(1, 3, 0, 0, &mut none), (54, 0));
        assert_eq!(ask(1, 3, 12, 4, &mut none), (55, 0));
    }
}
