//! Characters and checksum on the line, from document 01, "Characters and checksum".

pub const SOH: u8 = 0x01;
pub const STX: u8 = 0x02;
pub const ETX: u8 = 0x03;
pub const ACK: u8 = 0x06;
pub const LF: u8 = 0x0A;
pub const CR: u8 = 0x0D;
pub const NAK: u8 = 0x15;

/// Whether a wire byte is undamaged: the count of its ones is even.
pub fn undamaged(wire: u8) -> bool {
    wire.count_ones().is_multiple_of(2)
}

/// The character that a wire byte carries, or nothing if it is damaged.
pub fn character(wire: u8) -> Option<u8> {
    undamaged(wire).then_some(wire & 0x7F)
}

/// The wire byte that carries a character of seven bits.
pub fn wire(character: u8) -> u8 {
    let seven = character & 0x7F;
    if undamaged(seven) {
        seven
    } else {
        seven | 0x80
    }
}

/// Exclusive-or of the seven bits of all characters given.
pub fn sum(characters: &[u8]) -> u8 {
    characters.iter().fold(0, |sum, c| sum ^ (c & 0x7F))
}

/// The BCC of a message without its BCC: from the second character through the last.
/// The first is SOH, or else STX, and does not count.
pub fn bcc(message: &[u8]) -> u8 {
    message.get(1..).map_or(0, sum)
}

/// A whole message in seven bits: SOH or STX, the rest through ETX, then its BCC.
pub fn with_bcc(message: &[u8]) -> Vec<u8> {
    let mut whole = message.to_vec();
    whole.push(bcc(message));
    whole
}

/// The characters as they go over the line, each with its parity bit.
pub fn wires(characters: &[u8]) -> Vec<u8> {
    characters.iter().map(|&c| wire(c)).collect()
}

#[cfg(test)]
mod tests {
    use super::*;

    #[test]
    fn every_character_has_one_undamaged_byte() {
        for c in 0..=127 {
            assert_eq!(wire(c) & 0x7F, c);
            assert_eq!(character(wire(c)), Some(c));
            assert_eq!(character(wire(c) ^ 0x80), None);
        }
        assert_eq!((0..=255).filter(|&b| undamaged(b)).count(), 128);
    }

    #[test]
    fn any_one_flipped_bit_is_damage() {
        for c in 0..=127 {
            for bit in 0..8 {
                assert!(!undamaged(wire(c) ^ (1 << bit)));
            }
        }
    }

    #[test]
    fn wire_bytes_named_in_the_page() {
        let known = [
            (SOH, 0x81),
            (b'W', 0xD7),
            (b'1', 0xB1),
            (STX, 0x82),
            (b'Z', 0x5A),
            (b'(', 0x28),
            (b'0', 0x30),
            (b';', 0xBB),
            (b')', 0xA9),
            (ETX, 0x03),
            (0x06, 0x06),
            (0x61, 0xE1),
        ];
        for (c, byte) in known {
            assert_eq!(wire(c), byte, "character {c:02X}");
        }
    }

    #[test]
    fn checksums_named_in_the_page() {
        assert_eq!(bcc(b"\x01B0\x03"), 0x71);
        assert_eq!(bcc(b"\x01P0\x02(0000)\x03"), 0x60);
        assert_eq!(bcc(b"\x01P1\x02()\x03"), 0x61);
        assert_eq!(wire(bcc(b"\x01P1\x02()\x03")), 0xE1);
        let write = |table: &str| {
            let row = "1".repeat(24);
            bcc(format!("\x01W1\x02Z({table};{row})\x03").as_bytes())
        };
        assert_eq!(write("01"), 0x06);
        assert_eq!(write("04"), ETX);
        assert_eq!(write("06"), SOH);
        assert_eq!(bcc(b"\x0215.8.1(000001.500*kWh)\r\n\x03"), 0x6C);
    }

    #[test]
    fn checksum_uses_seven_bits() {
        let plain = b"\x01P1\x02()\x03";
        assert_eq!(bcc(&wires(plain)), bcc(plain));
        assert_eq!(with_bcc(plain).last(), Some(&0x61));
        assert_eq!(bcc(b""), 0);
    }
}
