//! A Mercury meter's answers read by hand: the CRC by a table, and by eight tables, eight bytes at a
//! time.

use dirgemist::mercury::Told;

const TABLES: [[u16; 256]; 8] = tables();

const fn tables() -> [[u16; 256]; 8] {
    let mut tables = [[0; 256]; 8];
    let mut byte = 0;
    while byte < 256 {
        let mut register = byte as u16;
        let mut table = 0;
        while table < 8 {
            let mut bit = 0;
            while bit < 8 {
                register = (register >> 1) ^ ((register & 1) * 0xA001);
                bit += 1;
            }
            tables[table][byte] = register;
            table += 1;
        }
        byte += 1;
    }
    tables
}

/// The CRC, a byte at a time.
pub fn crc(message: &[u8]) -> u16 {
    message.iter().fold(0xFFFF, |register, &byte| {
        (register >> 8) ^ TABLES[0][usize::from((register ^ u16::from(byte)) & 0xFF)]
    })
}

/// The CRC, eight bytes at a time.
pub fn crc_of_eights(message: &[u8]) -> u16 {
    let mut eights = message.chunks_exact(8);
    let mut register = 0xFFFF_u16;
    for eight in &mut eights {
        let [low, high] = register.to_le_bytes();
        register = TABLES[7][usize::from(eight[0] ^ low)]
            ^ TABLES[6][usize::from(eight[1] ^ high)]
            ^ TABLES[5][usize::from(eight[2])]
            ^ TABLES[4][usize::from(eight[3])]
            ^ TABLES[3][usize::from(eight[4])]
            ^ TABLES[2][usize::from(eight[5])]
            ^ TABLES[1][usize::from(eight[6])]
            ^ TABLES[0][usize::from(eight[7])];
    }
    eights.remainder().iter().fold(register, |register, &byte| {
        (register >> 8) ^ TABLES[0][usize::from((register ^ u16::from(byte)) & 0xFF)]
    })
}

/// What is read of an answer.
pub fn read(address: u8, answer: &[u8]) -> Told {
    let not = |number, status| (number, status, 0, [0; 4]);
    let (message, sent) = match answer {
        [message @ .., low, high] if matches!(answer.len(), 4 | 19) => (message, [*low, *high]),
        _ => return not(50, 0),
    };
    if crc_of_eights(message) != u16::from_le_bytes(sent) {
        return not(51, 0);
    }
    if message[0] != address {
        return not(52, 0);
    }
    if let [_, code] = message {
        return not(53, *code);
    }
    let (mut measured, mut numbers) = (0, [0; 4]);
    for (place, bytes) in message[1..].chunks_exact(4).enumerate() {
        let number = u32::from_be_bytes([bytes[1], bytes[0], bytes[3], bytes[2]]);
        if number != u32::MAX {
            measured |= 1 << place;
            numbers[place] = number;
        }
    }
    (1, 0, measured, numbers)
}
