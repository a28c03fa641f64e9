//! The check and the export by hand in plain Rust, for speed: a line is tested whole, with no way
//! out before its end, and the place is looked for only in the line that failed.

/// The bytes of a line, and of its frame.
const LINE: usize = 36;
/// What stands below the lines.
const LAST: &[u8; 3] = b"!\r\n";
/// Where the number and the row stand, in a line as in a frame.
const TENS: usize = 6;
const UNIT: usize = 7;
const ROW: usize = 9;
const ROW_END: usize = 33;

/// The lowest byte that each column of a line may have.
const LOWEST: [u8; LINE] = *b"131.0.00(111111111111111111111111)\r\n";

/// The bits in which a good byte, less the lowest, is 0: all of a fixed byte, all but two of a
/// zone. A digit is judged with the number that it makes.
const STRAY: [u8; LINE] = {
    let mut stray = [0xFF; LINE];
    stray[TENS] = 0;
    stray[UNIT] = 0;
    let mut column = ROW;
    while column < ROW_END {
        stray[column] = 0xFC;
        column += 1;
    }
    stray
};

/// The BCC's part that every frame has.
const SUM: u8 = b'W' ^ b'1' ^ 0x02 ^ b'Z' ^ b'(' ^ b';' ^ b')' ^ 0x03;

/// The highest table number of an edition, and so the most lines; nothing where there is no such
/// edition.
#[inline(always)]
pub fn tables_of(edition: u8) -> Option<u8> {
    matches!(edition, 1 | 2).then_some(23 + edition)
}

/// The number that two digits make; one above all tables if they are no digits, or too large.
#[inline(always)]
fn number(tens: u8, unit: u8) -> u8 {
    let (tens, unit) = (tens.wrapping_sub(b'0'), unit.wrapping_sub(b'0'));
    if (tens <= 2) & (unit <= 9) {
        tens * 10 + unit
    } else {
        u8::MAX
    }
}

/// Whether a number may stand below another.
#[inline(always)]
fn follows(highest: u8, above: u8, number: u8) -> bool {
    (above < number) & (number <= highest)
}

/// What strays in the first eight columns because of the number: no line stands below the last
/// table; a tens digit needs some number that may follow, the largest that starts with it; a unit
/// digit has to make one.
#[inline(always)]
fn number_strays(highest: u8, above: u8, tens: u8, unit: u8) -> u64 {
    let most = if tens == b'2' {
        b'0' + highest % 10
    } else {
        b'9'
    };
    u64::from(above == highest)
        | u64::from(!follows(highest, above, number(tens, most))) << (8 * TENS)
        | u64::from(!follows(highest, above, number(tens, unit))) << (8 * UNIT)
}

/// The stray bits of a column, the digits left out.
#[inline(always)]
fn stray(line: &[u8; LINE], column: usize) -> u8 {
    line[column].wrapping_sub(LOWEST[column]) & STRAY[column]
}

/// The lines of a post, or nothing.
#[inline(always)]
fn lines_of(highest: u8, text: &[u8]) -> Option<&[[u8; LINE]]> {
    let (lines, rest) = text.as_chunks::<LINE>();
    if rest != LAST || lines.is_empty() || lines.len() > usize::from(highest) {
        return None;
    }
    let mut strays = [0; LINE];
    let mut above = 0;
    let mut rising = true;
    for line in lines {
        for (column, strays) in strays.iter_mut().enumerate() {
            *strays |= stray(line, column);
        }
        let number = number(line[TENS], line[UNIT]);
        rising &= above < number;
        above = number;
    }
    let any = strays.iter().fold(0, |any, stray| any | stray);
    ((any == 0) & rising & (above <= highest)).then_some(lines)
}

/// The first column in which no line below table `above` is like this one, or `LINE`.
#[inline(always)]
fn first_stray(highest: u8, line: &[u8; LINE], above: u8) -> usize {
    // A last byte that always strays stops the search behind the line.
    let mut strays = [0xFF; LINE + 4];
    for (column, strays) in strays[..LINE].iter_mut().enumerate() {
        *strays = stray(line, column);
    }
    let (words, _) = strays.as_chunks::<8>();
    let first =
        u64::from_le_bytes(words[0]) | number_strays(highest, above, line[TENS], line[UNIT]);
    if first != 0 {
        return first.trailing_zeros() as usize / 8;
    }
    let mut start = 8;
    for word in &words[1..] {
        let word = u64::from_le_bytes(*word);
        if word != 0 {
            return start + word.trailing_zeros() as usize / 8;
        }
        start += 8;
    }
    LINE
}

/// The place of a text that is no post.
fn place_of(highest: u8, text: &[u8]) -> usize {
    let (lines, rest) = text.as_chunks::<LINE>();
    let mut above = 0;
    for (at, line) in lines.iter().enumerate() {
        let column = first_stray(highest, line, above);
        if column < LINE {
            return at * LINE + column.max(shared_with_last(line, above));
        }
        above = number(line[TENS], line[UNIT]);
    }
    lines.len() * LINE + rest_place(highest, rest, above)
}

/// The place in what stands behind the whole lines.
#[inline(always)]
fn rest_place(highest: u8, rest: &[u8], above: u8) -> usize {
    let column = if rest.len() < 16 {
        short_stray(highest, rest, above)
    } else {
        // A byte 0 strays in every column, so what is missing is never shared.
        let mut line = [0; LINE];
        line[..rest.len()].copy_from_slice(rest);
        first_stray(highest, &line, above)
    };
    column.max(shared_with_last(rest, above))
}

/// Up to eight bytes from a place on as a number, 0 for what is missing.
#[inline(always)]
fn word(bytes: &[u8], from: usize) -> u64 {
    let bytes = &bytes[from.min(bytes.len())..];
    let four = |at: usize| u64::from(u32::from_le_bytes(bytes[at..at + 4].try_into().unwrap()));
    match bytes.len() {
        0 => 0,
        n @ 1..=3 => {
            u64::from(bytes[0])
                | u64::from(bytes[n / 2]) << (8 * (n / 2))
                | u64::from(bytes[n - 1]) << (8 * (n - 1))
        }
        n @ 4..=7 => four(0) | four(n - 4) << (8 * (n - 4)),
        _ => u64::from_le_bytes(bytes[..8].try_into().unwrap()),
    }
}

/// The first column that strays in under sixteen bytes, eight at a time and without a copy.
#[inline(always)]
fn short_stray(highest: u8, rest: &[u8], above: u8) -> usize {
    const HIGH: u64 = 0x8080_8080_8080_8080;
    let strays = |from: usize| {
        let low = u64::from_le_bytes(LOWEST[from..from + 8].try_into().unwrap());
        let mask = u64::from_le_bytes(STRAY[from..from + 8].try_into().unwrap());
        let bytes = word(rest, from);
        let less = ((bytes | HIGH) - (low & !HIGH)) ^ ((bytes ^ !low) & HIGH);
        less & mask
    };
    let bytes = word(rest, 0).to_le_bytes();
    let first = strays(0) | number_strays(highest, above, bytes[TENS], bytes[UNIT]);
    if first != 0 {
        return first.trailing_zeros() as usize / 8;
    }
    let second = strays(8);
    8 + (second.trailing_zeros() as usize / 8).min(8)
}

/// The check once over the text: each line is judged before the next is looked at.
#[inline(never)]
pub fn check_once(edition: u8, text: &[u8], place: &mut usize) -> u8 {
    let Some(highest) = tables_of(edition) else {
        *place = 0;
        return 16;
    };
    let (lines, rest) = text.as_chunks::<LINE>();
    let mut above = 0;
    for (at, line) in lines.iter().enumerate() {
        let any = (0..LINE).fold(0, |any, column| any | stray(line, column));
        let number = number(line[TENS], line[UNIT]);
        if (any != 0) | !follows(highest, above, number) {
            let column = first_stray(highest, line, above);
            *place = at * LINE + column.max(shared_with_last(line, above));
            return 20;
        }
        above = number;
    }
    if rest == LAST && above != 0 {
        *place = 0;
        return 1;
    }
    *place = lines.len() * LINE + rest_place(highest, rest, above);
    20
}

/// How much of the last line these bytes share, if lines stand above.
#[inline(always)]
fn shared_with_last(bytes: &[u8], above: u8) -> usize {
    if above == 0 {
        return 0;
    }
    bytes.iter().zip(LAST).take_while(|(a, b)| a == b).count()
}

/// Eight characters with their parity bits.
#[inline(always)]
pub fn wires(characters: u64) -> u64 {
    let mut odd = characters ^ (characters >> 4);
    odd ^= odd >> 2;
    odd ^= odd >> 1;
    characters | (odd & 0x0101_0101_0101_0101) << 7
}

/// Writes the frame of a good line.
#[inline(always)]
fn write(line: &[u8; LINE], frame: &mut [u8; LINE]) {
    let (hours, _) = line[ROW..ROW_END].as_chunks::<8>();
    let hours = [0, 1, 2].map(|at| u64::from_le_bytes(hours[at]));
    let mut sum = hours[0] ^ hours[1] ^ hours[2];
    sum ^= sum >> 32;
    sum ^= sum >> 16;
    sum ^= sum >> 8;
    let bcc = SUM ^ line[TENS] ^ line[UNIT] ^ sum as u8;
    let [tens, unit, bcc, ..] = wires(u64::from_le_bytes([
        line[TENS], line[UNIT], bcc, 0, 0, 0, 0, 0,
    ]))
    .to_le_bytes();
    frame[..TENS].copy_from_slice(b"\x81\xd7\xb1\x82\x5a\x28");
    frame[TENS] = tens;
    frame[UNIT] = unit;
    frame[UNIT + 1] = 0xBB;
    for (eight, hours) in frame[ROW..ROW_END]
        .as_chunks_mut::<8>()
        .0
        .iter_mut()
        .zip(hours)
    {
        *eight = wires(hours).to_le_bytes();
    }
    frame[ROW_END] = 0xA9;
    frame[ROW_END + 1] = 0x03;
    frame[LINE - 1] = bcc;
}

/// The check. Its form is the library's, place written to the caller's, and it is never
/// inlined, so that both sides pay the same for being called.
#[inline(never)]
pub fn check(edition: u8, text: &[u8], place: &mut usize) -> u8 {
    *place = 0;
    let Some(highest) = tables_of(edition) else {
        return 16;
    };
    if lines_of(highest, text).is_some() {
        return 1;
    }
    *place = place_of(highest, text);
    20
}

/// The export, in the library's form too.
#[inline(never)]
pub fn export(
    edition: u8,
    text: &[u8],
    out: &mut [u8],
    length: &mut usize,
    place: &mut usize,
) -> u8 {
    *length = 0;
    *place = 0;
    let Some(highest) = tables_of(edition) else {
        return 16;
    };
    let Some(lines) = lines_of(highest, text) else {
        *place = place_of(highest, text);
        return 20;
    };
    let (frames, _) = out.as_chunks_mut::<LINE>();
    let Some(frames) = frames.get_mut(..lines.len()) else {
        return 21;
    };
    for (line, frame) in lines.iter().zip(frames) {
        write(line, frame);
    }
    *length = lines.len() * LINE;
    1
}
