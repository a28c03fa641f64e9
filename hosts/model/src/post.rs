//! Posts, from document 01, "Posts": what a post is, where another text leaves the posts,
//! and the frames that a post becomes. Written to be believed, not to be fast.

use crate::line;

/// The highest table number of edition 1, and of all editions.
pub const TABLES: u8 = 24;
pub const TABLES_MOST: u8 = 25;
/// The hours of a row.
pub const HOURS: usize = 24;
/// The bytes of a post's line, and of the frame that it becomes.
pub const LINE: usize = 36;
/// The bytes of the longest post, of edition 2: a line for each table, and the last line.
pub const LONGEST: usize = TABLES_MOST as usize * LINE + LAST.len();
/// What stands below the lines.
pub const LAST: &[u8] = b"!\r\n";

/// The numbers returned.
pub const DONE: u8 = 1;
pub const NO_EDITION: u8 = 16;
pub const NOT_A_POST: u8 = 20;
pub const NO_ROOM: u8 = 21;

/// Where the row begins in a line.
const ROW: usize = 9;

/// The tables of an edition; nothing for a number that is none.
pub fn tables_of(edition: u8) -> Option<u8> {
    match edition {
        1 => Some(TABLES),
        2 => Some(TABLES_MOST),
        _ => None,
    }
}

/// A row: the zone character of each hour.
pub type Row = [u8; HOURS];

/// One table as a post gives it.
#[derive(Clone, Copy, Debug, PartialEq, Eq)]
pub struct Table {
    pub number: u8,
    pub row: Row,
}

/// A table's line, `131.0.xx(row)` CR LF.
pub fn line_of(table: &Table) -> [u8; LINE] {
    let [tens, unit] = digits(table.number);
    let mut line = *b"131.0.xx(111111111111111111111111)\r\n";
    line[6] = tens;
    line[7] = unit;
    line[ROW..ROW + HOURS].copy_from_slice(&table.row);
    line
}

/// The text that a list of tables makes; a post, if the list is one that posts have.
pub fn text_of(tables: &[Table]) -> Vec<u8> {
    let mut text: Vec<u8> = tables.iter().flat_map(line_of).collect();
    text.extend_from_slice(LAST);
    text
}

/// Whether a list of tables is one that posts have: one or more, 01 to the highest
/// strictly rising, rows of '1' to '4'.
pub fn is_list(highest: u8, tables: &[Table]) -> bool {
    !tables.is_empty() && follow_each_other(highest, tables)
}

/// The tables of a post for a meter with so many, or nothing for any other text.
pub fn read(highest: u8, text: &[u8]) -> Option<Vec<Table>> {
    let (lines, _) = text.as_chunks::<LINE>();
    let tables: Vec<Table> = lines.iter().map(table_in).collect();
    // Whatever was picked out of the text, it counts only if it makes that very text.
    (is_list(highest, &tables) && text_of(&tables) == text).then_some(tables)
}

/// Whether some post starts with these bytes: whole lines of a post, then a beginning of
/// something that may stand below them.
pub fn begins_some_post(highest: u8, bytes: &[u8]) -> bool {
    let (lines, rest) = bytes.as_chunks::<LINE>();
    let tables: Vec<Table> = lines.iter().map(table_in).collect();
    let lines_stand = follow_each_other(highest, &tables)
        && tables
            .iter()
            .zip(lines)
            .all(|(table, line)| line_of(table) == *line);
    let above = tables.last().map_or(0, |table| table.number);
    let next_line = || (above + 1..=highest).any(|number| begins_some_line(rest, number));
    let last_line = || !tables.is_empty() && LAST.starts_with(rest);
    lines_stand && (next_line() || last_line())
}

/// The place: the length of the longest beginning of the text that some post shares.
pub fn place(highest: u8, text: &[u8]) -> usize {
    // Some post shares the empty beginning; what it shares of a beginning it shares of all
    // shorter ones, so halving finds the last that is shared.
    let (mut shared, mut beyond) = (0, text.len().min(LONGEST) + 1);
    while beyond - shared > 1 {
        let middle = shared + (beyond - shared) / 2;
        if begins_some_post(highest, &text[..middle]) {
            shared = middle;
        } else {
            beyond = middle;
        }
    }
    shared
}

/// The frame that writes a table, as it goes over the line.
pub fn frame_of(table: &Table) -> Vec<u8> {
    let mut message = vec![line::SOH, b'W', b'1', line::STX, b'Z', b'('];
    message.extend(digits(table.number));
    message.push(b';');
    message.extend(table.row);
    message.extend([b')', line::ETX]);
    line::wires(&line::with_bcc(&message))
}

/// What the check answers: the number, and the place.
pub fn check(edition: u8, text: &[u8]) -> (u8, usize) {
    let Some(highest) = tables_of(edition) else {
        return (NO_EDITION, 0);
    };
    match read(highest, text) {
        Some(_) => (DONE, 0),
        None => (NOT_A_POST, place(highest, text)),
    }
}

/// What the export answers: the number, the length and the place. Only an export that is
/// done writes, and only its own bytes.
pub fn export(edition: u8, text: &[u8], out: &mut [u8]) -> (u8, usize, usize) {
    let Some(highest) = tables_of(edition) else {
        return (NO_EDITION, 0, 0);
    };
    let Some(tables) = read(highest, text) else {
        return (NOT_A_POST, 0, place(highest, text));
    };
    let frames: Vec<u8> = tables.iter().flat_map(frame_of).collect();
    match out.get_mut(..frames.len()) {
        Some(room) => room.copy_from_slice(&frames),
        None => return (NO_ROOM, 0, 0),
    }
    (DONE, frames.len(), 0)
}

/// A table number in two decimal digits.
fn digits(number: u8) -> [u8; 2] {
    [b'0' + number / 10, b'0' + number % 10]
}

/// What a line says in a table number's and a row's columns, right or wrong.
fn table_in(line: &[u8; LINE]) -> Table {
    let value = |digit: u8| digit.wrapping_sub(b'0');
    let number = value(line[6]).wrapping_mul(10).wrapping_add(value(line[7]));
    let mut row = [0; HOURS];
    row.copy_from_slice(&line[ROW..ROW + HOURS]);
    Table { number, row }
}

/// Whether the tables could stand below each other in a post.
fn follow_each_other(highest: u8, tables: &[Table]) -> bool {
    let numbers = tables.iter().all(|t| (1..=highest).contains(&t.number));
    let rising = tables.windows(2).all(|two| two[0].number < two[1].number);
    let rows = tables.iter().all(|t| t.row.iter().all(is_zone));
    numbers && rising && rows
}

/// Whether some line of this table starts with these bytes.
fn begins_some_line(bytes: &[u8], number: u8) -> bool {
    // No row comes nearer than the one that takes over every zone that the bytes name.
    let mut row = [b'1'; HOURS];
    for (hour, zone) in bytes.iter().skip(ROW).take(HOURS).enumerate() {
        if is_zone(zone) {
            row[hour] = *zone;
        }
    }
    line_of(&Table { number, row }).starts_with(bytes)
}

/// Whether a character names a zone.
fn is_zone(character: &u8) -> bool {
    (b'1'..=b'4').contains(character)
}

#[cfg(test)]
mod tests {
    use super::*;

    /// A table whose row is one zone all day.
    fn flat(number: u8, zone: u8) -> Table {
        Table {
            number,
            row: [zone; HOURS],
        }
    }

    /// The line of a table number given as text, all '1'.
    fn line(number: &str) -> Vec<u8> {
        format!("131.0.{number}({})\r\n", "1".repeat(24)).into_bytes()
    }

    /// The place of lines with these numbers and then `rest`.
    fn place_after(numbers: &[&str], rest: &str) -> usize {
        let mut text: Vec<u8> = numbers.iter().flat_map(|n| line(n)).collect();
        text.extend(rest.as_bytes());
        assert_eq!(check(1, &text).0, NOT_A_POST);
        check(1, &text).1
    }

    #[test]
    fn sizes() {
        let all: Vec<Table> = (1..=24).map(|n| flat(n, b'4')).collect();
        assert_eq!(line("01").len(), 36);
        assert_eq!(text_of(&all).len(), 867);
        assert_eq!(check(1, &text_of(&all)), (1, 0));
        assert_eq!(frame_of(&all[0]).len(), 36);
    }

    #[test]
    fn edition_2_has_a_line_25() {
        let all: Vec<Table> = (1..=25).map(|n| flat(n, b'4')).collect();
        let post = text_of(&all);
        assert_eq!((post.len(), LONGEST), (903, 903));
        assert_eq!(check(2, &post), (1, 0));
        assert_eq!(check(1, &post), (20, 24 * 36));
        assert_eq!(check(2, &text_of(&all[24..])), (1, 0));
        assert_eq!(check(1, &text_of(&all[24..])), (20, 7));
        assert_eq!(check(2, &text_of(&[flat(26, b'1')])), (20, 7));
        assert_eq!(check(2, &[&line("25")[..], b"1"].concat()), (20, 36));
        let mut out = [0x55; 900];
        assert_eq!(export(2, &post, &mut out[..899]), (21, 0, 0));
        assert_eq!(export(2, &post, &mut out), (1, 900, 0));
        assert_eq!(out[864..], frame_of(&all[24]));
    }

    #[test]
    fn other_editions_come_before_all_else() {
        let mut out = [0x55; 36];
        for edition in (0..=255).filter(|edition| ![1, 2].contains(edition)) {
            for text in [&b""[..], b"!", &text_of(&[flat(1, b'1')])] {
                assert_eq!(check(edition, text), (16, 0));
                assert_eq!(export(edition, text, &mut out), (16, 0, 0));
                assert_eq!(export(edition, text, &mut []), (16, 0, 0));
            }
        }
        assert_eq!(out, [0x55; 36]);
    }

    #[test]
    fn one_line_export_of_the_page() {
        let mut frame = vec![0x81, 0xD7, 0xB1, 0x82, 0x5A, 0x28, 0x30, 0xB1, 0xBB];
        frame.extend([0xB1; 24]);
        frame.extend([0xA9, 0x03, 0x06]);
        let mut text = line("01");
        text.extend(b"!\r\n");
        let mut out = [0xEE; 40];
        assert_eq!(export(1, &text, &mut out), (1, 36, 0));
        assert_eq!(out[..36], frame);
        assert_eq!(out[36..], [0xEE; 4]);
    }

    #[test]
    fn checksums_of_writes_named_in_the_page() {
        assert_eq!(frame_of(&flat(1, b'1'))[35], 0x06);
        assert_eq!(frame_of(&flat(4, b'1'))[35], 0x03);
        assert_eq!(frame_of(&flat(6, b'1'))[35], 0x81);
        for table in [flat(1, b'1'), flat(12, b'3'), flat(24, b'4')] {
            let characters: Option<Vec<u8>> =
                frame_of(&table).into_iter().map(line::character).collect();
            let characters = characters.expect("undamaged");
            assert_eq!(line::bcc(&characters[..35]), characters[35]);
        }
    }

    #[test]
    fn facts_on_places_named_in_the_page() {
        assert_eq!(check(1, b""), (20, 0));
        assert_eq!(check(1, b"!"), (20, 0));
        assert_eq!(place_after(&["24"], "1"), 36);
    }

    #[test]
    fn a_last_line_needs_a_line_above_it() {
        assert_eq!(check(1, b"!\r\n"), (20, 0));
        assert_eq!(place_after(&["07"], "!"), 37);
        assert_eq!(place_after(&["07"], "!\n"), 37);
        assert_eq!(place_after(&["07"], "!\r\n!"), 39);
    }

    #[test]
    fn tens_digits_that_no_larger_number_has() {
        assert_eq!(place_after(&["09"], "131.0.0"), 36 + 6);
        assert_eq!(place_after(&["09"], "131.0.1"), 36 + 7);
        assert_eq!(place_after(&["19"], "131.0.1"), 36 + 6);
        assert_eq!(place_after(&["19"], "131.0.2"), 36 + 7);
        assert_eq!(place_after(&["08"], "131.0.0"), 36 + 7);
        assert_eq!(place_after(&["08"], "131.0.08"), 36 + 7);
        assert_eq!(place_after(&["23"], "131.0.23"), 36 + 7);
        assert_eq!(place_after(&["23"], "131.0.24"), 36 + 8);
    }

    #[test]
    fn numbers_outside_the_tables() {
        for number in ["00", "25", "26", "27", "28", "29", "0A", "1:", "2/"] {
            assert_eq!(place_after(&[number], "!\r\n"), 7, "{number}");
        }
        for number in ["30", "31", "39", "40", "99", "A1", "/1", " 1"] {
            assert_eq!(place_after(&[number], "!\r\n"), 6, "{number}");
        }
    }

    #[test]
    fn refusals_keep_the_buffer() {
        let mut text = text_of(&[flat(1, b'1'), flat(2, b'2')]);
        let mut out = [0x55; 71];
        assert_eq!(export(1, &text, &mut out), (21, 0, 0));
        assert_eq!(out, [0x55; 71]);
        text.push(b'\n');
        assert_eq!(export(1, &text, &mut []), (20, 0, 75));
        assert_eq!(export(1, &text, &mut out), (20, 0, 75));
        assert_eq!(out, [0x55; 71]);
    }

    #[test]
    fn rows_come_back() {
        let tables = [flat(3, b'4'), flat(10, b'2'), flat(24, b'3')];
        assert_eq!(read(TABLES, &text_of(&tables)), Some(tables.to_vec()));
        assert_eq!(read(TABLES, &text_of(&[])), None);
        assert_eq!(read(TABLES, &text_of(&[tables[1], tables[0]])), None);
        assert_eq!(read(TABLES, &text_of(&[tables[1], tables[1]])), None);
        assert_eq!(read(TABLES, &text_of(&[flat(0, b'1')])), None);
        assert_eq!(read(TABLES, &text_of(&[flat(25, b'1')])), None);
        assert_eq!(read(TABLES, &text_of(&[flat(1, b'5')])), None);
    }

    /// Every text of a small family, with the place looked for from the long end by the
    /// definition, no halving.
    #[test]
    fn halving_finds_the_longest_shared_beginning() {
        let post = text_of(&[flat(9, b'1'), flat(19, b'2'), flat(24, b'4')]);
        for column in 0..post.len() {
            for byte in (0..=255).step_by(5).chain(*b"!01234(\r\n)") {
                let mut text = post.clone();
                text[column] = byte;
                let longest = (0..=text.len())
                    .rev()
                    .find(|&length| begins_some_post(TABLES, &text[..length]));
                assert_eq!(Some(place(TABLES, &text)), longest);
            }
        }
    }

    /// Other bytes in every column, against a second reading, character by character.
    #[test]
    fn a_walk_along_the_columns_agrees() {
        for numbers in [
            &[1][..],
            &[9],
            &[19, 20],
            &[2, 23],
            &[10, 24],
            &[8, 9, 18],
            &[24, 25],
        ] {
            let tables: Vec<Table> = numbers.iter().map(|&n| flat(n, b'3')).collect();
            let post = text_of(&tables);
            for length in 0..=post.len() {
                for byte in (0..=255).step_by(7).chain(*b"!0123456789(\r\n).") {
                    let mut text = post[..length].to_vec();
                    text.push(byte);
                    walks(&text);
                    text.extend(&post[(length + 1).min(post.len())..]);
                    walks(&text);
                }
            }
        }
        for above in 1..=25 {
            for tens in b'/'..=b':' {
                for unit in b'/'..=b':' {
                    let mut text = line_of(&flat(above, b'1')).to_vec();
                    text.extend(b"131.0.");
                    text.extend([tens, unit]);
                    walks(&text);
                }
            }
        }
    }

    /// Both editions' places of a text are where a walk along it ends.
    fn walks(text: &[u8]) {
        for highest in [24, 25] {
            assert_eq!(place(highest, text), walk(highest, text), "{text:?}");
        }
    }

    /// How many characters go by before one that no post has there.
    fn walk(highest: u8, text: &[u8]) -> usize {
        let (mut above, mut tens, mut column) = (0, 0, 0);
        let mut below = None;
        for (at, &byte) in text.iter().enumerate() {
            if let Some(seen) = below {
                if LAST.get(seen) != Some(&byte) {
                    return at;
                }
                below = Some(seen + 1);
                continue;
            }
            let digit = byte.wrapping_sub(b'0');
            let good = match column {
                0 if byte == b'!' && above > 0 => {
                    below = Some(1);
                    continue;
                }
                0 => byte == b'1' && above < highest,
                1 => byte == b'3',
                2 => byte == b'1',
                3 | 5 => byte == b'.',
                4 => byte == b'0',
                6 => digit <= 2 && above < highest.min(10 * digit + 9),
                7 => digit <= 9 && above < 10 * tens + digit && 10 * tens + digit <= highest,
                8 => byte == b'(',
                33 => byte == b')',
                34 => byte == b'\r',
                35 => byte == b'\n',
                _ => matches!(byte, b'1' | b'2' | b'3' | b'4'),
            };
            if !good {
                return at;
            }
            match column {
                6 => tens = digit,
                7 => above = 10 * tens + digit,
                _ => {}
            }
            column = (column + 1) % 36;
        }
        text.len()
    }
}
