//! The texts of the trial: whole families gone through one by one, then chance.

use crate::compare::Text;
use model::post::{text_of, Row, Table, HOURS, LAST, LINE, LONGEST, TABLES, TABLES_MOST};
use std::ops::ControlFlow;
use trials::chance::Chance;

/// Where the row stands in a line.
const ROW: std::ops::Range<usize> = 9..9 + HOURS;

/// The longest text tried.
const LONG: usize = 2000;

/// Bytes that come near to something in a post.
const NEAR: &[u8] =
    b"!\"()*,-./0123456789:;<A\r\n \0\x01\x02\x03\x06\x0b\x0c\x7f\x8a\x8d\xa1\xb1\xff";

/// A table with one zone all day.
pub fn flat(number: u8, zone: u8) -> Table {
    Table {
        number,
        row: [zone; HOURS],
    }
}

/// The post with all tables, each row the same all day.
pub fn longest(highest: u8) -> Vec<u8> {
    let tables: Vec<Table> = (1..=highest).map(|n| flat(n, b'1' + n % 4)).collect();
    text_of(&tables)
}

/// A line with any two characters as its number.
fn line(number: [u8; 2]) -> Vec<u8> {
    let mut line = text_of(&[flat(1, b'1')]);
    line[6..8].copy_from_slice(&number);
    line.truncate(LINE);
    line
}

/// The two digits of a number below 100.
fn digits(number: usize) -> [u8; 2] {
    [b'0' + (number / 10) as u8, b'0' + (number % 10) as u8]
}

/// Sizes of buffer for a text: the limit, the sizes about it, and one by chance.
pub fn rooms(text: &[u8], chance: &mut Chance) -> Vec<usize> {
    let limit = text.len() / LINE * LINE;
    let other = match chance.below(6) {
        0 => 0,
        1 => limit + 1,
        2 => limit + LINE,
        3 => limit.saturating_sub(LINE),
        4 => chance.below(LINE),
        _ => chance.below(limit + 2 * LINE),
    };
    // What is no post needs no more than one buffer a text, of one size or the other.
    if text.len() == limit + LAST.len() && text.ends_with(LAST) {
        vec![limit, limit.saturating_sub(1), other]
    } else {
        vec![if chance.one_in(2) { limit } else { other }]
    }
}

/// Goes through the families that are tried whole. `each` gets the text and, where the family
/// asks for certain ones, the sizes of buffer.
pub fn families<B>(
    mut each: impl FnMut(Text, Option<&[usize]>) -> ControlFlow<B>,
) -> ControlFlow<B> {
    // Every beginning of the longest post, the rest lying behind it.
    let all = longest(TABLES_MOST);
    for length in 0..=all.len() {
        each(Text::cut(all.clone(), length), None)?;
    }

    // Every byte in every column, in posts of one line and of three.
    let one = text_of(&[flat(12, b'2')]);
    let three = text_of(&[flat(9, b'4'), flat(10, b'1'), flat(20, b'3')]);
    for post in [one, three.clone()] {
        for column in 0..post.len() {
            for byte in 0..=255 {
                let mut text = post.clone();
                text[column] = byte;
                each(text.into(), None)?;
            }
        }
    }

    // Two bytes damaged, every two columns of the middle line.
    for first in LINE..2 * LINE {
        for second in first + 1..2 * LINE {
            for one in *b"!0159()\r\n." {
                for other in *b"!0249()\r\n;" {
                    let mut text = three.clone();
                    text[first] = one;
                    text[second] = other;
                    each(text.into(), None)?;
                }
            }
        }
    }

    // Every number after every number.
    for first in 0..100 {
        for second in 0..100 {
            let mut text = line(digits(first));
            text.extend(line(digits(second)));
            text.extend(LAST);
            each(text.into(), None)?;
        }
    }

    // Any two characters as a number, below nothing and below numbers that shut a tens digit.
    for above in [None, Some(9), Some(19), Some(23), Some(24)] {
        for number in 0..=u16::MAX {
            let mut text = above.map_or(Vec::new(), |n| line(digits(n)));
            text.extend(line(number.to_be_bytes()));
            text.extend(LAST);
            each(text.into(), None)?;
        }
    }

    // Any one and two characters alone, and below a line.
    for above in [Vec::new(), line(*b"17")] {
        for byte in 0..=255 {
            each([&above[..], &[byte]].concat().into(), None)?;
        }
        for two in 0..=u16::MAX {
            each([&above[..], &two.to_be_bytes()].concat().into(), None)?;
        }
    }

    // Posts of every count of lines, with every size of buffer up to a line too many.
    for count in 1..=TABLES_MOST {
        let tables: Vec<Table> = (1..=count).map(|n| flat(n, b'1' + n % 4)).collect();
        for room in 0..=usize::from(count + 1) * LINE {
            each(text_of(&tables).into(), Some(&[room]))?;
        }
    }

    // Every length: lines without end, the longest post and more, one character over and over.
    let endless: Vec<u8> = (1..100).flat_map(|n| line(digits(n))).collect();
    let more: Vec<u8> = all.iter().cycle().copied().take(LONG).collect();
    for length in 0..=LONG {
        each(Text::cut(endless.clone(), length), None)?;
        each(Text::cut(more.clone(), length), None)?;
        each(vec![b'1'; length].into(), None)?;
    }
    ControlFlow::Continue(())
}

/// A text by chance, of any kind.
pub fn any(chance: &mut Chance) -> Text {
    let kind = chance.one_of(KINDS);
    let edition = edition(chance);
    kind(chance).of(edition)
}

/// The edition that a text is for: at times one that there is not.
fn edition(chance: &mut Chance) -> u8 {
    match chance.below(16) {
        0 => chance.byte(),
        1 => chance.one_of(&[0, 3]),
        2..=8 => 1,
        _ => 2,
    }
}

/// The kinds of text that chance chooses from; posts three times as often as the rest.
const KINDS: &[fn(&mut Chance) -> Text] = &[
    whole,
    whole,
    whole,
    beginning,
    |chance| damaged(chance, 1),
    |chance| damaged(chance, 2),
    one_less_or_more,
    wrong_order,
    repeated,
    trailing,
    line_ends,
    numbers,
    crafted,
    many_lines,
    last_line,
    tens,
    random,
    alphabet,
];

/// A row: one zone all day, two by turns, or any.
fn row(chance: &mut Chance) -> Row {
    let zones = *b"1234";
    let (one, other) = (chance.one_of(&zones), chance.one_of(&zones));
    let mut row = [one; HOURS];
    match chance.below(3) {
        0 => {}
        1 => {
            let from = chance.below(HOURS);
            let to = from + chance.below(HOURS - from);
            row[from..=to].fill(other);
        }
        _ => row.fill_with(|| chance.one_of(&zones)),
    }
    row
}

/// Tables with rising numbers: often few, at times all.
fn tables(chance: &mut Chance) -> Vec<Table> {
    let highest = chance.one_of(&[TABLES, TABLES_MOST]);
    let all = usize::from(highest);
    let count = match chance.below(8) {
        0..=4 => 1 + chance.below(4),
        5 | 6 => 1 + chance.below(all),
        _ => all,
    };
    let mut missing = count;
    let mut tables = Vec::with_capacity(count);
    for number in 1..=highest {
        let left = all + 1 - usize::from(number);
        if chance.below(left) < missing {
            missing -= 1;
            tables.push(Table {
                number,
                row: row(chance),
            });
        }
    }
    tables
}

/// A post, at times with more of its kind lying behind it.
fn whole(chance: &mut Chance) -> Text {
    let mut memory = post(chance);
    let length = memory.len();
    if chance.one_in(2) {
        memory.extend_from_within(..);
    }
    Text::cut(memory, length)
}

fn post(chance: &mut Chance) -> Vec<u8> {
    text_of(&tables(chance))
}

/// The lines of a post, the last line left out.
fn lines(chance: &mut Chance) -> Vec<Vec<u8>> {
    let post = post(chance);
    post.chunks_exact(LINE).map(<[u8]>::to_vec).collect()
}

/// The lines put together again, with the last line.
fn joined(lines: &[Vec<u8>]) -> Text {
    let mut text = lines.concat();
    text.extend(LAST);
    text.into()
}

fn beginning(chance: &mut Chance) -> Text {
    let post = post(chance);
    let length = chance.below(post.len());
    Text::cut(post, length)
}

/// A byte instead of `old`: one that comes near, one bit wrong, the next one, or any.
fn instead(old: u8, chance: &mut Chance) -> u8 {
    match chance.below(4) {
        0 => chance.one_of(NEAR),
        1 => old ^ (1 << chance.below(8)),
        2 => old.wrapping_add(chance.one_of(&[1, 255])),
        _ => chance.byte(),
    }
}

fn damaged(chance: &mut Chance, times: usize) -> Text {
    let mut text = post(chance);
    // Often all in one line, so that each meets the other.
    let start = chance.below(text.len() / LINE) * LINE;
    let near = chance.one_in(2);
    for _ in 0..times {
        let column = if near {
            start + chance.below(LINE)
        } else {
            chance.below(text.len())
        };
        text[column] = instead(text[column], chance);
    }
    text.into()
}

/// Bytes dropped or slipped in.
fn one_less_or_more(chance: &mut Chance) -> Text {
    let mut text = post(chance);
    for _ in 0..1 + chance.below(2) {
        let column = chance.below(text.len());
        if chance.one_in(2) {
            text.remove(column);
        } else {
            let byte = instead(text[column], chance);
            text.insert(column, byte);
        }
    }
    text.into()
}

fn wrong_order(chance: &mut Chance) -> Text {
    let mut lines = lines(chance);
    match chance.below(3) {
        0 => lines.reverse(),
        1 => {
            let (one, other) = (chance.below(lines.len()), chance.below(lines.len()));
            lines.swap(one, other);
        }
        _ => {
            let from = chance.below(lines.len());
            lines.rotate_left(from);
        }
    }
    joined(&lines)
}

fn repeated(chance: &mut Chance) -> Text {
    let mut lines = lines(chance);
    let one = chance.below(lines.len());
    let mut again = lines[one].clone();
    // The same table twice, at times with another row.
    if chance.one_in(2) {
        again[ROW].copy_from_slice(&row(chance));
    }
    let to = if chance.one_in(2) {
        one + 1
    } else {
        chance.below(lines.len() + 1)
    };
    lines.insert(to, again);
    joined(&lines)
}

/// A post and more.
fn trailing(chance: &mut Chance) -> Text {
    let mut text = post(chance);
    match chance.below(7) {
        0 => text.push(chance.one_of(NEAR)),
        1 => text.push(chance.byte()),
        2 => text.extend(post(chance)),
        3 => text.extend(LAST),
        4 => text.extend(b"\x01W1\x02K(somebody__)\x03\x15"),
        5 => text.extend(vec![chance.one_of(NEAR); LINE]),
        _ => {
            let length = text.len() + chance.below(LONG + 1 - text.len());
            let byte = chance.one_of(NEAR);
            text.resize(length, byte);
        }
    }
    text.into()
}

/// CR and LF missing, doubled, turned about or in other company, in one line or in all.
fn line_ends(chance: &mut Chance) -> Text {
    let end = chance.one_of::<&[u8]>(&[
        b"\n",
        b"\r",
        b"",
        b"\n\r",
        b"\r\r\n",
        b"\r\n\n",
        b"\r\n\r\n",
        b" \r\n",
        b"\r\n ",
        b"\x8d\n",
        b"\r\x8a",
        b"\r\0",
        b"\r\x0b",
        b"\\r\\n",
    ]);
    let mut lines = lines(chance);
    lines.push(LAST.to_vec());
    let only = (!chance.one_in(4)).then(|| chance.below(lines.len()));
    for (at, line) in lines.iter_mut().enumerate() {
        if only.is_none_or(|only| only == at) {
            line.truncate(line.len() - 2);
            line.extend(end);
        }
    }
    lines.concat().into()
}

/// One line with another number: 00, 24 to 29, from 30 on, characters that are no digits.
fn numbers(chance: &mut Chance) -> Text {
    let mut lines = lines(chance);
    let number = match chance.below(6) {
        0 => *b"00",
        1 => digits(24 + chance.below(6)),
        2 => digits(30 + chance.below(70)),
        3 => digits(chance.below(26)),
        4 => [chance.one_of(b"0123/: "), chance.one_of(b"0123456789/: ;(")],
        _ => [chance.byte(), chance.byte()],
    };
    let at = chance.below(lines.len());
    lines[at][6..8].copy_from_slice(&number);
    joined(&lines)
}

/// A row that hides something behind its ')', or is too short or too long.
fn crafted(chance: &mut Chance) -> Text {
    const HIDDEN: &[&[u8]] = &[
        b")\x03\x06\x01W1\x02K(somebody__)\x03\x15",
        b")\x03\x06\x01W1\x02Z(24;444444444444444444444444",
        b")\x03",
        b"\x03\x01B0\x03\x71",
        b")\r\n131.0.24(444444444444444444444444",
        b")\r\n!\r\n",
        b")(444444444444444444444444",
        b";444444444444444444444444",
        b")Z(24;4444",
        b"()",
        b"))",
        b"!\r\n",
        b"\x81\xd7\xb1\x82",
        b"\0",
        b"",
        b"1",
        b"444444444444444444444444",
    ];
    let mut lines = lines(chance);
    let at = chance.below(lines.len());
    let mut row = row(chance).to_vec();
    row.truncate(chance.below(HOURS + 1));
    row.extend(chance.one_of(HIDDEN));
    // At times just as long as a row, so that the line's own end is where it should be.
    if chance.one_in(2) {
        row.resize(HOURS, b'1');
    }
    let mut line = lines[at][..ROW.start].to_vec();
    line.extend(row);
    line.extend(b")\r\n");
    lines[at] = line;
    joined(&lines)
}

/// More lines than there are tables, up to the longest text.
fn many_lines(chance: &mut Chance) -> Text {
    let count = 20 + chance.below(LONG / LINE - 19);
    let kind = chance.below(4);
    let number = |at: usize, chance: &mut Chance| match kind {
        0 => at + 1,
        1 => at % usize::from(TABLES_MOST) + 1,
        2 => (at + 1).min(usize::from(TABLES_MOST)),
        _ => chance.below(30),
    };
    let mut text = Vec::with_capacity(LONG);
    for at in 0..count {
        let mut line = line(digits(number(at, chance)));
        line[ROW].copy_from_slice(&row(chance));
        text.extend(line);
    }
    if !chance.one_in(4) {
        text.extend(LAST);
    }
    text.into()
}

/// The last line missing, early, twice, alone or not quite itself.
fn last_line(chance: &mut Chance) -> Text {
    let mut lines = lines(chance);
    let odd = chance.one_of::<&[u8]>(&[
        b"",
        b"!",
        b"!\r",
        b"!\n",
        b"!!\r\n",
        b" !\r\n",
        b"\xa1\r\n",
        b"?\r\n",
        b"\r\n",
        b"!\r\n!\r\n",
        b"! \r\n",
        b"1",
        b"131.0.",
        b"!31.0.24(111111111111111111111111)\r\n",
    ]);
    match chance.below(4) {
        0 => lines.clear(),
        1 => {
            let at = chance.below(lines.len());
            lines.insert(at, LAST.to_vec());
        }
        _ => {}
    }
    let mut text = lines.concat();
    text.extend(odd);
    text.into()
}

/// Lines, then a part of one more that ends about its number.
fn tens(chance: &mut Chance) -> Text {
    let mut text = lines(chance).concat();
    let number = digits(chance.below(40));
    let next = line(number);
    let length = text.len() + 5 + chance.below(6);
    text.extend(next);
    if chance.one_in(2) {
        text.truncate(length);
        return text.into();
    }
    Text::cut(text, length)
}

/// Any bytes, of any length.
fn random(chance: &mut Chance) -> Text {
    let length = length(chance);
    let mut text = vec![0; length];
    text.fill_with(|| chance.byte());
    text.into()
}

/// Characters that posts have, in any order, alone or below good lines.
fn alphabet(chance: &mut Chance) -> Text {
    let mut text = if chance.one_in(2) {
        lines(chance).concat()
    } else {
        Vec::new()
    };
    let length = length(chance).max(text.len());
    text.resize_with(length, || chance.one_of(b"1234567890131.0.()!\r\n"));
    text.into()
}

/// A length: up to the longest, often short, often about a limit.
fn length(chance: &mut Chance) -> usize {
    match chance.below(4) {
        0 => chance.below(LONG + 1),
        1 => chance.below(2 * LINE),
        2 => LONGEST - chance.one_of(&[0, LINE]) - 2 + chance.below(5),
        _ => chance.below(LONG / LINE) * LINE + chance.below(5),
    }
}
