//! Named cases with the answers written down here, so that the model is held to them too.

use crate::compare::{Exporter, Text};
use crate::texts::{flat, longest};
use model::post::{text_of, Table, TABLES, TABLES_MOST};
use trials::memory::Guarded;

/// What a case wants.
enum Wanted {
    /// A post, with these frames.
    Frames(Vec<u8>),
    /// No post, with this place.
    Place(usize),
    /// No edition.
    NoEdition,
}
use Wanted::{Frames, NoEdition, Place};

pub struct Case {
    name: &'static str,
    text: Text,
    wanted: Wanted,
}

/// The two wire bytes of each table's number and that of the BCC of its all-'1' write.
const FLAT_WRITES: [[u8; 3]; TABLES_MOST as usize] = [
    [0x30, 0xB1, 0x06],
    [0x30, 0xB2, 0x05],
    [0x30, 0x33, 0x84],
    [0x30, 0xB4, 0x03],
    [0x30, 0x35, 0x82],
    [0x30, 0x36, 0x81],
    [0x30, 0xB7, 0x00],
    [0x30, 0xB8, 0x0F],
    [0x30, 0x39, 0x8E],
    [0xB1, 0x30, 0x06],
    [0xB1, 0xB1, 0x87],
    [0xB1, 0xB2, 0x84],
    [0xB1, 0x33, 0x05],
    [0xB1, 0xB4, 0x82],
    [0xB1, 0x35, 0x03],
    [0xB1, 0x36, 0x00],
    [0xB1, 0xB7, 0x81],
    [0xB1, 0xB8, 0x8E],
    [0xB1, 0x39, 0x0F],
    [0xB2, 0x30, 0x05],
    [0xB2, 0xB1, 0x84],
    [0xB2, 0xB2, 0x87],
    [0xB2, 0x33, 0x06],
    [0xB2, 0xB4, 0x81],
    [0xB2, 0x35, 0x00],
];

/// The frame of an all-'1' row, from the bytes above.
fn flat_write(number: u8) -> Vec<u8> {
    let [tens, unit, bcc] = FLAT_WRITES[usize::from(number) - 1];
    let mut frame = vec![0x81, 0xD7, 0xB1, 0x82, 0x5A, 0x28, tens, unit, 0xBB];
    frame.extend([0xB1; 24]);
    frame.extend([0xA9, 0x03, bcc]);
    frame
}

/// All-'1' lines with these numbers, then more.
fn text(numbers: &[&str], more: &str) -> Vec<u8> {
    let line = |number: &&str| format!("131.0.{number}(111111111111111111111111)\r\n");
    let lines: String = numbers.iter().map(line).collect();
    (lines + more).into_bytes()
}

/// The post of all tables, all '1'.
fn flat_longest(highest: u8) -> Vec<u8> {
    let tables: Vec<Table> = (1..=highest).map(|number| flat(number, b'1')).collect();
    text_of(&tables)
}

pub fn cases() -> Vec<Case> {
    let mut cases = Vec::new();
    let mut add = |name, text: Vec<u8>, wanted| {
        cases.push(Case {
            name,
            text: text.into(),
            wanted,
        });
    };

    // Document 01, byte for byte.
    let mut frame = vec![0x81, 0xD7, 0xB1, 0x82, 0x5A, 0x28, 0x30, 0xB1, 0xBB];
    frame.extend([0xB1; 24]);
    frame.extend([0xA9, 0x03, 0x06]);
    add("the one-line export", text(&["01"], "!\r\n"), Frames(frame));
    let all = (1..=TABLES).flat_map(flat_write).collect();
    add("the longest post", flat_longest(TABLES), Frames(all));
    add("the empty text", text(&[], ""), Place(0));
    add("`!` alone", text(&[], "!"), Place(0));
    add("table 24, then '1'", text(&["24"], "1"), Place(36));
    add(
        "a BCC that is ETX",
        text(&["04"], "!\r\n"),
        Frames(flat_write(4)),
    );
    add(
        "a BCC that is SOH",
        text(&["06"], "!\r\n"),
        Frames(flat_write(6)),
    );
    add(
        "a BCC that is 0",
        text(&["07"], "!\r\n"),
        Frames(flat_write(7)),
    );
    add(
        "each zone in one row",
        b"131.0.12(111222333444111222333444)\r\n!\r\n".to_vec(),
        Frames(
            b"\x81\xd7\xb1\x82\x5a\x28\xb1\xb2\xbb\
              \xb1\xb1\xb1\xb2\xb2\xb2\x33\x33\x33\xb4\xb4\xb4\
              \xb1\xb1\xb1\xb2\xb2\xb2\x33\x33\x33\xb4\xb4\xb4\xa9\x03\x84"
                .to_vec(),
        ),
    );

    // Readings: a post and more.
    add("a post and LF", text(&["01"], "!\r\n\n"), Place(39));
    add("a post and NUL", text(&["01"], "!\r\n\0"), Place(39));
    add("a post and `!`", text(&["01"], "!\r\n!\r\n"), Place(39));
    add(
        "a post and a line",
        text(&["01"], "!\r\n131.0.02("),
        Place(39),
    );
    let twice = [flat_longest(TABLES), flat_longest(TABLES)].concat();
    add("the longest post twice", twice, Place(867));
    let padded = [longest(TABLES), vec![b' '; 1133]].concat();
    add("the longest post and blanks", padded, Place(867));

    // Readings: a beginning, and the last line alone.
    add("half a line", b"131.0.01(1111".to_vec(), Place(13));
    add("one character", b"1".to_vec(), Place(1));
    add("a line", text(&["01"], ""), Place(36));
    add("a line and `!`", text(&["01"], "!"), Place(37));
    add("a line, `!` and CR", text(&["01"], "!\r"), Place(38));
    add("`!` CR LF alone", text(&[], "!\r\n"), Place(0));

    // Readings: tens digits that no larger number has, and some that one has.
    add("09, then 0", text(&["09"], "131.0.0"), Place(42));
    add("09, then 1", text(&["09"], "131.0.1"), Place(43));
    add("09, then 09", text(&["09", "09"], "!\r\n"), Place(42));
    add("08, then 08", text(&["08", "08"], "!\r\n"), Place(43));
    add("19, then 1", text(&["19"], "131.0.1"), Place(42));
    add("19, then 2", text(&["19"], "131.0.2"), Place(43));
    add("19, then 09", text(&["19", "09"], "!\r\n"), Place(42));
    add("20, then 19", text(&["20", "19"], "!\r\n"), Place(42));
    add("23, then 23", text(&["23", "23"], "!\r\n"), Place(43));
    add("23, then 25", text(&["23", "25"], "!\r\n"), Place(43));
    let both = [flat_write(23), flat_write(24)].concat();
    add("23, then 24", text(&["23", "24"], "!\r\n"), Frames(both));
    add("24, then 24", text(&["24", "24"], "!\r\n"), Place(36));
    add("24, then 25", text(&["24", "25"], "!\r\n"), Place(36));

    // Readings: numbers outside the tables.
    add("00", text(&["00"], "!\r\n"), Place(7));
    for number in ["25", "26", "27", "28", "29"] {
        add("25 to 29", text(&[number], "!\r\n"), Place(7));
    }
    for number in ["30", "31", "34", "40", "99", ":0"] {
        add("3x and above", text(&[number], "!\r\n"), Place(6));
    }
    add("12, then 00", text(&["12", "00"], "!\r\n"), Place(42));

    // What did the harm, and its kin.
    add(
        "a second command in a row",
        b"131.0.01(1111)\x03\x06\x01W1\x02K(somebody__)\x03\x15)\r\n!\r\n".to_vec(),
        Place(13),
    );
    add(
        "a second command in the columns of a row",
        b"131.0.01(11)\x03\x06\x01W1\x02Z(02;1111111)\r\n!\r\n".to_vec(),
        Place(11),
    );
    add(
        "a second row behind the bracket",
        b"131.0.01(111111111111111111111111)(444444444444444444444444)\r\n!\r\n".to_vec(),
        Place(34),
    );
    add(
        "LF without CR",
        b"131.0.01(111111111111111111111111)\n!\n".to_vec(),
        Place(34),
    );
    add(
        "CR without LF",
        b"131.0.01(111111111111111111111111)\r!\r".to_vec(),
        Place(35),
    );
    add(
        "zone 0",
        b"131.0.01(011111111111111111111111)\r\n!\r\n".to_vec(),
        Place(9),
    );
    add(
        "zone 5",
        b"131.0.01(111111111111111111111115)\r\n!\r\n".to_vec(),
        Place(32),
    );
    let wire = b"\xb1\x33\xb1\x2e\x30\x2e\x30\xb1\x28".to_vec();
    add("characters with parity", wire, Place(0));

    // Readings: a beginning, with the rest of the post lying behind it.
    for (name, length) in [
        ("no character of a post", 0),
        ("24 lines and no `!`", 864),
        ("all but the last LF", 866),
    ] {
        cases.push(Case {
            name,
            text: Text::cut(flat_longest(TABLES), length),
            wanted: Place(length),
        });
    }
    editions(&mut cases);
    cases
}

/// Document 02, [3]: what a text is for edition 2, and for editions that there are not.
fn editions(cases: &mut Vec<Case>) {
    let mut second = |name, text: Vec<u8>, wanted| {
        cases.push(Case {
            name,
            text: Text::from(text).of(2),
            wanted,
        });
    };
    let all = (1..=TABLES_MOST).flat_map(flat_write).collect();
    second(
        "edition 2: the longest post",
        flat_longest(TABLES_MOST),
        Frames(all),
    );
    let all = (1..=TABLES).flat_map(flat_write).collect();
    second("edition 2: 24 lines", flat_longest(TABLES), Frames(all));
    let saturday = text(&["25"], "!\r\n");
    second("edition 2: 25", saturday, Frames(flat_write(25)));
    let both = [flat_write(24), flat_write(25)].concat();
    let weekend = text(&["24", "25"], "!\r\n");
    second("edition 2: 24, then 25", weekend, Frames(both));
    let more = [flat_longest(TABLES_MOST), b"!".to_vec()].concat();
    second("edition 2: the longest post and more", more, Place(903));
    second("edition 2: 25, then '1'", text(&["25"], "1"), Place(36));
    let early = text(&["25", "24"], "!\r\n");
    second("edition 2: 25, then 24", early, Place(36));
    second("edition 2: 26", text(&["26"], "!\r\n"), Place(7));
    let over = text(&["24", "26"], "!\r\n");
    second("edition 2: 24, then 26", over, Place(43));
    second("edition 2: 30", text(&["30"], "!\r\n"), Place(6));
    for edition in [0, 3, 4, 127, 128, 255] {
        for text in [text(&["01"], "!\r\n"), text(&[], "!"), Vec::new()] {
            cases.push(Case {
                name: "no edition",
                text: Text::from(text).of(edition),
                wanted: NoEdition,
            });
        }
    }
}

/// Holds an exporter to a case: in a buffer just large enough, in one too small, in none and
/// in one too large.
pub fn hold(case: &Case, exporter: &dyn Exporter) -> Result<(), String> {
    let fault = |what: String| Err(format!("fixed case, {}: {what}", case.name));
    let frames: &[u8] = match &case.wanted {
        Frames(frames) => frames,
        Place(_) | NoEdition => &[],
    };
    let wanted = match case.wanted {
        Frames(_) => (1, 0),
        Place(place) => (20, place),
        NoEdition => (16, 0),
    };
    let (edition, text) = (case.text.edition, case.text.bytes());
    let given = exporter.check(edition, text);
    if given != wanted {
        return fault(format!("check wanted {wanted:?}, given {given:?}"));
    }
    let limit = frames.len();
    let mut memory = Guarded::new(limit + 36);
    for room in [0, 1, limit.saturating_sub(1), limit, limit + 1, limit + 36] {
        let mut kept: Vec<u8> = (0..room).map(|at| 0xC3 ^ at as u8).collect();
        let out = memory.copy(&kept);
        let wanted = match case.wanted {
            Place(place) => (20, 0, place),
            NoEdition => (16, 0, 0),
            Frames(_) if room < limit => (21, 0, 0),
            Frames(_) => {
                kept[..limit].copy_from_slice(frames);
                (1, limit, 0)
            }
        };
        let given = exporter.export(edition, text, out);
        if given != wanted {
            return fault(format!("room {room} wanted {wanted:?}, given {given:?}"));
        }
        if *out != kept[..] {
            return fault(format!("room {room}: wanted {kept:02X?}, given {out:02X?}"));
        }
    }
    Ok(())
}
