//! The lines of the trial: some by hand, the rest by chance, good, nearly good and damaged.

use model::bench::{put_hex, LINE_MOST};
use model::card::{self, Card};
use model::head::{block, on_the_wire};
use model::mercury::{closed, energy};
use model::post::{tables_of, text_of, Table};
use model::session::{Meters, Session};
use trials::chance::Chance;
use trials::head_words::{ACCOUNT, ADDRESS, DIGITS, VALUE, ZONES};
use trials::session_words;

fn hex(bytes: &[u8]) -> String {
    let mut line = String::new();
    put_hex(&mut line, bytes);
    line
}

/// Lines at the edges of what a script can say.
pub fn fixed() -> Vec<Vec<u8>> {
    let mut lines: Vec<Vec<u8>> = [
        "",
        " ",
        "build",
        "build ",
        "build any",
        "build any 64",
        "build any 064",
        "build any 18446744073709551615",
        "build any 18446744073709551616",
        "build any 99999999999999999999999999",
        "build any -1",
        "build any +64",
        "build any 64 ",
        "build any  64",
        "build any 64 64",
        "build nothing 64",
        "Build any 64",
        "build any\t64",
        "build energy 64 0",
        "build energy 64 255",
        "build energy 64 256",
        "build setclock 64 65535 1 1 0 0 0",
        "build setclock 64 65536 1 1 0 0 0",
        "build setclock 64 2024 2 29 23 59 59",
        "build confirm 64 31",
        "build confirm 64 30 31",
        "build confirm 64 35 31",
        "build confirm 64 31 31",
        "build confirm 64 34 31",
        "build confirm 64 30 -",
        "build confirm 64 - 31",
        "build confirm 64 30 3131",
        "build confirm 64 3030 31",
        "build confirm 64 30 31 31",
        "build confirm 64 35 36",
        "build confirm 64 35 38",
        "build close 64",
        "build close 63",
        "build close 64 64",
        "build close",
        "value period -",
        "value period 32342d30332d30312030303a3030",
        "value period 32342d30332d30312032343a3030",
        "value period 32342d30332d30312030303a3030 -",
        "find 302e312e322a3031 302e312e322a303128290d0a",
        "next 0 302e312e322a303128290d0a",
        "build serial 64 -",
        "build wired 64 31323334353637383930",
        "build wired 64 30303030303030303030",
        "build wired 64 313233343536373839",
        "build wired 63 31",
        "build wired 64",
        "build serial 64 31",
        "build serial 64 3",
        "build settable 64 1 24 -",
        "build settable 64 24 -",
        "build settable 63 0 25 -",
        "build settable 63 2 25 -",
        "build table 64 1 24",
        "build table 64 1 25",
        "build table 64 2 25",
        "build table 64 2 26",
        "build table 64 3 1",
        "build table 63 3 1",
        "build table 64 256 1",
        "build table 64 1",
        "value",
        "value serial",
        "value serial -",
        "value nothing -",
        "check",
        "check -",
        "check 1 -",
        "check 2 -",
        "check 0 -",
        "check 3 31",
        "check 256 -",
        "check 1 31 31",
        "export 1 0 -",
        "export 3 0 -",
        "export 0 -",
        "card",
        "card 0",
        "card -",
        "card 0 -",
        "card 1 0 -",
        "card 0 0 -",
        "card 1 19 01000a53545544494f5f372020",
        "card 2 18 01000a53545544494f5f372020",
        "card 3 19 01000a53545544494f5f372020",
        "card 256 19 01000a53545544494f5f372020",
        "card 1 1 19 01000a53545544494f5f372020",
        "card 19 01000a53545544494f5f372020",
        "card 1 18446744073709551616 -",
        "export 1 18446744073709551615 -",
        "strip 0 -",
        "strip 1 2a",
        "strip 1 aa",
        "strip 18446744073709551615 aaaa",
        "part -",
        "part 020303",
        "part 02 0303",
        "next 0 -",
        "next 18446744073709551615 -",
        "next 18446744073709551616 -",
        "next 0 412829",
        "mercury ask 6 128 3 1 0",
        "mercury ask 6 128 3 1",
        "mercury ask 6 256 3 1 0",
        "mercury ask 18446744073709551615 0 13 0 4",
        "mercury read 128 -",
        "mercury read 256 -",
        "mercury read 128",
        "mercury read 128 800000700affffffff0000e803000000003f0f",
        "mercury tell 128 -",
        "mercury",
        "find 41 -",
        "find - -",
        "find - 412829",
        "find 41 412829",
        "find 41 4128290d0a",
        "find 41",
        "find 41 - -",
        "find 4 -",
        "quiet",
        "reply 06",
        "session",
        "session 1",
        "session 1 any",
        "session any open reads T",
        "session 0 0 any open reads",
        "session 3 0 any open reads T",
        "session 256 0 any open reads T",
        "session 2 0 any open reads T",
        "reply af5a5a5a355355422d5650b1b12e3030aa8d0a",
        "session 2 0 any open reads Z25",
        "reply af5a5a5a355355422d565030b12e3030aa8d0a",
        "session 2 0 any open reads Z26",
        "session 1 0 any open",
        "session 1 0 any open reads",
        "quiet",
        "session 1 0 any open reads T",
        "reply af5a5a5a355355422d565030b12e3030aa8d0a",
        "session 1 0 any open reads G0",
        "session 1 2 any open reads G0",
        "session 1 4 any open reads G4 E4",
        "session 2 3 any open reads G5",
        "session 1 3 any open reads G",
        "session 1 3 any open reads G256",
        "session 1 1 any open reads",
        "session 1 5 any open reads G0",
        "session 3 5 any open reads",
        "session 1 256 any open reads T",
        "session 1 -1 any open reads T",
        "session 1 any open reads T",
        "build out 64 0",
        "build out 64 4",
        "build out 64 5",
        "build out 63 5",
        "build out 64 256",
        "build out 64",
        "value eqm 2 3030303031352e30302a6b5768",
        "value eqm 3 30303030312e3530302a6b5768",
        "value eqm 4 303030302e313530302a6b5768",
        "value eqm 3 3030303031352e30302a6b5768",
        "value eqm 1 303030302e313530302a6b5768",
        "value eqm 0 -",
        "value eqm 5 -",
        "value eqm 256 -",
        "value eqm 3 -",
        "value eqm 3",
        "value eqm -",
        "session 1 0 any open reads E256",
        "session 1 0 any open reads E",
        "session 1 0 any open reads E-1",
        "session 1 0 any open reads T1",
        "session 1 0 any open reads ",
        "session 1 0 any open reads T  T",
        "session 1 0 any open reads t",
        "session 1 0 any open posts -",
        "session 1 0 any open post",
        "session 1 0 any open post - -",
        "session 1 0 any open read T",
        "session 1 0 Any open reads T",
        "session 1 0 3 open reads T",
        "session 1 0 any 3 reads T",
        "session 1 0 any open post 3",
        "quiet 1",
        "quiet ",
        "reply",
        "reply 0",
        "reply 06 06",
        "reply 815030822830303030a90360",
        "reply 06",
        "reply 95",
        "reply 06",
        "quiet",
        "session 1 0 - open reads T",
        "session 1 0 any - reads T",
        "reply 06",
        "session 1 0 any open post -",
        "session 1 0 any open reads E0 E1 E2 E3 E4 E5",
        "session 1 0 any open reads Z1 Z024 Z24 Z25",
        "session 1 0 any open reads Z0",
        "session 1 0 any open reads Z000000000000000000001 E00",
        "reply -",
        "dump",
        "\0",
    ]
    .map(|line| line.into())
    .into();
    // Lists of so many reads, and lists of so many words that a bench has to keep them somewhere.
    for count in [31, 32, 33, 252, 253, 254, 255, 256, 257, 1_000, 131_059] {
        let mut line = b"session 1 0 any open reads".to_vec();
        line.extend(b" T".repeat(count));
        lines.push(line);
    }
    // The longest line there is, and one more.
    for length in [LINE_MOST, LINE_MOST + 1, LINE_MOST + 2, 3 * LINE_MOST] {
        for start in ["check 1 ", "strip 999999 ", "strip 0099999 "] {
            let mut line = start.as_bytes().to_vec();
            line.resize(length, b'0');
            lines.push(line);
        }
    }
    lines.push(b"build any 64".to_vec());
    lines
}

/// A line of some kind, where this session goes on.
pub fn any(chance: &mut Chance, session: Option<(&Session, &[u8])>) -> Vec<u8> {
    let line = match chance.weighed(&[40, 12, 6, 12, 18, 6, 8, 10, 10, 8, 60, 8, 2]) {
        0 => build(chance),
        1 => strip(chance),
        2 => part(chance),
        3 => next(chance),
        4 => value(chance),
        5 => format!("check {} {}", edition(chance), hex(&post(chance))),
        6 => export(chance),
        7 => find(chance),
        8 => mercury(chance),
        9 => start(chance),
        10 => reply(chance, session),
        11 => card(chance),
        _ => "quiet".into(),
    };
    let mut line = line.into_bytes();
    if chance.percent(12) {
        damage(chance, &mut line);
    }
    line
}

/// A room near the one that is needed, or far from it.
fn room(chance: &mut Chance, needed: usize) -> String {
    match chance.weighed(&[30, 10, 10, 10, 4, 3, 3, 3]) {
        0 => needed.to_string(),
        1 => needed.saturating_sub(1).to_string(),
        2 => (needed + chance.below(40)).to_string(),
        3 => chance.below(needed + 1).to_string(),
        4 => chance.bits().to_string(),
        5 => format!("00{needed}"),
        6 => u64::MAX.to_string(),
        _ => "18446744073709551616".into(),
    }
}

/// A number of 8 bits, mostly in a range, now and then over.
fn short(chance: &mut Chance, least: usize, most: usize) -> usize {
    match chance.below(12) {
        0 => chance.below(256),
        1 => chance.between(254, 258),
        _ => chance.between(least, most),
    }
}

/// A field of characters, good more often than not.
fn field(chance: &mut Chance, made_of: &[u8], length: usize) -> String {
    let mut field = chance.text(made_of, length);
    match chance.below(8) {
        0 => chance.hurt(&mut field),
        1 => {
            let length = chance.below(40);
            field = chance.text(made_of, length);
        }
        _ => {}
    }
    hex(&field)
}

fn build(chance: &mut Chance) -> String {
    let room = room(chance, 64);
    let rest = match chance.below(17) {
        16 => format!("out {room} {}", short(chance, 0, 5)),
        0 => format!("serial {room} {}", field(chance, DIGITS, 10)),
        15 => format!("wired {room} {}", field(chance, DIGITS, 10)),
        1 => {
            let choice = match chance.below(3) {
                0 => chance.byte(),
                _ => chance.one_of(b"01677"),
            };
            let speed = match chance.below(3) {
                0 => chance.byte(),
                _ => chance.one_of(b"0055"),
            };
            format!("confirm {room} {speed:02x} {choice:02x}")
        }
        2 => format!("password {room} {}", field(chance, DIGITS, 8)),
        3 => format!("energy {room} {}", short(chance, 0, 5)),
        4 => format!("table {room} {} {}", edition(chance), short(chance, 0, 27)),
        5 => format!("setaccount {room} {}", field(chance, ACCOUNT, 10)),
        6 => {
            let (edition, table) = (edition(chance), short(chance, 0, 27));
            let row = field(chance, ZONES, 24);
            format!("settable {room} {edition} {table} {row}")
        }
        7 => {
            let c = chance.clock();
            let year = match chance.below(12) {
                0 => chance.between(65_530, 65_540),
                _ => usize::from(c.year),
            };
            let (month, day) = (c.month, c.day);
            let second = match chance.below(12) {
                0 => chance.between(250, 260),
                _ => usize::from(c.second),
            };
            format!(
                "setclock {room} {year} {month} {day} {} {} {second}",
                c.hour, c.minute
            )
        }
        plain => {
            let names = [
                "any", "readonly", "clock", "number", "account", "break", "close",
            ];
            format!("{} {room}", names[plain - 8])
        }
    };
    format!("build {rest}")
}

/// Some data sets, seldom all of a meter's.
fn sets(chance: &mut Chance) -> Vec<u8> {
    if chance.one_in(12) {
        return chance.registers().data();
    }
    let mut data = Vec::new();
    for _ in 0..chance.below(4) {
        let (address, value) = (chance.between(1, 17), chance.below(34));
        data.extend(chance.text(ADDRESS, address));
        data.push(b'(');
        data.extend(chance.text(VALUE, value));
        data.extend(b")\r\n");
    }
    if chance.percent(60) {
        data.extend(b"!\r\n");
    }
    data
}

fn strip(chance: &mut Chance) -> String {
    let mut wire = on_the_wire(&block(&sets(chance)));
    if chance.percent(30) {
        let length = chance.below(20);
        let text: Vec<u8> = (0..length).map(|_| chance.byte() & 0x7F).collect();
        wire = on_the_wire(&text);
    }
    if chance.percent(40) && !wire.is_empty() {
        for _ in 0..chance.one_of(&[1, 1, 2, 5]) {
            let place = chance.below(wire.len());
            wire[place] ^= 1 << chance.below(8);
        }
    }
    format!("strip {} {}", room(chance, wire.len()), hex(&wire))
}

fn part(chance: &mut Chance) -> String {
    let mut stripped = block(&sets(chance));
    if chance.percent(60) {
        chance.hurt(&mut stripped);
    }
    format!("part {}", hex(&stripped))
}

fn next(chance: &mut Chance) -> String {
    let mut data = sets(chance);
    if chance.percent(40) {
        chance.hurt(&mut data);
    }
    let ends: Vec<usize> = (0..data.len())
        .filter(|&at| at == 0 || data[at - 1] == b'\n')
        .collect();
    let at = match chance.weighed(&[60, 15, 10, 5]) {
        0 if !ends.is_empty() => chance.one_of(&ends).to_string(),
        1 => chance.below(data.len() + 3).to_string(),
        2 => data.len().to_string(),
        3 => u64::MAX.to_string(),
        _ => "0".into(),
    };
    format!("next {at} {}", hex(&data))
}

/// An address that the data has, or nearly has, in data that may be hurt.
fn find(chance: &mut Chance) -> String {
    let mut data = sets(chance);
    let lines: Vec<&[u8]> = data.split_inclusive(|&byte| byte == b'\n').collect();
    let mut address = match lines.is_empty() {
        true => Vec::new(),
        false => {
            let line = lines[chance.below(lines.len())];
            let bracket = line.iter().position(|&byte| byte == b'(');
            line[..bracket.unwrap_or(0)].to_vec()
        }
    };
    if chance.percent(20) {
        chance.hurt(&mut address);
    }
    if chance.percent(30) {
        chance.hurt(&mut data);
    }
    format!("find {} {}", hex(&address), hex(&data))
}

fn value(chance: &mut Chance) -> String {
    let kinds = [
        ("serial", 0),
        ("date", 1),
        ("time", 2),
        ("account", 3),
        ("counter", 4),
        ("row", 9),
        ("period", 33),
    ];
    if chance.one_in(4) {
        return value_eqm(chance);
    }
    let (kind, place) = chance.one_of(&kinds);
    let place = match chance.below(12) {
        0 => chance.one_of(&kinds).1,
        _ => place,
    };
    let (_, value) = chance.registers_of(0, 1).data_sets().swap_remove(place);
    let mut value = value.into_bytes();
    if chance.percent(40) {
        chance.hurt(&mut value);
    }
    format!("value {kind} {}", hex(&value))
}

/// A counter of an EQM meter, read with its decimals or with others.
fn value_eqm(chance: &mut Chance) -> String {
    let decimals = chance.one_of(&[2, 3, 4]);
    let place = chance.between(4, 13);
    let (_, value) = chance
        .registers_of(decimals, 0)
        .data_sets()
        .swap_remove(place);
    let mut value = value.into_bytes();
    if chance.percent(30) {
        chance.hurt(&mut value);
    }
    let read = match chance.below(8) {
        0 => short(chance, 0, 6),
        _ => usize::from(decimals),
    };
    format!("value eqm {read} {}", hex(&value))
}

/// Tables with rising numbers.
fn tables(chance: &mut Chance) -> Vec<Table> {
    let share = chance.one_of(&[4, 4, 4, 10, 30, 100]);
    let mut tables = Vec::new();
    for number in 1..=chance.one_of(&[24, 25]) {
        if chance.percent(share) {
            let row = chance.texts(ZONES);
            tables.push(Table { number, row });
        }
    }
    tables
}

/// A post, mostly a short one, or nearly one.
fn post(chance: &mut Chance) -> Vec<u8> {
    let tables = tables(chance);
    let mut text = text_of(&tables);
    if chance.percent(40) {
        chance.hurt(&mut text);
    }
    text
}

/// A card, read.
fn card(chance: &mut Chance) -> String {
    let account = [(); 10].map(|()| chance.one_of(b"azAZ09 _"));
    let tables = tables(chance);
    let needed = 19 + 36 * tables.len();
    let mut text = card::text_of(&Card { account, tables });
    if chance.percent(40) {
        chance.hurt(&mut text);
    }
    format!(
        "card {} {} {}",
        edition(chance),
        room(chance, needed),
        hex(&text)
    )
}

fn export(chance: &mut Chance) -> String {
    let text = post(chance);
    let needed = text.len() / 36 * 36;
    format!(
        "export {} {} {}",
        edition(chance),
        room(chance, needed),
        hex(&text)
    )
}

/// A Mercury meter, asked or answering.
fn mercury(chance: &mut Chance) -> String {
    let address = chance.byte();
    if chance.percent(40) {
        let room = room(chance, 6);
        let array = chance.one_of(&[0, 3, 3, 5, 6, 9, 11, 11, 13, 14]);
        let month = match chance.below(3) {
            0 => 0,
            _ => short(chance, 0, 13),
        };
        let tariff = short(chance, 0, 5);
        return format!("mercury ask {room} {address} {array} {month} {tariff}");
    }
    let from = match chance.below(8) {
        0 => chance.byte(),
        _ => address,
    };
    let mut answer = match chance.below(5) {
        0 => closed(vec![from, chance.byte() & 7]),
        1 => (0..chance.below(30)).map(|_| chance.byte()).collect(),
        _ => energy(
            from,
            [(); 4].map(|()| (!chance.one_in(4)).then(|| chance.bits() as u32 >> chance.below(32))),
        ),
    };
    if chance.one_in(5) && !answer.is_empty() {
        let place = chance.below(answer.len());
        answer[place] ^= 1 << chance.below(8);
    }
    format!("mercury read {address} {}", hex(&answer))
}

/// A session with just so many messages of work.
pub fn session(chance: &mut Chance, meters: Meters, kind: &str, count: usize) -> Vec<u8> {
    let Meters { edition, decimals } = meters;
    let line = match kind {
        "post" => {
            let highest = tables_of(edition).expect("it is one");
            let text = session_words::post(chance, highest, count);
            let text = hex(&text);
            format!("session {edition} {decimals} any 3230333034303530 post {text}")
        }
        _ => {
            let start = format!("session {edition} {decimals} any open reads");
            (0..count).fold(start, |line, _| format!("{line} {}", read(chance, meters)))
        }
    };
    line.into_bytes()
}

/// The right reply, while the session goes on.
pub fn right(chance: &mut Chance, session: Option<(&Session, &[u8])>) -> Option<Vec<u8>> {
    let (session, work) = session.filter(|(session, _)| session.fact == 0)?;
    let reply = session_words::right(chance, session, work);
    Some(format!("reply {}", hex(&reply)).into_bytes())
}

/// A good read as a line has it.
fn read(chance: &mut Chance, meters: Meters) -> String {
    let [letter, number] = session_words::read(chance, meters);
    let number = match letter {
        b'E' | b'G' | b'Z' => number.to_string(),
        _ => String::new(),
    };
    format!("{}{number}", char::from(letter))
}

/// An edition, now and then one that there is not.
fn edition(chance: &mut Chance) -> u8 {
    match chance.below(14) {
        0 => chance.one_of(&[0, 3]),
        1 => chance.byte(),
        odd => 1 + odd as u8 % 2,
    }
}

/// Decimals, now and then those of no family.
fn decimals(chance: &mut Chance) -> u8 {
    match chance.below(16) {
        0 => chance.one_of(&[1, 5]),
        1 => chance.byte(),
        odd => [0, 0, 2, 3, 4, 0, 3][odd % 7],
    }
}

/// A session, mostly one with little to do.
fn start(chance: &mut Chance) -> String {
    let (edition, decimals) = (edition(chance), decimals(chance));
    let meters = Meters { edition, decimals };
    let start = match chance.below(2) {
        0 => "any".into(),
        _ => field(chance, DIGITS, 10),
    };
    if chance.percent(35) {
        let access = match chance.below(6) {
            0 => "open".into(),
            _ => field(chance, DIGITS, 8),
        };
        let text = hex(&post(chance));
        return format!("session {edition} {decimals} {start} {access} post {text}");
    }
    let access = match chance.below(2) {
        0 => "open".into(),
        _ => field(chance, DIGITS, 8),
    };
    let count = match chance.below(8) {
        0 => chance.below(35),
        1 => chance.between(31, 34),
        _ => chance.between(1, 3),
    };
    let mut line = format!("session {edition} {decimals} {start} {access} reads");
    for _ in 0..count {
        line += " ";
        line += &match chance.below(40) {
            0 => format!("E{}", short(chance, 0, 5)),
            1 => format!("Z{}", short(chance, 0, 27)),
            2 => format!("G{}", short(chance, 0, 5)),
            _ => read(chance, meters),
        };
    }
    line
}

/// A reply, mostly the right one.
fn reply(chance: &mut Chance, session: Option<(&Session, &[u8])>) -> String {
    let reply = match session {
        None if chance.percent(80) => return start(chance),
        None => vec![0x06],
        Some((session, work)) => match chance.below(12) {
            0 => session_words::other(chance, session, work),
            _ => session_words::right(chance, session, work),
        },
    };
    format!("reply {}", hex(&reply))
}

/// One thing wrong with a line; now and then it stays a line.
fn damage(chance: &mut Chance, line: &mut Vec<u8>) {
    let place = chance.below(line.len());
    match chance.below(10) {
        0 => drop(line.remove(place)),
        1 => line.insert(place, chance.one_of(b" 0123459-+afAFxyz\t\r")),
        2 => line[place] = chance.one_of(b" 0123459-+afAFxyz\t\r"),
        3 => {
            let byte = chance.byte();
            line[place] = if byte == b'\n' { b' ' } else { byte };
        }
        4 => line.extend(chance.pick::<[u8]>(&[b" ", b" 64", b" -", b" 00", b" x"])),
        5 => {
            let last = line.iter().rposition(|&byte| byte == b' ');
            line.truncate(last.unwrap_or(0));
        }
        6 => line[place..].make_ascii_uppercase(),
        7 => line.truncate(place),
        8 => line.clear(),
        _ => line.insert(0, b' '),
    }
}
