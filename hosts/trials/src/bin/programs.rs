//! The trial of the programs themselves: each is started, the readout also with an address, given a
//! text on its standard input, and what it writes is compared with what the model says, byte by
//! byte; so is its exit status.
//!
//!     programs
//!
//! It is run in the repository's root, with the programs built.

use model::card::{self, Card};
use model::head;
use model::meter::{Meter, Period, PERIODS};
use model::post::{self, tables_of, Row, Table, HOURS, LAST, LINE, LONGEST, TABLES, TABLES_MOST};
use std::collections::BTreeSet;
use std::io::{Read, Write};
use std::process::{Child, Command, ExitCode, Stdio};
use std::sync::atomic::{AtomicUsize, Ordering};
use std::sync::Mutex;
use std::thread;

/// Programs that run at once: more than there are processors, since each waits for its start.
const AT_ONCE: usize = 4;

/// The fewest texts that count as a trial.
const TEXTS: usize = 3_000;

/// The longest reply that the readout takes.
const REPLY: usize = 4_096;

/// Data sets of the reply that addresses are looked up in.
const SETS: usize = 33;

/// A program, the words that it is started with, what it is given, in pieces of what size, and what
/// it has to say.
struct Case {
    program: &'static str,
    words: Vec<String>,
    input: Vec<u8>,
    pieces: usize,
    said: Vec<u8>,
    status: i32,
    /// What this case is there to reach.
    reaches: String,
}

/// A number and a number, as a program shows them.
fn pair(number: impl ToString, other: usize) -> Vec<u8> {
    format!("{} {other}\n", number.to_string()).into_bytes()
}

/// What the exporter has to write.
fn exported(edition: u8, text: &[u8]) -> (Vec<u8>, i32) {
    let Some(highest) = tables_of(edition) else {
        return (pair(post::NO_EDITION, 0), 1);
    };
    match post::read(highest, text) {
        Some(tables) => (tables.iter().flat_map(post::frame_of).collect(), 0),
        None => (pair(post::NOT_A_POST, post::place(highest, text)), 1),
    }
}

/// The data of a reply's block, or the number of the refusal and its place.
fn data_of(reply: &[u8]) -> Result<Vec<u8>, (u8, usize)> {
    let mut plain = vec![0; REPLY];
    let (number, length, place) = head::strip(reply, &mut plain);
    if number != head::answer::DONE {
        return Err((number, place));
    }
    let block = &plain[..length];
    let part = head::part(block).map_err(|number| (number, 0))?;
    Ok(block[part].to_vec())
}

/// A data set, as the readout shows it.
fn shown(address: &[u8], value: &[u8]) -> Vec<u8> {
    [address, b" ", value, b"\n"].concat()
}

/// What the readout has to write, and the number of its answer.
fn read_out(reply: &[u8]) -> (Vec<u8>, u8) {
    let sets = match data_of(reply) {
        Ok(sets) => sets,
        Err((number, place)) => return (pair(number, place), number),
    };
    let mut lines = Vec::new();
    let mut at = 0;
    loop {
        let step = head::next(&sets, at);
        match step.answer {
            head::answer::END => return (lines, head::answer::DONE),
            head::answer::DONE => {
                let open = at + step.address_length;
                let value = &sets[open + 1..open + 1 + step.value_length];
                lines.extend(shown(&sets[at..open], value));
                at = step.next;
            }
            number => {
                lines.extend(pair(number, step.place));
                return (lines, number);
            }
        }
    }
}

/// What the readout has to write of one address, the number of its answer, and how many sets were
/// read for it.
fn looked_up(reply: &[u8], address: &str) -> (Vec<u8>, u8, usize) {
    let sets = match data_of(reply) {
        Ok(sets) => sets,
        Err((number, place)) => return (pair(number, place), number, 0),
    };
    let found = head::find(&sets, address.as_bytes());
    let said = match found.answer {
        head::answer::DONE => {
            let value = &sets[found.value_start..found.value_start + found.value_length];
            shown(address.as_bytes(), value)
        }
        head::answer::MALFORMED => pair(found.answer, found.place),
        _ => pair(found.answer, 0),
    };
    (said, found.answer, found.count)
}

/// The words that a program for an edition is started with: none for edition 1.
fn words_of(edition: u8) -> Vec<String> {
    match edition {
        1 => Vec::new(),
        _ => vec![edition.to_string()],
    }
}

/// What the delivery to a blank meter of an edition has to write.
fn delivered(edition: u8, text: &[u8]) -> (Vec<u8>, i32) {
    let highest = tables_of(edition).expect("it is one");
    let mut rows = vec![[b'1'; HOURS]; highest.into()];
    let (mut said, status) = match post::read(highest, text) {
        Some(tables) => {
            for table in &tables {
                rows[usize::from(table.number) - 1] = table.row;
            }
            (pair(post::DONE, tables.len()), 0)
        }
        None => (pair(post::NOT_A_POST, post::place(highest, text)), 1),
    };
    for row in rows {
        said.extend(row);
        said.push(b'\n');
    }
    (said, status)
}

/// The exporter on a text for edition 1, all at once.
fn exporter(text: &[u8]) -> Case {
    exporter_in(1, text, usize::MAX)
}

/// The same for edition 2.
fn exporter_2(text: &[u8]) -> Case {
    exporter_in(2, text, usize::MAX)
}

/// The exporter on a text that comes in pieces.
fn exporter_in(edition: u8, text: &[u8], pieces: usize) -> Case {
    let (said, status) = exported(edition, text);
    let reaches = match post::check(edition, text) {
        (post::DONE, _) => format!("exporter: {} lines", text.len() / LINE),
        (post::NOT_A_POST, place) => format!("exporter: place {place}"),
        (number, _) => format!("exporter: {number}"),
    };
    Case {
        program: "exporter",
        words: words_of(edition),
        input: text.to_vec(),
        pieces,
        said,
        status,
        reaches,
    }
}

fn readout(reply: &[u8]) -> Case {
    let (said, number) = read_out(reply);
    Case {
        program: "readout",
        words: Vec::new(),
        input: reply.to_vec(),
        pieces: usize::MAX,
        said,
        status: i32::from(number != head::answer::DONE),
        reaches: format!("readout: {number}"),
    }
}

/// The readout of one address.
fn readout_of(reply: &[u8], address: &str) -> Case {
    let (said, number, count) = looked_up(reply, address);
    let reaches = match number {
        head::answer::DONE => format!("register: set {count}"),
        _ => format!("register: {number}"),
    };
    Case {
        words: vec![address.to_string()],
        said,
        status: i32::from(number != head::answer::DONE),
        reaches,
        ..readout(reply)
    }
}

fn delivering(text: &[u8]) -> Case {
    delivering_to(1, text)
}

fn delivering_to(edition: u8, text: &[u8]) -> Case {
    let (said, status) = delivered(edition, text);
    Case {
        program: "delivering",
        words: words_of(edition),
        input: text.to_vec(),
        pieces: usize::MAX,
        said,
        status,
        reaches: format!(
            "delivering to edition {edition}: {}",
            if status == 0 { 1 } else { 20 }
        ),
    }
}

/// The card exporter on a text.
fn cardexporter(text: &[u8]) -> Case {
    cardexporter_for(1, text)
}

fn cardexporter_for(edition: u8, text: &[u8]) -> Case {
    let highest = tables_of(edition);
    let (said, status, reaches) = match highest.map(|highest| card::read(highest, text)) {
        None => (pair(card::NO_EDITION, 0), 1, "cardexporter: 16".to_string()),
        Some(Some(card)) => {
            let reaches = format!("cardexporter: {} tables", card.tables.len());
            (card::frames_of(&card), 0, reaches)
        }
        Some(None) => {
            let place = card::check(edition, text).1;
            let reaches = format!("cardexporter: place {place}");
            (pair(card::NOT_A_CARD, place), 1, reaches)
        }
    };
    Case {
        program: "cardexporter",
        words: words_of(edition),
        input: text.to_vec(),
        pieces: usize::MAX,
        said,
        status,
        reaches,
    }
}

/// A table whose row is its own.
fn table(number: u8) -> Table {
    let row: Row = std::array::from_fn(|hour| b'1' + (hour as u8 * 7 + number) / 3 % 4);
    Table { number, row }
}

fn post_of(numbers: impl IntoIterator<Item = u8>) -> Vec<u8> {
    let tables: Vec<Table> = numbers.into_iter().map(table).collect();
    post::text_of(&tables)
}

/// Texts for the exporter.
fn for_the_exporter(cases: &mut Vec<Case>) {
    let longest = post_of(1..=TABLES_MOST);
    assert_eq!(longest.len(), LONGEST);
    // Every length up to a line more than the longest post: every place where a text ends.
    let more = [&longest[..], &longest[..LINE]].concat();
    cases.extend((0..=more.len()).map(|length| exporter_2(&more[..length])));
    let (lines, _) = longest.split_at(LONGEST - LINE - LAST.len());
    let first = [lines, LAST, lines].concat();
    cases.extend((0..=first.len()).map(|length| exporter(&first[..length])));
    // Every place that a wrong character gives.
    for place in 0..LONGEST {
        let mut wrong = longest.clone();
        wrong[place] = b'x';
        cases.push(exporter_2(&wrong));
    }
    // A line 25 for edition 1, and texts for editions that there are not.
    cases.push(Case {
        reaches: "exporter: line 25 for edition 1".to_string(),
        ..exporter(&longest)
    });
    for edition in [0, 3, 255] {
        cases.extend([LAST, &longest, lines].map(|text| exporter_in(edition, text, usize::MAX)));
    }
    // Every table alone, every two that follow each other, two that do not rise.
    cases.extend((1..=TABLES_MOST).map(|number| exporter_2(&post_of([number]))));
    cases.extend((1..=TABLES_MOST).map(|number| exporter(&post_of([number]))));
    cases.extend((1..TABLES).map(|number| exporter(&post_of([number, number + 1]))));
    cases.extend((1..TABLES).map(|number| exporter(&post_of([number + 1, number]))));
    cases.push(exporter(&post::text_of(&[Table {
        number: 1,
        row: [b'1'; HOURS],
    }])));
    cases.push(exporter(LAST));
    // In small pieces, and longer than any post.
    cases.extend([1, 7, 35, 36].map(|pieces| exporter_in(2, &longest, pieces)));
    let long: Vec<u8> = longest.iter().copied().cycle().take(20_000).collect();
    cases.extend([7, 4_095, 4_096, 4_097].map(|pieces| Case {
        reaches: "exporter: a long input in pieces".to_string(),
        ..exporter_in(1, &long, pieces)
    }));
    let longer: Vec<u8> = long.iter().copied().cycle().take(10_000_000).collect();
    cases.push(Case {
        reaches: "exporter: 10,000,000 bytes".to_string(),
        ..exporter(&longer)
    });
}

/// Texts for the card exporter: cards of none to 25 tables, cut anywhere, with a wrong byte anywhere,
/// and longer than any card.
fn for_the_card_exporter(cases: &mut Vec<Case>) {
    let longest = card::text_of(&Card {
        account: *b"STUDIO_7  ",
        tables: (1..=TABLES_MOST).map(table).collect(),
    });
    assert_eq!(longest.len(), card::LONGEST);
    let more = [&longest[..], &longest[..13]].concat();
    cases.extend((0..=more.len()).map(|length| cardexporter_for(2, &more[..length])));
    for place in 0..card::LONGEST {
        let mut wrong = longest.clone();
        wrong[place] = 0xFF;
        cases.push(cardexporter(&wrong));
    }
    cases.push(Case {
        reaches: "cardexporter: table 25 for edition 1".to_string(),
        ..cardexporter(&longest)
    });
    for edition in [0, 3, 255] {
        cases.extend([&b""[..], &longest].map(|text| cardexporter_for(edition, text)));
    }
    let long: Vec<u8> = longest.iter().copied().cycle().take(20_000).collect();
    cases.push(Case {
        reaches: "cardexporter: a long input".to_string(),
        ..cardexporter(&long)
    });
}

/// A reply with these data in its block.
fn reply_of(data: &[u8]) -> Vec<u8> {
    head::on_the_wire(&head::block(data))
}

/// Replies for the readout.
fn for_the_readout(cases: &mut Vec<Case>) {
    let sets = |count: usize| -> Vec<u8> {
        (0..count)
            .flat_map(|n| head::line(&format!("15.8.{n}"), &format!("{n:06}.000*kWh")))
            .collect()
    };
    let data = [&sets(33)[..], LAST].concat();
    let whole = reply_of(&data);
    cases.push(readout(&whole));
    cases.push(readout(&[]));
    cases.extend((0..=40).map(|count| readout(&reply_of(&sets(count)))));
    // Cut anywhere, a bit turned anywhere, a character changed with its BCC.
    cases.extend(
        (0..whole.len())
            .step_by(2)
            .map(|length| readout(&whole[..length])),
    );
    for place in 0..whole.len() {
        let mut damaged = whole.clone();
        damaged[place] ^= 0x10;
        if place % 4 == 0 {
            cases.push(readout(&damaged));
        }
        if place % 4 == 1 {
            damaged[place] = head::with_parity(damaged[place] & 0x7F);
            cases.push(readout(&damaged));
        }
    }
    for place in 0..data.len() {
        let mut malformed = data.clone();
        malformed[place] = b'/';
        if place % 2 == 0 {
            cases.push(readout(&reply_of(&malformed)));
        }
    }
    // As long as a reply may be, and longer; values of 32 characters and more.
    for length in [REPLY - 1, REPLY, REPLY + 1, 2 * REPLY] {
        let filling: Vec<u8> = b"A(1)\r\n"
            .iter()
            .copied()
            .cycle()
            .take(length - 3)
            .collect();
        cases.push(readout(&reply_of(&filling)));
    }
    for length in 30..=34 {
        let value = "7".repeat(length);
        cases.push(readout(&reply_of(&head::line("0.0.0", &value))));
        let address = "A".repeat(length / 2);
        cases.push(readout(&reply_of(&head::line(&address, ""))));
    }
}

/// Replies and addresses for the readout.
fn for_one_register(cases: &mut Vec<Case>) {
    // Two sets have each address, so that the second must not be shown.
    let sets: Vec<u8> = (0..SETS)
        .flat_map(|n| {
            head::line(
                &format!("15.8.{}", n % (SETS / 2)),
                &format!("{n:06}.000*kWh"),
            )
        })
        .collect();
    let data = [&sets[..], LAST].concat();
    let whole = reply_of(&data);
    let addresses: Vec<String> = (0..=SETS / 2).map(|n| format!("15.8.{n}")).collect();
    cases.extend(addresses.iter().map(|address| readout_of(&whole, address)));
    // What no set has, or can have: part of an address, more than one, none, and 15 to 40 characters.
    let others = [
        "", " ", ".", "15.8", "15.8.", "5.8.0", "15.8.00", "15.8.0 ", "15.8.0(", "!", "é",
    ];
    cases.extend(others.map(|address| readout_of(&whole, address)));
    for length in 15..=40 {
        let long = "A".repeat(length);
        let line = head::line(&long, "1");
        cases.push(readout_of(&whole, &long));
        cases.push(readout_of(&reply_of(&line), &long));
        cases.push(readout_of(&reply_of(&line), &long[..length - 1]));
        cases.push(readout_of(&reply_of(&line), &long[..length.min(16)]));
    }
    // The first of all sets, one in the middle and the last, each of some length.
    for count in 1..=33 {
        let line = |n: usize| head::line(&format!("{n}"), &"7".repeat(n % 33));
        let reply = reply_of(&(1..=count).flat_map(line).collect::<Vec<u8>>());
        for wanted in [1, count.div_ceil(2), count, count + 1] {
            cases.push(readout_of(&reply, &wanted.to_string()));
        }
    }
    // A bad set before the match, in it and behind it.
    for place in (0..data.len()).step_by(3) {
        let mut malformed = data.clone();
        malformed[place] = b'/';
        let wanted = &addresses[place % addresses.len()];
        cases.push(readout_of(&reply_of(&malformed), wanted));
    }
    let bad: &[u8] = b"A(1)\r\nB(2)\r\n?\r\nC(3)\r\n";
    cases.extend(["A", "B", "C"].map(|address| readout_of(&reply_of(bad), address)));
    // Replies that are refused whatever the address: cut, damaged, changed with its parity, too long.
    for place in (0..whole.len()).step_by(9) {
        let wanted = &addresses[place % addresses.len()];
        cases.push(readout_of(&whole[..place], wanted));
        let mut damaged = whole.clone();
        damaged[place] ^= 0x10;
        cases.push(readout_of(&damaged, wanted));
        damaged[place] = head::with_parity(damaged[place] & 0x7F);
        cases.push(readout_of(&damaged, wanted));
    }
    for length in [REPLY, REPLY + 1] {
        let filling: Vec<u8> = b"A(1)\r\n"
            .iter()
            .copied()
            .cycle()
            .take(length - 3)
            .collect();
        cases.push(readout_of(&reply_of(&filling), "A"));
        cases.push(readout_of(&reply_of(&filling), "B"));
    }
}

/// Blocks of meters with closed periods, for the readout: all of them, and each of their lines.
fn for_closed_months(cases: &mut Vec<Case>) {
    let mut meter = Meter::blank();
    for count in 0..=PERIODS {
        if count > 0 {
            meter.periods.rotate_right(1);
            meter.periods[0] = Period {
                year: 2023,
                month: count as u8,
                day: 1,
                hour: 0,
                minute: count as u8,
                counters: [1, 20, 300, 4_000].map(|wh| wh * count as u32),
                exported: [0; 4],
            };
        }
        meter.closed = count as u8;
        let block = meter.block_with_periods();
        let reply = head::on_the_wire(&block);
        cases.push(Case {
            reaches: format!("readout: {count} periods"),
            ..readout(&reply)
        });
        for kk in 1..=count {
            for address in [format!("0.1.2*{kk:02}"), format!("15.8.4*{kk:02}")] {
                cases.push(Case {
                    reaches: format!("register: period {kk}"),
                    ..readout_of(&reply, &address)
                });
            }
        }
        let others = ["0.1.2", "0.1.2*", "0.1.2*1", "0.1.2*00", "15.8.0*01", "*01"];
        cases.extend(others.map(|address| readout_of(&reply, address)));
        cases.push(readout_of(&reply, &format!("0.1.2*{:02}", count + 1)));
    }
    // Cut and damaged in the periods.
    let reply = head::on_the_wire(&meter.block_with_periods());
    for place in (1_050..reply.len()).step_by(41) {
        cases.push(readout(&reply[..place]));
        let mut damaged = reply.clone();
        damaged[place] ^= 0x80;
        cases.push(readout_of(&damaged, "0.1.2*12"));
    }
}

/// Blocks of EQM meters, for the readout: all ten lines of energy, and the longest block of all.
fn for_eqm_meters(cases: &mut Vec<Case>) {
    for decimals in 2..=4 {
        let mut meter = Meter {
            decimals,
            edition: 2,
            counters: [99_999_999, 20, 300, 4_000],
            exported: [0, 1, 12_345_678, 99_999_999],
            closed: PERIODS as u8,
            ..Meter::blank()
        };
        meter.tables[24] = [b'1'; HOURS];
        meter.periods = [Period {
            year: 2023,
            month: 4,
            day: 1,
            hour: 0,
            minute: 0,
            counters: [1, 20, 300, 99_999_999],
            exported: [99_999_999, 5, 60, 700],
        }; PERIODS];
        let reply = head::on_the_wire(&meter.block_with_periods());
        cases.push(Case {
            reaches: format!("readout: {decimals} decimals"),
            ..readout(&reply)
        });
        for zone in 0..=4 {
            for address in [format!("1.8.{zone}"), format!("2.8.{zone}")] {
                cases.push(Case {
                    reaches: format!("register: {address} of {decimals} decimals"),
                    ..readout_of(&reply, &address)
                });
            }
        }
        let others = ["15.8.0", "1.8.5", "2.8.0*01", "2.8.4*12", "1.8.1*13", "8.2"];
        cases.extend(others.map(|address| readout_of(&reply, address)));
    }
}

/// Texts for the delivery.
fn for_the_delivery(cases: &mut Vec<Case>) {
    cases.extend((1..=TABLES).map(|number| delivering(&post_of([number]))));
    cases.extend(
        (2..=TABLES)
            .step_by(5)
            .map(|last| delivering(&post_of(1..=last))),
    );
    cases.extend((1..=TABLES_MOST).map(|number| delivering_to(2, &post_of([number]))));
    cases.push(delivering_to(2, &post_of(1..=TABLES_MOST)));
    cases.push(delivering_to(2, LAST));
    cases.push(delivering(&post_of([TABLES_MOST])));
    cases.push(delivering(&post_of(1..=TABLES)));
    let two = post_of([4, 6]);
    cases.extend(
        (0..two.len())
            .step_by(8)
            .map(|length| delivering(&two[..length])),
    );
}

/// Gives a program its input in pieces, and takes what it writes. Whoever stops reading early breaks
/// the pipe, which is found out.
fn ran(child: &mut Child, case: &Case) -> Result<Vec<u8>, String> {
    let mut input = child.stdin.take().expect("a pipe");
    let mut output = child.stdout.take().expect("a pipe");
    thread::scope(|scope| {
        let giving = scope.spawn(move || {
            for piece in case.input.chunks(case.pieces.min(case.input.len()).max(1)) {
                input.write_all(piece)?;
                input.flush()?;
            }
            Ok::<(), std::io::Error>(())
        });
        let mut said = Vec::new();
        output.read_to_end(&mut said).map_err(|e| e.to_string())?;
        let given = giving.join().expect("no panic");
        given.map_err(|e| format!("the input was not read to its end: {e}"))?;
        Ok(said)
    })
}

/// Runs a case, and says what differs.
fn held(case: &Case) -> Result<(), String> {
    let mut child = Command::new("hosts/run")
        .arg(case.program)
        .args(&case.words)
        .stdin(Stdio::piped())
        .stdout(Stdio::piped())
        .stderr(Stdio::piped())
        .spawn()
        .map_err(|e| format!("hosts/run: {e}"))?;
    let said = ran(&mut child, case)?;
    let ended = child.wait_with_output().map_err(|e| e.to_string())?;
    // The word that the wrapper turns into the exit status.
    let word: &[u8] = if case.status == 0 { b"" } else { b"refused\n" };
    if said != case.said {
        return Err(format!("wrote {said:02x?}, not {:02x?}", case.said));
    }
    if ended.stderr != word {
        let said = String::from_utf8_lossy(&ended.stderr);
        return Err(format!("said {said:?} on standard error"));
    }
    Ok(())
}

/// The programs as a shell starts them: command, exit status, whether something stands on standard
/// error, and what is reached.
const STARTED: [(&str, i32, bool, &str); 34] = [
    ("./export-card examples/studio.card", 0, false, "status 0"),
    ("./export-card examples/crafted.card", 1, false, "status 1"),
    ("./export-card examples/none.card", 2, true, "no file"),
    ("./show-card examples/studio.card", 0, false, "status 0"),
    ("./show-card <examples/account.card", 0, false, "status 0"),
    ("./show-card examples/crafted.card", 1, false, "status 1"),
    ("./show-card examples/none.card", 2, true, "no file"),
    ("./show-card /", 2, true, "a directory"),
    ("./show-card <&-", 2, true, "closed input"),
    (
        "./show-card examples/studio.card >/dev/full",
        2,
        true,
        "full",
    ),
    ("./export-post examples/winter.post", 0, false, "status 0"),
    ("./export-post <examples/winter.post", 0, false, "status 0"),
    ("./export-post examples/crafted.post", 1, false, "status 1"),
    ("./export-post </dev/null", 1, false, "status 1"),
    (
        "./export-post examples/winter.post >/dev/full",
        2,
        true,
        "full",
    ),
    (
        "./export-post examples/crafted.post >/dev/full",
        2,
        true,
        "full",
    ),
    ("./export-post /", 2, true, "a directory"),
    ("./export-post </", 2, true, "a directory"),
    ("./export-post examples/none.post", 2, true, "no file"),
    ("./export-post <&-", 2, true, "closed input"),
    (
        "./export-post examples/winter.post >&-",
        2,
        true,
        "closed output",
    ),
    (
        "hosts/tool readout <crates/readout/stdin",
        0,
        false,
        "status 0",
    ),
    ("hosts/tool readout </dev/null", 1, false, "status 1"),
    (
        "hosts/tool readout <crates/readout/stdin >/dev/full",
        2,
        true,
        "full",
    ),
    (
        "[ \"$(hosts/tool readout 15.8.0 <crates/readout/stdin)\" = '15.8.0 123458.288*kWh' ]",
        0,
        false,
        "status 0",
    ),
    (
        "[ \"$(hosts/tool readout '0.1.2*02' <crates/readout/stdin)\" = '0.1.2*02 24-01-15 17:42' ]",
        0,
        false,
        "status 0",
    ),
    (
        "hosts/tool readout 15.8.5 <crates/readout/stdin",
        1,
        false,
        "status 1",
    ),
    (
        "hosts/tool readout '' <crates/readout/stdin",
        1,
        false,
        "status 1",
    ),
    (
        "hosts/tool readout 15.8.0 15.8.1 <crates/readout/stdin",
        2,
        true,
        "two addresses",
    ),
    (
        "hosts/tool readout '' '' </dev/null",
        2,
        true,
        "two addresses",
    ),
    (
        "hosts/tool readout 15.8.0 <crates/readout/stdin >/dev/full",
        2,
        true,
        "full",
    ),
    ("hosts/tool readout </", 2, true, "a directory"),
    ("hosts/tool readout <&-", 2, true, "closed input"),
    (
        "hosts/tool readout <crates/readout/stdin >&-",
        2,
        true,
        "closed output",
    ),
];

/// Starts a command as a shell does, and holds it to its status.
fn started(command: &str, status: i32, words: bool) -> Result<(), String> {
    let ended = Command::new("bash")
        .args(["-c", command])
        .stdin(Stdio::null())
        .output()
        .map_err(|e| format!("bash: {e}"))?;
    if ended.status.code() != Some(status) {
        return Err(format!("{command}: {}, not {status}", ended.status));
    }
    if ended.stderr.is_empty() == words {
        let said = String::from_utf8_lossy(&ended.stderr);
        return Err(format!("{command}: said {said:?} on standard error"));
    }
    Ok(())
}

/// What the trial has to reach.
fn to_reach() -> BTreeSet<String> {
    let mut all: BTreeSet<String> = (0..=LONGEST)
        .map(|place| format!("exporter: place {place}"))
        .chain([1, 2, 24, 25].map(|lines| format!("exporter: {lines} lines")))
        .chain([1, 22, 23, 24, 25, 26].map(|number| format!("readout: {number}")))
        .chain((1..=33).map(|set| format!("register: set {set}")))
        .chain([22, 23, 24, 25, 26, 27].map(|number| format!("register: {number}")))
        .chain((0..=PERIODS).map(|count| format!("readout: {count} periods")))
        .chain((1..=PERIODS).map(|kk| format!("register: period {kk}")))
        .chain((2..=4).map(|decimals| format!("readout: {decimals} decimals")))
        .chain((2..=4).flat_map(|decimals| {
            (0..=4).flat_map(move |zone| {
                [1, 2].map(|way| format!("register: {way}.8.{zone} of {decimals} decimals"))
            })
        }))
        .chain([1, 20].map(|number| format!("delivering to edition 1: {number}")))
        .chain([1, 20].map(|number| format!("delivering to edition 2: {number}")))
        .chain(STARTED.iter().map(|case| case.3.to_string()))
        .collect();
    all.extend((0..=card::LONGEST).map(|place| format!("cardexporter: place {place}")));
    all.extend((0..=TABLES_MOST).map(|tables| format!("cardexporter: {tables} tables")));
    all.insert("exporter: 16".to_string());
    all.insert("exporter: line 25 for edition 1".to_string());
    all.insert("cardexporter: 16".to_string());
    all.insert("cardexporter: table 25 for edition 1".to_string());
    all.insert("cardexporter: a long input".to_string());
    all.insert("exporter: a long input in pieces".to_string());
    all.insert("exporter: 10,000,000 bytes".to_string());
    all
}

fn main() -> ExitCode {
    if std::env::args().len() > 1 {
        println!("programs: takes no words");
        return ExitCode::FAILURE;
    }
    let mut cases = Vec::new();
    for_the_exporter(&mut cases);
    for_the_card_exporter(&mut cases);
    for_the_readout(&mut cases);
    for_one_register(&mut cases);
    for_closed_months(&mut cases);
    for_eqm_meters(&mut cases);
    for_the_delivery(&mut cases);
    let reached = Mutex::new(BTreeSet::new());
    let wrong = Mutex::new(Vec::new());
    let next = AtomicUsize::new(0);
    thread::scope(|scope| {
        for _ in 0..AT_ONCE {
            scope.spawn(|| {
                while let Some(case) = cases.get(next.fetch_add(1, Ordering::Relaxed)) {
                    match held(case) {
                        Ok(()) => drop(reached.lock().unwrap().insert(case.reaches.clone())),
                        Err(words) => {
                            let start = &case.input[..case.input.len().min(80)];
                            let text = String::from_utf8_lossy(start).into_owned();
                            let words =
                                format!("{} {:?} on {text:?}..: {words}", case.program, case.words);
                            wrong.lock().unwrap().push(words);
                        }
                    }
                }
            });
        }
    });
    let (mut reached, mut wrong) = (reached.into_inner().unwrap(), wrong.into_inner().unwrap());
    for (command, status, words, reaches) in STARTED {
        match started(command, status, words) {
            Ok(()) => drop(reached.insert(reaches.to_string())),
            Err(words) => wrong.push(words),
        }
    }
    let missed: Vec<String> = to_reach().difference(&reached).cloned().collect();
    for words in wrong.iter().take(10) {
        println!("programs: {words}");
    }
    for words in missed.iter().take(10) {
        println!("programs: not reached: {words}");
    }
    if !wrong.is_empty() || !missed.is_empty() || cases.len() < TEXTS {
        let (wrong, missed) = (wrong.len(), missed.len());
        println!(
            "programs: {} texts, {wrong} wrong, {missed} not reached",
            cases.len()
        );
        return ExitCode::FAILURE;
    }
    println!(
        "programs: {} texts to the programs themselves, {} started by a shell, all as the model says; every place up to {LONGEST}",
        cases.len(),
        STARTED.len()
    );
    ExitCode::SUCCESS
}
