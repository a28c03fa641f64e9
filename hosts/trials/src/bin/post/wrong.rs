//! Wrong exporters. The comparison has to find out each of them, or it is worth nothing.

use crate::compare::Exporter;
use model::{line, post};

type Check = fn(u8, &[u8]) -> (u8, usize);
type Export = fn(u8, &[u8], &mut [u8]) -> (u8, usize, usize);

/// An exporter by its two calls.
pub struct Calls {
    pub name: &'static str,
    check: Check,
    export: Export,
}

impl Exporter for Calls {
    fn check(&self, edition: u8, text: &[u8]) -> (u8, usize) {
        (self.check)(edition, text)
    }
    fn export(&self, edition: u8, text: &[u8], out: &mut [u8]) -> (u8, usize, usize) {
        (self.export)(edition, text, out)
    }
}

/// The model itself, which has to pass.
pub const RIGHT: Calls = Calls {
    name: "the model",
    check: post::check,
    export: post::export,
};

/// A place that no rule gives.
const UNWRITTEN: usize = usize::MAX;

const fn wrong(name: &'static str, check: Check, export: Export) -> Calls {
    Calls {
        name,
        check,
        export,
    }
}

pub const WRONG: &[Calls] = &[
    wrong(
        "refuses all",
        |edition, text| (20, place(edition, text)),
        |edition, text, _| (20, 0, place(edition, text)),
    ),
    wrong(
        "refuses all in the check alone",
        |edition, text| (20, place(edition, text)),
        post::export,
    ),
    wrong("accepts all in the check", |_, _| (1, 0), post::export),
    wrong(
        "exports the first row and acknowledges the rest",
        post::check,
        |edition, text, out| {
            let kept = out.to_vec();
            let answer = post::export(edition, text, out);
            if answer.1 > post::LINE {
                out[post::LINE..].copy_from_slice(&kept[post::LINE..]);
            }
            answer
        },
    ),
    wrong(
        "place always 0",
        |edition, text| (post::check(edition, text).0, 0),
        |edition, text, out| {
            let (number, length, _) = post::export(edition, text, out);
            (number, length, 0)
        },
    ),
    wrong(
        "place of a whole line",
        |edition, text| {
            let (number, place) = post::check(edition, text);
            (number, place / post::LINE * post::LINE)
        },
        post::export,
    ),
    wrong(
        "place of the export alone one on",
        post::check,
        |edition, text, out| {
            let (number, length, place) = post::export(edition, text, out);
            (number, length, place + usize::from(number == 20))
        },
    ),
    wrong(
        "a tens digit always counts as shared",
        check_columns,
        post::export,
    ),
    wrong(
        "looks for the bracket and keeps what follows",
        |edition, text| post::check(edition, &up_to_brackets(text)),
        |edition, text, out| post::export(edition, &up_to_brackets(text), out),
    ),
    wrong(
        "accepts equal numbers",
        |edition, text| post::check(edition, &without_repeats(text)),
        |edition, text, out| post::export(edition, &without_repeats(text), out),
    ),
    wrong(
        "does not mind what follows a post",
        |edition, text| post::check(edition, &text[..post_in(edition, text)]),
        |edition, text, out| post::export(edition, &text[..post_in(edition, text)], out),
    ),
    wrong(
        "accepts LF without CR",
        |edition, text| post::check(edition, &with_cr(text)),
        |edition, text, out| post::export(edition, &with_cr(text), out),
    ),
    wrong(
        "clears the buffer before it refuses",
        post::check,
        |edition, text, out| {
            let answer = post::export(edition, text, out);
            if answer.0 != 1 {
                out.fill(0);
            }
            answer
        },
    ),
    wrong(
        "writes what there is room for",
        post::check,
        |edition, text, out| {
            let mut frames = vec![0; text.len()];
            let answer = post::export(edition, text, out);
            if answer.0 == 21 {
                post::export(edition, text, &mut frames);
                let room = out.len();
                out.copy_from_slice(&frames[..room]);
            }
            answer
        },
    ),
    wrong(
        "clears the byte past the export",
        post::check,
        |edition, text, out| {
            let answer = post::export(edition, text, out);
            if let (1, Some(byte)) = (answer.0, out.get_mut(answer.1)) {
                *byte = 0;
            }
            answer
        },
    ),
    wrong("sends no parity", post::check, |edition, text, out| {
        let answer = post::export(edition, text, out);
        out[..answer.1].iter_mut().for_each(|byte| *byte &= 0x7F);
        answer
    }),
    wrong(
        "counts SOH into the BCC",
        post::check,
        |edition, text, out| {
            let answer = post::export(edition, text, out);
            for frame in out[..answer.1].chunks_exact_mut(post::LINE) {
                let bcc = &mut frame[post::LINE - 1];
                *bcc = line::wire(*bcc ^ line::SOH);
            }
            answer
        },
    ),
    wrong("21 before 20", post::check, |edition, text, out| {
        if out.len() < text.len() / post::LINE * post::LINE {
            return (21, 0, 0);
        }
        post::export(edition, text, out)
    }),
    wrong(
        "wants room for one more",
        post::check,
        |edition, text, out| {
            let room = out.len().saturating_sub(1);
            post::export(edition, text, &mut out[..room])
        },
    ),
    wrong(
        "gives a length with a refusal",
        post::check,
        |edition, text, out| {
            let (number, length, place) = post::export(edition, text, out);
            let lines = text.len() / post::LINE * post::LINE;
            (number, if number == 21 { lines } else { length }, place)
        },
    ),
    wrong(
        "leaves the place of a good check",
        |edition, text| match post::check(edition, text) {
            (1, _) => (1, UNWRITTEN),
            other => other,
        },
        post::export,
    ),
    wrong(
        "leaves the length of a refusal",
        post::check,
        |edition, text, out| match post::export(edition, text, out) {
            (1, length, place) => (1, length, place),
            (number, _, place) => (number, UNWRITTEN, place),
        },
    ),
    wrong(
        "loses the last of 25 lines",
        |edition, text| match (edition, text.len()) {
            (2, post::LONGEST) => (20, 24 * post::LINE),
            _ => post::check(edition, text),
        },
        post::export,
    ),
    wrong(
        "takes every edition for 1",
        |_, text| post::check(1, text),
        |_, text, out| post::export(1, text, out),
    ),
    wrong(
        "takes edition 1 for 2",
        |edition, text| post::check(edition.max(2), text),
        |edition, text, out| post::export(edition.max(2), text, out),
    ),
    wrong(
        "does not mind the edition of a good post",
        |edition, text| match post::check(2, text) {
            (1, 0) => (1, 0),
            _ => post::check(edition, text),
        },
        post::export,
    ),
    wrong(
        "20 before 16",
        |edition, text| match post::check(2, text) {
            (20, place) => (20, place),
            _ => post::check(edition, text),
        },
        post::export,
    ),
    wrong(
        "21 before 16",
        post::check,
        |edition, text, out| match post::export(2, text, &mut out.to_vec()) {
            (21, ..) => (21, 0, 0),
            _ => post::export(edition, text, out),
        },
    ),
    wrong(
        "edition 2 has no place behind 24 lines",
        |edition, text| match post::check(edition, text) {
            (20, place) if edition == 2 => (20, place.min(24 * post::LINE)),
            other => other,
        },
        post::export,
    ),
];

/// The place of a text, a post or not.
fn place(edition: u8, text: &[u8]) -> usize {
    post::tables_of(edition).map_or(0, |highest| post::place(highest, text))
}

/// A place that sees each column alone.
fn check_columns(edition: u8, text: &[u8]) -> (u8, usize) {
    let (number, place) = post::check(edition, text);
    let tens = place % post::LINE == 6 && matches!(text.get(place), Some(b'0'..=b'2'));
    (number, place + usize::from(number == 20 && tens))
}

/// Each line without what stands between its ')' and CR LF.
fn up_to_brackets(text: &[u8]) -> Vec<u8> {
    let mut kept = Vec::new();
    for line in text.split_inclusive(|&byte| byte == line::LF) {
        let bracket = line.iter().position(|&byte| byte == b')');
        match bracket {
            Some(at) if line.ends_with(b"\r\n") => {
                kept.extend(&line[..=at]);
                kept.extend(b"\r\n");
            }
            _ => kept.extend(line),
        }
    }
    kept
}

/// The lines without those whose number stands in the line above.
fn without_repeats(text: &[u8]) -> Vec<u8> {
    let mut kept: Vec<u8> = Vec::new();
    for line in text.chunks(post::LINE) {
        let above = kept.len().checked_sub(post::LINE);
        let same = above.is_some_and(|at| line.len() > 8 && kept[at..at + 8] == line[..8]);
        if !same {
            kept.extend(line);
        }
    }
    kept
}

/// The length of the post that the text starts with, or of the text.
fn post_in(edition: u8, text: &[u8]) -> usize {
    let highest = post::tables_of(edition).unwrap_or(0);
    let ends = (1..=usize::from(highest)).map(|lines| lines * post::LINE + post::LAST.len());
    ends.take_while(|&end| end <= text.len())
        .find(|&end| post::read(highest, &text[..end]).is_some())
        .unwrap_or(text.len())
}

/// The text with CR before each LF that has none.
fn with_cr(text: &[u8]) -> Vec<u8> {
    let mut whole = Vec::new();
    for &byte in text {
        if byte == line::LF && whole.last() != Some(&line::CR) {
            whole.push(line::CR);
        }
        whole.push(byte);
    }
    whole
}
