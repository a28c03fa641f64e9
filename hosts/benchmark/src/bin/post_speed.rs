//! The speed of the check and the export: the proved library beside Rust by hand, in one run,
//! on the same bytes.

use benchmark::turns::{compared, medians, show};
use dirgemist::post as forum;
use model::post::{self, Table, LAST, LINE, TABLES, TABLES_MOST};
use std::hint::black_box;
use std::process::ExitCode;

/// The hand-written side, called as `forum` calls the library.
mod fast {
    use benchmark::fast_post;

    pub fn check(edition: u8, text: &[u8]) -> (u8, usize) {
        let mut place = usize::MAX;
        let number = fast_post::check(edition, text, &mut place);
        (number, place)
    }

    pub fn check_once(edition: u8, text: &[u8]) -> (u8, usize) {
        let mut place = usize::MAX;
        let number = fast_post::check_once(edition, text, &mut place);
        (number, place)
    }

    pub fn export(edition: u8, text: &[u8], out: &mut [u8]) -> (u8, usize, usize) {
        let (mut length, mut place) = (usize::MAX, usize::MAX);
        let number = fast_post::export(edition, text, out, &mut length, &mut place);
        (number, length, place)
    }
}

/// Where the timed text and the frames lie, for both sides: at the same places of a page in every
/// run, no address of the one like one of the other in its last twelve bits.
#[repr(align(4096))]
struct Page([u8; 4096]);
const HALF: usize = 2048;

/// A text at the front of a half.
fn placed<'a>(half: &'a mut [u8], text: &[u8]) -> &'a [u8] {
    half[..text.len()].copy_from_slice(text);
    &half[..text.len()]
}

/// A post of these tables, each row its own.
fn post_of(numbers: impl IntoIterator<Item = u8>) -> Vec<u8> {
    let row = |number: u8| std::array::from_fn(|hour| b'1' + (hour as u8 * 5 + number) / 3 % 4);
    let tables: Vec<Table> = numbers
        .into_iter()
        .map(|number| Table {
            number,
            row: row(number),
        })
        .collect();
    post::text_of(&tables)
}

/// Both sides and the model give the same answers and the same bytes, for both editions and for
/// one that there is not.
fn equal(text: &[u8]) -> bool {
    (1..=3).all(|edition| equal_for(edition, text))
}

fn equal_for(edition: u8, text: &[u8]) -> bool {
    let room = text.len() / LINE * LINE;
    let pattern = vec![0x5A; room + 1];
    let checks = [
        post::check(edition, text),
        fast::check(edition, text),
        forum::check(edition, text),
    ];
    let exports = [room, room + 1, room.saturating_sub(1)].map(|room| {
        let mut outs = [(); 3].map(|()| pattern[..room].to_vec());
        let answers = [
            post::export(edition, text, &mut outs[0]),
            fast::export(edition, text, &mut outs[1]),
            forum::export(edition, text, &mut outs[2]),
        ];
        alike(&answers) && alike(&outs)
    });
    alike(&checks) && fast::check_once(edition, text) == checks[0] && exports == [true; 3]
}

fn alike<T: PartialEq>(three: &[T; 3]) -> bool {
    three[0] == three[1] && three[1] == three[2]
}

/// The texts on which both sides have to be right before their speed means anything: the ones
/// that are timed, for every edition number; a post with every byte in every column, cut anywhere,
/// or with more behind it; every number below every number.
fn all_equal(timed: &[&[u8]]) -> bool {
    let post = post_of([9, 24, 25]);
    let damaged = |column: usize, byte: u8| {
        let mut text = post.clone();
        text[column] = byte;
        text
    };
    let numbered = |first: u8, second: u8| {
        let mut text = post[LINE..].to_vec();
        text[6..8].copy_from_slice(&[b'0' + first / 10, b'0' + first % 10]);
        text[42..44].copy_from_slice(&[b'0' + second / 10, b'0' + second % 10]);
        text
    };
    timed
        .iter()
        .all(|text| (0..=255).all(|edition| equal_for(edition, text)))
        && (0..post.len()).all(|column| (0..=255).all(|byte| equal(&damaged(column, byte))))
        && (0..post.len()).all(|length| equal(&post[..length]))
        && (0..post.len()).all(|length| equal(&[&post, &post[..length]].concat()))
        && (0..100).all(|first| (0..100).all(|second| equal(&numbered(first, second))))
}

fn main() -> ExitCode {
    let longest = post_of(1..=TABLES);
    let saturday = post_of(1..=TABLES_MOST);
    // The kind that did the harm: a second command hidden in a row.
    let short = b"131.0.01(1111)\x03\x06\x01W1\x02K(somebody__)\x03\x15)\r\n!\r\n".to_vec();
    // A wrong zone in the last line; a text that ends within its first line.
    let mut damaged = longest.clone();
    damaged[23 * LINE + 30] = b'5';
    let cut = longest[..30].to_vec();
    // Under 16 bytes behind the last whole line.
    let (five, twelve) = (longest[..5].to_vec(), longest[..12].to_vec());
    let below = longest[..2 * LINE + 10].to_vec();
    let no_end = [&longest[..2 * LINE], &LAST[..2]].concat();
    assert_eq!((longest.len(), saturday.len()), (867, post::LONGEST));
    let texts = [
        &longest, &saturday, &short, &damaged, &cut, &five, &twelve, &below, &no_end,
    ];
    if let Some(status) = compared("post", all_equal(&texts.map(|text| &text[..]))) {
        return status;
    }

    let mut page = Box::new(Page([0; 4096]));
    let (first, out) = page.0.split_at_mut(HALF);
    let mut check = |edition: u8, text: &[u8]| {
        let text = placed(first, text);
        // Beside the faster of two ways by hand: all lines without a way out, then again for the
        // place; or once, line by line.
        let twice = |_: &mut [u8]| {
            black_box(fast::check(black_box(edition), black_box(text)));
        };
        let once = |_: &mut [u8]| {
            black_box(fast::check_once(black_box(edition), black_box(text)));
        };
        let library = |_: &mut [u8]| {
            black_box(forum::check(black_box(edition), black_box(text)));
        };
        let ways = [
            medians(&mut [], twice, library),
            medians(&mut [], once, library),
        ];
        if ways[0].0 < ways[1].0 {
            ways[0]
        } else {
            ways[1]
        }
    };
    let checks = [
        ("check, longest post of edition 1", check(1, &longest)),
        ("check, longest post of edition 2", check(2, &saturday)),
        ("check, short non-post", check(1, &short)),
        ("check, wrong in line 24", check(1, &damaged)),
        ("check, 30 bytes of a line", check(1, &cut)),
        ("check, 12 bytes of a line", check(1, &twelve)),
        ("check, 5 bytes of a line", check(1, &five)),
        ("check, 10 below two lines", check(1, &below)),
        ("check, two lines, no LF", check(1, &no_end)),
    ];
    let mut export = |edition: u8, text: &[u8]| {
        let text = placed(first, text);
        medians(
            &mut out[..text.len()],
            |out| {
                black_box(fast::export(
                    black_box(edition),
                    black_box(text),
                    black_box(out),
                ));
            },
            |out| {
                black_box(forum::export(
                    black_box(edition),
                    black_box(text),
                    black_box(out),
                ));
            },
        )
    };
    let exports = [
        ("export, longest post of edition 1", export(1, &longest)),
        ("export, longest post of edition 2", export(2, &saturday)),
    ];
    show(checks.into_iter().chain(exports))
}
