//! The speed of what the head builds, and of the values that it reads back: the proved library
//! beside Rust by hand, in one run, on the same fields.

use ::model::head::{self as model, Clock, Command, Kind, COMMAND_ROOM};
use benchmark::fast_builders as fast;
use benchmark::fast_values as values;
use benchmark::turns::{compared, medians, show};
use dirgemist::head as library;
use std::hint::black_box;
use std::process::ExitCode;

const SERIAL: &[u8] = b"1234567890";
const PASSWORD: &[u8] = b"20304050";
const ACCOUNT: &[u8] = b"Kiln_7 old";
const ROW: &[u8] = b"111122223333444412341234";
const CLOCK: Clock = Clock {
    year: 2024,
    month: 2,
    day: 29,
    hour: 23,
    minute: 5,
    second: 9,
};

/// The values that are timed, in the order of the readers.
const VALUES: [&[u8]; 7] = [
    b"123 4567890",
    ACCOUNT,
    ROW,
    b"123456.789*kWh",
    b"24-02-29",
    b"23:05:09",
    b"24-03-01 00:00",
];

/// A value of an EQM meter of three decimals.
const EQM: &[u8] = b"12345.678*kWh";

fn write_clock(c: &Clock, out: &mut [u8]) -> (u8, usize) {
    let rest = [c.month, c.day, c.hour, c.minute, c.second];
    library::write_clock(c.year, rest, out)
}

/// Both sides and the model build the same in a room: number, length and every byte of the buffer.
fn built_in(
    room: usize,
    command: &Command,
    hand: impl Fn(&mut [u8]) -> (u8, usize),
    proved: impl Fn(&mut [u8]) -> (u8, usize),
) -> bool {
    let mut outs = [[0x5A; COMMAND_ROOM + 1]; 3];
    let [one, two, three] = outs.each_mut().map(|out| &mut out[..room]);
    let answer = model::build(command, one);
    hand(two) == answer && proved(three) == answer && outs[0] == outs[1] && outs[1] == outs[2]
}

/// The same in every room.
fn built(
    command: Command,
    hand: impl Fn(&mut [u8]) -> (u8, usize),
    proved: impl Fn(&mut [u8]) -> (u8, usize),
) -> bool {
    (0..=COMMAND_ROOM + 1).all(|room| built_in(room, &command, &hand, &proved))
}

/// A field, with every byte at every place, and cut and lengthened.
fn all_like(field: &[u8], holds: impl Fn(&[u8]) -> bool) -> bool {
    let longer = [field, field].concat();
    (0..=longer.len()).all(|length| holds(&longer[..length]))
        && (0..field.len()).all(|place| {
            (0..=255).all(|byte| {
                let mut field = field.to_vec();
                field[place] = byte;
                holds(&field)
            })
        })
}

fn serials_equal(serial: &[u8]) -> bool {
    built(
        Command::SignOnTo(serial),
        |out| fast::sign_on_to(serial, out),
        |out| library::sign_on_to(serial, out),
    ) && built(
        Command::SignOnWired(serial),
        |out| fast::sign_on_wired(serial, out),
        |out| library::sign_on_wired(serial, out),
    )
}

fn passwords_equal(password: &[u8]) -> bool {
    built(
        Command::Password(password),
        |out| fast::password(password, out),
        |out| library::password(password, out),
    )
}

fn accounts_equal(account: &[u8]) -> bool {
    built(
        Command::WriteAccount(account),
        |out| fast::write_account(account, out),
        |out| library::write_account(account, out),
    )
}

fn confirmations_equal(speed: u8, choice: u8) -> bool {
    built_in(
        COMMAND_ROOM,
        &Command::Confirm(speed, choice),
        |out| fast::confirm(speed, choice, out),
        |out| library::confirm(speed, choice, out),
    )
}

fn tables_equal(edition: u8, table: u8, row: &[u8], room: usize) -> bool {
    built_in(
        room,
        &Command::ReadTable(edition, table),
        |out| fast::read_table(edition, table, out),
        |out| library::read_table(edition, table, out),
    ) && built_in(
        room,
        &Command::WriteTable(edition, table, row),
        |out| fast::write_table(edition, table, row, out),
        |out| library::write_table(edition, table, row, out),
    )
}

fn clocks_equal(clock: Clock, room: usize) -> bool {
    built_in(
        room,
        &Command::WriteClock(clock),
        |out| fast::write_clock(&clock, out),
        |out| write_clock(&clock, out),
    )
}

/// Everything that is built, of good fields and bad ones.
fn builders_equal() -> bool {
    let bytes = || 0..=255;
    let rooms = || 0..=COMMAND_ROOM + 1;
    let plain = built(Command::SignOn, fast::sign_on, library::sign_on)
        && built(Command::Close, fast::close, library::close)
        && built(Command::ReadTotal, fast::read_total, library::read_total)
        && built(
            Command::ReadTotalOut,
            fast::read_total_out,
            library::read_total_out,
        );
    let zones = bytes().all(|zone| {
        built(
            Command::ReadZone(zone),
            |out| fast::read_zone(zone, out),
            |out| library::read_zone(zone, out),
        ) && built(
            Command::ReadZoneOut(zone),
            |out| fast::read_zone_out(zone, out),
            |out| library::read_zone_out(zone, out),
        )
    });
    let dates = (1999..=2101).all(|year| {
        (0..=14).all(|month| {
            (0..=33).all(|day| {
                let clock = Clock {
                    year,
                    month,
                    day,
                    ..CLOCK
                };
                clocks_equal(clock, COMMAND_ROOM)
            })
        })
    });
    let times = bytes().all(|n| {
        [
            Clock { month: n, ..CLOCK },
            Clock { day: n, ..CLOCK },
            Clock { hour: n, ..CLOCK },
            Clock { minute: n, ..CLOCK },
            Clock { second: n, ..CLOCK },
        ]
        .into_iter()
        .all(|clock| rooms().all(|room| clocks_equal(clock, room)))
    });
    plain
        && zones
        && dates
        && times
        && bytes().all(|speed| bytes().all(|choice| confirmations_equal(speed, choice)))
        && bytes()
            .all(|edition| bytes().all(|table| tables_equal(edition, table, ROW, COMMAND_ROOM)))
        && (0..=3).all(|edition| {
            rooms().all(|room| all_like(ROW, |row| tables_equal(edition, 25, row, room)))
        })
        && all_like(SERIAL, serials_equal)
        && all_like(PASSWORD, passwords_equal)
        && all_like(ACCOUNT, accounts_equal)
}

/// What both sides and the model read of a value is the same, by every reader.
fn read_equal(value: &[u8]) -> bool {
    fn same<T: Default + PartialEq>(model: Option<T>, hand: (u8, T), proved: (u8, T)) -> bool {
        let expected = match model {
            Some(value) => (model::answer::DONE, value),
            None => (model::answer::MALFORMED, T::default()),
        };
        hand == expected && proved == expected
    }
    let rows = (values::row(value), library::value_row(value));
    let row = model::value_row(value);
    let number = if row.is_some() {
        model::answer::DONE
    } else {
        model::answer::MALFORMED
    };
    rows.0 == (number, row.unwrap_or([0; 24]))
        && rows.0 == rows.1
        && same(
            model::value_serial(value),
            values::serial(value),
            library::value_serial(value),
        )
        && same(
            model::value_account(value),
            values::account(value),
            library::value_account(value),
        )
        && same(
            model::value_counter(value),
            values::counter(value),
            library::value_counter(value),
        )
        && same(
            model::value_date(value),
            values::date(value),
            library::value_date(value),
        )
        && same(
            model::value_time(value),
            values::time(value),
            library::value_time(value),
        )
        && same(
            model::value_period(value),
            values::period(value),
            library::value_period(value),
        )
}

/// The same of an EQM meter's value, whatever its decimals are said to be.
fn eqm_equal(value: &[u8]) -> bool {
    (0..=255).all(|decimals| {
        let (number, read) = model::value(Kind::Eqm(decimals), value);
        let hand = values::eqm(decimals, value);
        hand == (number, read[0]) && library::value_eqm(decimals, value) == hand
    })
}

/// Every value with every byte at every place; every pair of digits at every place; every date.
fn values_equal() -> bool {
    let pairs = |value: &[u8]| {
        (0..value.len() - 1).all(|place| {
            (0..100).all(|number| {
                let mut value = value.to_vec();
                value[place..place + 2].copy_from_slice(&[b'0' + number / 10, b'0' + number % 10]);
                read_equal(&value)
            })
        })
    };
    let dates = (0..=99).all(|year| {
        (0..=13).all(|month| {
            (0..=32).all(|day| {
                let date = format!("{year:02}-{month:02}-{day:02}");
                read_equal(date.as_bytes()) && read_equal(format!("{date} 23:59").as_bytes())
            })
        })
    });
    let counters = (0..1_000_000_000).step_by(99_991).all(|wh| {
        let kwh = format!("{:06}.{:03}*kWh", wh / 1000, wh % 1000);
        read_equal(kwh.as_bytes())
    });
    let eqm = ["123456.78*kWh", "12345.678*kWh", "1234.5678*kWh"]
        .iter()
        .all(|value| all_like(value.as_bytes(), eqm_equal));
    let units = (0..100_000_000).step_by(99_991).all(|units| {
        (2..=4).all(|decimals| {
            let digits = format!("{units:08}");
            let (whole, part) = digits.split_at(8 - decimals);
            eqm_equal(format!("{whole}.{part}*kWh").as_bytes())
        })
    });
    VALUES
        .iter()
        .all(|value| all_like(value, read_equal) && pairs(value))
        && dates
        && counters
        && eqm
        && units
}

/// The median times of a command built.
fn builds(
    hand: impl Fn(&mut [u8]) -> (u8, usize),
    proved: impl Fn(&mut [u8]) -> (u8, usize),
) -> (f64, f64) {
    medians(
        &mut [0; COMMAND_ROOM],
        |out| {
            black_box(hand(black_box(out)));
        },
        |out| {
            black_box(proved(black_box(out)));
        },
    )
}

/// The median times of a value read.
fn reads<T>(
    value: &[u8],
    hand: impl Fn(&[u8]) -> (u8, T),
    proved: impl Fn(&[u8]) -> (u8, T),
) -> (f64, f64) {
    medians(
        &mut [],
        |_| {
            black_box(hand(black_box(value)));
        },
        |_| {
            black_box(proved(black_box(value)));
        },
    )
}

fn main() -> ExitCode {
    if let Some(status) = compared("builders", builders_equal() && values_equal()) {
        return status;
    }
    // What neither side may know beforehand.
    let (serial, password) = (black_box(SERIAL), black_box(PASSWORD));
    let (account, row, clock) = (black_box(ACCOUNT), black_box(ROW), black_box(CLOCK));
    let (speed, choice, edition) = (black_box(b'5'), black_box(b'1'), black_box(2));
    let (zone, table, decimals) = (black_box(3), black_box(17), black_box(3));
    let [a_serial, an_account, a_row, a_counter, a_date, a_time, a_period] = VALUES;
    show([
        ("sign-on", builds(fast::sign_on, library::sign_on)),
        ("closing sign-on", builds(fast::close, library::close)),
        (
            "sign-on to a serial",
            builds(
                |out| fast::sign_on_to(serial, out),
                |out| library::sign_on_to(serial, out),
            ),
        ),
        (
            "sign-on of the wired link",
            builds(
                |out| fast::sign_on_wired(serial, out),
                |out| library::sign_on_wired(serial, out),
            ),
        ),
        (
            "confirmation",
            builds(
                |out| fast::confirm(speed, choice, out),
                |out| library::confirm(speed, choice, out),
            ),
        ),
        (
            "password",
            builds(
                |out| fast::password(password, out),
                |out| library::password(password, out),
            ),
        ),
        (
            "read the total",
            builds(fast::read_total, library::read_total),
        ),
        (
            "read a zone",
            builds(
                |out| fast::read_zone(zone, out),
                |out| library::read_zone(zone, out),
            ),
        ),
        (
            "read the exported total",
            builds(fast::read_total_out, library::read_total_out),
        ),
        (
            "read an exported zone",
            builds(
                |out| fast::read_zone_out(zone, out),
                |out| library::read_zone_out(zone, out),
            ),
        ),
        (
            "read a table",
            builds(
                |out| fast::read_table(edition, table, out),
                |out| library::read_table(edition, table, out),
            ),
        ),
        (
            "write the clock",
            builds(
                |out| fast::write_clock(&clock, out),
                |out| write_clock(&clock, out),
            ),
        ),
        (
            "write the account",
            builds(
                |out| fast::write_account(account, out),
                |out| library::write_account(account, out),
            ),
        ),
        (
            "write a table",
            builds(
                |out| fast::write_table(edition, table, row, out),
                |out| library::write_table(edition, table, row, out),
            ),
        ),
        (
            "a serial's value",
            reads(a_serial, values::serial, library::value_serial),
        ),
        (
            "an account's",
            reads(an_account, values::account, library::value_account),
        ),
        ("a row's", reads(a_row, values::row, library::value_row)),
        (
            "a counter's",
            reads(a_counter, values::counter, library::value_counter),
        ),
        (
            "a counter's of an EQM meter",
            reads(
                EQM,
                |value| values::eqm(decimals, value),
                |value| library::value_eqm(decimals, value),
            ),
        ),
        ("a date's", reads(a_date, values::date, library::value_date)),
        ("a time's", reads(a_time, values::time, library::value_time)),
        (
            "a period's",
            reads(a_period, values::period, library::value_period),
        ),
    ])
}
