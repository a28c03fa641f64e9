//! The writes that a bench's script tells a meter, from the script alone: standard input to
//! standard output, a line for each. `dump` adds a line with account and tables as they then are.

use model::bench::{parse, put_hex, Command};
use model::meter::Meter;
use std::io::{self, BufRead, BufWriter, Write as _};
use std::process::ExitCode;
use trials::history::{History, Mistake, Write};

fn main() -> ExitCode {
    match tell() {
        Ok(()) => ExitCode::SUCCESS,
        Err(complaint) => {
            eprintln!("told: {complaint}");
            ExitCode::FAILURE
        }
    }
}

fn tell() -> Result<(), String> {
    let mut history = History::new(Meter::blank(), Mistake::None);
    let mut shown = 0;
    let mut out = BufWriter::new(io::stdout().lock());
    for (number, line) in io::stdin().lock().split(b'\n').enumerate() {
        let line = line.map_err(|error| error.to_string())?;
        let mut dumps = false;
        match parse(&line) {
            Some(Command::New {
                serial,
                account,
                password,
                clock,
                kind,
            }) => {
                let (_, fresh) = Meter::new(serial, account, password, clock, kind);
                history = History::new(fresh, Mistake::None);
                shown = 0;
            }
            Some(Command::Play(events)) => {
                for event in events {
                    history.event(event);
                }
            }
            Some(Command::Dump) => dumps = true,
            // A line that is no command, and a card, leave a meter as it was.
            None | Some(Command::Card { .. }) => {}
            Some(Command::Set(_) | Command::Frame { .. }) => {
                return Err(format!("line {} is no event of a history", number + 1));
            }
        }
        let mut text = String::new();
        for write in &history.told[shown..] {
            put_write(&mut text, write);
        }
        shown = history.told.len();
        if dumps {
            put_hex(&mut text, &history.book.account);
            text.push(' ');
            put_hex(&mut text, history.book.tables.as_flattened());
            text.push('\n');
        }
        out.write_all(text.as_bytes())
            .map_err(|error| error.to_string())?;
    }
    out.flush().map_err(|error| error.to_string())
}

fn put_write(text: &mut String, write: &Write) {
    match write {
        Write::Clock(c) => {
            let (y, m, d) = (c.year, c.month, c.day);
            *text += &format!("T {y} {m} {d} {} {} {}", c.hour, c.minute, c.second);
        }
        Write::Account(account) => {
            *text += "K ";
            put_hex(text, account);
        }
        Write::Row(table, row) => {
            *text += &format!("Z {table} ");
            put_hex(text, row);
        }
    }
    text.push('\n');
}
