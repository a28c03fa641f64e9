//! The proved head, in the form of the trial. What it reads lies in guarded memory.

use crate::Head;
use ::model::head::{Command, Kind, Lookup, Step};
use dirgemist::head;
use std::cell::RefCell;
use trials::memory::Guarded;

/// Two places to read from, for a call that reads two texts.
pub struct Proved(RefCell<Guarded>, RefCell<Guarded>);

impl Default for Proved {
    fn default() -> Proved {
        let guarded = || RefCell::new(Guarded::new(4_096));
        Proved(guarded(), guarded())
    }
}

impl Proved {
    /// A call on a guarded copy of what it reads.
    fn on<T>(&self, bytes: &[u8], call: impl FnOnce(&[u8]) -> T) -> T {
        call(self.0.borrow_mut().copy(bytes))
    }
}

fn step_of(step: head::Step) -> Step {
    Step {
        answer: step.number,
        address_length: step.address_length,
        value_length: step.value_length,
        next: step.next,
        place: step.place,
    }
}

fn wide(characters: &[u8]) -> Vec<u32> {
    characters.iter().map(|&c| c.into()).collect()
}

impl Head for Proved {
    fn build(&self, command: &Command, out: &mut [u8]) -> (u8, usize) {
        match *command {
            Command::SignOn => head::sign_on(out),
            Command::Close => head::close(out),
            Command::SignOnTo(serial) => self.on(serial, |serial| head::sign_on_to(serial, out)),
            Command::SignOnWired(serial) => {
                self.on(serial, |serial| head::sign_on_wired(serial, out))
            }
            Command::Confirm(speed, choice) => head::confirm(speed, choice, out),
            Command::Enter => head::enter(out),
            Command::Password(word) => self.on(word, |word| head::password(word, out)),
            Command::ReadClock => head::read_clock(out),
            Command::ReadSerial => head::read_serial(out),
            Command::ReadAccount => head::read_account(out),
            Command::ReadTotal => head::read_total(out),
            Command::ReadZone(zone) => head::read_zone(zone, out),
            Command::ReadTotalOut => head::read_total_out(out),
            Command::ReadZoneOut(zone) => head::read_zone_out(zone, out),
            Command::ReadTable(edition, table) => head::read_table(edition, table, out),
            Command::WriteClock(c) => {
                head::write_clock(c.year, [c.month, c.day, c.hour, c.minute, c.second], out)
            }
            Command::WriteAccount(text) => self.on(text, |text| head::write_account(text, out)),
            Command::WriteTable(edition, table, row) => {
                self.on(row, |row| head::write_table(edition, table, row, out))
            }
            Command::SignOff => head::sign_off(out),
        }
    }

    fn strip(&self, reply: &[u8], out: &mut [u8]) -> (u8, usize, usize) {
        self.on(reply, |reply| head::strip(reply, out))
    }

    fn part(&self, stripped: &[u8]) -> (u8, usize, usize) {
        self.on(stripped, head::part)
    }

    fn next(&self, sets: &[u8], at: usize) -> Step {
        step_of(self.on(sets, |sets| head::next(sets, at)))
    }

    fn set_after(&self, sets: &[u8], count: usize) -> (usize, Step) {
        let (start, step) = self.on(sets, |sets| head::set_after(sets, count));
        (start, step_of(step))
    }

    fn find(&self, sets: &[u8], address: &[u8]) -> Lookup {
        let mut asked = self.1.borrow_mut();
        let found = self.on(sets, |sets| head::find(sets, asked.copy(address)));
        Lookup {
            answer: found.number,
            count: found.count,
            place: found.place,
            address_start: found.address_start,
            address_length: found.address_length,
            value_start: found.value_start,
            value_length: found.value_length,
        }
    }

    fn value(&self, kind: Kind, value: &[u8]) -> (u8, Vec<u32>) {
        self.on(value, |value| match kind {
            Kind::Serial => {
                let (number, serial) = head::value_serial(value);
                (number, wide(&serial))
            }
            Kind::Account => {
                let (number, account) = head::value_account(value);
                (number, wide(&account))
            }
            Kind::Row => {
                let (number, row) = head::value_row(value);
                (number, wide(&row))
            }
            Kind::Date => {
                let (number, (year, month, day)) = head::value_date(value);
                (number, vec![year.into(), month.into(), day.into()])
            }
            Kind::Time => {
                let (number, (hour, minute, second)) = head::value_time(value);
                (number, wide(&[hour, minute, second]))
            }
            Kind::Period => {
                let (number, (year, month, day, hour, minute)) = head::value_period(value);
                let rest = wide(&[month, day, hour, minute]);
                (number, [&[year.into()], &rest[..]].concat())
            }
            Kind::Counter => {
                let (number, wh) = head::value_counter(value);
                (number, vec![wh])
            }
            Kind::Eqm(decimals) => {
                let (number, units) = head::value_eqm(decimals, value);
                (number, vec![units])
            }
        })
    }
}
