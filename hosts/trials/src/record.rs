//! The model's meter as the record that the library takes.

use dirgemist::meter::{
    Archive, Clock, Counters, Date, Facts, Kind, Meter, Period, Receiver, Registers, Stamp, Time,
};

pub fn clock_of(clock: &model::meter::Clock) -> Clock {
    Clock {
        date: Date {
            year: clock.year,
            month: clock.month,
            day: clock.day,
        },
        time: Time {
            hour: clock.hour,
            minute: clock.minute,
            second: clock.second,
        },
    }
}

fn period_of(period: &model::meter::Period) -> Period {
    Period {
        closed: Stamp {
            date: Date {
                year: period.year,
                month: period.month,
                day: period.day,
            },
            hour: period.hour,
            minute: period.minute,
        },
        zones: period.counters,
        exported: period.exported,
    }
}

/// The record has a place more, which holds nothing.
fn places(held: &[u8; 63]) -> [u8; 64] {
    std::array::from_fn(|place| held.get(place).copied().unwrap_or(0))
}

pub fn record_of(meter: &model::meter::Meter) -> Meter {
    Meter {
        mode: meter.mode,
        attempts: meter.attempts,
        speed: meter.speed,
        receiver: Receiver {
            count: meter.count,
            held: places(&meter.held),
            mark: meter.mark,
            place: meter.place,
        },
        registers: Registers {
            facts: Facts {
                serial: meter.serial,
                password: meter.password,
                kind: Kind {
                    edition: meter.edition,
                    link: meter.link,
                    decimals: meter.decimals,
                },
            },
            account: meter.account,
            clock: clock_of(&meter.clock),
            counters: Counters {
                zones: meter.counters,
                total: meter.total,
            },
            exported: Counters {
                zones: meter.exported,
                total: meter.exported_total,
            },
            tables: meter.tables,
            archive: Archive {
                periods: meter.periods.each_ref().map(period_of),
                count: meter.closed,
            },
        },
    }
}
