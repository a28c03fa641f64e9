//! What heads and meters say over the link, good and nearly good, by chance.

use crate::chance::Chance;
use model::head::{Clock, Period, Registers};

pub const DIGITS: &[u8] = b"0123456789";
pub const ZONES: &[u8] = b"1234";
pub const ACCOUNT: &[u8] = b"ABCDEFGHIJKLMNOPQRSTUVWXYZabcdefghijklmnopqrstuvwxyz0123456789 _";
pub const ADDRESS: &[u8] = b"ABCXYZabcxyz0123456789.*";
pub const VALUE: &[u8] = b"0123456789 ABCXYZabcxyz.,:;-*_#$%&'+<=>?@[\\]^`{|}~\"";
pub const EDGES: &[u8] =
    b"\x00\x01\x02\x03\x06\n\r\x15\x1F !()*+,-./0123459:;@AZ[_`az{}~\x7F\x80\x81\x82\x83\xA8\xB1\xFF";

impl Chance {
    pub fn text(&mut self, from: &[u8], length: usize) -> Vec<u8> {
        (0..length).map(|_| self.one_of(from)).collect()
    }

    pub fn texts<const N: usize>(&mut self, from: &[u8]) -> [u8; N] {
        std::array::from_fn(|_| self.one_of(from))
    }

    /// A byte that is near the edge of some rule, or any.
    pub fn odd_byte(&mut self) -> u8 {
        if self.one_in(3) {
            self.byte()
        } else {
            self.one_of(EDGES)
        }
    }

    /// A clock that is mostly real.
    pub fn clock(&mut self) -> Clock {
        let spoilt = |me: &mut Chance, good: usize| {
            if me.one_in(12) {
                me.byte()
            } else {
                good as u8
            }
        };
        let (month, day) = (self.between(1, 12), self.between(1, 31));
        let (hour, minute, second) = (self.below(24), self.below(60), self.below(60));
        Clock {
            year: match self.below(16) {
                0 => self.bits() as u16,
                1 => self.between(1990, 2110) as u16,
                _ => self.between(2000, 2099) as u16,
            },
            month: spoilt(self, month),
            day: spoilt(self, day),
            hour: spoilt(self, hour),
            minute: spoilt(self, minute),
            second: spoilt(self, second),
        }
    }

    pub fn real_clock(&mut self) -> Clock {
        loop {
            let clock = self.clock();
            if clock.real() {
                return clock;
            }
        }
    }

    pub fn counter(&mut self) -> u32 {
        self.counter_of(0)
    }

    /// A counter of a family: of up to nine digits, or up to eight.
    pub fn counter_of(&mut self, decimals: u8) -> u32 {
        let digits = if decimals == 0 { 9 } else { 8 };
        let size = 10usize.pow(self.between(0, digits) as u32);
        match self.below(8) {
            0 => 0,
            1 => 10_u32.pow(digits as u32) - 1,
            _ => self.below(size) as u32,
        }
    }

    /// Four counters of what came in, and four of what went out.
    fn counters_of(&mut self, decimals: u8) -> [[u32; 4]; 2] {
        let both = [(); 2].map(|()| std::array::from_fn(|_| self.counter_of(decimals)));
        match decimals {
            0 => [both[0], [0; 4]],
            _ => both,
        }
    }

    /// Registers, some with closed periods.
    pub fn registers(&mut self) -> Registers {
        let any = self.below(13);
        let count = self.one_of(&[0, 0, 0, 1, any, 12]);
        self.registers_closed(count)
    }

    /// Registers of either edition and any family with so many closed periods.
    pub fn registers_closed(&mut self, count: usize) -> Registers {
        let decimals = self.one_of(&[0, 0, 0, 2, 3, 4]);
        self.registers_of(decimals, count)
    }

    /// The same of one family.
    pub fn registers_of(&mut self, decimals: u8, count: usize) -> Registers {
        let rows = self.one_of(&[24, 25]);
        let [counters, exported] = self.counters_of(decimals);
        Registers {
            serial: self.texts(DIGITS),
            account: self.texts(ACCOUNT),
            clock: self.real_clock(),
            decimals,
            counters,
            exported,
            tables: (0..rows).map(|_| self.texts(ZONES)).collect(),
            periods: (0..count).map(|_| self.period(decimals)).collect(),
        }
    }

    fn period(&mut self, decimals: u8) -> Period {
        let [counters, exported] = self.counters_of(decimals);
        Period {
            closed: Clock {
                second: 0,
                ..self.real_clock()
            },
            counters,
            exported,
        }
    }

    /// Changes, drops, doubles or puts in one byte at a place of chance.
    pub fn hurt(&mut self, text: &mut Vec<u8>) {
        if text.is_empty() {
            text.push(self.odd_byte());
            return;
        }
        let place = self.below(text.len());
        match self.below(8) {
            0 => drop(text.remove(place)),
            1 => text.insert(place, text[place]),
            2 => text.insert(place, self.odd_byte()),
            3 => text.truncate(place),
            _ => text[place] = self.odd_byte(),
        }
    }
}
