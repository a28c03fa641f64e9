//! Scripts by chance, each line aimed at the state that the lines before it left: mostly what would
//! lead on, often what comes near to it, sometimes noise.

use crate::player::{wire, Player};
use crate::reached::Reached;
use crate::sweeps::new_line;
use model::bench::dump;
use model::meter::{Clock, Meter, ETX, LF, PLACES, ROOM, SOH, STX, WIRED};
use trials::chance::Chance;
use trials::program::Played;
use trials::words::*;

/// One script of about so many events.
pub fn script(name: String, seed: u64, events: u64, reached: &mut Reached) -> Played {
    let mut aim = Aim {
        chance: Chance::new(seed),
        player: Player::new(name, reached),
    };
    while aim.player.events() < events {
        aim.step();
    }
    aim.player.dump();
    aim.player.done()
}

struct Aim<'a> {
    chance: Chance,
    player: Player<'a>,
}

impl Aim<'_> {
    fn step(&mut self) {
        if !self.player.meter().well_formed() {
            return self.good_state();
        }
        match self
            .chance
            .weighed(&[800, 12, 12, 12, 12, 30, 30, 10, 12, 25, 25, 10, 60])
        {
            0 => self.dialogue(),
            1 => self.factory(),
            2 => self.good_state(),
            3 => self.odd_state(),
            4 => self.broken_state(),
            5 => self.ticks(),
            6 => self.pulses(),
            7 => self.room(),
            8 => self.no_command(),
            9 => self.noise(),
            10 => self.interruption(),
            11 => self.too_long(),
            _ => self.months(),
        }
    }

    /// What a head might say in this mode.
    fn dialogue(&mut self) {
        let meter = self.player.meter().clone();
        let message = match meter.mode {
            0 => self.line_to(&meter),
            1 => self.confirmation(),
            2 => self.password_to(&meter),
            _ => self.command_to(&meter),
        };
        self.deliver(message);
    }

    fn line_to(&mut self, meter: &Meter) -> Vec<u8> {
        let chance = &mut self.chance;
        if meter.link == WIRED && chance.percent(70) {
            return match chance.below(8) {
                0 => wired_line(b'A', b"0000000000"),
                1 => wired_line(b'A', &digits::<10>(chance)),
                2 => wired_line(b'g', &meter.serial),
                3 => sign_on(&meter.serial),
                _ => wired_line(b'A', &meter.serial),
            };
        }
        match chance.weighed(&[30, 25, 20, 10, 5, 5, 5, 20, 4]) {
            0 => b"/?!\r\n".to_vec(),
            1 => sign_on(&meter.serial),
            2 => sign_on(b"0000000000"),
            3 => {
                let mut other = meter.serial;
                other[chance.below(10)] = chance.one_of(b"0123456789 a");
                sign_on(&other)
            }
            4 => {
                let near: [&[u8]; 8] = [
                    b"/?!\n",
                    b"/?!\r",
                    b"/?\r\n",
                    b"/!\r\n",
                    b"?!\r\n",
                    b"/??!\r\n",
                    b"/?!\r\r\n",
                    b"/?0000000000!\r\n",
                ];
                chance.pick(&near).to_vec()
            }
            5 => {
                // A line given up half way, and the right one at once.
                let start = sign_on(&meter.serial);
                let kept = chance.below(start.len() - 1);
                [&start[..kept], b"/?!\r\n"].concat()
            }
            7 => CLOSING.to_vec(),
            8 => chance.pick(&NEARLY_CLOSING).to_vec(),
            _ => {
                let length = chance.between(29, 34);
                let mut line = vec![b'/'];
                line.extend((2..length).map(|_| chance.between(0x20, 0x2E) as u8));
                line.push(chance.one_of(b"\n\n\n/!\r"));
                line
            }
        }
    }

    fn confirmation(&mut self) -> Vec<u8> {
        let chance = &mut self.chance;
        let speed = chance.one_of(b"05");
        match chance.weighed(&[60, 6, 6, 10, 4, 10, 12]) {
            0 => confirmation_at(speed, b'1'),
            1 => confirmation_at(speed, b'0'),
            2 => confirmation_at(speed, b'7'),
            3 => confirmation_at(speed, chance.byte() & 0x7F),
            4 => confirmation_at(chance.between(b'1'.into(), b'9'.into()) as u8, b'1'),
            6 => confirmation_at(speed, b'6'),
            _ => {
                let mut message = confirmation_at(speed, chance.one_of(b"0167"));
                message[chance.below(6)] = chance.one_of(b"\x06\x15\x01\x030156789\r\n/\0");
                message
            }
        }
    }

    fn password_to(&mut self, meter: &Meter) -> Vec<u8> {
        let chance = &mut self.chance;
        match chance.weighed(&[20, 50, 18, 14, 4, 4, 4]) {
            0 => password(b"()"),
            1 => password(&bracketed(&meter.password)),
            2 => password(&bracketed(&wrong_password(chance, &meter.password))),
            3 => password(&malformed_password(chance, &meter.password)),
            4 => good_bye(),
            5 => read(&good_read(chance)),
            _ => write(&good_write(chance)),
        }
    }

    fn command_to(&mut self, meter: &Meter) -> Vec<u8> {
        let chance = &mut self.chance;
        // In programming mode mostly writes; read-only refuses them all.
        let (good_writes, bad_writes) = if meter.mode == 4 { (35, 20) } else { (4, 3) };
        match chance.weighed(&[25, 14, good_writes, bad_writes, 8, 3, 2, 2, 4]) {
            0 => read(&good_read(chance)),
            1 => read(&bad_read(chance)),
            2 => write(&good_write(chance)),
            3 => write(&bad_write(chance)),
            4 => {
                let wanted = chance.one_of(&[SOH, STX, ETX, LF, b'\r', 0x06]);
                write_with_bcc(chance, wanted).unwrap_or_else(good_bye)
            }
            5 => good_bye(),
            6 => password(b"()"),
            7 => password(&bracketed(&meter.password)),
            _ => {
                let code = [0; 2].map(|_| chance.one_of(b"BPRWbprw0123 ~"));
                let data = printables(chance, 12);
                let data = chance.percent(70).then_some(&data[..]);
                frame(&code, data)
            }
        }
    }

    /// Frames just below, at and above the limit.
    fn too_long(&mut self) {
        let chance = &mut self.chance;
        let length = chance.between(62, 66);
        let code = chance.one_of(&[b"W1", b"R1", b"P1", b"B0", b"xx"]);
        let mut message = long_frame(chance, code, length);
        if chance.percent(30) {
            let wanted = chance.one_of(&[SOH, ETX, LF]);
            message = long_frame_with_bcc(chance, length, wanted);
        }
        if chance.percent(30) {
            // ETX or SOH somewhere near the end.
            let place = chance.between(55, message.len() - 1);
            message[place] = chance.one_of(&[SOH, STX, ETX]);
        }
        self.deliver(message);
    }

    /// Sends a message, whole or hurt, at once or with other things between.
    fn deliver(&mut self, message: Vec<u8>) {
        let bytes = if self.chance.percent(70) {
            wire(&message)
        } else {
            self.hurt(message)
        };
        let chance = &mut self.chance;
        match chance.weighed(&[70, 14, 6, 4, 10]) {
            0 => self.player.bytes(&bytes),
            4 => {
                // Whole, as a gateway has it; where it is no frame, it comes again.
                let room = chance.one_of(&["", "", "", " 4095", " 4096", " 8192"]);
                self.player.frame(&bytes, room);
                if self.chance.percent(50) {
                    self.player.bytes(&bytes);
                }
            }
            1 => {
                let cut = chance.below(bytes.len() + 1);
                self.player.bytes(&bytes[..cut]);
                self.between();
                self.player.bytes(&bytes[cut..]);
            }
            2 => {
                for byte in bytes {
                    self.player.byte(byte);
                    if self.chance.percent(10) {
                        self.player.dump();
                    }
                }
            }
            _ => {
                // A character refused for want of room is not taken; it comes again.
                for byte in bytes {
                    if self.chance.percent(10) {
                        let room = self.chance.one_of(&[0, 1, 2_671, ROOM - 1]);
                        self.player.line(format!("byte {byte:02x} {room}"));
                    }
                    let room = self.chance.one_of(&[ROOM, ROOM + 1, 5_000, 8_192]);
                    self.player.line(format!("byte {byte:02x} {room}"));
                }
            }
        }
        if self.chance.percent(35) {
            self.player.dump();
        }
    }

    /// Something that comes between two characters and should not touch the receiver, or should.
    fn between(&mut self) {
        match self.chance.weighed(&[30, 20, 20, 10, 4, 3, 10]) {
            0 => self.player.dump(),
            1 => self.player.line("tick"),
            2 => self.pulses(),
            3 => self.no_command(),
            4 => self.player.line("silence"),
            5 => self.player.line("up"),
            _ => self.player.line("silence 4095"),
        }
    }

    /// Hurts a message in one place or a few; gives wire bytes.
    fn hurt(&mut self, mut message: Vec<u8>) -> Vec<u8> {
        let chance = &mut self.chance;
        let place = chance.below(message.len());
        let last = message.len() - 1;
        match chance.below(12) {
            0 => drop(message.remove(place)),
            1 => message.insert(place, chance.byte() & 0x7F),
            2 => message[place] = chance.byte() & 0x7F,
            3 => message[place] = chance.one_of(b"\x01\x02\x03\x06\x15\n\r/()\0\x7F"),
            4 => message.truncate(place),
            5 => message[last] = chance.one_of(&[SOH, ETX, STX, 0, message[last] ^ 1]),
            6 => {
                // The start of it again, and then the whole.
                let whole = message.clone();
                message.truncate(place);
                message.extend(whole);
            }
            7 if message[0] == SOH && last > 2 => {
                // Another character that the BCC agrees to.
                let place = chance.between(1, last - 2);
                let new = chance.one_of(b"\0\x02\x1F\x7F 0~()\n\r;");
                message[last] ^= message[place] ^ new;
                message[place] = new;
            }
            8 => message.swap(place, last),
            _ => {
                let mut bytes = wire(&message);
                for _ in 0..chance.one_of(&[1, 1, 1, 2, 3]) {
                    let place = chance.below(bytes.len());
                    bytes[place] ^= 1 << chance.below(8);
                }
                if chance.percent(35) {
                    // A restart forgets the damage.
                    bytes.extend(wire(&message));
                }
                return bytes;
            }
        }
        wire(&message)
    }

    fn factory(&mut self) {
        let chance = &mut self.chance;
        let mut facts = state(chance, 0);
        if chance.percent(40) {
            match chance.below(4) {
                0 => facts.serial[chance.below(10)] = chance.byte(),
                1 => facts.account[chance.below(10)] = chance.byte(),
                2 => facts.password[chance.below(8)] = chance.byte(),
                _ => facts.clock = any_clock(chance),
            }
        }
        let Meter {
            serial,
            account,
            password,
            clock,
            ..
        } = facts;
        // Edition, link and decimals, or what stands for them where they are left out.
        let kind = match chance.below(3) {
            0 => chance
                .one_of(&[
                    "", " 1", " 1 1", " 1 2", " 2", " 2 2", " 1 3", " 1 0 0", " 0 2", " 3",
                    " 1 2 1", " 3 2 5", " 1 2 0 0", " 1 256", " 1 2 x", " 1 2 256", " 2 3 5",
                ])
                .to_string(),
            _ => {
                let (edition, link) = (chance.one_of(&[1, 2]), chance.one_of(&[1, 2]));
                let decimals = chance.one_of(&[0, 2, 2, 3, 3, 4, 4, 1, 5]);
                format!(" {edition} {link} {decimals}")
            }
        };
        self.player
            .line(new_line(&serial, &account, &password, clock) + &kind);
        self.player.dump();
    }

    fn good_state(&mut self) {
        let mode = self.chance.weighed(&[1, 1, 2, 3, 5]) as u8;
        let meter = state(&mut self.chance, mode);
        let meter = on_some_link(&mut self.chance, meter);
        self.player.set(&meter);
    }

    /// A well-formed state that no history leads to.
    fn odd_state(&mut self) {
        let chance = &mut self.chance;
        let mode = chance.below(5) as u8;
        let (first, most) = match mode {
            0 => (b'/', 31),
            1 => (chance.byte() & 0x7F, 5),
            _ => (SOH, PLACES),
        };
        let count = match chance.below(3) {
            0 => most,
            1 => chance.between(1, most),
            _ => chance.between(1, 5),
        };
        let mut held = vec![first];
        held.resize_with(count, || match chance.below(4) {
            0 => chance.one_of(&[SOH, STX, ETX, LF, b'/', 0]),
            1 => chance.byte() & 0x7F,
            _ => chance.one_of(b"BPRW01(T)\x02"),
        });
        if chance.percent(40) {
            held[count - 1] = chance.one_of(&[ETX, ETX, LF, SOH, b'/', b'\r']);
            held[0] = first;
        }
        let mark = chance.percent(40);
        let mut meter = holding(state(chance, mode), &held, mark);
        if mark {
            meter.place = chance.below(count) as u8;
        }
        // The BCC that would fit, often.
        let fitting = held[1..].iter().fold(0, |sum, c| sum ^ c);
        self.player.set(&meter);
        match self.chance.weighed(&[40, 20, 20, 20]) {
            0 => self.player.send(&[fitting]),
            1 => {
                let character = self.chance.one_of(&[SOH, ETX, LF, b'/', 0, b'0']);
                self.player.send(&[character]);
            }
            2 => {
                let byte = self.chance.byte();
                self.player.byte(byte);
            }
            _ => self.noise(),
        }
        self.player.dump();
    }

    fn broken_state(&mut self) {
        let chance = &mut self.chance;
        let mode = chance.below(5) as u8;
        let mut meter = state(chance, mode);
        for _ in 0..chance.one_of(&[1, 1, 1, 2, 4]) {
            match chance.below(25) {
                20 => meter.decimals = chance.one_of(&[0, 1, 2, 3, 4, 5, 255]),
                21 => meter.exported[chance.below(4)] = chance.one_of(&ENDS),
                22 => {
                    meter.exported[chance.below(4)] = chance.one_of(&ENDS);
                    meter = totalled(meter);
                }
                23 => meter.exported_total = meter.exported_total.wrapping_add(1),
                24 => {
                    meter.counters[chance.below(4)] = chance.one_of(&ENDS);
                    meter = totalled(meter);
                }
                0 => meter.mode = chance.between(5, 255) as u8,
                1 => meter.count = chance.byte(),
                2 => meter.held[chance.below(PLACES)] = chance.byte(),
                3 => meter.mark = chance.between(1, 255) as u8,
                4 => meter.serial[chance.below(10)] = chance.byte(),
                5 => meter.account[chance.below(10)] = chance.byte(),
                6 => meter.password[chance.below(8)] = chance.byte(),
                7 => meter.attempts = chance.between(3, 255) as u8,
                8 => meter.clock = any_clock(chance),
                9 => meter.counters[chance.below(4)] = chance.bits() as u32,
                10 => meter.total = meter.total.wrapping_add(1 + chance.bits() as u32 % 2),
                11 => meter.speed = chance.one_of(&[1, 2, 3, 4, 5, 5, 6, 255]),
                12 => meter.place = chance.one_of(&[1, 2, 62, 63, 255]),
                13 if meter.mode >= 2 => {
                    meter = holding(meter, b"\x01R\0\x02", true);
                    meter.place = chance.one_of(&[2, 4, 4, 5, 255]);
                }
                14..=16 => break_periods(chance, &mut meter),
                17 => meter.edition = chance.one_of(&[0, 1, 2, 3, 255]),
                18 => meter.tables[24] = [chance.one_of(b"\x001"); 24],
                _ => meter.tables[chance.below(25)][chance.below(24)] = chance.byte(),
            }
        }
        self.player.set(&meter);
        for _ in 0..self.chance.between(1, 6) {
            match self.chance.below(7) {
                0 => self.noise(),
                1 => self.player.line("silence"),
                2 => self.player.line("tick"),
                3 => self.player.line("up"),
                4 => self.room(),
                5 => self.no_command(),
                _ => self.pulses(),
            }
        }
        self.player.dump();
    }

    /// Seconds around an end of some kind, set by a write where the mode allows it.
    fn ticks(&mut self) {
        let clock = clock(&mut self.chance);
        if self.chance.percent(60) {
            let mut meter = self.player.meter().clone();
            if meter.mode == 4 {
                self.player.send(&write(&clock_data(clock)));
            } else {
                meter.clock = clock;
                self.player.set(&meter);
            }
        }
        for _ in 0..self.chance.between(1, 4) {
            self.player.line("tick");
        }
        if self.chance.percent(50) {
            self.player.dump();
        }
    }

    /// Midnights, those that close a month and those that do not; what is kept is asked for, often.
    fn months(&mut self) {
        for _ in 0..self.chance.between(1, 4) {
            let around = midnight(&mut self.chance);
            let mut meter = self.player.meter().clone();
            if meter.mode == 4 && self.chance.percent(50) {
                self.player.send(&write(&clock_data(around)));
            } else {
                meter.clock = around;
                if self.chance.percent(20) {
                    close_some(&mut self.chance, &mut meter);
                }
                self.player.set(&meter);
            }
            for _ in 0..self.chance.between(1, 4) {
                self.player.line("tick");
            }
            if self.chance.percent(50) {
                self.pulses();
            }
        }
        if self.chance.percent(30) {
            let mut meter = self.player.meter().clone();
            meter = holding(meter, &[], false);
            (meter.mode, meter.speed) = (0, 0);
            self.player.set(&meter);
            let line = self.chance.pick(&[CLOSING, CLOSING, b"/?!\r\n"]);
            self.player.send(line);
            let speed = self.chance.one_of(b"05");
            self.player.send(&confirmation_at(speed, b'6'));
        }
        if self.chance.percent(50) {
            self.player.dump();
        }
    }

    fn pulses(&mut self) {
        for _ in 0..self.chance.between(1, 3) {
            let out = self.chance.percent(50);
            let units = match self.chance.weighed(&[10, 15, 8, 3, 2, 40, 5]) {
                0 => 0,
                1 => 1_000_000,
                2 => 1_000_001,
                3 => u32::MAX,
                4 => self.chance.bits() as u32,
                5 => self.chance.below(1_000_001) as u32,
                _ => {
                    // Just up to the roll-over of some zone, when it is near.
                    let meter = self.player.meter();
                    let counters = if out { meter.exported } else { meter.counters };
                    let end = meter.counter_end();
                    let counter = self.chance.one_of(&counters);
                    end.saturating_sub(counter).min(1_000_000)
                }
            };
            let way = if out { " out" } else { "" };
            self.player.line(format!("pulse {units}{way}"));
        }
    }

    fn room(&mut self) {
        let room = match self.chance.below(3) {
            0 => self.chance.below(8_193),
            _ => self.chance.one_of(&[0, 1, ROOM - 1, ROOM, ROOM + 1, 8_192]),
        };
        if self.chance.percent(50) {
            self.player.line(format!("silence {room}"));
        } else {
            let byte = self.chance.byte();
            self.player.line(format!("byte {byte:02x} {room}"));
        }
        if self.chance.percent(30) {
            self.player.dump();
        }
        let room = match self.chance.below(3) {
            0 => self.chance.below(8_193),
            _ => self.chance.one_of(&[0, 684, 685, 686]),
        };
        self.player.line(format!("card {room}"));
    }

    /// A good line spoiled by one byte; now and then it stays a command.
    fn no_command(&mut self) {
        let meter = self.player.meter();
        let mut line = match self.chance.below(11) {
            10 => "pulse 1000 out".into(),
            0 => "dump".into(),
            8 => "card 685".into(),
            9 => "frame 8142300371 4096".into(),
            1 => "tick".into(),
            2 => "bytes 81af8d0a".into(),
            3 => "byte 81 4096".into(),
            4 => "silence 8192".into(),
            5 => "pulse 1000".into(),
            6 => new_line(&meter.serial, &meter.account, &meter.password, Clock::FIRST),
            _ => format!("set {}", dump(meter)),
        }
        .into_bytes();
        let place = self.chance.below(line.len());
        match self.chance.below(4) {
            0 => drop(line.remove(place)),
            1 => line.insert(place, self.chance.one_of(b" 0123459-+afAFxyz\t\r")),
            2 => line[place] = self.chance.one_of(b" 0123459-+afAFxyz\t\r"),
            _ => {
                let byte = self.chance.byte();
                line[place] = if byte == b'\n' { b' ' } else { byte };
            }
        }
        self.player.line(line);
    }

    /// Bytes without sense, some of them with a meaning.
    fn noise(&mut self) {
        let length = self.chance.one_of(&[1, 2, 3, 5, 8, 20, 70]);
        let bytes: Vec<u8> = (0..length)
            .map(|_| match self.chance.below(3) {
                0 => self.chance.byte(),
                1 => wire(&[self.chance.byte() & 0x7F])[0],
                _ => wire(&[self.chance.one_of(b"\x01\x01\x02\x03\x03\x06\n\r//?!B0q")])[0],
            })
            .collect();
        self.player.bytes(&bytes);
        if self.chance.percent(30) {
            self.player.dump();
        }
    }

    fn interruption(&mut self) {
        // Something half received first, most of the time.
        if self.chance.percent(60) {
            let start: &[u8] = match self.player.meter().mode {
                0 => b"/?12",
                1 => b"\x0605",
                _ => b"\x01R1\x02",
            };
            self.player.send(start);
        }
        let line = self
            .chance
            .pick(&["silence", "silence", "silence 4095", "up"]);
        self.player.line(line);
        if self.chance.percent(50) {
            self.player.dump();
        }
    }
}

/// A clock near or beyond its ranges.
fn any_clock(chance: &mut Chance) -> Clock {
    Clock {
        year: chance.one_of(&[0, 1999, 2000, 2001, 2099, 2100, 65_535]),
        month: chance.one_of(&[0, 1, 2, 4, 12, 13, 255]),
        day: chance.one_of(&[0, 1, 28, 29, 30, 31, 32, 255]),
        hour: chance.one_of(&[0, 23, 24, 255]),
        minute: chance.one_of(&[0, 59, 60, 255]),
        second: chance.one_of(&[0, 59, 60, 255]),
    }
}
