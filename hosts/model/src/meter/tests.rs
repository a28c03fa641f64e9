//! Document 01's facts, as far as they concern the meter, and its traps.

use super::*;

const ALL_ONES: &str = "111111111111111111111111";

/// A meter with facts of its own in some mode with an empty receiver.
fn meter_in(mode: u8) -> Meter {
    let clock = Clock {
        year: 2024,
        month: 2,
        day: 29,
        hour: 8,
        minute: 5,
        second: 9,
    };
    let (number, meter) = Meter::new(
        *b"1234567890",
        *b"Kiln_7 old",
        *b"20304050",
        clock,
        [1, 1, 0],
    );
    assert_eq!(number, 1);
    let speed = if mode < PASSWORD { 0 } else { 5 };
    Meter {
        mode,
        speed,
        ..meter
    }
}

/// Sends wire bytes; gives the last answer and its reply, stripped of parity.
fn wire(meter: &mut Meter, bytes: &[u8]) -> (u8, u8, Vec<u8>) {
    let mut last = None;
    for &byte in bytes {
        let mut buffer = [0xAA; ROOM];
        let answer = meter.character(byte, &mut buffer);
        let (reply, kept) = buffer.split_at(answer.length);
        assert!(kept.iter().all(|&byte| byte == 0xAA));
        let reply = reply.iter().map(|&byte| data_bits(byte).unwrap());
        last = Some((answer.number, answer.speed, reply.collect()));
    }
    last.unwrap()
}

fn send(meter: &mut Meter, characters: &[u8]) -> (u8, u8, Vec<u8>) {
    let bytes: Vec<u8> = characters.iter().map(|&c| with_parity(c)).collect();
    wire(meter, &bytes)
}

/// SOH, command, STX, data, ETX and the BCC given.
fn frame(command: &str, data: &str, check: u8) -> Vec<u8> {
    let mut frame = format!("\x01{command}\x02{data}\x03").into_bytes();
    frame.push(check);
    frame
}

/// The same with its true BCC.
fn true_frame(command: &str, data: &str) -> Vec<u8> {
    let mut frame = frame(command, data, 0);
    let end = frame.len() - 1;
    frame[end] = bcc(&frame[1..end]);
    frame
}

const DONE: (u8, u8, &[u8]) = (1, 5, &[ACK]);

fn refused(number: u8) -> (u8, u8, Vec<u8>) {
    (number, 5, vec![NAK])
}

fn is_done(got: (u8, u8, Vec<u8>)) -> bool {
    (got.0, got.1, &got.2[..]) == DONE
}

#[test]
fn parity_is_even_for_every_byte() {
    for byte in 0..=255_u8 {
        let good = byte.count_ones() % 2 == 0;
        assert_eq!(data_bits(byte), good.then_some(byte & 0x7F));
        if byte < 128 {
            assert_eq!(data_bits(with_parity(byte)), Some(byte));
        }
    }
}

#[test]
fn bcc_of_b0_is_71() {
    for mode in [PASSWORD, READ_ONLY, PROGRAMMING] {
        let mut meter = meter_in(mode);
        assert!(is_done(send(&mut meter, b"\x01B0\x03\x71")));
        assert_eq!(meter, meter_in(LISTENING));
    }
}

#[test]
fn bcc_of_p0_is_60() {
    let mut meter = meter_in(CONFIRMATION);
    let got = send(&mut meter, b"\x06051\r\n");
    assert_eq!(got, (1, 5, b"\x01P0\x02(0000)\x03\x60".to_vec()));
    assert_eq!(meter, meter_in(PASSWORD));
}

#[test]
fn bcc_of_empty_p1_is_61_and_e1_on_the_wire() {
    let mut meter = meter_in(PASSWORD);
    send(&mut meter, b"\x01P1\x02()\x03");
    assert!(is_done(wire(&mut meter, &[0xE1])));
    assert_eq!(meter, meter_in(READ_ONLY));
}

#[test]
fn all_ones_for_tables_01_04_and_06() {
    for (table, check) in [(1, 0x06), (4, 0x03), (6, 0x01)] {
        let mut meter = meter_in(PROGRAMMING);
        meter.tables[table - 1] = [b'2'; 24];
        let data = format!("Z({table:02};{ALL_ONES})");
        assert!(is_done(send(&mut meter, &frame("W1", &data, check))));
        assert_eq!(meter, meter_in(PROGRAMMING));
    }
}

#[test]
fn fifteen_hundred_wh_in_zone_one() {
    let mut meter = meter_in(READ_ONLY);
    meter.counters[0] = 1_500;
    meter.total = 1_500;
    let got = send(&mut meter, &true_frame("R1", "E1()"));
    let block = b"\x0215.8.1(000001.500*kWh)\r\n\x03\x6C".to_vec();
    assert_eq!(got, (1, 5, block));
}

#[test]
fn first_day_of_2000_is_a_saturday() {
    let mut meter = Meter::blank();
    meter.tables[12][0] = b'3';
    assert_eq!(meter.pulse(Way::In, 7).number, 1);
    assert_eq!(meter.counters, [0, 0, 7, 0]);
}

#[test]
fn counter_rolls_over() {
    let mut meter = Meter::blank();
    meter.counters[0] = 999_999_999;
    meter.total = 999_999_999;
    assert_eq!(meter.pulse(Way::In, 1).number, 1);
    assert_eq!(meter, Meter::blank());
}

#[test]
fn another_total_is_malformed() {
    for total in [0, 430, 432, 1_000_000_431, u32::MAX] {
        let mut meter = Meter::blank();
        meter.counters = [999_999_999, 2, 30, 400];
        meter.total = total;
        let before = meter.clone();
        assert_eq!((meter.pulse(Way::In, 1).number, meter), (14, before));
    }
}

#[test]
fn leap_day_of_2000_but_not_of_2001() {
    let mut meter = meter_in(PROGRAMMING);
    let told = true_frame("W1", "T(29-02-2000;12:34:56)");
    assert!(is_done(send(&mut meter, &told)));
    let clock = Clock {
        year: 2000,
        month: 2,
        day: 29,
        hour: 12,
        minute: 34,
        second: 56,
    };
    assert_eq!(meter.clock, clock);
    let before = meter.clone();
    let told = true_frame("W1", "T(29-02-2001;12:34:56)");
    assert_eq!(send(&mut meter, &told), refused(9));
    assert_eq!(meter, before);
}

#[test]
fn the_export_of_a_one_line_post_is_taken() {
    let mut export = vec![0x81, 0xD7, 0xB1, 0x82, 0x5A, 0x28, 0x30, 0xB1, 0xBB];
    export.extend([0xB1; 24]);
    export.extend([0xA9, 0x03, 0x06]);
    let mut meter = meter_in(PROGRAMMING);
    meter.tables[0] = [b'4'; 24];
    assert!(is_done(wire(&mut meter, &export)));
    assert_eq!(meter, meter_in(PROGRAMMING));
}

#[test]
fn data_block_is_1063_characters() {
    for choice in [b'0', b'7'] {
        let mut meter = meter_in(CONFIRMATION);
        meter.counters = [999_999_999, 2, 30, 400];
        meter.total = 431;
        let after = Meter {
            mode: LISTENING,
            ..meter.clone()
        };
        let (number, speed, block) = send(&mut meter, &[ACK, b'0', b'5', choice, CR, LF]);
        assert_eq!((number, speed, block.len()), (1, 5, BLOCK));
        assert_eq!(meter, after);
        let start = "\x02C.1.0(123 4567890)\r\n0.9.2(24-02-29)\r\n0.9.1(08:05:09)\r\n\
             0.0.0(Kiln_7 old)\r\n15.8.1(999999.999*kWh)\r\n15.8.2(000000.002*kWh)\r\n\
             15.8.3(000000.030*kWh)\r\n15.8.4(000000.400*kWh)\r\n15.8.0(000000.431*kWh)\r\n\
             131.0.01(111111111111111111111111)\r\n131.0.02(";
        assert!(block.starts_with(start.as_bytes()));
        assert!(block[..BLOCK - 1].ends_with(b"1)\r\n!\r\n\x03"));
        assert_eq!(bcc(&block[1..]), 0);
    }
}

#[test]
fn sign_on_by_all_three_lines() {
    for line in ["/?!\r\n", "/?123 4567890!\r\n", "/?000 0000000!\r\n"] {
        let mut meter = meter_in(LISTENING);
        let got = send(&mut meter, line.as_bytes());
        assert_eq!(got, (1, 0, b"/ZZZ5SUB-VP01.00*\r\n".to_vec()));
        assert_eq!(meter, meter_in(CONFIRMATION));
    }
    for line in [
        "/?123 4567891!\r\n",
        "/?1234567890!\r\n",
        "/?\r\n",
        "/!\r\n",
    ] {
        let mut meter = meter_in(LISTENING);
        assert_eq!(send(&mut meter, line.as_bytes()), (0, 0, vec![]));
        assert_eq!(meter, meter_in(LISTENING));
    }
}

/// The last answer to wire bytes.
fn answered(meter: &mut Meter, bytes: &[u8]) -> Answer {
    let mut last = None;
    for &byte in bytes {
        last = Some(meter.character(byte, &mut [0; ROOM]));
    }
    last.unwrap()
}

#[test]
fn three_says_where() {
    for (bytes, place) in [
        (&b"\x81\xc2\x30\x03\x71"[..], 1),
        (b"\x81\x42\xb0\x03\x71", 2),
        (b"\x81\x42\x30\x03\xf1", 4),
        // The first of several.
        (b"\x81\xc2\xb0\x03\xf1", 1),
        // From the last SOH on.
        (b"\x81\xc2\xb0\x81\x42\xb0\x03\x71", 2),
        (b"\x81\x42\x81\x42\x30\x03\xf1", 4),
    ] {
        let answer = answered(&mut meter_in(PROGRAMMING), bytes);
        assert_eq!((answer.number, answer.place), (3, place), "{bytes:x?}");
    }
    // Other answers have no place: a wrong BCC, a good frame, a confirmation.
    let wrong = answered(&mut meter_in(PROGRAMMING), b"\x81\xc2\x81\x42\x30\x03\x72");
    assert_eq!((wrong.number, wrong.place), (4, 0));
    let confirmation = answered(&mut meter_in(CONFIRMATION), b"\x86\x30\x35\xb1\x8d\x0a");
    assert_eq!((confirmation.number, confirmation.place), (2, 0));
}

#[test]
fn places_that_no_receiver_has() {
    for (mark, place, good) in [(0, 0, true), (0, 1, false), (1, 1, true), (1, 2, false)] {
        let mut meter = meter_in(READ_ONLY);
        meter.held[0] = SOH;
        (meter.count, meter.mark, meter.place) = (2, mark, place);
        assert_eq!(meter.well_formed(), good, "{mark} {place}");
    }
}

#[test]
fn restart_clears_the_mark() {
    let mut meter = meter_in(LISTENING);
    wire(&mut meter, &[0xAF, 0x01]);
    assert_eq!(meter.mark, 1);
    assert_eq!(send(&mut meter, b"/?!\r\n").0, 1);
    let mut meter = meter_in(PROGRAMMING);
    wire(&mut meter, &[0x81, 0x01]);
    assert_eq!(meter.mark, 1);
    assert!(is_done(send(&mut meter, b"\x01B0\x03\x71")));
}

#[test]
fn malformed_passwords_are_no_attempts() {
    for data in [
        "(2030405)",
        "(203040500)",
        "(2030405x)",
        "20304050",
        "(",
        "",
    ] {
        for attempts in 0..=3 {
            let mut meter = meter_in(PASSWORD);
            meter.attempts = attempts;
            assert_eq!(send(&mut meter, &true_frame("P1", data)), refused(9));
            let mut after = meter_in(LISTENING);
            after.attempts = attempts;
            assert_eq!(meter, after);
        }
    }
}

#[test]
fn three_wrong_passwords_lock() {
    let mut meter = meter_in(PASSWORD);
    for attempts in 1..=3 {
        let wrong = true_frame("P1", "(20304051)");
        assert_eq!(send(&mut meter, &wrong), refused(10));
        assert_eq!((meter.mode, meter.attempts), (LISTENING, attempts));
        meter.mode = PASSWORD;
        meter.speed = 5;
    }
    let right = true_frame("P1", "(20304050)");
    assert_eq!(send(&mut meter, &right), refused(11));
    meter.mode = PASSWORD;
    meter.speed = 5;
    assert!(is_done(send(&mut meter, &true_frame("P1", "()"))));
    assert_eq!((meter.mode, meter.attempts), (READ_ONLY, 3));
    assert_eq!(meter.power_up().number, 1);
    meter.mode = PASSWORD;
    meter.speed = 5;
    assert!(is_done(send(&mut meter, &right)));
    assert_eq!((meter.mode, meter.attempts), (PROGRAMMING, 0));
}

#[test]
fn frames_of_64_are_taken_and_of_65_too_long() {
    let mut meter = meter_in(PROGRAMMING);
    let long = true_frame("W1", &"x".repeat(58));
    assert_eq!(long.len(), 64);
    assert_eq!(send(&mut meter, &long), refused(9));
    let longer = true_frame("W1", &"x".repeat(59));
    assert_eq!(send(&mut meter, &longer[..64]), refused(5));
    assert_eq!(meter, meter_in(PROGRAMMING));
}

#[test]
fn order_of_deciding() {
    let mut meter = meter_in(READ_ONLY);
    let refusals: [(&[u8], u8); 6] = [
        (b"\x01W1\x02Z\x03\x00", 4),
        (b"\x01W\x03\x54", 6),
        (b"\x01B0\x02\x03\x73", 7),
        (b"\x01W1\x02\x03\x67", 8),
        (b"\x01P1\x02\x03\x60", 8),
        (b"\x01R1\x02\x03\x62", 9),
    ];
    for (frame, number) in refusals {
        assert_eq!(send(&mut meter, frame), refused(number));
    }
    send(&mut meter, b"\x01W1\x02Z\x03");
    assert_eq!(wire(&mut meter, &[0x01]), refused(3));
}

#[test]
fn clock_goes_over_every_kind_of_end() {
    let ends = [
        ((2000, 2, 29), (2000, 3, 1)),
        ((2001, 2, 28), (2001, 3, 1)),
        ((2024, 2, 28), (2024, 2, 29)),
        ((2023, 4, 30), (2023, 5, 1)),
        ((2023, 12, 31), (2024, 1, 1)),
        ((2099, 12, 31), (2000, 1, 1)),
    ];
    for (from, to) in ends {
        let mut meter = Meter::blank();
        meter.clock = Clock {
            year: from.0,
            month: from.1,
            day: from.2,
            hour: 23,
            minute: 59,
            second: 59,
        };
        assert_eq!(meter.tick().number, 1);
        let clock = meter.clock;
        assert_eq!((clock.year, clock.month, clock.day), to);
        assert_eq!((clock.hour, clock.minute, clock.second), (0, 0, 0));
    }
}

#[test]
fn known_weekdays() {
    let weekend = |year, month, day| {
        Clock {
            year,
            month,
            day,
            ..Clock::FIRST
        }
        .days()
            % 7
            < 2
    };
    assert!(weekend(2000, 1, 1) && weekend(2000, 1, 2) && !weekend(2000, 1, 3));
    assert!(!weekend(2024, 2, 29) && weekend(2024, 3, 2) && weekend(2024, 3, 3));
    assert!(!weekend(2099, 12, 31) && weekend(2099, 12, 27) && weekend(2099, 12, 26));
}

#[test]
fn refusals_come_in_their_order() {
    let mut broken = meter_in(PROGRAMMING);
    broken.attempts = 4;
    let kept = broken.clone();
    let mut small = [0xAA; ROOM - 1];
    let mut large = [0xAA; ROOM];
    assert_eq!(broken.character(0x81, &mut small).number, 12);
    assert_eq!(broken.silence(&mut small).number, 12);
    assert_eq!(broken.character(0x81, &mut large).number, 14);
    assert_eq!(broken.silence(&mut large).number, 14);
    assert_eq!(broken.pulse(Way::In, 1_000_001).number, 13);
    assert_eq!(broken.pulse(Way::In, 1_000_000).number, 14);
    assert_eq!(broken.tick().number, 14);
    assert_eq!(broken.power_up().number, 14);
    assert_eq!(broken, kept);
    assert!(large.iter().all(|&byte| byte == 0xAA));
}

#[test]
fn bad_facts_give_the_blank_state() {
    let good = (*b"1234567890", *b"Kiln_7 old", *b"20304050", Clock::FIRST);
    assert_eq!(Meter::new(good.0, good.1, good.2, good.3, [1, 1, 0]).0, 1);
    let day = Clock {
        day: 32,
        ..Clock::FIRST
    };
    for (serial, account, password, clock) in [
        (*b"123456789a", good.1, good.2, good.3),
        (good.0, *b"Kiln-7 old", good.2, good.3),
        (good.0, good.1, *b"2030405:", good.3),
        (good.0, good.1, good.2, day),
    ] {
        let got = Meter::new(serial, account, password, clock, [1, 1, 0]);
        assert_eq!(got, (15, Meter::blank()));
    }
    assert!(Meter::blank().well_formed());
}

#[test]
fn silence_in_every_mode() {
    for (mode, number, reply) in [
        (LISTENING, 0, 0),
        (CONFIRMATION, 1, 1),
        (PASSWORD, 1, 0),
        (READ_ONLY, 1, 0),
        (PROGRAMMING, 1, 0),
    ] {
        let mut meter = meter_in(mode);
        send(&mut meter, if mode == LISTENING { b"/" } else { b"\x01" });
        let mut buffer = [0xAA; ROOM];
        let answer = meter.silence(&mut buffer);
        assert_eq!((answer.number, answer.speed), (number, 0));
        assert_eq!(answer.length, reply);
        assert_eq!(buffer[0], if reply == 1 { 0x95 } else { 0xAA });
        assert_eq!(meter, meter_in(LISTENING));
    }
}

/// A head that stays slow: '0' in place of '5', and everything up to the ACK of B0 at 300 baud.
#[test]
fn a_slow_head_is_answered_slowly() {
    for choice in *b"07" {
        let mut meter = meter_in(CONFIRMATION);
        let (number, speed, block) = send(&mut meter, &[ACK, b'0', b'0', choice, CR, LF]);
        assert_eq!((number, speed, block.len()), (1, 0, BLOCK));
        assert_eq!((meter.mode, meter.speed), (LISTENING, 0));
    }
    let mut meter = meter_in(CONFIRMATION);
    let (number, speed, _) = send(&mut meter, b"\x06001\r\n");
    assert_eq!(
        (number, speed, meter.mode, meter.speed),
        (1, 0, PASSWORD, 0)
    );
    let slow = (1, 0, vec![ACK]);
    assert_eq!(send(&mut meter, &true_frame("P1", "(20304050)")), slow);
    assert_eq!((meter.mode, meter.speed), (PROGRAMMING, 0));
    assert_eq!(send(&mut meter, &frame("R1", "T()", 0)), (4, 0, vec![NAK]));
    assert_eq!(send(&mut meter, b"\x01B0\x03\x71"), slow);
    assert_eq!((meter.mode, meter.speed), (LISTENING, 0));
}

#[test]
fn no_other_digit_is_a_speed() {
    for digit in (0..128).filter(|digit| !b"05".contains(digit)) {
        for choice in *b"0167" {
            let mut meter = meter_in(CONFIRMATION);
            let got = send(&mut meter, &[ACK, b'0', digit, choice, CR, LF]);
            assert_eq!((got.0, got.1, meter.mode), (2, 0, LISTENING));
        }
    }
}

#[test]
fn speeds_out_of_range_are_malformed() {
    for mode in LISTENING..=PROGRAMMING {
        for speed in 0..=255 {
            let meter = Meter {
                speed,
                ..meter_in(mode)
            };
            let good = speed == 0 || speed == 5 && mode >= PASSWORD;
            assert_eq!(meter.well_formed(), good);
        }
    }
}

/// The period that this meter closes at its clock.
fn period_of(meter: &Meter) -> Period {
    let clock = meter.clock;
    Period {
        year: clock.year,
        month: clock.month,
        day: clock.day,
        hour: clock.hour,
        minute: clock.minute,
        counters: meter.counters,
        exported: meter.exported,
    }
}

#[test]
fn the_closing_sign_on_closes_and_answers() {
    let mut meter = meter_in(LISTENING);
    meter.counters = [999_999_999, 2, 30, 400];
    meter.total = 431;
    let before = meter.clone();
    let got = send(&mut meter, b"/C!\r\n");
    assert_eq!(got, (1, 0, b"/ZZZ5SUB-VP01.00*\r\n".to_vec()));
    let mut after = Meter {
        mode: CONFIRMATION,
        closed: 1,
        ..before.clone()
    };
    after.periods[0] = period_of(&before);
    assert_eq!(meter, after);
    // No other line closes, and none with a damaged character.
    for line in [
        "/?!\r\n",
        "/C\r\n",
        "/c!\r\n",
        "/CC!\r\n",
        "/C!\n",
        "/C! \r\n",
        "/C123 4567890!\r\n",
    ] {
        let mut meter = before.clone();
        send(&mut meter, line.as_bytes());
        assert_eq!(
            (meter.closed, meter.periods),
            (0, before.periods),
            "{line:?}"
        );
    }
    for place in 1..5 {
        let mut bytes = b"/C!\r\n".map(with_parity);
        bytes[place] ^= 0x80;
        let mut meter = before.clone();
        assert_ne!(wire(&mut meter, &bytes).0, 1);
        assert_eq!((meter.closed, meter.periods), (0, before.periods));
    }
}

#[test]
fn a_thirteenth_period_pushes_out_the_oldest() {
    let mut meter = meter_in(LISTENING);
    for n in 1..=14 {
        meter.counters[0] = n;
        meter.total = n;
        send(&mut meter, b"/C!\r\n");
        meter.enter(LISTENING);
        assert_eq!(u32::from(meter.closed), n.min(12));
        assert!(meter.well_formed());
        for (place, period) in meter.periods.iter().enumerate() {
            let place = place as u32;
            assert_eq!(period.counters[0], n.saturating_sub(place), "{n} {place}");
        }
    }
    assert_eq!(meter.counters, [14, 0, 0, 0]);
}

#[test]
fn only_the_first_second_of_a_month_closes() {
    for mode in LISTENING..=PROGRAMMING {
        for (day, last, closes) in [(31, 59, true), (31, 58, false), (30, 59, false)] {
            let mut meter = meter_in(mode);
            meter.counters = [7, 0, 0, 0];
            meter.total = 7;
            meter.clock = Clock {
                month: 12,
                day,
                hour: 23,
                minute: 59,
                second: last,
                ..meter.clock
            };
            assert_eq!(meter.tick().number, 1);
            assert_eq!(meter.closed, u8::from(closes));
            if closes {
                assert_eq!(meter.periods[0], period_of(&meter));
                assert_eq!((meter.periods[0].year, meter.periods[0].hour), (2025, 0));
            }
            // The second after it closes nothing, but where it is that very one.
            meter.tick();
            assert_eq!(meter.closed, u8::from(day == 31));
        }
    }
    // A write of that very second closes nothing.
    let mut meter = meter_in(PROGRAMMING);
    assert!(is_done(send(
        &mut meter,
        &true_frame("W1", "T(01-03-2024;00:00:00)")
    )));
    assert_eq!(meter.closed, 0);
    meter.tick();
    assert_eq!(meter.closed, 0);
}

#[test]
fn the_block_with_periods_has_them_behind_its_tables() {
    for count in 0..=12 {
        let mut meter = meter_in(CONFIRMATION);
        meter.closed = count;
        for place in 0..usize::from(count) {
            meter.periods[place] = Period {
                counters: [place as u32, 999_999_999, 1_500, 0],
                ..period_of(&meter)
            };
        }
        let plain = meter.data_block();
        assert_eq!(plain.len(), BLOCK);
        for speed in *b"05" {
            let mut meter = meter.clone();
            let (number, at, block) = send(&mut meter, &[ACK, b'0', speed, b'6', CR, LF]);
            assert_eq!((number, at, meter.mode), (1, speed - b'0', LISTENING));
            let kept = BLOCK - 5;
            assert_eq!(block[..kept], plain[..kept]);
            assert_eq!(block.len(), BLOCK + usize::from(count) * PERIOD_LINES);
            assert!(block[..block.len() - 1].ends_with(b")\r\n!\r\n\x03"));
            assert_eq!(bcc(&block[1..]), 0);
            if count == 12 {
                let last = "0.1.2*12(24-02-29 08:05)\r\n15.8.1*12(000000.011*kWh)\r\n\
                    15.8.2*12(999999.999*kWh)\r\n15.8.3*12(000001.500*kWh)\r\n\
                    15.8.4*12(000000.000*kWh)\r\n!\r\n\x03";
                assert!(block[..block.len() - 1].ends_with(last.as_bytes()));
                assert!(block.len() <= ROOM);
            }
        }
    }
}

#[test]
fn archives_out_of_range_are_malformed() {
    let mut good = meter_in(LISTENING);
    good.closed = 2;
    good.periods[0] = period_of(&good);
    // Periods need not be in order.
    good.periods[1] = Period {
        year: 2096,
        ..period_of(&good)
    };
    assert!(good.well_formed());
    let broken = |change: fn(&mut Meter)| {
        let mut meter = good.clone();
        change(&mut meter);
        !meter.well_formed()
    };
    assert!(broken(|meter| meter.closed = 1));
    assert!(broken(|meter| meter.closed = 3));
    assert!(broken(|meter| meter.closed = 13));
    assert!(broken(|meter| meter.closed = 255));
    assert!(broken(|meter| meter.periods[1].year = 1999));
    assert!(broken(|meter| meter.periods[1].year = 2100));
    assert!(broken(|meter| meter.periods[1].month = 0));
    assert!(broken(|meter| meter.periods[0].day = 30));
    assert!(broken(|meter| meter.periods[0].hour = 24));
    assert!(broken(|meter| meter.periods[0].minute = 60));
    assert!(broken(|meter| meter.periods[0].counters[3] = 1_000_000_000));
    assert!(broken(|meter| meter.periods[2].minute = 1));
    assert!(broken(|meter| meter.periods[11].counters[3] = 1));
    let mut full = good.clone();
    full.closed = 12;
    full.periods = [good.periods[1]; 12];
    assert!(full.well_formed());
    full.closed = 13;
    assert!(!full.well_formed());
}

/// The same on the wired link.
fn wired_in(mode: u8) -> Meter {
    Meter {
        link: WIRED,
        speed: 5,
        ..meter_in(mode)
    }
}

#[test]
fn the_wire_has_its_own_sign_on() {
    for (line, number, reply) in [
        ("/A123.4567890\r\n", 1, "/g123.4567890\r\n"),
        ("/A000.0000000\r\n", 1, "/g123.4567890\r\n"),
        ("/A123.4567891\r\n", 0, ""),
        ("/A123 4567890\r\n", 0, ""),
        ("/g123.4567890\r\n", 0, ""),
        ("/?!\r\n", 0, ""),
        ("/?123 4567890!\r\n", 0, ""),
        ("/C!\r\n", 0, ""),
    ] {
        let mut meter = wired_in(LISTENING);
        let answer = send(&mut meter, line.as_bytes());
        assert_eq!(answer, (number, 5, reply.as_bytes().to_vec()), "{line}");
        assert_eq!((meter.mode, meter.speed, meter.closed), (number, 5, 0));
    }
    let mut meter = meter_in(LISTENING);
    assert_eq!(send(&mut meter, b"/A123.4567890\r\n"), (0, 0, vec![]));
}

#[test]
fn the_wire_knows_one_speed() {
    for (digit, number, mode) in [(b'5', 1, PASSWORD), (b'0', 2, LISTENING)] {
        let mut meter = wired_in(CONFIRMATION);
        let answer = send(&mut meter, &[ACK, b'0', digit, b'1', CR, LF]);
        assert_eq!(
            (answer.0, answer.1, meter.mode, meter.speed),
            (number, 5, mode, 5)
        );
    }
    let slow = Meter {
        speed: 0,
        ..wired_in(PROGRAMMING)
    };
    assert!(!slow.well_formed());
    assert!(wired_in(LISTENING).well_formed());
}

#[test]
fn a_refusal_on_the_wire_says_nothing_and_drops_the_session() {
    for mode in PASSWORD..=PROGRAMMING {
        let mut meter = wired_in(mode);
        let answer = send(&mut meter, &frame("R1", "T()", 0));
        assert_eq!(answer, (4, 5, vec![]));
        assert_eq!((meter.mode, meter.count), (LISTENING, 0));
    }
    let mut meter = wired_in(PASSWORD);
    assert_eq!(
        send(&mut meter, &true_frame("P1", "(00000000)")),
        (10, 5, vec![])
    );
    assert_eq!((meter.mode, meter.attempts), (LISTENING, 1));
    let mut meter = wired_in(CONFIRMATION);
    let mut buffer = [0xAA; ROOM];
    let answer = meter.silence(&mut buffer);
    assert_eq!((answer.number, answer.speed, answer.length), (1, 5, 0));
}

#[test]
fn a_link_is_one_of_two() {
    for link in 0..=255 {
        let made = Meter::new(
            *b"1234567890",
            *b"Kiln_7 old",
            *b"20304050",
            Clock::FIRST,
            [1, link, 0],
        );
        let good = link == OPTICAL || link == WIRED;
        assert_eq!(made.0, if good { 1 } else { 15 });
        assert_eq!(made.1.speed, if link == WIRED { 5 } else { 0 });
        let meter = Meter { link, ..made.1 };
        assert_eq!(meter.well_formed(), good);
    }
}

/// A meter of edition 2 in some mode, its clock at an hour of a day in March 2024.
fn second_in(mode: u8, day: u8) -> Meter {
    let mut meter = Meter {
        edition: 2,
        ..meter_in(mode)
    };
    meter.tables[24] = [b'1'; 24];
    (meter.clock.month, meter.clock.day) = (3, day);
    meter
}

#[test]
fn edition_2_calls_itself_so_and_shows_25_tables() {
    let mut meter = second_in(LISTENING, 2);
    let identified = send(&mut meter, b"/?!\r\n");
    assert_eq!(identified, (1, 0, b"/ZZZ5SUB-VP02.00*\r\n".to_vec()));
    let (_, _, block) = send(&mut meter, b"\x06050\r\n");
    assert_eq!(block.len(), BLOCK + TABLE_LINE);
    let end = format!("131.0.25({ALL_ONES})\r\n!\r\n\x03");
    assert!(block[..block.len() - 1].ends_with(end.as_bytes()));
}

#[test]
fn table_25_is_read_and_written_in_edition_2_alone() {
    let write = true_frame("W1", &format!("Z(25;{})", ALL_ONES.replace('1', "4")));
    let mut meter = second_in(PROGRAMMING, 2);
    assert_eq!(send(&mut meter, &write), (1, 5, vec![ACK]));
    assert_eq!(meter.tables[24], [b'4'; 24]);
    let (number, _, shown) = send(&mut meter, &true_frame("R1", "Z(25)"));
    assert!(number == 1 && shown[1..].starts_with(b"131.0.25(4444"));
    assert_eq!(send(&mut meter, &true_frame("R1", "Z(26)")).0, 9);
    let mut first = meter_in(PROGRAMMING);
    assert_eq!(send(&mut first, &write).0, 9);
    assert_eq!(send(&mut first, &true_frame("R1", "Z(25)")).0, 9);
    assert_eq!(first, meter_in(PROGRAMMING));
}

#[test]
fn saturdays_have_table_25_and_sundays_stay() {
    // The first of March 2024 is a Friday.
    for (day, used) in [(1, 3), (2, 25), (3, 15), (4, 3)] {
        for (edition, used) in [(1, used.min(15)), (2, used)] {
            let mut meter = second_in(LISTENING, day);
            meter.edition = edition;
            meter.tables[used - 1] = [b'3'; 24];
            if edition == 1 {
                meter.tables[24] = [0; 24];
            }
            assert_eq!(meter.pulse(Way::In, 7).number, 1);
            assert_eq!(meter.counters, [0, 0, 7, 0], "{edition} on {day}");
        }
    }
}

#[test]
fn another_edition_comes_before_all_else() {
    for edition in (0..=255).filter(|edition| ![1, 2].contains(edition)) {
        let mut meter = Meter {
            edition,
            mode: 9,
            ..meter_in(PROGRAMMING)
        };
        let kept = meter.clone();
        let none = Answer::turned_away(16);
        assert_eq!(meter.character(0x81, &mut []), none);
        assert_eq!(meter.frame(&[], &mut []), none);
        assert_eq!(meter.silence(&mut []), none);
        assert_eq!(meter.tick(), none);
        assert_eq!(meter.power_up(), none);
        assert_eq!(meter.pulse(Way::In, u32::MAX), none);
        assert_eq!(meter, kept);
        let facts = (*b"123456789a", *b"Kiln_7 old", *b"20304050");
        let made = Meter::new(facts.0, facts.1, facts.2, Clock::FIRST, [edition, 9, 9]);
        assert_eq!(made, (16, Meter::blank()));
    }
}

#[test]
fn the_factory_looks_at_edition_then_decimals_then_facts() {
    let made = |kind| {
        let clock = Clock::FIRST;
        Meter::new(*b"1234567890", *b"Kiln_7 old", *b"20304050", clock, kind)
    };
    for decimals in 0..=255 {
        let good = [0, 2, 3, 4].contains(&decimals);
        let number = if good { 15 } else { 18 };
        assert_eq!(made([2, 9, decimals]), (number, Meter::blank()));
        assert_eq!(made([0, 9, decimals]), (16, Meter::blank()));
        assert_eq!(made([2, WIRED, decimals]).0, if good { 1 } else { 18 });
    }
    assert_eq!(made([2, 9, 0]), (15, Meter::blank()));
    let (number, meter) = made([2, WIRED, 0]);
    assert_eq!((number, meter.tables), (1, [[b'1'; 24]; 25]));
    assert!(meter.well_formed());
}

#[test]
fn the_row_behind_the_tables_holds_zeros() {
    let mut first = meter_in(LISTENING);
    assert!(first.well_formed());
    for zone in [b'1', b'0', 1, 255] {
        first.tables[24][23] = zone;
        assert!(!first.well_formed());
    }
    let mut second = second_in(LISTENING, 2);
    assert!(second.well_formed());
    for zone in [0, b'0', b'5', 255] {
        second.tables[24][23] = zone;
        assert!(!second.well_formed());
    }
}

/// An EQM meter of an edition and a link, its counters of either direction different.
fn eqm_in(mode: u8, decimals: u8) -> Meter {
    Meter {
        decimals,
        counters: [1_500, 0, 99_999_999, 20],
        total: 1_519,
        exported: [7, 12_345_678, 0, 99_999_999],
        exported_total: 12_345_684,
        ..meter_in(mode)
    }
}

#[test]
fn eqm_counters_have_eight_digits_and_their_decimals() {
    for (decimals, energy) in [
        (
            2,
            [
                "000015.00",
                "000000.00",
                "999999.99",
                "000000.20",
                "000015.19",
                "000000.07",
                "123456.78",
                "000000.00",
                "999999.99",
                "123456.84",
            ],
        ),
        (
            3,
            [
                "00001.500",
                "00000.000",
                "99999.999",
                "00000.020",
                "00001.519",
                "00000.007",
                "12345.678",
                "00000.000",
                "99999.999",
                "12345.684",
            ],
        ),
        (
            4,
            [
                "0000.1500",
                "0000.0000",
                "9999.9999",
                "0000.0020",
                "0000.1519",
                "0000.0007",
                "1234.5678",
                "0000.0000",
                "9999.9999",
                "1234.5684",
            ],
        ),
    ] {
        assert!(eqm_in(LISTENING, decimals).well_formed());
        let mut lines = String::new();
        for (place, digits) in energy.iter().enumerate() {
            let (name, letter) = [("1", 'E'), ("2", 'G')][place / 5];
            let zone = [1, 2, 3, 4, 0][place % 5];
            let line = format!("{name}.8.{zone}({digits}*kWh)\r\n");
            lines += &line;
            let mut meter = eqm_in(READ_ONLY, decimals);
            let got = send(&mut meter, &true_frame("R1", &format!("{letter}{zone}()")));
            assert_eq!(got, (1, 5, block(&line)));
            assert_eq!(meter, eqm_in(READ_ONLY, decimals));
        }
        // All ten lines stand in the block between the account and the first table.
        let mut meter = eqm_in(CONFIRMATION, decimals);
        let (_, _, shown) = send(&mut meter, b"\x06050\r\n");
        let around = format!("0.0.0(Kiln_7 old)\r\n{lines}131.0.01(");
        let shown = String::from_utf8(shown).unwrap();
        assert!(shown.contains(&around) && !shown.contains("15.8."));
        assert_eq!((shown.len(), meter.block_length()), (1_163, 1_163));
    }
}

#[test]
fn all_other_lines_of_an_eqm_meter_are_document_01s() {
    for decimals in 2..=4 {
        let mut meter = eqm_in(LISTENING, decimals);
        let got = send(&mut meter, b"/?!\r\n");
        assert_eq!(got, (1, 0, b"/ZZZ5SUB-VP01.00*\r\n".to_vec()));
        for ask in ["T()", "L()", "K()", "Z(07)"] {
            let ask = true_frame("R1", ask);
            let (mut one, mut other) = (eqm_in(READ_ONLY, decimals), meter_in(READ_ONLY));
            assert_eq!(send(&mut one, &ask), send(&mut other, &ask));
        }
        for bad in ["E5()", "G5()", "G()", "G1( )", "g1()", "G01()", "G-1()"] {
            let mut meter = eqm_in(READ_ONLY, decimals);
            assert_eq!(
                send(&mut meter, &true_frame("R1", bad)),
                refused(9),
                "{bad}"
            );
        }
    }
    for n in 0..=4 {
        let mut meter = meter_in(READ_ONLY);
        let got = send(&mut meter, &true_frame("R1", &format!("G{n}()")));
        assert_eq!(got, refused(9));
    }
}

#[test]
fn a_pulse_says_its_direction() {
    for decimals in 2..=4 {
        // 2024-02-29 is a Thursday, and its hours are all of the first zone.
        let start = Meter {
            counters: [99_999_999, 99_999_999, 0, 0],
            total: 99_999_998,
            exported: [99_000_000, 0, 0, 1],
            exported_total: 99_000_001,
            ..eqm_in(LISTENING, decimals)
        };
        assert!(start.well_formed());
        let mut meter = start.clone();
        assert_eq!(meter.pulse(Way::In, 1).number, 1);
        let after = Meter {
            counters: [0, 99_999_999, 0, 0],
            total: 99_999_999,
            ..start.clone()
        };
        assert_eq!(meter, after);
        assert_eq!(meter.pulse(Way::Out, 1_000_000).number, 1);
        let after = Meter {
            exported: [0, 0, 0, 1],
            exported_total: 1,
            ..after
        };
        assert_eq!(meter, after);
        for way in [Way::In, Way::Out] {
            assert_eq!(meter.pulse(way, 1_000_001), Answer::turned_away(13));
            assert_eq!(meter.pulse(way, u32::MAX), Answer::turned_away(13));
        }
        assert_eq!(meter, after);
    }
}

#[test]
fn what_a_family_does_not_count_is_refused_first() {
    let mut meter = meter_in(LISTENING);
    assert_eq!(meter.pulse(Way::Out, 0), Answer::turned_away(13));
    assert_eq!(meter, meter_in(LISTENING));
    meter.attempts = 4;
    assert_eq!(meter.pulse(Way::Out, 0), Answer::turned_away(13));
    assert_eq!(meter.pulse(Way::In, 0), Answer::turned_away(14));
    for decimals in (1..=255).filter(|decimals| !(2..=4).contains(decimals)) {
        meter.decimals = decimals;
        assert_eq!(meter.pulse(Way::Out, 0), Answer::turned_away(14));
        assert_eq!(meter.pulse(Way::Out, 1_000_001), Answer::turned_away(13));
    }
    meter.edition = 3;
    assert_eq!(meter.pulse(Way::Out, u32::MAX), Answer::turned_away(16));
}

#[test]
fn families_out_of_range_are_malformed() {
    for decimals in 0..=255 {
        let meter = Meter {
            decimals,
            ..meter_in(LISTENING)
        };
        assert_eq!(meter.well_formed(), [0, 2, 3, 4].contains(&decimals));
    }
    let broken = |decimals: u8, change: fn(&mut Meter)| {
        let mut meter = Meter {
            decimals,
            closed: 1,
            ..meter_in(LISTENING)
        };
        meter.periods[0] = period_of(&meter);
        assert!(meter.well_formed());
        change(&mut meter);
        !meter.well_formed()
    };
    for decimals in 0..=4 {
        if decimals == 1 {
            continue;
        }
        let (ours, eqm) = (decimals == 0, decimals != 0);
        assert_eq!(
            broken(decimals, |m| {
                m.counters[3] = 100_000_000;
                m.total = 100_000_000;
            }),
            eqm
        );
        assert!(broken(decimals, |m| {
            m.counters[3] = 1_000_000_000;
            m.total = 0;
        }));
        assert_eq!(
            broken(decimals, |m| m.periods[0].counters[0] = 100_000_000),
            eqm
        );
        // A sum of eight digits and more.
        assert_eq!(
            broken(decimals, |m| {
                m.counters = [99_999_999, 1, 0, 0];
                m.total = 100_000_000;
            }),
            eqm
        );
        assert_eq!(
            broken(decimals, |m| {
                m.counters = [99_999_999, 1, 0, 0];
                m.total = 0;
            }),
            ours
        );
        assert_eq!(
            broken(decimals, |m| {
                m.exported[2] = 1;
                m.exported_total = 1;
            }),
            ours
        );
        assert_eq!(broken(decimals, |m| m.periods[0].exported[3] = 1), ours);
        assert!(broken(decimals, |m| m.exported_total = 1));
        assert!(broken(decimals, |m| m.exported[2] = 1));
        assert!(broken(decimals, |m| {
            m.exported[2] = 100_000_000;
            m.exported_total = 0;
        }));
        assert!(broken(decimals, |m| m.periods[0].exported[3] = 100_000_000));
        assert!(broken(decimals, |m| m.periods[1].exported[3] = 1));
    }
}

#[test]
fn an_eqm_period_has_eight_counters() {
    let mut meter = eqm_in(LISTENING, 3);
    send(&mut meter, b"/C!\r\n");
    assert_eq!(meter.periods[0], period_of(&eqm_in(LISTENING, 3)));
    meter.enter(LISTENING);
    meter.clock = Clock {
        month: 12,
        day: 31,
        hour: 23,
        minute: 59,
        second: 59,
        ..meter.clock
    };
    meter.pulse(Way::Out, 1);
    meter.tick();
    assert_eq!(meter.closed, 2);
    assert_eq!(meter.periods[0].exported, [8, 12_345_678, 0, 99_999_999]);
    meter.enter(CONFIRMATION);
    let (_, _, shown) = send(&mut meter, b"\x06056\r\n");
    let end = "0.1.2*01(25-01-01 00:00)\r\n1.8.1*01(00001.500*kWh)\r\n\
        1.8.2*01(00000.000*kWh)\r\n1.8.3*01(99999.999*kWh)\r\n1.8.4*01(00000.020*kWh)\r\n\
        2.8.1*01(00000.008*kWh)\r\n2.8.2*01(12345.678*kWh)\r\n2.8.3*01(00000.000*kWh)\r\n\
        2.8.4*01(99999.999*kWh)\r\n0.1.2*02(24-02-29 08:05)\r\n1.8.1*02(00001.500*kWh)\r\n\
        1.8.2*02(00000.000*kWh)\r\n1.8.3*02(99999.999*kWh)\r\n1.8.4*02(00000.020*kWh)\r\n\
        2.8.1*02(00000.007*kWh)\r\n2.8.2*02(12345.678*kWh)\r\n2.8.3*02(00000.000*kWh)\r\n\
        2.8.4*02(99999.999*kWh)\r\n!\r\n\x03";
    assert!(shown[..shown.len() - 1].ends_with(end.as_bytes()));
    assert_eq!(shown.len(), meter.block_length() + 2 * EQM_PERIOD_LINES);
    // The longest block of all.
    let mut full = Meter {
        edition: 2,
        closed: 12,
        periods: [meter.periods[0]; 12],
        mode: CONFIRMATION,
        ..meter
    };
    full.tables[24] = [b'1'; 24];
    let (number, _, shown) = send(&mut full, b"\x06056\r\n");
    assert_eq!((number, shown.len()), (1, 1_163 + 36 + 12 * 226));
}

#[test]
fn family_edition_and_link_go_together_freely() {
    for edition in [1, 2] {
        for link in [OPTICAL, WIRED] {
            for decimals in [0, 2, 3, 4] {
                let (number, mut meter) = Meter::new(
                    *b"1234567890",
                    *b"Kiln_7 old",
                    *b"20304050",
                    Clock::FIRST,
                    [edition, link, decimals],
                );
                assert_eq!(number, 1);
                assert!(meter.well_formed());
                assert_eq!((meter.exported, meter.exported_total), ([0; 4], 0));
                let sign_on: &[u8] = match link {
                    WIRED => b"/A000.0000000\r\n",
                    _ => b"/?!\r\n",
                };
                assert_eq!(send(&mut meter, sign_on).0, 1);
                let (_, _, shown) = send(&mut meter, b"\x06050\r\n");
                assert_eq!(shown.len(), meter.block_length());
                let longer = if decimals == 0 { 0 } else { 100 };
                assert_eq!(shown.len(), 1_063 + longer + 36 * usize::from(edition - 1));
            }
        }
    }
}

/// What can happen to a meter on the wire in the next test.
enum Happens {
    Byte(u8),
    Silence,
    Tick,
    PowerUp,
    Pulse,
}

/// An event on the wire, derived from the optical link and document 02 [14] alone: number, place, the
/// characters sent, and the next state. Every speed is 5.
fn on_the_wire(meter: &Meter, event: &Happens) -> (u8, u8, Vec<u8>, Meter) {
    let mut twin = Meter {
        link: OPTICAL,
        speed: if meter.mode < PASSWORD { 0 } else { 5 },
        ..meter.clone()
    };
    let mut buffer = [0xAA; ROOM];
    let answer = match event {
        Happens::Byte(byte) => twin.character(*byte, &mut buffer),
        Happens::Silence => twin.silence(&mut buffer),
        Happens::Tick => twin.tick(),
        Happens::PowerUp => twin.power_up(),
        Happens::Pulse => twin.pulse(Way::In, 5),
    };
    let mut sent: Vec<u8> = buffer[..answer.length].iter().map(|b| b & 0x7F).collect();
    let mut number = answer.number;
    let mut next = Meter {
        link: WIRED,
        speed: 5,
        ..twin
    };
    let back = |mode: u8| Meter {
        mode,
        count: 0,
        mark: 0,
        place: 0,
        held: [0; PLACES],
        ..meter.clone()
    };
    match event {
        Happens::Byte(0x0A) if meter.mode == LISTENING && meter.count > 0 => {
            // A line ends: only `/Annn.nnnnnnn` calls, with our serial or with zeros.
            let called = |serial: &[u8]| {
                let line = [b"/A", &serial[..3], b".", &serial[3..], b"\r"].concat();
                meter.mark == 0 && meter.held() == line
            };
            let calls = called(&meter.serial) || called(b"0000000000");
            number = calls.into();
            next = back(if calls { CONFIRMATION } else { LISTENING });
            let answered = [b"/g", &meter.serial[..3], b".", &meter.serial[3..], b"\r\n"];
            sent = if calls { answered.concat() } else { Vec::new() };
        }
        Happens::Byte(_)
            if meter.mode == CONFIRMATION && meter.count == 5 && meter.held[2] != b'5' =>
        {
            // The confirmation's digit must be 5.
            (number, sent, next) = (2, Vec::new(), back(LISTENING));
        }
        Happens::Silence if meter.mode == CONFIRMATION => sent.clear(),
        _ if (3..=11).contains(&number) => {
            // No reply, and the session is dropped; attempts count as before.
            sent.clear();
            next = Meter {
                attempts: next.attempts,
                ..back(LISTENING)
            };
        }
        _ => {}
    }
    (number, answer.place, sent, next)
}

#[test]
fn the_wire_is_the_optical_link_but_for_what_the_page_says() {
    let mut seed = 14_u64;
    let mut chance = |most: usize| {
        seed = seed
            .wrapping_mul(6_364_136_223_846_793_005)
            .wrapping_add(1_442_695_040_888_963_407);
        (seed >> 33) as usize % most
    };
    let mut numbers = [0; 12];
    let mut meter = wired_in(LISTENING);
    for _ in 0..60_000 {
        let lines: [&[u8]; 7] = [
            b"/A123.4567890\r\n",
            b"/A123.4567890\r\n",
            b"/A000.0000000\r\n",
            b"/A123.4567891\r\n",
            b"/?!\r\n",
            b"/C!\r\n",
            b"/g123.4567890\r\n",
        ];
        let frames = [
            true_frame("P1", "()"),
            true_frame("P1", "(20304050)"),
            true_frame("P1", "(20304051)"),
            true_frame("P1", "(2030405)"),
            true_frame("R1", "E0()"),
            true_frame("R1", "G0()"),
            true_frame("R1", "T()"),
            true_frame("W1", &format!("Z(07;{ALL_ONES})")),
            true_frame("W1", "K(Kiln-7 old)"),
            true_frame("X1", "()"),
            frame("R1", "T()", 0),
            true_frame("W1", &"x".repeat(59)),
            true_frame("R1", "T(\x1F)"),
            b"\x01B0\x03\x71".to_vec(),
        ];
        let message = match meter.mode {
            LISTENING => lines[chance(lines.len())].to_vec(),
            CONFIRMATION => {
                let (speed, choice) = (b"50"[chance(9) / 8], b"11106712"[chance(8)]);
                vec![ACK, b'0', speed, choice, CR, LF]
            }
            PASSWORD => frames[[2, 2, 2, 2, 1, 0, 3, 7][chance(8)]].clone(),
            _ => frames[chance(frames.len())].clone(),
        };
        let mut events: Vec<Happens> = message
            .iter()
            .map(|&character| Happens::Byte(with_parity(character)))
            .collect();
        if chance(6) == 0 {
            let place = chance(events.len());
            events[place] = Happens::Byte(chance(256) as u8);
        }
        match chance(40) {
            0 => events.insert(chance(message.len()), Happens::Silence),
            1 => events.insert(chance(message.len()), Happens::PowerUp),
            2 => events.insert(chance(message.len()), Happens::Tick),
            3 => events.push(Happens::Pulse),
            _ => {}
        }
        for event in &events {
            let wanted = on_the_wire(&meter, event);
            let mut buffer = [0xAA; ROOM];
            let answer = match event {
                Happens::Byte(byte) => meter.character(*byte, &mut buffer),
                Happens::Silence => meter.silence(&mut buffer),
                Happens::Tick => meter.tick(),
                Happens::PowerUp => meter.power_up(),
                Happens::Pulse => meter.pulse(Way::In, 5),
            };
            let (sent, kept) = buffer.split_at(answer.length);
            let sent: Vec<u8> = sent.iter().map(|b| b & 0x7F).collect();
            let given = (answer.number, answer.place, sent, meter.clone());
            assert_eq!(given, wanted);
            assert!(answer.speed == 5 && kept.iter().all(|&byte| byte == 0xAA));
            assert!(meter.well_formed());
            numbers[usize::from(answer.number)] += 1;
        }
    }
    for (number, times) in numbers.iter().enumerate() {
        assert!(*times > 20, "{number} came {times} times");
    }
}
