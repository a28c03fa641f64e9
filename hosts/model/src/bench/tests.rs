//! The script's own rules.

use super::*;

fn transcript(script: &str) -> String {
    let mut got = Vec::new();
    run(script.as_bytes(), &mut got).unwrap();
    String::from_utf8(got).unwrap()
}

#[test]
fn sign_on_by_hand() {
    let script = "dump\nbytes af3f218d0a\nbyte 06 4095\nsilence 8192\n";
    let zeros = "00".repeat(63);
    let tables = "31".repeat(576) + &"00".repeat(24);
    let none = " 0 0 0 0 0 0 0 0 0 0 0 0 0".repeat(12);
    let expected = format!(
        "0 0 0 {zeros} 30303030303030303030 20202020202020202020 3030303030303030 \
         0 2000 1 1 0 0 0 0 0 0 0 {tables} 0 0 1 0 0 0 0 0 0 0 0{none} 1\n\
         0 0 0 - 0\n0 0 0 - 0\n0 0 0 - 0\n0 0 0 - 0\n\
         1 0 19 af5a5a5a355355422d565030b12e3030aa8d0a 0\n12 0 0 - 0\n1 0 1 95 0\n"
    );
    assert_eq!(transcript(script), expected);
}

#[test]
fn dump_comes_back_through_set() {
    let mut bench = Bench::default();
    bench.meter.mode = 77;
    bench.meter.mark = 255;
    bench.meter.place = 254;
    bench.meter.held[62] = 255;
    bench.meter.counters[3] = u32::MAX;
    bench.meter.clock.year = u16::MAX;
    bench.meter.tables[23][23] = 0;
    bench.meter.tables[24][23] = 255;
    bench.meter.edition = 254;
    bench.meter.closed = 200;
    bench.meter.periods[11].minute = 255;
    bench.meter.periods[11].counters[3] = u32::MAX;
    bench.meter.periods[0].year = 1;
    bench.meter.link = 255;
    bench.meter.decimals = 254;
    bench.meter.exported = [1, 2, 3, u32::MAX];
    bench.meter.exported_total = u32::MAX - 1;
    bench.meter.periods[1].exported = [5, 6, 7, u32::MAX];
    let line = format!("set {}", dump(&bench.meter));
    assert_eq!(
        parse(line.as_bytes()),
        Some(Command::Set(Box::new(bench.meter)))
    );
}

#[test]
fn other_lines_are_errors() {
    let lines = [
        "",
        " ",
        "dump ",
        " dump",
        "Dump",
        "dump\r",
        "tick 1",
        "byte",
        "byte -",
        "byte 8",
        "byte 812",
        "byte 8A",
        "byte 81 8193",
        "byte 81 -1",
        "byte 81  1",
        "bytes",
        "bytes ",
        "bytes 812",
        "bytes 81 82",
        "silence 65536",
        "pulse",
        "pulse +1",
        "pulse 4294967296",
        "pulse 1 ",
        "pulse 1 in",
        "pulse 1 Out",
        "pulse out",
        "pulse out 1",
        "pulse 1 out ",
        "pulse 4294967296 out",
        "up 0",
        "new",
        "set",
    ];
    for line in lines {
        assert_eq!(parse(line.as_bytes()), None, "{line:?}");
    }
}

#[test]
fn taken_lines() {
    assert_eq!(transcript("bytes -\n"), "");
    assert_eq!(transcript("bytes -"), "");
    assert_eq!(transcript("\n"), "error\n");
    assert_eq!(transcript(""), "");
    assert_eq!(
        transcript("byte 00 0\nbyte 00 8192"),
        "12 0 0 - 0\n0 0 0 - 0\n"
    );
    assert_eq!(transcript("pulse 0001000000\ntick"), "1 0\n1 0\n");
    assert_eq!(transcript("pulse 1000001\nup"), "13 0\n1 0\n");
    let new = "new 31323334353637383930 4b696c6e5f37206f6c64 3230333034303530 2024 2 29 8 5 9";
    let pulses = "pulse 0 out\npulse 1000000 out\npulse 1000001 out";
    assert_eq!(
        transcript(&format!("{new} 1 1 3\n{pulses}")),
        "1\n1 0\n1 0\n13 0\n"
    );
    assert_eq!(
        transcript(&format!("{new}\n{pulses}")),
        "1\n13 0\n13 0\n13 0\n"
    );
    assert_eq!(
        transcript(&format!("{new} 1 1 1\n{new} 1 1 0\n{new} 1 1 0 0")),
        "18\n1\nerror\n"
    );
}
