//! The speed of the checksum and of the parity: the proved library beside Rust by hand, in one run,
//! on the same 1,024 bytes.

use benchmark::fast_post::wires;
use benchmark::turns::{compared, medians, show};
use std::hint::black_box;
use std::process::ExitCode;

#[link(name = "speed", kind = "static")]
extern "C" {
    fn speed_bcc(bytes: *const u8, length: usize) -> u8;
    fn speed_parity(bytes: *mut u8, length: usize);
}

/// The library's checksum.
fn library_bcc(bytes: &[u8]) -> u8 {
    // The library reads the slice that it is handed, and nothing else.
    unsafe { speed_bcc(bytes.as_ptr(), bytes.len()) }
}

/// The library's parity, put on every byte in place.
fn library_parity(bytes: &mut [u8]) {
    // The library changes the slice that it is handed, and nothing else.
    unsafe { speed_parity(bytes.as_mut_ptr(), bytes.len()) }
}

/// The checksum by hand.
#[inline(never)]
fn rust_bcc(bytes: &[u8]) -> u8 {
    bytes.iter().fold(0, |sum, byte| sum ^ byte) & 0x7f
}

/// The parity by hand: eight bytes as one number, or by the vectors' count of ones where they have it.
#[inline(never)]
fn rust_parity(bytes: &mut [u8]) {
    if cfg!(target_arch = "aarch64") {
        for byte in bytes {
            let seven = *byte & 0x7F;
            *byte = seven | (seven.count_ones() as u8 & 1) << 7;
        }
        return;
    }
    let (eights, rest) = bytes.as_chunks_mut::<8>();
    for eight in eights {
        *eight = wires(u64::from_le_bytes(*eight) & 0x7F7F_7F7F_7F7F_7F7F).to_le_bytes();
    }
    for byte in rest {
        *byte = wires(u64::from(*byte & 0x7F)) as u8;
    }
}

/// Both sides give the same, on the bytes that are timed, cut anywhere, and with any byte before them.
fn all_equal(bytes: &[u8]) -> bool {
    let equal = |bytes: &[u8]| {
        let (mut hand, mut proved) = (bytes.to_vec(), bytes.to_vec());
        rust_parity(&mut hand);
        library_parity(&mut proved);
        rust_bcc(bytes) == library_bcc(bytes) && hand == proved
    };
    (0..=bytes.len()).all(|length| equal(&bytes[..length]) && equal(&bytes[length..]))
        && (0..=255).all(|byte| equal(&[&[byte], bytes].concat()))
}

fn main() -> ExitCode {
    let mut bytes: Vec<u8> = (0..1024u32).map(|i| (i * 37 % 251) as u8).collect();
    if let Some(status) = compared("line", all_equal(&bytes)) {
        return status;
    }
    let sums = medians(
        &mut [],
        |_| {
            black_box(rust_bcc(black_box(&bytes)));
        },
        |_| {
            black_box(library_bcc(black_box(&bytes)));
        },
    );
    let parities = medians(
        &mut bytes,
        |bytes| rust_parity(black_box(bytes)),
        |bytes| library_parity(black_box(bytes)),
    );
    show([("bcc, 1 KiB", sums), ("parity, 1 KiB", parities)])
}
