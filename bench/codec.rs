//! Measures libdonglora.a beside straightforward Rust that does the same.
//!
//! Both are called through one trait, so that all code around them is the same. How they are measured
//! is said in table.rs.
//!
//! Usage: codec              measures, and prints a line of numbers for each row
//!        codec PROGRAM...   runs these builds and prints the table

mod frames;
mod plain;
mod table;

use frames::{encoding, realistic, rx, size, Rng};
use plain::{BODY_MAX, BODY_MIN, ENCODED_MAX};
use std::hint::black_box;
use std::process;
use table::{Row, Unit, ROUND, SEED};

extern "C" {
    fn donglora_crc16(src: *const u8, src_len: usize) -> u16;
    fn donglora_cobs_encode(
        src: *const u8,
        src_len: usize,
        dst: *mut u8,
        dst_len: usize,
        written: *mut usize,
    ) -> u8;
    fn donglora_cobs_decode(
        src: *const u8,
        src_len: usize,
        dst: *mut u8,
        dst_len: usize,
        written: *mut usize,
    ) -> u8;
}

/// What is measured. Answers are how many bytes were written, or the number of the refusal.
trait Codec {
    fn crc16(src: &[u8]) -> u16;
    fn encode(src: &[u8], dst: &mut [u8]) -> Result<usize, u8>;
    fn decode(src: &[u8], dst: &mut [u8]) -> Result<usize, u8>;
}

/// The library.
struct Proved;

impl Codec for Proved {
    fn crc16(src: &[u8]) -> u16 {
        // SAFETY: pointer and size are those of a slice.
        unsafe { donglora_crc16(src.as_ptr(), src.len()) }
    }

    fn encode(src: &[u8], dst: &mut [u8]) -> Result<usize, u8> {
        let mut n = 0;
        let (to, room) = (dst.as_mut_ptr(), dst.len());
        // SAFETY: pointers and sizes are those of slices, which do not overlap.
        match unsafe { donglora_cobs_encode(src.as_ptr(), src.len(), to, room, &mut n) } {
            0 => Ok(n),
            number => Err(number),
        }
    }

    fn decode(src: &[u8], dst: &mut [u8]) -> Result<usize, u8> {
        let mut n = 0;
        let (to, room) = (dst.as_mut_ptr(), dst.len());
        // SAFETY: pointers and sizes are those of slices, which do not overlap.
        match unsafe { donglora_cobs_decode(src.as_ptr(), src.len(), to, room, &mut n) } {
            0 => Ok(n),
            number => Err(number),
        }
    }
}

/// Straightforward Rust.
struct Plain;

impl Codec for Plain {
    fn crc16(src: &[u8]) -> u16 {
        plain::crc16(src)
    }

    fn encode(src: &[u8], dst: &mut [u8]) -> Result<usize, u8> {
        plain::encode(src, dst)
    }

    fn decode(src: &[u8], dst: &mut [u8]) -> Result<usize, u8> {
        plain::decode(src, dst)
    }
}

// In these three the compiler must not see the size of dst, which it could use in plain Rust only.

/// Encodes all bodies, and answers with the sum of the lengths so that the work is used.
fn encode_all<C: Codec>(bodies: &[Vec<u8>]) -> usize {
    let mut buffer = [0; ENCODED_MAX];
    let dst = black_box(&mut buffer[..]);
    bodies
        .iter()
        .map(|body| C::encode(body, dst).unwrap_or(0))
        .sum()
}

/// Decodes all runs.
fn decode_all<C: Codec>(runs: &[Vec<u8>]) -> usize {
    let mut buffer = [0; ENCODED_MAX];
    let dst = black_box(&mut buffer[..]);
    runs.iter()
        .map(|run| C::decode(run, dst).unwrap_or(0))
        .sum()
}

/// Cuts a capture at its zeros and counts the good frames.
fn count_good<C: Codec>(capture: &[u8]) -> usize {
    let mut buffer = [0; ENCODED_MAX];
    let dst = black_box(&mut buffer[..]);
    let mut good = 0;
    let mut rest = capture;
    while let Some(len) = rest.iter().position(|&byte| byte == 0) {
        if let Ok(n) = C::decode(&rest[..len], dst) {
            if (BODY_MIN..=BODY_MAX).contains(&n) {
                let check = u16::from_le_bytes([dst[n - 2], dst[n - 1]]);
                good += usize::from(C::crc16(&dst[..n - 2]) == check);
            }
        }
        rest = &rest[len + 1..];
    }
    good
}

/// As many bodies of one kind as a round has.
fn repeat(len: usize, mut make: impl FnMut() -> Vec<u8>) -> Vec<Vec<u8>> {
    (0..ROUND / len).map(|_| make()).collect()
}

fn encodings(bodies: &[Vec<u8>]) -> Vec<Vec<u8>> {
    bodies.iter().map(|body| encoding(body)).collect()
}

/// Whether both codecs give the same for these bodies, byte by byte.
fn agree(bodies: &[Vec<u8>]) -> bool {
    bodies.iter().zip(encodings(bodies)).all(|(body, run)| {
        let (mut a, mut b) = ([0; ENCODED_MAX], [0; ENCODED_MAX]);
        let encode = Proved::encode(body, &mut a) == Ok(run.len()) && a[..run.len()] == run;
        let decode = Proved::decode(&run, &mut a) == Plain::decode(&run, &mut b);
        encode
            && decode
            && b[..body.len()] == body[..]
            && a[..body.len()] == body[..]
            && Proved::crc16(body) == Plain::crc16(body)
    })
}

/// The two rows of some bodies: encode and decode.
fn rows(name: &str, target: Option<f64>, bodies: &[Vec<u8>]) -> [Row; 2] {
    let runs = encodings(bodies);
    [
        Row::measure(
            &format!("encode {name}"),
            target,
            size(bodies),
            || encode_all::<Proved>(black_box(bodies)),
            || encode_all::<Plain>(black_box(bodies)),
        ),
        Row::measure(
            &format!("decode {name}"),
            target,
            size(&runs),
            || decode_all::<Proved>(black_box(&runs)),
            || decode_all::<Plain>(black_box(&runs)),
        ),
    ]
}

/// Checks that both codecs give the same, and measures all rows.
fn measure() -> Vec<Row> {
    let mut rng = Rng(SEED);
    let block = rng.bytes(ROUND);
    let frames = realistic(&mut rng, ROUND);
    let random = repeat(BODY_MAX, || rng.bytes(BODY_MAX));
    let longest = repeat(BODY_MAX, || rx(&mut rng, 42_000_000, 255));
    let mut capture = encodings(&frames).join(&0);
    capture.push(0);

    let is_equal = Proved::crc16(&block) == Plain::crc16(&block)
        && count_good::<Proved>(&capture) == frames.len()
        && count_good::<Plain>(&capture) == frames.len()
        && agree(&frames)
        && agree(&random)
        && agree(&longest);
    if !is_equal {
        eprintln!("bench: the library and plain Rust give different results");
        process::exit(1);
    }

    let mut all = vec![Row::measure(
        "crc 64 KiB",
        Some(0.9),
        block.len(),
        || Proved::crc16(black_box(&block)),
        || Plain::crc16(black_box(&block)),
    )];
    all.extend(rows("realistic", Some(0.7), &frames));
    all.push(Row::measure(
        "capture run by run",
        Some(0.8),
        capture.len(),
        || count_good::<Proved>(black_box(&capture)),
        || count_good::<Plain>(black_box(&capture)),
    ));
    all.extend(rows("280 random", None, &random));
    all.extend(rows("RX of 255", None, &longest));
    all
}

fn main() {
    let unit = Unit {
        name: "MB/s",
        meaning: "MB/s: 10^6 bytes of the source a second",
        of: |time| 1e-6 / time,
    };
    table::run_or_print(&unit, measure);
}
