//! Measures how libdonglora.a reads an RX and a TX_DONE and writes a command, beside straightforward
//! Rust that does the same. How they are measured is said in table.rs.
//!
//! Usage: messages              measures, and prints a line of numbers for each row
//!        messages PROGRAM...   runs these builds and prints the table

mod frames;
mod plain;
mod plain_messages;
mod table;

use frames::{body, encoding, realistic, rx, Rng};
use plain::ENCODED_MAX;
use plain_messages::{read_rx, read_tx_done, Rx, TxDone, PING, TX, TX_DONE};
use std::collections::BTreeSet;
use std::hint::black_box;
use table::{Row, Unit, ROUND, SEED};

/// The library.
mod proved {
    use super::{Rx, TxDone};

    extern "C" {
        fn donglora_read_rx(src: *const u8, len: usize, dst: *mut u8, room: usize) -> Rx;
        fn donglora_read_tx_done(src: *const u8, len: usize, dst: *mut u8, room: usize) -> TxDone;
        fn donglora_write_command(
            kind: u8,
            tag: u16,
            src: *const u8,
            len: usize,
            dst: *mut u8,
            room: usize,
            written: *mut usize,
        ) -> u8;
    }

    // SAFETY, of all three: pointers and sizes are those of slices, which do not overlap.
    pub fn read_rx(run: &[u8], dst: &mut [u8]) -> Rx {
        unsafe { donglora_read_rx(run.as_ptr(), run.len(), dst.as_mut_ptr(), dst.len()) }
    }

    pub fn read_tx_done(run: &[u8], dst: &mut [u8]) -> TxDone {
        unsafe { donglora_read_tx_done(run.as_ptr(), run.len(), dst.as_mut_ptr(), dst.len()) }
    }

    pub fn write_command(command: &[u8], dst: &mut [u8]) -> Result<usize, u8> {
        let (kind, tag, payload) = super::parts(command);
        let (src, len, to, room) = (payload.as_ptr(), payload.len(), dst.as_mut_ptr(), dst.len());
        let mut n = 0;
        match unsafe { donglora_write_command(kind, tag, src, len, to, room, &mut n) } {
            0 => Ok(n),
            number => Err(number),
        }
    }
}

fn write_command(command: &[u8], dst: &mut [u8]) -> Result<usize, u8> {
    let (kind, tag, payload) = parts(command);
    plain_messages::write_command(kind, tag, payload, dst)
}

/// The type, tag and payload of a command, of which the body is given.
fn parts(command: &[u8]) -> (u8, u16, &[u8]) {
    let tag = u16::from_le_bytes([command[1], command[2]]);
    (command[0], tag, &command[3..command.len() - 2])
}

/// Both sides of a function have this form.
trait Call<T>: Fn(&[u8], &mut [u8]) -> T {}
impl<T, F: Fn(&[u8], &mut [u8]) -> T> Call<T> for F {}

/// Calls both with a destination of so many bytes. What they say, and every byte of the destination
/// after it, must be the same.
fn same<T: PartialEq>(src: &[u8], room: usize, proved: impl Call<T>, plain: impl Call<T>) -> T {
    let (mut a, mut b) = (vec![0xA5; room], vec![0xA5; room]);
    let (said, by_plain) = (proved(src, &mut a), plain(src, &mut b));
    assert!(said == by_plain && a == b, "bench: different results");
    said
}

/// Compares both on what is measured and on many other frames and commands, good and bad, with room
/// enough and too little. Every number of donglora.h must come up.
fn compare(rng: &mut Rng, mut runs: Vec<Vec<u8>>, mut commands: Vec<Vec<u8>>) {
    let mut bodies = realistic(rng, ROUND);
    let kinds = [0, 1, 2, 3, 4, 5, 6, 7, 0x80, 0x81, 0xC0, 0xC1, 0xC2].repeat(20);
    for len in (0..=40).chain([248, 249, 255, 256, 257, 275]) {
        for &kind in &kinds {
            // The bytes are 0 to 3 and 8 to 11, since payloads are judged by small ones.
            let payload: Vec<u8> = rng.bytes(len).iter().map(|byte| byte & 11).collect();
            bodies.extend([0, 0x0102].map(|tag| body(kind, tag, &payload)));
        }
    }
    // SET_CONFIG for FSK, with sync words of all lengths and some more.
    let fsk = |len: u8| [vec![2; 16], vec![len; usize::from(len) + 1]].concat();
    bodies.extend((0..20).map(|len| body(3, 1, &fsk(len))));
    for (at, body) in bodies.iter().enumerate() {
        let run = encoding(body);
        let mut changed = run.clone();
        changed[at % run.len()] ^= 0x40;
        runs.extend([run[1..].to_vec(), changed, run]);
    }
    commands.extend(bodies);
    runs.extend((0..=300).map(|len| vec![1; len]));

    let mut seen = BTreeSet::new();
    for run in &runs {
        for room in [run.len() + 9, run.len(), run.len().saturating_sub(1)] {
            let rx = same(run, room, proved::read_rx, read_rx);
            let done = same(run, room, proved::read_tx_done, read_tx_done);
            seen.extend([("read_rx", rx.number), ("read_tx_done", done.number)]);
        }
    }
    for command in &commands {
        for room in command.len() + 1..command.len() + 5 {
            let said = same(command, room, proved::write_command, write_command);
            seen.insert(("write_command", said.err().unwrap_or(0)));
        }
    }
    assert_eq!(seen.len(), 8 + 8 + 5, "the numbers of the three functions");
}

/// Calls with all inputs.
fn call_all<T>(inputs: &[Vec<u8>], call: &impl Call<T>) {
    let mut buffer = [0; ENCODED_MAX + 1];
    // The compiler must not see the size of dst, which it could use in plain Rust only.
    let dst = black_box(&mut buffer[..]);
    for input in black_box(inputs) {
        black_box(&call(input, dst));
    }
}

fn row<T>(name: &str, inputs: &[Vec<u8>], proved: impl Call<T>, plain: impl Call<T>) -> Row {
    let (proved, plain) = (|| call_all(inputs, &proved), || call_all(inputs, &plain));
    Row::measure(name, None, inputs.len(), proved, plain)
}

/// Compares both, and measures all rows.
fn measure() -> Vec<Row> {
    let mut rng = Rng(SEED);
    // As many inputs as make a round; each is made for a tag.
    let many = |len, make: &mut dyn FnMut(u16) -> Vec<u8>| -> Vec<Vec<u8>> {
        (1..=(ROUND / len) as u16).map(make).collect()
    };
    let time = |tag| 42_000_000 + 90_000 * u64::from(tag);
    let short = many(31, &mut |tag| encoding(&rx(&mut rng, time(tag), 4)));
    let long = many(282, &mut |tag| encoding(&rx(&mut rng, time(tag), 255)));
    // Transmitted, and the airtime in microseconds.
    let done = |tag| [&[0], &(20_000 + 61 * u32::from(tag)).to_le_bytes()[..]].concat();
    let dones = many(12, &mut |tag| encoding(&body(TX_DONE, tag, &done(tag))));
    let pings = many(5, &mut |tag| body(PING, tag, b""));
    let mut packet = || [vec![0], rng.bytes(255)].concat();
    let tx = many(261, &mut |tag| body(TX, tag, &packet()));

    let runs = [&short[..], &long, &dones].concat();
    compare(&mut rng, runs, [&pings[..], &tx].concat());
    vec![
        row("read RX of 4", &short, proved::read_rx, read_rx),
        row("read RX of 255", &long, proved::read_rx, read_rx),
        row("read TX_DONE", &dones, proved::read_tx_done, read_tx_done),
        row("write PING", &pings, proved::write_command, write_command),
        row("write TX of 255", &tx, proved::write_command, write_command),
    ]
}

fn main() {
    let unit = Unit {
        name: "  ns",
        meaning: "ns: nanoseconds a call, so that less is faster",
        of: |time| 1e9 * time,
    };
    table::run_or_print(&unit, measure);
}
