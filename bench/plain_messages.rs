//! Reading an RX and a TX_DONE and writing a command as one would do it in Rust, with the codec of
//! plain.rs. The answers are those of donglora.h, the first that applies, and a refusal writes
//! nothing: a frame is decoded to memory of the function's own and copied when all is well.
//!
//! The three functions are kept out of line, since the library's are.

use crate::plain::{self, BODY_MAX, BODY_MIN, ENCODED_MAX, LENGTH, SHORT};

// The numbers of donglora.h that plain.rs has not; 0 is that all is well.
const CHECK: u8 = 7;
const TAG: u8 = 8;
const TYPE: u8 = 9;
const FORM: u8 = 10;

// The types that have a rule of their own.
pub const PING: u8 = 0x01;
const SET_CONFIG: u8 = 0x03;
pub const TX: u8 = 0x04;
const RX_STOP: u8 = 0x06;
const OK: u8 = 0x80;
const RX: u8 = 0xC0;
pub const TX_DONE: u8 = 0xC1;

/// struct donglora_rx.
#[repr(C)]
#[derive(Default, PartialEq)]
pub struct Rx {
    pub number: u8,
    rssi: i16,
    snr: i16,
    freq_err: i32,
    timestamp_us: u64,
    crc_valid: u8,
    packets_dropped: u16,
    origin: u8,
    packet_len: usize,
}

/// struct donglora_tx_done.
#[repr(C)]
#[derive(Default, PartialEq)]
pub struct TxDone {
    pub number: u8,
    tag: u16,
    result: u8,
    airtime_us: u32,
}

/// Reads the frame of an RX, and puts its body at the start of dst.
#[inline(never)]
pub fn read_rx(run: &[u8], dst: &mut [u8]) -> Rx {
    let is_rx = |payload: &[u8]| payload.len() >= 20 && payload[16] <= 1 && payload[19] <= 1;
    let mut rx = Rx::default();
    match read(RX, is_rx, run, dst) {
        Err(number) => rx.number = number,
        Ok(body) => {
            let payload = &body[3..body.len() - 2];
            rx.rssi = i16::from_le_bytes(field(payload, 0));
            rx.snr = i16::from_le_bytes(field(payload, 2));
            rx.freq_err = i32::from_le_bytes(field(payload, 4));
            rx.timestamp_us = u64::from_le_bytes(field(payload, 8));
            rx.crc_valid = payload[16];
            rx.packets_dropped = u16::from_le_bytes(field(payload, 17));
            rx.origin = payload[19];
            rx.packet_len = payload.len() - 20;
        }
    }
    rx
}

/// Reads the frame of a TX_DONE, and puts its body at the start of dst.
#[inline(never)]
pub fn read_tx_done(run: &[u8], dst: &mut [u8]) -> TxDone {
    let is_tx_done = |payload: &[u8]| payload.len() >= 5 && payload[0] <= 2;
    let mut done = TxDone::default();
    match read(TX_DONE, is_tx_done, run, dst) {
        Err(number) => done.number = number,
        Ok(body) => {
            done.tag = u16::from_le_bytes(field(body, 1));
            done.result = body[3];
            done.airtime_us = u32::from_le_bytes(field(body, 4));
        }
    }
    done
}

/// The body in a frame of the wanted type and form, copied to dst, or the number of the refusal.
fn read<'a>(
    wanted: u8,
    is_form: impl Fn(&[u8]) -> bool,
    run: &[u8],
    dst: &'a mut [u8],
) -> Result<&'a [u8], u8> {
    if run.len() > ENCODED_MAX {
        return Err(LENGTH);
    }
    if dst.len() < run.len() {
        return Err(SHORT);
    }
    let mut memory = [0; ENCODED_MAX];
    let n = plain::decode(run, &mut memory)?;
    if !(BODY_MIN..=BODY_MAX).contains(&n) {
        return Err(LENGTH);
    }
    let body = &memory[..n];
    if plain::crc16(&body[..n - 2]) != u16::from_le_bytes(field(body, n - 2)) {
        return Err(CHECK);
    }
    if is_tag_wrong(body[0], u16::from_le_bytes(field(body, 1))) {
        return Err(TAG);
    }
    if body[0] != wanted {
        return Err(TYPE);
    }
    if !is_form(&body[3..n - 2]) {
        return Err(FORM);
    }
    dst[..n].copy_from_slice(body);
    Ok(&dst[..n])
}

/// The N bytes from `at` on.
fn field<const N: usize>(src: &[u8], at: usize) -> [u8; N] {
    src[at..at + N].try_into().expect("N bytes are N bytes")
}

fn is_tag_wrong(kind: u8, tag: u16) -> bool {
    match kind {
        PING..=RX_STOP | OK | TX_DONE => tag == 0,
        RX => tag != 0,
        _ => false,
    }
}

/// Writes the frame of a command to dst. The answer is how many bytes that is, or the number of the
/// refusal.
#[inline(never)]
pub fn write_command(kind: u8, tag: u16, payload: &[u8], dst: &mut [u8]) -> Result<usize, u8> {
    if is_tag_wrong(kind, tag) {
        return Err(TAG);
    }
    if !(PING..=RX_STOP).contains(&kind) {
        return Err(TYPE);
    }
    if !is_command(kind, payload) {
        return Err(FORM);
    }
    let len = payload.len() + BODY_MIN;
    if dst.len() < len + len / 254 + 2 {
        return Err(SHORT);
    }
    let mut memory = [0; BODY_MAX];
    let body = &mut memory[..len];
    body[0] = kind;
    body[1..3].copy_from_slice(&tag.to_le_bytes());
    body[3..len - 2].copy_from_slice(payload);
    let check = plain::crc16(&body[..len - 2]);
    body[len - 2..].copy_from_slice(&check.to_le_bytes());
    let end = plain::encode(body, dst)?;
    dst[end] = 0;
    Ok(end + 1)
}

/// Whether this is a payload of that command.
fn is_command(kind: u8, payload: &[u8]) -> bool {
    match (kind, payload) {
        (SET_CONFIG, [1, ..]) => payload.len() == 16,
        (SET_CONFIG, [2, ..]) => {
            let sync = payload.get(16).copied().unwrap_or(u8::MAX);
            sync <= 8 && payload.len() == 17 + usize::from(sync)
        }
        (TX, [0 | 1, packet @ ..]) => (1..=255).contains(&packet.len()),
        (SET_CONFIG | TX, _) => false,
        _ => payload.is_empty(),
    }
}
