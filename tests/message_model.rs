//! Reading an RX and a TX_DONE, and writing a command, by P section 6 and by 01 "Bytes on the wire"
//! and "Numbers that come back", so that the tests have something to compare with.
//!
//! A frame or a command is judged whole: every number that applies is in a list, and the first of
//! them is the answer. So a test can see which cases have more than one fault.

use crate::model::{self, Crc, FULL};

// The numbers that come back.
pub const TAKEN: u8 = 0;
pub const SHORT: u8 = 4;
pub const STUFF: u8 = 5;
pub const LENGTH: u8 = 6;
pub const CHECK: u8 = 7;
pub const TAG: u8 = 8;
pub const TYPE: u8 = 9;
pub const FORM: u8 = 10;

// The sizes of a body, and the most of an encoding.
pub const BODY_MIN: usize = 5;
pub const BODY_MAX: usize = 280;
pub const ENCODED_MAX: usize = 282;

// The ten types (P section 4).
pub const PING: u8 = 0x01;
pub const GET_INFO: u8 = 0x02;
pub const SET_CONFIG: u8 = 0x03;
pub const TX: u8 = 0x04;
pub const RX_START: u8 = 0x05;
pub const RX_STOP: u8 = 0x06;
pub const OK: u8 = 0x80;
pub const ERR: u8 = 0x81;
pub const RX: u8 = 0xC0;
pub const TX_DONE: u8 = 0xC1;

/// What an RX says, as the header lays it out.
#[repr(C)]
#[derive(Clone, Debug, Default, PartialEq)]
pub struct Rx {
    pub number: u8,
    pub rssi: i16,
    pub snr: i16,
    pub freq_err: i32,
    pub timestamp_us: u64,
    pub crc_valid: u8,
    pub packets_dropped: u16,
    pub origin: u8,
    pub packet_len: usize,
}

/// What a TX_DONE says, as the header lays it out.
#[repr(C)]
#[derive(Clone, Debug, Default, PartialEq)]
pub struct TxDone {
    pub number: u8,
    pub tag: u16,
    pub result: u8,
    pub airtime_us: u32,
}

/// A body: type, tag, payload, check value.
pub fn body(crc: &Crc, kind: u8, tag: u16, payload: &[u8]) -> Vec<u8> {
    let mut body = vec![kind];
    body.extend(tag.to_le_bytes());
    body.extend(payload);
    body.extend(crc.of(&body).to_le_bytes());
    body
}

/// Reads a frame of the wanted type: every number that applies, and the body that the run stands
/// for.
pub fn read(crc: &Crc, wanted: u8, run: &[u8], room: usize) -> (Vec<u8>, Vec<u8>) {
    let decoded = model::decode(run);
    let is_encoding = decoded.is_ok();
    let body = decoded.unwrap_or_default();
    let is_length = (BODY_MIN..=BODY_MAX).contains(&body.len());
    // Of a body that is too short, no more is said than that.
    let is_whole = body.len() >= BODY_MIN;
    let (front, check) = body.split_at(if is_whole { body.len() - 2 } else { 0 });
    let is_tagged = |front: &[u8]| is_tag(front[0], column(front, 1, 2) as u16);
    let faults = applying(&[
        (LENGTH, run.len() > ENCODED_MAX),
        (SHORT, room < run.len()),
        (STUFF, !is_encoding),
        (LENGTH, is_encoding && !is_length),
        (CHECK, is_whole && check != crc.of(front).to_le_bytes()),
        (TAG, is_whole && !is_tagged(front)),
        (TYPE, is_whole && front[0] != wanted),
        (FORM, is_whole && !is_event(wanted, &front[3..])),
    ]);
    (faults, body)
}

/// The numbers that apply.
fn applying(numbers: &[(u8, bool)]) -> Vec<u8> {
    let applying = numbers.iter().filter(|(_, applies)| *applies);
    applying.map(|(number, _)| *number).collect()
}

/// The answer where these apply.
pub fn first(faults: &[u8]) -> u8 {
    *faults.first().unwrap_or(&TAKEN)
}

/// The little-endian number of `size` bytes from `at` on.
fn column(bytes: &[u8], at: usize, size: usize) -> u64 {
    let high_first = bytes[at..at + size].iter().rev();
    high_first.fold(0, |number, &byte| number * 256 + u64::from(byte))
}

/// The rule for the tag of each type. An ERR, and a type that P does not have, may have any.
fn is_tag(kind: u8, tag: u16) -> bool {
    match kind {
        PING | GET_INFO | SET_CONFIG | TX | RX_START | RX_STOP | OK | TX_DONE => tag != 0,
        RX => tag == 0,
        _ => true,
    }
}

/// Whether this is a payload of an RX (P 6.9) or a TX_DONE (P 6.10).
fn is_event(kind: u8, payload: &[u8]) -> bool {
    match kind {
        RX => payload.len() >= 20 && payload[16] <= 1 && payload[19] <= 1,
        _ => payload.len() >= 5 && payload[0] <= 2,
    }
}

/// What an RX says for this number, by its body. The columns count from the payload's start.
pub fn rx(number: u8, body: &[u8]) -> Rx {
    let refused = Rx {
        number,
        ..Rx::default()
    };
    if number != TAKEN {
        return refused;
    }
    let payload = &body[3..body.len() - 2];
    Rx {
        number,
        rssi: column(payload, 0, 2) as i16,
        snr: column(payload, 2, 2) as i16,
        freq_err: column(payload, 4, 4) as i32,
        timestamp_us: column(payload, 8, 8),
        crc_valid: payload[16],
        packets_dropped: column(payload, 17, 2) as u16,
        origin: payload[19],
        packet_len: payload.len() - 20,
    }
}

/// What a TX_DONE says for this number, by its body.
pub fn tx_done(number: u8, body: &[u8]) -> TxDone {
    let refused = TxDone {
        number,
        ..TxDone::default()
    };
    if number != TAKEN {
        return refused;
    }
    TxDone {
        number,
        tag: column(body, 1, 2) as u16,
        result: body[3],
        airtime_us: column(body, 4, 4) as u32,
    }
}

/// Writes a command: every number that applies, and the frame with its zero.
pub fn command(crc: &Crc, kind: u8, tag: u16, payload: &[u8], room: usize) -> (Vec<u8>, Vec<u8>) {
    let faults = applying(&[
        (TAG, !is_tag(kind, tag)),
        (TYPE, !(PING..=RX_STOP).contains(&kind)),
        (FORM, !is_command(kind, payload)),
        (SHORT, room < frame_room(payload.len())),
    ]);
    let mut frame = model::encode(&body(crc, kind, tag, payload));
    frame.push(0);
    (faults, frame)
}

/// The most that a frame with so many bytes of payload can have, its zero included.
pub fn frame_room(payload_len: usize) -> usize {
    let body = payload_len + 5;
    body + body / FULL + 1 + 1
}

/// Whether this is a payload of that command (P 6.1 to 6.6 and 10). Other types have no rule here.
fn is_command(kind: u8, payload: &[u8]) -> bool {
    match (kind, payload) {
        (PING | GET_INFO | RX_START | RX_STOP, _) => payload.is_empty(),
        (SET_CONFIG, [1, parameters @ ..]) => parameters.len() == 15,
        (SET_CONFIG, [2, parameters @ ..]) => match parameters.get(15) {
            Some(&sync_word_len) => {
                sync_word_len <= 8 && parameters.len() == 16 + usize::from(sync_word_len)
            }
            None => false,
        },
        (SET_CONFIG, _) => false,
        (TX, [flags, packet @ ..]) => *flags <= 1 && (1..=255).contains(&packet.len()),
        (TX, []) => false,
        _ => true,
    }
}
