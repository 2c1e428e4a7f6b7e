//! Makes the sample capture of examples/capture.c, and what that program must print for it.
//!
//! Usage: make_capture CAPTURE EXPECTED, the two files to write.

mod model;

use model::{Crc, FULL};
use std::{env, fs, process};

// The sizes of a body, and the most of an encoding (01 "Bytes on the wire").
const BODY_MIN: usize = 5;
const BODY_MAX: usize = 280;
const ENCODED_MAX: usize = 282;

// Types of messages (P section 4).
const PING: u8 = 0x01;
const GET_INFO: u8 = 0x02;
const SET_CONFIG: u8 = 0x03;
const TX: u8 = 0x04;
const RX_START: u8 = 0x05;
const RX_STOP: u8 = 0x06;
const OK: u8 = 0x80;
const ERR: u8 = 0x81;
const RX: u8 = 0xC0;
const TX_DONE: u8 = 0xC1;

/// LoRa at 868.1 MHz, SF7, 125 kHz (P 10.1), with the modulation before it.
const LORA: &[u8] = b"\x01\xA0\x27\xBE\x33\x07\x07\x00\x08\x00\x24\x14\x0E\x00\x01\x00";

/// What the board of P C.2.2 says of itself.
const INFO: &[u8] = b"\x01\x00\x00\x01\x00\x02\x00\x03\x00\x01\x00\x00\x00\x00\x00\xE0\x1F\xFF\x03\
    \xFF\x00\x40\x00\x10\x00\x80\xD1\xF0\x08\x00\x70\x38\x39\xF7\x16\x08\xDE\xAD\xBE\xEF\x01\x23\
    \x45\x67\x00";

/// An unfinished frame.
const TAIL: &[u8] = b"\x03\x80\x08\x03";

struct Capture {
    crc: Crc,
    bytes: Vec<u8>,
    good: usize,
    damaged: usize,
}

fn main() {
    let files: Vec<String> = env::args().skip(1).collect();
    if files.len() != 2 {
        eprintln!("usage: make_capture CAPTURE EXPECTED");
        process::exit(2);
    }
    let mut capture = Capture {
        crc: Crc::new(),
        bytes: Vec::new(),
        good: 0,
        damaged: 0,
    };
    capture.start();
    capture.packets();
    capture.damage();
    capture.end();
    let (good, damaged, tail) = (capture.good, capture.damaged, TAIL.len());
    let expected = format!("good {good}\ndamaged {damaged}\ntail {tail}\n");
    fs::write(&files[0], &capture.bytes).expect("the capture is written");
    fs::write(&files[1], expected).expect("the expected output is written");
}

/// The payload of an RX event (P 6.9) with this packet.
fn rx(rssi: i16, time: u64, packet: &[u8]) -> Vec<u8> {
    let (snr, freq_err): (i16, i32) = (95, -125);
    let mut payload = Vec::new();
    payload.extend(rssi.to_le_bytes());
    payload.extend(snr.to_le_bytes());
    payload.extend(freq_err.to_le_bytes());
    payload.extend(time.to_le_bytes());
    payload.extend([1, 0, 0, 0]);
    payload.extend(packet);
    payload
}

/// A payload of TX: the flags, then this many packet bytes, none of them zero.
fn tx(flags: u8, len: u8) -> Vec<u8> {
    let mut payload = vec![flags];
    payload.extend(1..=len);
    payload
}

impl Capture {
    /// A body: type, tag, payload, check value.
    fn body(&self, kind: u8, tag: u16, payload: &[u8]) -> Vec<u8> {
        let mut body = vec![kind];
        body.extend(tag.to_le_bytes());
        body.extend(payload);
        body.extend(self.crc.of(&body).to_le_bytes());
        body
    }

    fn is_good(&self, run: &[u8]) -> bool {
        let body = model::decode(run).unwrap_or_default();
        let is_length = run.len() <= ENCODED_MAX && (BODY_MIN..=BODY_MAX).contains(&body.len());
        is_length && {
            let (front, check) = body.split_at(body.len() - 2);
            check == self.crc.of(front).to_le_bytes()
        }
    }

    fn add(&mut self, run: &[u8]) {
        self.bytes.extend(run);
        self.bytes.push(0);
    }

    fn good_run(&mut self, run: &[u8]) {
        assert!(self.is_good(run));
        self.good += 1;
        self.add(run);
    }

    fn good(&mut self, kind: u8, tag: u16, payload: &[u8]) {
        self.good_run(&model::encode(&self.body(kind, tag, payload)));
    }

    fn damaged(&mut self, run: &[u8]) {
        assert!(!self.is_good(run));
        self.damaged += 1;
        self.add(run);
    }

    /// The end of a frame whose start was missed, empty runs, then a session's first frames.
    fn start(&mut self) {
        self.damaged(b"\x14\x0E\x02\x01\x03\x0B\x7F");
        self.add(b"");
        self.add(b"");
        self.good(PING, 0x0001, b"");
        self.good(OK, 0x0001, b"");
        self.good(GET_INFO, 0x0002, b"");
        self.good(OK, 0x0002, INFO);
        self.good(SET_CONFIG, 0x0003, LORA);
        let applied = [&[0, 1], LORA].concat();
        self.good(OK, 0x0003, &applied);
    }

    /// Packets sent and received, up to the longest body, with full groups at several places.
    fn packets(&mut self) {
        self.good(TX, 0x0004, b"\x00Hello");
        self.good(OK, 0x0004, b"");
        self.good(TX_DONE, 0x0004, b"\x00\x00\x79\x00\x00");
        self.good(RX_START, 0x0006, b"");
        self.good(OK, 0x0006, b"");
        self.good(RX, 0, &rx(-820, 42_000_000, b"\x01\x02\x03\x04"));
        self.good(RX, 0, &rx(-735, 43_000_000, b"\x00\x00\x00"));
        let packet: Vec<u8> = (1..=255).collect();
        self.good(RX, 0, &rx(-1050, 44_000_000, &packet));
        self.good(TX, 0x0101, &tx(1, 253));
        // A body of one full group: it is taken with its closing 01 and without.
        let body = self.body(TX, 0x0101, &tx(1, 248));
        let mut run = model::encode(&body);
        assert!(body.len() == FULL && run.len() == FULL + 2);
        self.good_run(&run);
        run.pop();
        self.good_run(&run);
    }

    /// Runs that are no frames, each for another reason.
    fn damage(&mut self) {
        // Ends inside a group.
        self.damaged(b"\x05");
        // The empty body.
        self.damaged(b"\x01");
        // Too short, with a right check value.
        let check = self.crc.of(&[OK, 1]).to_le_bytes();
        self.damaged(&model::encode(&[OK, 1, check[0], check[1]]));
        // As long as an encoding may be, but for a body of one byte too many.
        let run = model::encode(&self.body(RX, 0, &rx(0, 0, &[0; 256])));
        assert!(run.len() == ENCODED_MAX);
        self.damaged(&run);
        // A bit that flipped, and a byte that was lost.
        let run = model::encode(&self.body(PING, 0x0007, b""));
        let mut flipped = run.clone();
        flipped[1] ^= 0x40;
        self.damaged(&flipped);
        self.damaged(&run[..run.len() - 1]);
        // Two frames that lost the zero between them.
        self.damaged(&[&run[..], &run[..]].concat());
        // Too long. The last bytes of the first would be a frame, if they stood alone.
        self.damaged(&[&[0xAA; ENCODED_MAX + 1], &run[..]].concat());
        self.damaged(&[0x01; ENCODED_MAX + 1]);
    }

    fn end(&mut self) {
        self.good(ERR, 0x0028, b"\x03\x00");
        self.good(ERR, 0, b"\x02\x01");
        self.good(OK, 0x0033, b"");
        self.good(0x10, 0x003C, b"\xDE\xAD");
        self.good(RX_STOP, 0x0008, b"");
        self.bytes.extend(TAIL);
    }
}
