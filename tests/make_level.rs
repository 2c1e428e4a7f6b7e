//! Makes the sample capture of examples/level.c, what that program must print for it, and the TX
//! frame that it must write for the longest packet.
//!
//! Usage: make_level CAPTURE EXPECTED FRAME, the three files to write.

mod message_model;
mod model;

use message_model::*;
use model::Crc;
use std::{env, fs, process};

/// P's frames of appendix C with an RX or a TX_DONE, and some others.
const FRAMES: &[&[u8]] = &[
    // C.2.4: OK and TX_DONE 0004. C.2.5: TX_DONE 0005.
    b"\x03\x80\x04\x03\x02\x3B\x00",
    b"\x03\xC1\x04\x01\x01\x02\x79\x01\x03\xE3\xFA\x00",
    b"\x03\xC1\x05\x01\x01\x02\x84\x01\x03\x81\xE3\x00",
    // C.2.6: RX.
    b"\x02\xC0\x01\x04\x21\xFD\x5F\x09\x83\xFF\xFF\xFF\x80\xDE\x80\x02\x01\x01\x01\x02\x01\x01\x01\
      \x07\x01\x02\x03\x04\xB9\x8E\x00",
    // C.3.1: TX_DONE 0064 to 0066.
    b"\x03\xC1\x64\x01\x03\xA8\x61\x01\x03\x8E\xCC\x00",
    b"\x03\xC1\x65\x01\x03\xA8\x61\x01\x03\xEF\x74\x00",
    b"\x03\xC1\x66\x01\x03\xA8\x61\x01\x03\x6D\xAC\x00",
    // C.4.1: RX.
    b"\x02\xC0\x01\x04\xCC\xFC\x50\x01\x01\x01\x01\x05\x80\xF0\xFA\x02\x01\x01\x01\x02\x01\x01\x01\
      \x05\xAA\xBB\x54\xC0\x00",
    // C.4.2: TX_DONE 0014 and 0015. C.4.3: TX_DONE 001E and 0021, with an ERR between them.
    b"\x03\xC1\x14\x02\x02\x01\x01\x01\x03\x82\xCF\x00",
    b"\x03\xC1\x15\x02\x02\x01\x01\x01\x03\xE3\x77\x00",
    b"\x03\xC1\x1E\x01\x01\x02\x79\x01\x03\xD6\x3E\x00",
    b"\x03\x81\x1F\x02\x03\x03\x97\x03\x00",
    b"\x03\xC1\x21\x01\x01\x02\x79\x01\x03\xB2\xED\x00",
    // C.5.5: TX_DONE 0032 and 0033.
    b"\x03\xC1\x32\x02\x01\x01\x01\x01\x03\x83\xEE\x00",
    b"\x03\xC1\x33\x01\x01\x02\x79\x01\x03\x2A\xBA\x00",
    // C.6.2, C.6.3: RX. C.6.4: ERR.
    b"\x02\xC0\x01\x07\xE6\xFB\xB0\xFF\x98\x08\x01\x01\x04\x0E\x27\x07\x01\x01\x01\x01\x01\x01\x01\
      \x04\x41\x42\xFF\x04\xCC\x04\x3C\x00",
    b"\x02\xC0\x01\x04\x26\xFD\x64\x02\x32\x01\x01\x05\xA0\x45\xC7\x07\x01\x01\x01\x03\x01\x03\x01\
      \x05\x01\x02\xA7\x86\x00",
    b"\x02\x81\x01\x05\x02\x01\xCE\xEF\x00",
    // C.7.3: TX_DONE 005A, and the RX of the same packet.
    b"\x03\xC1\x5A\x01\x01\x02\xD8\x01\x03\x50\xA8\x00",
    b"\x02\xC0\x01\x01\x01\x01\x01\x01\x01\x01\x01\x01\x04\x95\xBA\x0A\x01\x01\x01\x02\x01\x01\x0C\
      \x01\x42\x52\x4F\x41\x44\x43\x41\x53\x54\xE0\x01\x00",
    // C.8.2: RX.
    b"\x02\xC0\x01\x01\x01\x01\x01\x01\x01\x01\x01\x01\x02\x01\x01\x01\x01\x01\x01\x02\x01\x01\x01\
      \x01\x01\x01\x03\xB4\x74\x00",
];

/// An unfinished frame.
const TAIL: &[u8] = b"\x02\xC0\x01\x04\x21\xFD";

/// The RX of C.2.6.
const USUAL: Rx = Rx {
    number: TAKEN,
    rssi: -735,
    snr: 95,
    freq_err: -125,
    timestamp_us: 42_000_000,
    crc_valid: 1,
    packets_dropped: 0,
    origin: 0,
    packet_len: 4,
};

fn main() {
    let files: Vec<String> = env::args().skip(1).collect();
    if files.len() != 3 {
        eprintln!("usage: make_level CAPTURE EXPECTED FRAME");
        process::exit(2);
    }
    let mut capture = Capture {
        crc: Crc::new(),
        bytes: Vec::new(),
    };
    capture.appendix();
    capture.more();
    capture.wrong();
    capture.damaged();
    capture.bytes.extend(TAIL);
    let payload: Vec<u8> = (0..=255).collect();
    let room = frame_room(payload.len());
    let (faults, frame) = command(&capture.crc, TX, 0xFFFE, &payload, room);
    assert!(first(&faults) == TAKEN);
    fs::write(&files[0], &capture.bytes).expect("the capture is written");
    fs::write(&files[1], capture.expected()).expect("the expected output is written");
    fs::write(&files[2], &frame).expect("the frame is written");
}

/// The payload of an RX (P 6.9) with these fields and this packet.
fn payload(fields: Rx, packet: &[u8]) -> Vec<u8> {
    let mut payload = Vec::new();
    payload.extend(fields.rssi.to_le_bytes());
    payload.extend(fields.snr.to_le_bytes());
    payload.extend(fields.freq_err.to_le_bytes());
    payload.extend(fields.timestamp_us.to_le_bytes());
    payload.push(fields.crc_valid);
    payload.extend(fields.packets_dropped.to_le_bytes());
    payload.push(fields.origin);
    payload.extend(packet);
    payload
}

struct Capture {
    crc: Crc,
    bytes: Vec<u8>,
}

impl Capture {
    fn add(&mut self, run: &[u8]) {
        self.bytes.extend(run);
        self.bytes.push(0);
    }

    fn run(&self, kind: u8, tag: u16, payload: &[u8]) -> Vec<u8> {
        model::encode(&body(&self.crc, kind, tag, payload))
    }

    fn message(&mut self, kind: u8, tag: u16, payload: &[u8]) {
        self.add(&self.run(kind, tag, payload));
    }

    /// The end of a frame whose start was missed (C.9.1), empty runs, and P's frames.
    fn appendix(&mut self) {
        self.add(b"\x14\x0E\x02\x01\x03\x0B\x7F");
        self.add(b"");
        self.add(b"");
        for frame in FRAMES {
            let run = &frame[..frame.len() - 1];
            let (faults, body) = read(&self.crc, RX, run, run.len());
            assert!(matches!(body[0], OK | ERR | RX | TX_DONE));
            assert!(!faults.contains(&CHECK) && model::encode(&body) == run);
            self.add(run);
        }
    }

    /// What P has no example for.
    fn more(&mut self) {
        // Tenths whose whole part is zero, and the extremes.
        let mut fields = Rx {
            rssi: -5,
            snr: -1,
            ..USUAL
        };
        self.message(RX, 0, &payload(fields, b""));
        fields = Rx {
            rssi: i16::MIN,
            snr: i16::MAX,
            freq_err: i32::MIN,
            ..USUAL
        };
        fields.timestamp_us = u64::MAX;
        fields.packets_dropped = u16::MAX;
        self.message(RX, 0, &payload(fields, b"\xFF"));
        // The longest packet; and a full group at the end, with its closing 01 and without.
        let packet: Vec<u8> = (1..=255).collect();
        self.message(RX, 0, &payload(USUAL, &packet));
        let mut run = self.run(RX, 0, &payload(USUAL, &packet[..252]));
        assert!(run.len() == 277 + 2 && run.ends_with(&[1]));
        self.add(&run);
        run.pop();
        self.add(&run);
        // A TX_DONE with fields of a later protocol, and a type of one.
        self.message(TX_DONE, 0xFFFF, b"\x00\xFF\xFF\xFF\xFF\x00\x01");
        self.message(0xC2, 0x0000, b"\x01");
    }

    /// Good frames that are no messages.
    fn wrong(&mut self) {
        self.message(RX, 1, &payload(USUAL, b""));
        self.message(RX, 0, &payload(USUAL, b"")[..19]);
        self.message(
            RX,
            0,
            &payload(
                Rx {
                    crc_valid: 2,
                    ..USUAL
                },
                b"",
            ),
        );
        self.message(RX, 0, &payload(Rx { origin: 2, ..USUAL }, b""));
        self.message(TX_DONE, 0, b"\x00\x00\x79\x00\x00");
        self.message(TX_DONE, 1, b"\x00\x00\x79\x00");
        self.message(TX_DONE, 1, b"\x03\x00\x79\x00\x00");
    }

    /// Runs that are no frames.
    fn damaged(&mut self) {
        let run = self.run(RX, 0, &payload(USUAL, b"\x01\x02\x03\x04"));
        // A bit of the level, a lost byte, and a lost zero.
        let mut turned = run.clone();
        turned[4] ^= 0x80;
        self.add(&turned);
        self.add(&run[..run.len() - 1]);
        self.add(&[&run[..], &run[..]].concat());
        // A body of one byte too many, and a run of one byte too many.
        let run = self.run(RX, 0, &payload(USUAL, &[0; 256]));
        assert!(run.len() == ENCODED_MAX);
        self.add(&run);
        self.add(&[0x01; ENCODED_MAX + 1]);
    }

    /// What the program prints.
    fn expected(&self) -> String {
        let mut text =
            "    level/dBm  snr/dB  freq_err/Hz                time/s  lost   crc  packet\n"
                .to_string();
        let mut runs: Vec<&[u8]> = self.bytes.split(|&byte| byte == 0).collect();
        let tail = runs.pop().map_or(0, <[u8]>::len);
        let (mut rxs, mut lost, mut dones, mut others, mut wrong, mut damaged) = (0, 0, 0, 0, 0, 0);
        for run in runs.into_iter().filter(|run| !run.is_empty()) {
            let (rx_faults, body) = read(&self.crc, RX, run, run.len());
            let (done_faults, _) = read(&self.crc, TX_DONE, run, run.len());
            match (first(&rx_faults), first(&done_faults)) {
                (TAKEN, _) => {
                    let fields = rx(TAKEN, &body);
                    text += &rx_line(&fields, &body[23..body.len() - 2]);
                    rxs += 1;
                    lost += u64::from(fields.packets_dropped);
                }
                (_, TAKEN) => {
                    text += &tx_done_line(&tx_done(TAKEN, &body));
                    dones += 1;
                }
                (TYPE, TYPE) => others += 1,
                (TAG | FORM, _) | (_, TAG | FORM) => wrong += 1,
                _ => damaged += 1,
            }
        }
        text += &format!("{rxs} RX, {lost} lost, {dones} TX_DONE, {others} other, ");
        text += &format!("{wrong} wrong, {damaged} damaged, tail {tail}\n");
        text
    }
}

fn rx_line(rx: &Rx, packet: &[u8]) -> String {
    let values = match rx.origin {
        0 => [tenths(rx.rssi), tenths(rx.snr), rx.freq_err.to_string()],
        _ => ["-", "-", "-"].map(String::from),
    };
    let [level, snr, freq_err] = values;
    let (seconds, micros) = (rx.timestamp_us / 1_000_000, rx.timestamp_us % 1_000_000);
    let lost = rx.packets_dropped;
    let crc = ["bad", "good"][usize::from(rx.crc_valid)];
    let packet: String = packet.iter().map(|byte| format!("{byte:02X}")).collect();
    let line = format!("RX {level:>10} {snr:>7} {freq_err:>12} {seconds:>14}.{micros:06}");
    let line = format!("{line} {lost:>5} {crc:>5}  {packet}");
    format!("{}\n", line.trim_end())
}

fn tenths(value: i16) -> String {
    let sign = if value < 0 { "-" } else { "" };
    let value = value.unsigned_abs();
    format!("{sign}{}.{}", value / 10, value % 10)
}

fn tx_done_line(done: &TxDone) -> String {
    let result = ["transmitted", "channel busy", "cancelled"][usize::from(done.result)];
    let (tag, airtime) = (done.tag, done.airtime_us);
    format!("TX_DONE {tag:04X} {result}, {airtime} us on air\n")
}
