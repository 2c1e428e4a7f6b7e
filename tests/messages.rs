//! Compares libdonglora.a with the model of message_model.rs: reading an RX, reading a TX_DONE and
//! writing a command, on random inputs and on the edges of each rule.
//!
//! Every call is compared whole: the number and all fields, *written, every byte of the destination
//! and of some memory before and after it, and the source. What the cases were is counted by number
//! and by class, and one that was hardly seen is a failure too.
//!
//! Usage: messages [SEED]

mod inputs;
mod lent;
mod message_classes;
mod message_inputs;
mod message_model;
mod model;

use inputs::Rng;
use lent::{Lent, Pattern, LARGE};
use message_classes::*;
use message_model::*;
use model::Crc;
use std::process;

extern "C" {
    fn donglora_write_command(
        kind: u8,
        tag: u16,
        payload: *const u8,
        payload_len: usize,
        dst: *mut u8,
        dst_len: usize,
        written: *mut usize,
    ) -> u8;
    fn donglora_read_rx(run: *const u8, run_len: usize, body: *mut u8, body_len: usize) -> Rx;
    fn donglora_read_tx_done(
        run: *const u8,
        run_len: usize,
        body: *mut u8,
        body_len: usize,
    ) -> TxDone;
}

const READ_CASES: usize = 250_000; // for each of the two readers
const WRITE_CASES: usize = 200_000;

/// The largest destination of the random cases.
const ROOM_MAX: usize = 330;

/// How often a function must answer each number that it can answer, at least.
const LEAST: u64 = 2_000;

/// The names of the numbers.
const NAMES: [&str; 11] = [
    "TAKEN", "ROOM", "STALL", "PLACE", "SHORT", "STUFF", "LENGTH", "CHECK", "TAG", "TYPE", "FORM",
];

/// The functions, and the numbers that each can answer.
const FUNCTIONS: [(&str, &[u8]); 3] = [
    ("read_rx", ALL),
    ("read_tx_done", ALL),
    ("write_command", &[TAKEN, SHORT, TAG, TYPE, FORM]),
];
const ALL: &[u8] = &[TAKEN, SHORT, STUFF, LENGTH, CHECK, TAG, TYPE, FORM];

/// A call, without what is lent to it.
#[derive(Clone, Copy, Debug)]
enum Call {
    ReadRx,
    ReadTxDone,
    WriteCommand { kind: u8, tag: u16 },
}

/// What comes back.
#[derive(Debug, PartialEq)]
enum Said {
    Rx(Rx),
    TxDone(TxDone),
    Number(u8),
}

impl Said {
    fn number(&self) -> u8 {
        match self {
            Said::Rx(rx) => rx.number,
            Said::TxDone(done) => done.number,
            Said::Number(number) => *number,
        }
    }
}

struct Test {
    rng: Rng,
    crc: Crc,
    pattern: Pattern,
    cases: u64,
    /// For each function, how often each number was the answer.
    numbers: [[u64; NAMES.len()]; FUNCTIONS.len()],
    reading: Tally<Reading>,
    writing: Tally<Writing>,
    null_sources: u64,
    null_destinations: u64,
}

fn main() {
    let mut test = Test {
        rng: Rng::new(inputs::seed("messages")),
        crc: Crc::new(),
        pattern: Pattern::new(ROOM_MAX),
        cases: 0,
        numbers: Default::default(),
        reading: Tally::new(READING),
        writing: Tally::new(WRITING),
        null_sources: 0,
        null_destinations: 0,
    };
    for kind in [RX, TX_DONE] {
        test.every_size(kind);
        test.every_column(kind);
        test.every_damage(kind);
        test.large_runs(kind);
    }
    test.every_type();
    test.every_payload();
    test.large_payloads();
    for _ in 0..READ_CASES {
        test.random_read(RX);
        test.random_read(TX_DONE);
    }
    for _ in 0..WRITE_CASES {
        test.random_write();
    }
    test.report();
}

/// Fields of an RX or a TX_DONE that are taken.
fn fields(kind: u8) -> Vec<u8> {
    match kind {
        RX => b"\x21\xFD\x5F\x00\x83\xFF\xFF\xFF\x80\xDE\x80\x02\x00\x00\x00\x00\x01\x00\x00\x00"
            .to_vec(),
        _ => b"\x00\x00\x79\x00\x00".to_vec(),
    }
}

/// A tag that is taken.
fn tag(kind: u8) -> u16 {
    match kind {
        RX => 0,
        _ => 0x0114,
    }
}

impl Test {
    fn frame(&self, kind: u8, tag: u16, payload: &[u8]) -> Vec<u8> {
        model::encode(&body(&self.crc, kind, tag, payload))
    }

    /// Every size of a payload that has right fields as far as it goes, in several rooms.
    fn every_size(&mut self, kind: u8) {
        for size in 0..=280 {
            let mut payload = fields(kind);
            payload.extend(self.rng.body(280));
            payload.truncate(size);
            let run = self.frame(kind, tag(kind), &payload);
            let len = run.len();
            for room in [0, 1, size, size + 5, len - 1, len, len + 1, 281, 282, 283] {
                self.read(kind, &run, room);
            }
        }
        self.read(kind, &[], 0);
    }

    /// Every value of every byte of the fields and of the tag, among others, among zeros, and with
    /// the last byte cut off.
    fn every_column(&mut self, kind: u8) {
        let right = fields(kind);
        for at in 0..right.len() {
            for value in 0..=255 {
                let mut payload = right.clone();
                payload[at] = value;
                self.read_frame(kind, kind, tag(kind), &payload);
                self.read_frame(kind, kind, tag(kind), &payload[..right.len() - 1]);
                let mut payload = vec![0; right.len() + 1];
                payload[at] = value;
                self.read_frame(kind, kind, tag(kind), &payload);
            }
        }
        for value in 0..=255 {
            self.read_frame(kind, kind, value, &right);
            self.read_frame(kind, kind, value << 8, &right);
        }
    }

    /// A few short frames with every bit turned, every byte lost, every cut, a zero and other bytes
    /// put in at every place, and two frames that lost the zero between them.
    fn every_damage(&mut self, kind: u8) {
        for size in 0..4 {
            let mut payload = fields(kind);
            payload.extend(self.rng.body(size));
            let run = self.frame(kind, tag(kind), &payload);
            for at in 0..=run.len() {
                for byte in [0, 1, 0xFF] {
                    let mut more = run.clone();
                    more.insert(at, byte);
                    self.read(kind, &more, more.len());
                }
                self.read(kind, &run[..at], at);
            }
            for at in 0..run.len() {
                let mut less = run.clone();
                less.remove(at);
                self.read(kind, &less, less.len());
                for bit in 0..8 {
                    let mut turned = run.clone();
                    turned[at] ^= 1 << bit;
                    self.read(kind, &turned, turned.len());
                }
            }
            self.read(kind, &[&run[..], &run[..]].concat(), 2 * run.len());
        }
        // Bodies that are too short, with a right check value where there is room for one.
        for value in 0..=255 {
            for front in [&[][..], &[kind], &[kind, value], &[value, 0]] {
                let check = self.crc.of(front).to_le_bytes();
                let run = model::encode(&[front, &check].concat());
                self.read(kind, &run, run.len());
                let run = model::encode(front);
                self.read(kind, &run, run.len());
            }
        }
    }

    /// Sizes whose low 16 bits would be right.
    fn large_runs(&mut self, kind: u8) {
        let run = self.frame(kind, tag(kind), &fields(kind));
        for room in [LARGE, LARGE + 1, LARGE + 5, LARGE + run.len() - 1] {
            self.read(kind, &run, room);
        }
        for len in [0, 1, run.len(), 281, 282] {
            let mut large = run.clone();
            large.extend(self.rng.groups(LARGE + len - run.len()));
            for room in [0, len, LARGE + len] {
                self.read(kind, &large, room);
            }
        }
    }

    /// Every type, read and written, with several tags and payloads.
    fn every_type(&mut self) {
        let lora = [&[1][..], &[7; 15]].concat();
        let payloads = [vec![], fields(RX), fields(TX_DONE), lora, vec![0, 9]];
        for kind in 0..=255 {
            for tag in [0, 1, 0x0100, 0xFF00, 0xFFFF] {
                for payload in &payloads {
                    self.read_frame(RX, kind, tag, payload);
                    self.read_frame(TX_DONE, kind, tag, payload);
                    for room in [0, frame_room(payload.len())] {
                        self.write(kind, tag, payload, room);
                    }
                }
            }
        }
    }

    /// Commands: every size of every payload, and every value of the bytes that have a rule.
    fn every_payload(&mut self) {
        for size in 0..=300 {
            for kind in PING..=RX_STOP {
                for first in 0..=4 {
                    let mut payload = self.rng.body(size);
                    payload.iter_mut().take(1).for_each(|byte| *byte = first);
                    for room in [frame_room(size) - 1, frame_room(size)] {
                        self.write(kind, 0x0102, &payload, room);
                    }
                }
            }
        }
        for value in 0..=255 {
            for size in [1, 2, 3, 11, 14, 15, 16, 17, 18, 25, 255, 256, 257, 272] {
                let mut payload = self.rng.body(size);
                payload[0] = value;
                self.write(TX, 0x0203, &payload, ROOM_MAX);
                self.write(SET_CONFIG, 0x0304, &payload, ROOM_MAX);
            }
            for size in (16..=26).chain(16 + usize::from(value)..=18 + usize::from(value)) {
                let mut payload = self.rng.body(size);
                payload[0] = 2;
                payload
                    .iter_mut()
                    .skip(16)
                    .take(1)
                    .for_each(|byte| *byte = value);
                self.write(SET_CONFIG, 0x0405, &payload, ROOM_MAX);
            }
        }
    }

    /// Sizes whose low 16 bits would be right.
    fn large_payloads(&mut self) {
        for (kind, size) in [
            (PING, 0),
            (SET_CONFIG, 16),
            (TX, 2),
            (TX, 256),
            (RX_STOP, 0),
        ] {
            let mut payload = vec![1; LARGE + size];
            for room in [0, frame_room(size), LARGE + frame_room(size)] {
                self.write(kind, 1, &payload, room);
            }
            payload.truncate(size);
            for room in [LARGE, LARGE + 1, LARGE + frame_room(size) - 1] {
                self.write(kind, 1, &payload, room);
            }
        }
    }

    fn random_read(&mut self, kind: u8) {
        let run = self.rng.run(&self.crc, kind);
        let room = match self.rng.below(16) {
            0 => run.len().saturating_sub(1),
            1 => model::decode(&run).map_or(0, |body| body.len()),
            2 => self.rng.below(ROOM_MAX + 1),
            3 => 0,
            4..=6 => run.len() + 1 + self.rng.below(20),
            _ => run.len(),
        };
        self.read(kind, &run, room);
    }

    fn random_write(&mut self) {
        let (kind, tag, payload) = self.rng.command();
        let need = frame_room(payload.len());
        let room = match self.rng.below(16) {
            0 | 1 => need - 1,
            2 => command(&self.crc, kind, tag, &payload, need).1.len(),
            3 => self.rng.below(ROOM_MAX + 1),
            4 => 0,
            5..=7 => need + 1 + self.rng.below(20),
            _ => need,
        };
        self.write(kind, tag, &payload, room);
    }

    /// Reads the frame of this message, with no room to spare.
    fn read_frame(&mut self, wanted: u8, kind: u8, tag: u16, payload: &[u8]) {
        let run = self.frame(kind, tag, payload);
        self.read(wanted, &run, run.len());
    }

    fn read(&mut self, wanted: u8, run: &[u8], room: usize) {
        let (faults, body) = read(&self.crc, wanted, run, room);
        let number = first(&faults);
        let (call, said) = match wanted {
            RX => (Call::ReadRx, Said::Rx(rx(number, &body))),
            _ => (Call::ReadTxDone, Said::TxDone(tx_done(number, &body))),
        };
        self.compare(call, run, room, &said, &body);
        let run = run.to_vec();
        let case = Reading {
            wanted,
            run,
            room,
            faults,
            body,
        };
        self.reading.count(&case);
    }

    fn write(&mut self, kind: u8, tag: u16, payload: &[u8], room: usize) {
        let (faults, frame) = command(&self.crc, kind, tag, payload, room);
        let said = Said::Number(first(&faults));
        let call = Call::WriteCommand { kind, tag };
        self.compare(call, payload, room, &said, &frame);
        let payload = payload.to_vec();
        let case = Writing {
            kind,
            tag,
            payload,
            room,
            faults,
            frame,
        };
        self.writing.count(&case);
    }

    /// Calls the library once and compares all that came back and all that the call left: what the
    /// model says, and, if that is taken, these bytes.
    fn compare(&mut self, call: Call, src: &[u8], room: usize, said: &Said, bytes: &[u8]) {
        let before = self.pattern.lend(&mut self.rng, src, room);
        let mut expected = before.clone();
        if said.number() == TAKEN {
            expected.write(bytes);
            if let Call::WriteCommand { .. } = call {
                expected.written = bytes.len();
            }
        }
        let mut after = before.clone();
        let answer = call.call(&mut after);
        if answer != *said || after != expected {
            println!("case {} differs: {call:02X?}", self.cases);
            println!("before: {before:02X?}");
            println!("after: {after:02X?}");
            println!("the library says {answer:?}");
            println!("message_model.rs says {said:?}, and of the bytes {bytes:02X?}");
            process::exit(1);
        }
        self.cases += 1;
        self.numbers[call.function()][usize::from(said.number())] += 1;
        self.null_sources += u64::from(before.null_source);
        self.null_destinations += u64::from(before.null_destination);
    }

    /// Prints the classes and the numbers, and ends with status 1 if one was hardly seen.
    fn report(&self) {
        let mut scarce = 0;
        scarce += self.reading.print() + self.writing.print();
        scarce += print("NULL source", 2_000, self.null_sources);
        scarce += print("NULL destination", 5_000, self.null_destinations);
        let mut totals = [0; NAMES.len()];
        for (&(function, can), seen) in FUNCTIONS.iter().zip(&self.numbers) {
            for number in can.iter().map(|&number| usize::from(number)) {
                let name = format!("{function}: {number} {}", NAMES[number]);
                scarce += print(&name, LEAST, seen[number]);
                totals[number] += seen[number];
            }
        }
        let cases = self.cases;
        if scarce > 0 {
            println!("messages: {cases} cases, but {scarce} classes were hardly seen");
            process::exit(1);
        }
        let seen = NAMES.iter().zip(totals).filter(|(_, seen)| *seen > 0);
        let seen: Vec<String> = seen.map(|(name, seen)| format!("{name} {seen}")).collect();
        println!("messages: {cases} cases, 0 differ: {}", seen.join(", "));
    }
}

impl Call {
    /// Its place in FUNCTIONS.
    fn function(self) -> usize {
        match self {
            Call::ReadRx => 0,
            Call::ReadTxDone => 1,
            Call::WriteCommand { .. } => 2,
        }
    }

    /// What the library says. What it leaves is in `lent` then.
    fn call(self, lent: &mut Lent) -> Said {
        let (src, src_len) = lent.source();
        let (dst, dst_len) = lent.destination();
        // SAFETY: both blocks have the sizes that are passed, and do not overlap.
        unsafe {
            match self {
                Call::ReadRx => Said::Rx(donglora_read_rx(src, src_len, dst, dst_len)),
                Call::ReadTxDone => Said::TxDone(donglora_read_tx_done(src, src_len, dst, dst_len)),
                Call::WriteCommand { kind, tag } => Said::Number(donglora_write_command(
                    kind,
                    tag,
                    src,
                    src_len,
                    dst,
                    dst_len,
                    &mut lent.written,
                )),
            }
        }
    }
}
