//! Random messages: frames to read, right ones and with one or more faults, and commands to write.

use crate::inputs::Rng;
use crate::message_model::*;
use crate::model::{self, Crc, FULL};

const TYPES: [u8; 10] = [
    PING, GET_INFO, SET_CONFIG, TX, RX_START, RX_STOP, OK, ERR, RX, TX_DONE,
];

/// Sizes of a payload at which a rule changes: an event's fields, a body of one full group, and the
/// longest body. The last ones are too long.
const RX_SIZES: [usize; 16] = [
    0, 5, 17, 18, 19, 19, 20, 20, 20, 21, 22, 249, 275, 275, 276, 277,
];
const TX_DONE_SIZES: [usize; 16] = [0, 1, 4, 4, 5, 5, 5, 6, 7, 20, 249, 250, 274, 275, 276, 277];
const TX_SIZES: [usize; 16] = [
    0, 1, 1, 2, 2, 3, 248, 249, 250, 252, 255, 256, 256, 257, 257, 258,
];

/// Bits at which a number changes its sign or its length.
const EDGES: [u64; 14] = [
    0,
    1,
    0x7F,
    0x80,
    0xFF,
    0x100,
    0x7FFF,
    0x8000,
    0xFFFF,
    0x7FFF_FFFF,
    0x8000_0000,
    0xFFFF_FFFF,
    0x8000_0000_0000_0000,
    0xFFFF_FFFF_FFFF_FFFF,
];

impl Rng {
    fn one_of<T: Copy>(&mut self, from: &[T]) -> T {
        from[self.below(from.len())]
    }

    /// 64 bits, of which the caller takes the low ones.
    fn number(&mut self) -> u64 {
        match self.below(4) {
            0 | 1 => self.draw(),
            2 => self.one_of(&EDGES),
            _ => !self.one_of(&EDGES),
        }
    }

    /// A value of which only 0 to `most` are right: these, the next one, or another.
    fn choice(&mut self, most: u8) -> u8 {
        match self.below(16) {
            0 => most + 1,
            1 => self.number() as u8,
            _ => self.below(usize::from(most) + 1) as u8,
        }
    }

    fn tag(&mut self) -> u16 {
        (self.number() as u16).max(1)
    }

    /// The type of a frame for a reader of `wanted`.
    fn kind(&mut self, wanted: u8) -> u8 {
        match self.below(16) {
            0 | 1 => self.one_of(&TYPES),
            2 => self.one_of(&[0x00, 0x07, 0x40, 0x82, 0xBF, 0xC2, 0xFF]),
            3 => self.number() as u8,
            4 => other(wanted),
            _ => wanted,
        }
    }

    /// A tag that this type may have, or not.
    fn tag_of(&mut self, kind: u8) -> u16 {
        match (kind == RX) != self.one_in(6) {
            true => 0,
            false => self.tag(),
        }
    }

    /// The fields of an RX.
    fn rx_fields(&mut self) -> Vec<u8> {
        let mut fields = Vec::new();
        fields.extend((self.number() as i16).to_le_bytes());
        fields.extend((self.number() as i16).to_le_bytes());
        fields.extend((self.number() as i32).to_le_bytes());
        fields.extend(self.number().to_le_bytes());
        fields.push(self.choice(1));
        fields.extend((self.number() as u16).to_le_bytes());
        fields.push(self.choice(1));
        fields
    }

    /// The fields of a TX_DONE.
    fn tx_done_fields(&mut self) -> Vec<u8> {
        let mut fields = vec![self.choice(2)];
        fields.extend((self.number() as u32).to_le_bytes());
        fields
    }

    /// A payload of an RX or a TX_DONE, of any size.
    fn event(&mut self, kind: u8) -> Vec<u8> {
        let (mut payload, sizes) = match kind {
            RX => (self.rx_fields(), RX_SIZES),
            _ => (self.tx_done_fields(), TX_DONE_SIZES),
        };
        let size = match self.below(3) {
            0 => self.one_of(&sizes),
            1 => self.below(278),
            _ => payload.len() + self.below(277 - payload.len()),
        };
        let more = self.body(size.saturating_sub(payload.len()));
        payload.extend(more);
        payload.truncate(size);
        payload
    }

    /// A payload of an RX or a TX_DONE, after which the check value ends a full group: the group
    /// starts after the last field or a zero behind it.
    fn full_event(&mut self, kind: u8) -> Vec<u8> {
        let mut payload = match kind {
            RX => self.rx_fields(),
            _ => self.tx_done_fields(),
        };
        let before = self.below(281 - 3 - FULL - payload.len() + 1);
        let more = self.body(before);
        payload.extend(more);
        payload.pop();
        payload.push(0);
        payload.extend(self.nonzeros(FULL - 2));
        payload
    }

    /// The body of a TX_DONE without a zero, about as long as a full group or the longest.
    fn body_without_zero(&mut self, crc: &Crc) -> Vec<u8> {
        let tag = u16::from_le_bytes([self.nonzero(), self.nonzero()]);
        let size = self.one_of(&[247, 248, 249, 250, 251, 274, 275, 276]);
        let mut payload = self.nonzeros(size);
        payload[0] = self.one_of(&[1, 2]);
        body(crc, TX_DONE, tag, &payload)
    }

    /// Damage that the check value shows: a bit, or the check value itself.
    fn damage_body(&mut self, body: &mut [u8]) {
        let len = body.len();
        match self.below(6) {
            0 => body.swap(len - 2, len - 1),
            1 => body[len - 1] ^= self.nonzero(),
            2 => body[len - 2] ^= self.nonzero(),
            _ => body[self.below(len)] ^= 1 << self.below(8),
        }
    }

    /// A run for a reader of `wanted`.
    pub fn run(&mut self, crc: &Crc, wanted: u8) -> Vec<u8> {
        let kind = self.kind(wanted);
        let tag = self.tag_of(kind);
        let mut body = match self.below(16) {
            0 => return self.encoding(),
            1 | 2 => body(crc, kind, tag, &self.full_event(kind)),
            3 => self.body_without_zero(crc),
            4 => body(crc, kind, tag, &self.event(other(wanted))),
            _ => body(crc, kind, tag, &self.event(wanted)),
        };
        if self.one_in(8) {
            self.damage_body(&mut body);
        }
        let mut run = model::encode(&body);
        if closes(&body) && self.one_in(2) {
            run.pop();
        }
        if self.one_in(6) {
            self.damage(&mut run);
        }
        run
    }

    /// The type and tag of a command, and a payload.
    pub fn command(&mut self) -> (u8, u16, Vec<u8>) {
        let kind = match self.below(16) {
            0 => self.one_of(&TYPES),
            1 => self.one_of(&[0x00, 0x07, 0x82, 0xC2, 0xFF]),
            2 => self.number() as u8,
            3..=8 => TX,
            9..=12 => SET_CONFIG,
            _ => self.one_of(&[PING, GET_INFO, RX_START, RX_STOP]),
        };
        let tag = self.tag_of(kind);
        let payload = match kind {
            TX => self.tx(),
            SET_CONFIG => self.set_config(),
            _ => match self.below(8) {
                0 => self.body(1),
                1 => {
                    let size = self.below(300);
                    self.body(size)
                }
                _ => Vec::new(),
            },
        };
        (kind, tag, payload)
    }

    fn tx(&mut self) -> Vec<u8> {
        let size = match self.below(2) {
            0 => self.one_of(&TX_SIZES),
            _ => self.below(260),
        };
        let mut payload = self.body(size);
        if size > 0 {
            payload[0] = self.choice(1);
        }
        // With the check value these end a full group: it starts after flags 0, after a zero in the
        // tag, or with the type.
        if self.one_in(6) {
            let (flags, size) = self.one_of(&[(0, 1 + FULL - 2), (1, FULL - 2), (1, FULL - 5)]);
            payload = self.nonzeros(size);
            payload[0] = flags;
        }
        payload
    }

    fn set_config(&mut self) -> Vec<u8> {
        let modulation = match self.below(8) {
            0 => self.below(5) as u8,
            1 => self.number() as u8,
            2..=4 => 1,
            _ => 2,
        };
        let sync_word_len = match self.below(8) {
            0 => self.one_of(&[9, 9, 9, 10, 239, 255]),
            1 => self.number() as u8,
            2 => 8,
            3 => 0,
            _ => self.below(9) as u8,
        };
        let right = match modulation {
            1 => 1 + 15,
            2 => 1 + 16 + usize::from(sync_word_len),
            3 => 1 + 10,
            _ => 1 + 13,
        };
        let size = match self.below(8) {
            0 => right - 1,
            1 => right + 1,
            2 => self.below(30),
            3 => self.one_of(&[0, 1, 11, 14, 16, 17, 25, 272, 275, 276]),
            _ => right,
        };
        let mut payload = self.body(size);
        if let Some(first) = payload.first_mut() {
            *first = modulation;
        }
        if let Some(len) = payload.get_mut(16).filter(|_| modulation == 2) {
            *len = sync_word_len;
        }
        payload
    }
}

/// The other one of RX and TX_DONE.
fn other(wanted: u8) -> u8 {
    RX ^ TX_DONE ^ wanted
}

/// Whether a body ends with a full group.
pub fn closes(body: &[u8]) -> bool {
    let last = body.rsplit(|&byte| byte == 0).next().map_or(0, <[u8]>::len);
    last > 0 && last % FULL == 0
}
