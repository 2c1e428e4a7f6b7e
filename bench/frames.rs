//! The frames that are measured, as bodies: type, tag, payload, check value.

use crate::plain;

/// A xorshift generator, so that every run measures the same bytes.
pub struct Rng(pub u64);

impl Rng {
    fn draw(&mut self) -> u64 {
        self.0 ^= self.0 >> 12;
        self.0 ^= self.0 << 25;
        self.0 ^= self.0 >> 27;
        self.0.wrapping_mul(0x2545_F491_4F6C_DD1D)
    }

    /// A number under `end`.
    fn below(&mut self, end: u64) -> u64 {
        ((self.draw() >> 32) * end) >> 32
    }

    /// Random bytes.
    pub fn bytes(&mut self, len: usize) -> Vec<u8> {
        (0..len).map(|_| (self.draw() >> 56) as u8).collect()
    }
}

/// A body of this type, tag and payload.
pub fn body(kind: u8, tag: u16, payload: &[u8]) -> Vec<u8> {
    let mut body = vec![kind];
    body.extend(tag.to_le_bytes());
    body.extend(payload);
    body.extend(plain::crc16(&body).to_le_bytes());
    body
}

/// The run of a body: its frame without the zero.
pub fn encoding(body: &[u8]) -> Vec<u8> {
    let mut dst = vec![0; plain::ENCODED_MAX];
    let n = plain::encode(body, &mut dst).expect("a body can be encoded");
    dst.truncate(n);
    dst
}

/// An RX event with a packet of random bytes.
pub fn rx(rng: &mut Rng, time: u64, len: usize) -> Vec<u8> {
    let rssi = -820 + rng.below(400) as i16 - 200;
    let snr = rng.below(200) as i16 - 80;
    let freq_err = rng.below(5000) as i32 - 2500;
    let mut payload = Vec::new();
    payload.extend(rssi.to_le_bytes());
    payload.extend(snr.to_le_bytes());
    payload.extend(freq_err.to_le_bytes());
    payload.extend(time.to_le_bytes());
    // crc_valid is 1, dropped (two bytes) and origin are 0.
    payload.extend([1, 0, 0, 0]);
    payload.extend(rng.bytes(len));
    body(0xC0, 0, &payload)
}

/// How many bytes these are together.
pub fn size(all: &[Vec<u8>]) -> usize {
    all.iter().map(Vec::len).sum()
}

/// What a host sees of a busy radio: of ten frames about three OK, two TX_DONE and five RX. With
/// a code byte and a zero for each, they have about `round` bytes.
pub fn realistic(rng: &mut Rng, round: usize) -> Vec<Vec<u8>> {
    const LENGTHS: [usize; 6] = [12, 24, 51, 115, 222, 255];
    let mut bodies = Vec::new();
    let mut time = 42_000_000;
    let mut tag = 1;
    while size(&bodies) + 2 * bodies.len() < round {
        time += rng.below(500_000);
        bodies.push(match rng.below(10) {
            0..=2 => {
                tag += 1;
                body(0x80, tag, b"")
            }
            3 | 4 => {
                // Transmitted, and the airtime in microseconds.
                let airtime = 20_000 + rng.below(400_000) as u32;
                body(0xC1, tag, &[&[0], &airtime.to_le_bytes()[..]].concat())
            }
            _ => {
                let len = LENGTHS[rng.below(6) as usize];
                rx(rng, time, len)
            }
        });
    }
    bodies
}
