//! Random sources: bodies to encode, and encodings, right and damaged, to decode.

use crate::model;
use std::{env, process};

const SEED: u64 = 0x444F_4E47_4C4F_5241;

/// The longest source that is made by length; some kinds of damage add a byte.
pub const LONGEST: usize = 290;

/// Lengths at which a rule changes: the ends, a full group, the longest body and encoding.
const EDGES: [usize; 11] = [0, 1, 253, 254, 255, 256, 279, 280, 281, 282, 283];

/// The seed of a test: its argument, if it has one. Prints it.
pub fn seed(test: &str) -> u64 {
    let seed = match env::args().nth(1) {
        None => SEED,
        Some(text) => number(&text).unwrap_or_else(|| {
            eprintln!("usage: {test} [SEED], with SEED decimal or 0x and hex");
            process::exit(2)
        }),
    };
    println!("seed 0x{seed:016X}");
    seed
}

fn number(text: &str) -> Option<u64> {
    match text.strip_prefix("0x") {
        Some(digits) => u64::from_str_radix(digits, 16).ok(),
        None => text.parse().ok(),
    }
}

/// A xorshift generator, so that a seed gives the same cases on every machine.
pub struct Rng(u64);

impl Rng {
    /// Starts from a seed. Any is fine, zero too.
    pub fn new(seed: u64) -> Rng {
        let mut rng = Rng((seed ^ 0x9E37_79B9_7F4A_7C15).max(1));
        for _ in 0..16 {
            rng.draw();
        }
        rng
    }

    /// The next 64 bits.
    pub fn draw(&mut self) -> u64 {
        self.0 ^= self.0 >> 12;
        self.0 ^= self.0 << 25;
        self.0 ^= self.0 >> 27;
        self.0.wrapping_mul(0x2545_F491_4F6C_DD1D)
    }

    /// A number under `end`.
    pub fn below(&mut self, end: usize) -> usize {
        (((self.draw() >> 32) * end as u64) >> 32) as usize
    }

    /// True one time in `n`.
    pub fn one_in(&mut self, n: usize) -> bool {
        self.below(n) == 0
    }

    fn byte(&mut self) -> u8 {
        (self.draw() >> 56) as u8
    }

    pub fn nonzero(&mut self) -> u8 {
        1 + self.below(255) as u8
    }

    fn pick(&mut self, from: &[usize]) -> usize {
        from[self.below(from.len())]
    }

    /// 0 to LONGEST, the edges more often than others.
    pub fn length(&mut self) -> usize {
        if self.one_in(2) {
            self.pick(&EDGES)
        } else {
            self.below(LONGEST + 1)
        }
    }

    /// Bytes of which one in `n` is zero.
    fn with_zeros(&mut self, len: usize, n: usize) -> Vec<u8> {
        (0..len)
            .map(|_| if self.one_in(n) { 0 } else { self.nonzero() })
            .collect()
    }

    pub fn nonzeros(&mut self, len: usize) -> Vec<u8> {
        (0..len).map(|_| self.nonzero()).collect()
    }

    /// A body: no zeros, only zeros, sparse or dense zeros, any bytes, or one long run without
    /// zeros that is about a full group, at the start, at the end or between.
    pub fn body(&mut self, len: usize) -> Vec<u8> {
        match self.below(8) {
            0 | 1 => self.nonzeros(len),
            2 => vec![0; len],
            3 => self.with_zeros(len, 80),
            4 => self.with_zeros(len, 2),
            5 => (0..len).map(|_| self.byte()).collect(),
            _ => self.long_run(len),
        }
    }

    fn long_run(&mut self, len: usize) -> Vec<u8> {
        let run = self.pick(&[253, 254, 254, 255]).min(len);
        let start = match self.below(3) {
            0 => 0,
            1 => len - run,
            _ => self.below(len - run + 1),
        };
        let mut body = self.with_zeros(len, 3);
        let nonzeros = self.nonzeros(run);
        body[start..start + run].copy_from_slice(&nonzeros);
        if start > 0 {
            body[start - 1] = 0;
        }
        if start + run < len {
            body[start + run] = 0;
        }
        body
    }

    /// A source for decoding: an encoding or well-formed groups, half of them damaged, or bytes
    /// like those of a body, or only 00 or only 01.
    pub fn encoding(&mut self) -> Vec<u8> {
        let len = self.length();
        let mut src = match self.below(12) {
            0..=3 => self.encoded(len),
            4..=7 => self.groups(len),
            8 | 9 => self.full_at_end(),
            10 => return self.body(len),
            _ => return vec![self.below(2) as u8; len],
        };
        if self.one_in(2) {
            self.damage(&mut src);
        }
        src
    }

    /// An encoding of a body. A closing 01 after a full group is left out half of the time.
    fn encoded(&mut self, len: usize) -> Vec<u8> {
        let body = self.body(len);
        let mut src = model::encode(&body);
        let closes = body.rsplit(|&byte| byte == 0).next().map_or(0, <[u8]>::len);
        if closes > 0 && closes % model::FULL == 0 && self.one_in(2) {
            src.pop();
        }
        src
    }

    /// Whole groups of `len` bytes together, full ones and the shortest more often than others.
    pub fn groups(&mut self, len: usize) -> Vec<u8> {
        let mut src = Vec::with_capacity(len);
        while src.len() < len {
            let code = match self.below(5) {
                0 => 1,
                1 => 2 + self.below(3),
                2 => 254,
                3 => 255,
                _ => 1 + self.below(255),
            };
            let code = code.min(len - src.len());
            src.push(code as u8);
            src.extend(self.nonzeros(code - 1));
        }
        src
    }

    /// Groups of which the last is full, with a closing 01 half of the time.
    fn full_at_end(&mut self) -> Vec<u8> {
        let before = self.below(LONGEST - model::FULL - 1);
        let mut src = self.groups(before);
        src.push(255);
        src.extend(self.nonzeros(model::FULL));
        if self.one_in(2) {
            src.push(1);
        }
        src
    }

    /// Changes one byte, or the length.
    pub fn damage(&mut self, src: &mut Vec<u8>) {
        if src.is_empty() {
            return src.push(self.byte());
        }
        let at = self.below(src.len());
        match self.below(8) {
            0 => src[at] ^= 1 << self.below(8),
            1 => drop(src.remove(at)),
            2 => src.insert(at, 0),
            3 => src[at] = 0,
            4 | 5 => {
                let codes = model::places(src);
                let at = codes[self.below(codes.len())].min(src.len() - 1);
                src[at] = self.pick(&[0, 1, 254, 255, usize::from(src[at] ^ 1)]) as u8;
            }
            6 => src.truncate(at),
            _ => src.push(self.nonzero()),
        }
    }
}
