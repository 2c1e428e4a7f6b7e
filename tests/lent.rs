//! Memory that is lent to a call, with some more around it that must stay as it was.

use crate::inputs::Rng;
use std::ptr;

/// The least memory on each side of a destination.
const GUARD: usize = 32;

/// The first size that does not fit in 16 bits.
pub const LARGE: usize = 1 << 16;

/// What memory is filled with before a call. Each call starts at another place in it.
pub struct Pattern(Vec<u8>);

/// A source and a destination. The source has some bytes before it, and the destination has some on
/// each side, so that their alignment varies and these bytes can be seen to stay.
#[derive(Clone, Debug, PartialEq)]
pub struct Lent {
    /// What `written` points to.
    pub written: usize,
    source: Vec<u8>,
    from: usize,
    pub null_source: bool,
    memory: Vec<u8>,
    to: usize,
    room: usize,
    pub null_destination: bool,
}

impl Pattern {
    /// A pattern for destinations of up to LARGE and `room` bytes.
    pub fn new(room: usize) -> Pattern {
        let len = 256 + GUARD + 16 + LARGE + room + GUARD;
        Pattern((0..len).map(|i| (i * 37 + 11) as u8).collect())
    }

    /// This source, and a destination of `room` bytes. Half of the empty blocks are NULL.
    pub fn lend(&self, rng: &mut Rng, src: &[u8], room: usize) -> Lent {
        let from = rng.below(16);
        let to = GUARD + rng.below(16);
        let pattern = &self.0[rng.below(256)..];
        Lent {
            written: rng.draw() as usize,
            source: [&pattern[..from], src].concat(),
            from,
            null_source: src.is_empty() && rng.one_in(2),
            memory: pattern[..to + room + GUARD].to_vec(),
            to,
            room,
            null_destination: room == 0 && rng.one_in(2),
        }
    }
}

impl Lent {
    pub fn source(&mut self) -> (*const u8, usize) {
        let start = match self.null_source {
            true => ptr::null_mut(),
            false => self.source.as_mut_ptr().wrapping_add(self.from),
        };
        (start, self.source.len() - self.from)
    }

    pub fn destination(&mut self) -> (*mut u8, usize) {
        let start = match self.null_destination {
            true => ptr::null_mut(),
            false => self.memory.as_mut_ptr().wrapping_add(self.to),
        };
        (start, self.room)
    }

    /// Writes at the start of the destination.
    pub fn write(&mut self, bytes: &[u8]) {
        self.memory[self.to..self.to + bytes.len()].copy_from_slice(bytes);
    }
}
