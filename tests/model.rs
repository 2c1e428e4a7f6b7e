//! COBS and the CRC, written in another way than P's listings and than the library, so that the
//! tests have something to compare with.

use std::iter::successors;

/// The most data bytes of a group. A group of that size is a full group; its code is 0xFF.
pub const FULL: usize = 254;

/// Why a source is no COBS encoding.
pub enum Fault {
    Empty,
    ZeroCode,
    CutGroup,
    ZeroInGroup,
}

/// Encodes: each piece between zeros becomes its full groups and one shorter group, maybe of no
/// data, which also stands for the zero after the piece or for the end.
pub fn encode(src: &[u8]) -> Vec<u8> {
    let mut out = Vec::with_capacity(src.len() + src.len() / FULL + 1);
    for piece in src.split(|&byte| byte == 0) {
        let full = piece.chunks_exact(FULL);
        let rest = full.remainder();
        for group in full.chain(Some(rest)) {
            out.push(group.len() as u8 + 1);
            out.extend_from_slice(group);
        }
    }
    out
}

/// The places of the code bytes: each code says how far away the next one is. The last place is
/// the end of the source if it is well formed, past the end if a group is cut, and before the end
/// if a code is zero.
pub fn places(src: &[u8]) -> Vec<usize> {
    successors(Some(0), |&at| match src.get(at) {
        Some(&code) if code != 0 => Some(at + usize::from(code)),
        _ => None,
    })
    .collect()
}

/// Decodes: data bytes stay, a code byte becomes the zero that it stands for. The first code, and
/// one after a full group, stand for nothing.
pub fn decode(src: &[u8]) -> Result<Vec<u8>, Fault> {
    let places = places(src);
    let end = places[places.len() - 1];
    if src.is_empty() {
        return Err(Fault::Empty);
    }
    if end < src.len() {
        return Err(Fault::ZeroCode);
    }
    if end > src.len() {
        return Err(Fault::CutGroup);
    }
    if src.contains(&0) {
        return Err(Fault::ZeroInGroup);
    }
    let mut meaning: Vec<Option<u8>> = src.iter().copied().map(Some).collect();
    meaning[0] = None;
    for pair in places.windows(2).filter(|pair| pair[1] < src.len()) {
        let is_full = pair[1] - pair[0] == FULL + 1;
        meaning[pair[1]] = if is_full { None } else { Some(0) };
    }
    Ok(meaning.into_iter().flatten().collect())
}

/// CRC-16 with polynomial 0x1021 and start 0xFFFF, by a table of the remainders of all bytes.
pub struct Crc([u16; 256]);

impl Crc {
    /// Divides each byte, moved up by 16 bits, by the polynomial with its leading bit.
    pub fn new() -> Crc {
        let mut table = [0; 256];
        for (byte, entry) in table.iter_mut().enumerate() {
            let mut rest = (byte as u32) << 16;
            for bit in (16..24).rev() {
                if rest >> bit & 1 == 1 {
                    rest ^= 0x11021 << (bit - 16);
                }
            }
            *entry = rest as u16;
        }
        Crc(table)
    }

    pub fn of(&self, bytes: &[u8]) -> u16 {
        bytes.iter().fold(0xFFFF, |crc, &byte| {
            crc << 8 ^ self.0[usize::from(crc >> 8) ^ usize::from(byte)]
        })
    }
}
