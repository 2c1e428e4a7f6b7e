//! The codec as one would write it in Rust: safe slices, the CRC by a table, groups copied whole. It
//! answers with the numbers of the library, but may have written something before it refuses.
//!
//! The functions are kept out of line, since the library's are.

/// The most data bytes of a COBS group.
const FULL: usize = 254;

// The numbers and limits of donglora.h; the shortest body is type, tag and check value.
pub const SHORT: u8 = 4;
const STUFF: u8 = 5;
pub const LENGTH: u8 = 6;
pub const BODY_MIN: usize = 5;
pub const BODY_MAX: usize = 280;
pub const ENCODED_MAX: usize = 282;

/// For each byte what it adds to a check value.
static TABLE: [u16; 256] = table();

const fn table() -> [u16; 256] {
    let mut table = [0; 256];
    let mut byte = 0;
    while byte < 256 {
        let mut crc = (byte as u16) << 8;
        let mut bit = 0;
        while bit < 8 {
            let top = crc >> 15;
            crc = (crc << 1) ^ (top * 0x1021);
            bit += 1;
        }
        table[byte] = crc;
        byte += 1;
    }
    table
}

/// The check value of src.
#[inline(never)]
pub fn crc16(src: &[u8]) -> u16 {
    let mut crc = 0xFFFF;
    for &byte in src {
        crc = crc << 8 ^ TABLE[usize::from((crc >> 8) as u8 ^ byte)];
    }
    crc
}

/// Encodes src into dst. The answer is how many bytes that is, or the number of the refusal.
#[inline(never)]
pub fn encode(src: &[u8], dst: &mut [u8]) -> Result<usize, u8> {
    if src.len() > BODY_MAX {
        return Err(LENGTH);
    }
    if dst.len() < src.len() + src.len() / FULL + 1 {
        return Err(SHORT);
    }
    let mut rest = src;
    let mut at = 0;
    loop {
        let most = rest.len().min(FULL);
        let zero = rest[..most].iter().position(|&byte| byte == 0);
        let n = zero.unwrap_or(most);
        dst[at] = n as u8 + 1;
        dst[at + 1..at + 1 + n].copy_from_slice(&rest[..n]);
        at += n + 1;
        if n == FULL {
            rest = &rest[n..];
        } else if n < rest.len() {
            rest = &rest[n + 1..];
        } else {
            return Ok(at);
        }
    }
}

/// Decodes src into dst, in one pass. The answer is how many bytes that is, or the number of the
/// refusal.
#[inline(never)]
pub fn decode(src: &[u8], dst: &mut [u8]) -> Result<usize, u8> {
    if src.len() > ENCODED_MAX {
        return Err(LENGTH);
    }
    if dst.len() < src.len() {
        return Err(SHORT);
    }
    if src.is_empty() {
        return Err(STUFF);
    }
    let mut at = 0;
    let mut written = 0;
    while at < src.len() {
        let code = usize::from(src[at]);
        let end = at + code;
        if code == 0 || end > src.len() {
            return Err(STUFF);
        }
        let group = &src[at + 1..end];
        if group.contains(&0) {
            return Err(STUFF);
        }
        dst[written..written + group.len()].copy_from_slice(group);
        written += group.len();
        at = end;
        if group.len() < FULL && at < src.len() {
            dst[written] = 0;
            written += 1;
        }
    }
    Ok(written)
}
