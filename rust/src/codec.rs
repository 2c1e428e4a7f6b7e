//! Check value and COBS.

use crate::ffi::{self, size};
use crate::Refusal;

/// The longest body.
pub const BODY_MAX: usize = 280;

/// The longest encoding of a body, without the zero that ends a frame.
pub const ENCODED_MAX: usize = 282;

/// The room that encoding `n` bytes asks for: the most that they can become.
#[must_use]
pub const fn encoded_room(n: usize) -> usize {
    n.saturating_add(n / 254 + 1)
}

/// The check value of `src`: CRC-16 with polynomial 0x1021 and start 0xFFFF, not reflected, with no
/// final xor (CRC-16/CCITT-FALSE).
///
/// ```
/// assert_eq!(donglora::crc16(b"123456789"), 0x29B1);
/// ```
#[must_use]
pub fn crc16(src: &[u8]) -> u16 {
    ffi::crc16(src)
}

/// Encodes `src` by COBS ("stuffing" in 01) at the start of `dst`, and answers the bytes that were
/// written, none of which is zero. The zero that ends a frame is not added, and the rest of `dst`
/// stays as it was.
///
/// # Errors
///
/// The first that applies:
/// * [`Refusal::Length`]: `src` is over [`BODY_MAX`] bytes.
/// * [`Refusal::Short`]: `dst` is under [`encoded_room`] bytes, even where this encoding would have
///   fitted.
///
/// ```
/// let mut dst = [0; donglora::encoded_room(3)];
/// assert_eq!(
///     donglora::cobs_encode(&[7, 0, 9], &mut dst),
///     Ok(&[2, 7, 2, 9][..])
/// );
/// ```
pub fn cobs_encode<'a>(src: &[u8], dst: &'a mut [u8]) -> Result<&'a [u8], Refusal> {
    let (number, written) = ffi::cobs_encode(src, dst);
    Refusal::check(number.into())?;
    Ok(start(dst, size(written)))
}

/// Decodes the COBS encoding `src` at the start of `dst`, and answers the bytes that were written.
/// `src` has no zero at its end: pass what stands between two zeros of a capture.
///
/// A group of 254 bytes at the very end is taken with its closing 01 and without it. The single
/// byte 01 becomes no bytes. 282 bytes can become 281, which is too long for a body.
///
/// # Errors
///
/// The first that applies:
/// * [`Refusal::Length`]: `src` is over [`ENCODED_MAX`] bytes.
/// * [`Refusal::Short`]: `dst` is shorter than `src`, even where the decoded bytes would have
///   fitted.
/// * [`Refusal::Stuff`]: `src` is empty, has a zero anywhere, or ends inside a group.
pub fn cobs_decode<'a>(src: &[u8], dst: &'a mut [u8]) -> Result<&'a [u8], Refusal> {
    let (number, written) = ffi::cobs_decode(src, dst);
    Refusal::check(number.into())?;
    Ok(start(dst, size(written)))
}

/// The first `len` bytes. The library never answers more than there are; if it did, there would be
/// none here.
pub(crate) fn start(bytes: &[u8], len: usize) -> &[u8] {
    part(bytes, 0, len)
}

/// `len` bytes from `at` on. The library never names bytes that are not there; if it did, there
/// would be none here.
pub(crate) fn part(bytes: &[u8], at: usize, len: usize) -> &[u8] {
    let end = at.saturating_add(len);
    bytes.get(at..end).unwrap_or_default()
}
