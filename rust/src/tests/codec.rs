use super::hex;
use crate::{cobs_decode, cobs_encode, crc16, encoded_room, Refusal, BODY_MAX, ENCODED_MAX};

#[test]
fn check_values() {
    assert_eq!(crc16(b"123456789"), 0x29B1);
    assert_eq!(crc16(b""), 0xFFFF);
    assert_eq!(crc16(&hex("01 01 00")), 0xC89D);
}

#[test]
fn rooms() {
    assert_eq!(encoded_room(0), 1);
    assert_eq!(encoded_room(253), 254);
    assert_eq!(encoded_room(254), 256);
    assert_eq!(encoded_room(BODY_MAX), ENCODED_MAX);
    assert_eq!(encoded_room(usize::MAX), usize::MAX);
}

/// 01's sheet, and P C.8.1: bodies and their encodings.
#[test]
fn known_encodings() {
    for (body, encoding) in [
        ("01 01 00 9D C8", "03 01 01 03 9D C8"),
        ("80 01 00 F7 C4", "03 80 01 03 F7 C4"),
        ("80 33 00 00 A7", "03 80 33 01 02 A7"),
        ("04 28 00 00 68 69 24 7D", "03 04 28 01 05 68 69 24 7D"),
        ("81 28 00 03 00 53 7E", "03 81 28 02 03 03 53 7E"),
        ("01 01 01 BC D8", "06 01 01 01 BC D8"),
        ("", "01"),
        ("00", "01 01"),
    ] {
        let (body, encoding) = (hex(body), hex(encoding));
        let mut dst = [0xAA; 20];
        assert_eq!(cobs_encode(&body, &mut dst), Ok(&encoding[..]));
        assert!(dst[encoding.len()..].iter().all(|&byte| byte == 0xAA));
        let mut dst = [0xAA; 20];
        assert_eq!(cobs_decode(&encoding, &mut dst), Ok(&body[..]));
        assert!(dst[body.len()..].iter().all(|&byte| byte == 0xAA));
    }
}

#[test]
fn what_was_encoded_is_decoded() {
    for len in 0..=BODY_MAX {
        for zeros in [1, 2, 7, 255, 300] {
            let body: Vec<u8> = (1..=len).map(|i| (i % zeros != 0).into()).collect();
            let (mut encoded, mut decoded) = ([0; ENCODED_MAX], [0; ENCODED_MAX]);
            let run = cobs_encode(&body, &mut encoded).unwrap();
            assert!(!run.contains(&0) && run.len() <= encoded_room(len));
            assert_eq!(cobs_decode(run, &mut decoded), Ok(&body[..]));
        }
    }
}

#[test]
fn a_full_group_at_the_end() {
    let body = [7; 254];
    let closed = [&[0xFF][..], &body, &[1]].concat();
    let mut dst = [0; 256];
    assert_eq!(cobs_encode(&body, &mut dst), Ok(&closed[..]));
    assert_eq!(cobs_decode(&closed, &mut dst), Ok(&body[..]));
    assert_eq!(cobs_decode(&closed[..255], &mut dst), Ok(&body[..]));
}

#[test]
fn bytes_282_can_become_281() {
    let run = [&[0xFE][..], &[7; 253], &[28], &[7; 27]].concat();
    assert_eq!(run.len(), ENCODED_MAX);
    let mut dst = [0; ENCODED_MAX];
    assert_eq!(cobs_decode(&run, &mut dst).map(<[u8]>::len), Ok(281));
}

/// A refusal leaves the destination as it was.
fn refused(
    call: fn(&[u8], &mut [u8]) -> Result<(), Refusal>,
    src: &[u8],
    room: usize,
    refusal: Refusal,
) {
    let mut dst = vec![0xAA; room];
    assert_eq!(call(src, &mut dst), Err(refusal), "room {room}");
    assert!(dst.iter().all(|&byte| byte == 0xAA));
}

#[test]
fn encoding_is_refused() {
    let encode = |src: &[u8], dst: &mut [u8]| cobs_encode(src, dst).map(|_| ());
    refused(encode, &[1; 281], 0, Refusal::Length);
    refused(encode, &[1; 281], 300, Refusal::Length);
    refused(encode, &[1; 65536 + 5], 300, Refusal::Length);
    refused(encode, &[], 0, Refusal::Short);
    refused(encode, &[1; 5], 5, Refusal::Short);
    refused(encode, &[0; 254], 255, Refusal::Short);
    refused(encode, &[1; 280], 281, Refusal::Short);
    let mut dst = [0; 282];
    assert!(cobs_encode(&[1; 280], &mut dst).is_ok());
}

#[test]
fn decoding_is_refused() {
    let decode = |src: &[u8], dst: &mut [u8]| cobs_decode(src, dst).map(|_| ());
    refused(decode, &[1; 283], 0, Refusal::Length);
    refused(decode, &[1; 283], 300, Refusal::Length);
    refused(decode, &[3, 1, 1], 2, Refusal::Short);
    refused(decode, &[5], 0, Refusal::Short);
    refused(decode, &[5], 1, Refusal::Stuff);
    refused(decode, &[], 0, Refusal::Stuff);
    refused(decode, &[], 9, Refusal::Stuff);
    refused(decode, &[3, 0, 1], 3, Refusal::Stuff);
    refused(decode, &[3, 1, 1, 0], 4, Refusal::Stuff);
    refused(decode, &[2, 1, 4, 1, 1], 9, Refusal::Stuff);
}
