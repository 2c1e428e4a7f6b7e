//! Known values of P and 01, refusals, and conversations with a dongle, through the public
//! functions.

mod codec;
mod dongle;
mod host;
mod ledger;
mod message;
mod refusal;

use crate::{cobs_encode, crc16, encoded_room};

/// Bytes in hexadecimal, with blanks as in the papers.
fn hex(text: &str) -> Vec<u8> {
    text.split_whitespace()
        .map(|byte| u8::from_str_radix(byte, 16).expect("two hexadecimal digits"))
        .collect()
}

/// The frame of any message, without its zero.
fn run(kind: u8, tag: u16, payload: &[u8]) -> Vec<u8> {
    let mut body = [&[kind][..], &tag.to_le_bytes(), payload].concat();
    body.extend(crc16(&body).to_le_bytes());
    let mut dst = vec![0; encoded_room(body.len())];
    cobs_encode(&body, &mut dst)
        .expect("a body of up to 280 bytes")
        .to_vec()
}

/// P C.2.3: SET_CONFIG for LoRa at 868.1 MHz, SF 7, 125 kHz, 14 dBm.
const LORA: &str = "01 A0 27 BE 33 07 07 00 08 00 24 14 0E 00 01 00";

/// FSK at the same frequency, with a sync word of two bytes.
const FSK: &str = "02 A0 27 BE 33 50 C3 00 00 A8 61 00 00 0A 05 00 02 12 34";
