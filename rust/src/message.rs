//! Messages, as a host sees them: commands are written, answers are read.

use crate::codec::{encoded_room, part, start};
use crate::ffi::{self, size};
use crate::Refusal;

/// Where a payload stands in a body.
pub const PAYLOAD: usize = 3;

/// The longest payload, which is that of an RX.
pub const PAYLOAD_MAX: usize = 275;

/// Where the packet stands in the body of an RX.
pub const RX_PACKET: usize = 23;

/// The room that a frame with `n` bytes of payload asks for, its zero included.
#[must_use]
pub const fn frame_room(n: usize) -> usize {
    encoded_room(n.saturating_add(5)).saturating_add(1)
}

/// The commands, by their types. Since there are no others, nothing that is written here is refused
/// with [`Refusal::Type`].
#[derive(Clone, Copy, Debug, PartialEq, Eq, Hash)]
#[repr(u8)]
pub enum Command {
    /// Are you there?
    Ping = 0x01,
    /// What are you?
    GetInfo = 0x02,
    /// Set the radio up.
    SetConfig = 0x03,
    /// Transmit a packet.
    Tx = 0x04,
    /// Receive from now on.
    RxStart = 0x05,
    /// Receive no longer.
    RxStop = 0x06,
}

impl Command {
    /// The command with this type, if there is one.
    pub(crate) fn from_number(number: u8) -> Option<Command> {
        match number {
            0x01 => Some(Command::Ping),
            0x02 => Some(Command::GetInfo),
            0x03 => Some(Command::SetConfig),
            0x04 => Some(Command::Tx),
            0x05 => Some(Command::RxStart),
            0x06 => Some(Command::RxStop),
            _ => None,
        }
    }
}

/// What a dongle sends, by type.
#[derive(Clone, Copy, Debug, PartialEq, Eq, Hash)]
#[repr(u8)]
pub enum Kind {
    /// The command with this tag was carried out.
    Ok = 0x80,
    /// The command with this tag was not carried out; with tag 0, something went wrong.
    Err = 0x81,
    /// A packet was received.
    Rx = 0xC0,
    /// A transmission has ended.
    TxDone = 0xC1,
}

/// An answer, of whatever type.
#[derive(Clone, Copy, Debug, PartialEq, Eq)]
pub struct Message<'a> {
    /// Its type.
    pub kind: Kind,
    /// Its tag: that of the command which it answers, or 0.
    pub tag: u16,
    /// Its payload, as a part of the lent body.
    pub payload: &'a [u8],
}

/// What a frame says of itself.
#[derive(Clone, Copy, Debug, PartialEq, Eq)]
pub struct Frame<'a> {
    /// Its type: any number, a [`Command`]'s, a [`Kind`]'s or another.
    pub kind: u8,
    /// Its tag.
    pub tag: u16,
    /// Its payload, as a part of the lent body.
    pub payload: &'a [u8],
}

/// Where a packet came from.
#[derive(Clone, Copy, Debug, PartialEq, Eq, Hash)]
pub enum Origin {
    /// Over the air.
    Air,
    /// From the same device: rssi, snr and freq_err were not measured.
    Device,
}

/// A received packet: what an RX says. The fields have P's names.
#[derive(Clone, Copy, Debug, PartialEq, Eq)]
pub struct Rx<'a> {
    /// The level, in tenths of dBm.
    pub rssi: i16,
    /// The signal-to-noise ratio, in tenths of dB. It may mean nothing where `crc_valid` is false.
    pub snr: i16,
    /// The frequency error, in Hz. It may mean nothing where `crc_valid` is false.
    pub freq_err: i32,
    /// When the packet ended, in microseconds since the device's start.
    pub timestamp_us: u64,
    /// False where the packet's CRC failed; true also where it has none.
    pub crc_valid: bool,
    /// How many packets were lost since the RX before.
    pub packets_dropped: u16,
    /// Where the packet came from.
    pub origin: Origin,
    /// The packet, as a part of the lent body.
    pub packet: &'a [u8],
}

/// How a transmission ended.
#[derive(Clone, Copy, Debug, PartialEq, Eq, Hash)]
pub enum Outcome {
    /// The packet went on air.
    Transmitted,
    /// The channel was busy, and the packet was not sent.
    ChannelBusy,
    /// The packet was not sent, or failed.
    Cancelled,
}

/// The end of a transmission: what a TX_DONE says.
#[derive(Clone, Copy, Debug, PartialEq, Eq, Hash)]
pub struct TxDone {
    /// The tag of the TX that ended.
    pub tag: u16,
    /// How it ended.
    pub result: Outcome,
    /// How long the packet was on air, in microseconds; 0 where nothing was transmitted.
    pub airtime_us: u32,
}

/// Writes the frame of a command at the start of `dst`, its zero included, and answers the bytes to
/// send. The payload's bytes are those of P's tables. The rest of `dst` stays as it was.
///
/// # Errors
///
/// The first that applies:
/// * [`Refusal::Tag`]: `tag` is 0.
/// * [`Refusal::Form`]: PING, GET_INFO, RX_START or RX_STOP with a payload; SET_CONFIG with a
///   modulation other than 1 (LoRa) and 2 (FSK), a wrong size, or a sync word over 8 bytes; TX with
///   flags over 1 or a packet outside 1 to 255 bytes. Other values are for the device to judge.
/// * [`Refusal::Short`]: `dst` is under [`frame_room`] bytes.
///
/// ```
/// use donglora::{frame_room, write_command, Command};
///
/// // TX with tag 0028: flags 0, and the packet "hi".
/// let payload = [&[0][..], b"hi"].concat();
/// let mut dst = [0; frame_room(3)];
/// let frame = write_command(Command::Tx, 0x0028, &payload, &mut dst);
/// assert_eq!(frame, Ok(&b"\x03\x04\x28\x01\x05\x68\x69\x24\x7D\x00"[..]));
/// ```
pub fn write_command<'a>(
    command: Command,
    tag: u16,
    payload: &[u8],
    dst: &'a mut [u8],
) -> Result<&'a [u8], Refusal> {
    let (number, written) = ffi::write_command(command as u8, tag, payload, dst);
    Refusal::check(number.into())?;
    Ok(start(dst, size(written)))
}

/// Reads `run`, the frame of an answer without its zero, and puts its body, from the type to the
/// check value, at the start of `body`. `command` is the one that an OK would answer: the payload
/// of an OK to GET_INFO or SET_CONFIG has a layout, and that of any other OK may be anything. For
/// the values of an RX or of a TX_DONE see [`read_rx`] and [`read_tx_done`].
///
/// # Errors
///
/// The first that applies; `body` then stays as it was:
/// * [`Refusal::Length`]: `run` is over [`ENCODED_MAX`](crate::ENCODED_MAX) bytes.
/// * [`Refusal::Short`]: `body` is shorter than `run`, even where the body would have fitted.
/// * [`Refusal::Stuff`]: `run` is no COBS encoding.
/// * [`Refusal::Length`]: the body is outside 5 to 280 bytes.
/// * [`Refusal::Check`]: the check value differs.
/// * [`Refusal::Tag`]: the tag is 0 in a command, an OK or a TX_DONE; it is not 0 in an RX.
/// * [`Refusal::Type`]: the frame is no answer.
/// * [`Refusal::Form`]: the payload is not of its message's layout or values.
pub fn read_answer<'a>(
    command: Command,
    run: &[u8],
    body: &'a mut [u8],
) -> Result<Message<'a>, Refusal> {
    let message = ffi::read_answer(command as u8, run, body);
    Refusal::check(message.number.into())?;
    let kind = match message.kind {
        0x80 => Kind::Ok,
        0x81 => Kind::Err,
        0xC0 => Kind::Rx,
        0xC1 => Kind::TxDone,
        // The library takes no other type.
        _ => return Err(Refusal::Type),
    };
    Ok(Message {
        kind,
        tag: message.tag,
        payload: part(body, PAYLOAD, size(message.payload_len)),
    })
}

/// Reads `run`, the frame of an RX without its zero, and puts its body at the start of `body`.
///
/// # Errors
///
/// Those of [`read_answer`]. [`Refusal::Type`] is any message that is no RX, and [`Refusal::Form`]
/// a payload under 20 bytes, or a crc_valid or an origin over 1.
pub fn read_rx<'a>(run: &[u8], body: &'a mut [u8]) -> Result<Rx<'a>, Refusal> {
    let rx = ffi::read_rx(run, body);
    Refusal::check(rx.number.into())?;
    Ok(Rx {
        rssi: rx.rssi,
        snr: rx.snr,
        freq_err: rx.freq_err,
        timestamp_us: rx.timestamp_us,
        crc_valid: rx.crc_valid != 0,
        packets_dropped: rx.packets_dropped,
        origin: match rx.origin {
            0 => Origin::Air,
            _ => Origin::Device, // 1: the library takes no other
        },
        packet: part(body, RX_PACKET, size(rx.packet_len)),
    })
}

/// Reads `run`, the frame of a TX_DONE without its zero, and puts its body at the start of `body`.
/// Bytes after the known fields are ignored, and are in `body` too.
///
/// # Errors
///
/// Those of [`read_answer`]. [`Refusal::Type`] is any message that is no TX_DONE, and
/// [`Refusal::Form`] a payload under 5 bytes or a result over 2.
pub fn read_tx_done(run: &[u8], body: &mut [u8]) -> Result<TxDone, Refusal> {
    let done = ffi::read_tx_done(run, body);
    Refusal::check(done.number.into())?;
    Ok(TxDone {
        tag: done.tag,
        result: match done.result {
            0 => Outcome::Transmitted,
            1 => Outcome::ChannelBusy,
            _ => Outcome::Cancelled, // 2: the library takes no other
        },
        airtime_us: done.airtime_us,
    })
}

/// Reads `run`, a frame without its zero, of whatever type and tag, and puts its body at the start of
/// `body`. So a host learns the type and the tag before it knows which command an OK answers: a
/// [`Ledger`](crate::Ledger) tells that, and then [`read_answer`] judges the payload. Here nothing is
/// judged, neither a type, a tag nor a payload.
///
/// # Errors
///
/// The first that applies; `body` then stays as it was:
/// * [`Refusal::Length`]: `run` is over [`ENCODED_MAX`](crate::ENCODED_MAX) bytes.
/// * [`Refusal::Short`]: `body` is shorter than `run`, even where the body would have fitted.
/// * [`Refusal::Stuff`]: `run` is no COBS encoding.
/// * [`Refusal::Length`]: the body is outside 5 to 280 bytes.
/// * [`Refusal::Check`]: the check value differs.
pub fn read_frame<'a>(run: &[u8], body: &'a mut [u8]) -> Result<Frame<'a>, Refusal> {
    let frame = ffi::read_frame(run, body);
    Refusal::check(frame.number.into())?;
    Ok(Frame {
        kind: frame.kind,
        tag: frame.tag,
        payload: part(body, PAYLOAD, size(frame.payload_len)),
    })
}
