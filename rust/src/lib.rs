//! DongLoRa for Rust: frames and messages for a host, and the whole dongle for firmware.
//!
//! This is a wrapper of the static library `libdonglora.a`. Every function of the library is proved
//! to do what `include/donglora.h` says, for every input. The wrapper is plain Rust, and is tested:
//! it passes slices on as pointers and sizes, and makes slices and enums of what comes back. All of
//! its `unsafe` code is in one private module. Nothing here allocates, panics or keeps state of its
//! own, and only [`std::error::Error`] is from `std`.
//!
//! The papers are those of the repository: P is the protocol, 01 the scope of the product, and 02 has
//! requests that add to it.
//!
//! # A host
//!
//! A frame on the wire is an encoded body and one zero. To send a command, have its frame written,
//! and send all of it. To read what a dongle sends, cut it at its zeros, and pass each run of bytes
//! that is not empty, without the zero, to the reader of the message that is wanted.
//!
//! ```
//! use donglora::{frame_room, read_answer, read_rx, write_command, Command, Kind, ENCODED_MAX};
//!
//! # fn main() -> Result<(), donglora::Refusal> {
//! let mut frame = [0; frame_room(0)];
//! let ping = write_command(Command::Ping, 0x0001, &[], &mut frame)?;
//! assert_eq!(ping, b"\x03\x01\x01\x03\x9D\xC8\x00");
//!
//! let mut body = [0; ENCODED_MAX];
//! let answer = read_answer(Command::Ping, b"\x03\x80\x01\x03\xF7\xC4", &mut body)?;
//! assert_eq!((answer.kind, answer.tag, answer.payload), (Kind::Ok, 0x0001, &[][..]));
//!
//! let run = b"\x02\xC0\x01\x04\xCC\xFC\x50\x01\x01\x01\x01\x05\x80\xF0\xFA\x02\
//!             \x01\x01\x01\x02\x01\x01\x01\x05\xAA\xBB\x54\xC0";
//! let rx = read_rx(run, &mut body)?;
//! assert_eq!((rx.rssi, rx.packet), (-820, &[0xAA, 0xBB][..])); // -82.0 dBm
//! # Ok(())
//! # }
//! ```
//!
//! A host that has several commands open at a time keeps a [`Ledger`]: it gives each command its tag,
//! and tells which command an answer belongs to.
//!
//! ```
//! use donglora::{read_frame, Command, Ledger, Report, ENCODED_MAX};
//!
//! # fn main() -> Result<(), donglora::Refusal> {
//! let mut ledger = Ledger::new();
//! let (tag, line) = ledger.open(Command::Ping)?; // the PING is written with this tag
//! assert_eq!((tag, line), (1, 0));
//!
//! let mut body = [0; ENCODED_MAX];
//! let frame = read_frame(b"\x03\x80\x01\x03\xF7\xC4", &mut body)?;
//! let ping = Report::Fits { command: Command::Ping, line: 0, closed: true };
//! assert_eq!(ledger.answer(frame.kind, frame.tag), ping);
//! assert_eq!(ledger.answer(frame.kind, frame.tag), Report::Unexpected); // it came twice
//! # Ok(())
//! # }
//! ```
//!
//! # Firmware
//!
//! A [`Dongle`] is the protocol without USB, radio and clock. The main loop calls one of its ten
//! events whenever something happens, sends the bytes of the [`Answer`] to the host, and has the
//! radio carry out the [`Order`].
//!
//! ```
//! use donglora::{Answer, Dongle, Order, Refusal, OUT};
//!
//! /// What a board has.
//! trait Board {
//!     fn send_to_host(&mut self, bytes: &[u8]);
//!     fn standby(&mut self);
//!     fn set_up(&mut self, parameters: &[u8], ldro: bool);
//!     fn transmit(&mut self, packet: &[u8], listen: bool);
//!     fn receive(&mut self);
//! }
//!
//! fn carry_out(board: &mut impl Board, answer: Answer<'_>) {
//!     board.send_to_host(answer.bytes);
//!     match answer.order {
//!         Order::Nothing => (),
//!         Order::Standby => board.standby(),
//!         Order::Configure { parameters, ldro } => board.set_up(parameters, ldro),
//!         Order::Transmit { packet, listen } => board.transmit(packet, listen),
//!         Order::Receive => board.receive(),
//!     }
//! }
//!
//! /// A byte has come from the host. Answers whether it was taken: else it is to be kept, and
//! /// offered again after the next outcome of the radio.
//! fn on_byte(dongle: &mut Dongle, board: &mut impl Board, byte: u8) -> bool {
//!     let mut out = [0; OUT];
//!     match dongle.byte(byte, &mut out) {
//!         Ok(answer) => {
//!             carry_out(board, answer);
//!             true
//!         }
//!         Err(refusal) => refusal != Refusal::Stall,
//!     }
//! }
//! # struct Nothing(Vec<u8>);
//! # impl Board for Nothing {
//! #     fn send_to_host(&mut self, bytes: &[u8]) { self.0.extend(bytes) }
//! #     fn standby(&mut self) {}
//! #     fn set_up(&mut self, _: &[u8], _: bool) {}
//! #     fn transmit(&mut self, _: &[u8], _: bool) {}
//! #     fn receive(&mut self) {}
//! # }
//! # let (mut dongle, mut board) = (Dongle::new(), Nothing(vec![]));
//! # for &byte in b"\x03\x01\x01\x03\x9D\xC8\x00" {
//! #     assert!(on_byte(&mut dongle, &mut board, byte));
//! # }
//! # assert_eq!(board.0, b"\x03\x80\x01\x03\xF7\xC4\x00");
//! ```
//!
//! # Linking
//!
//! With cargo, `build.rs` finds the archive for x86-64 in `target/staticlib` of the repository, or an
//! archive in the folder that `DONGLORA_LIB_DIR` names. Without cargo:
//!
//! ```text
//! rustc --edition 2021 -O --crate-type lib --crate-name donglora rust/src/lib.rs
//! rustc --edition 2021 -O --extern donglora=libdonglora.rlib program.rs \
//!     -C link-arg=target/staticlib/libdonglora.a
//! ```

#![deny(missing_docs)]
#![deny(unsafe_code)]

mod codec;
mod dongle;
#[allow(unsafe_code)]
mod ffi;
mod ledger;
mod message;
mod refusal;
#[cfg(test)]
mod tests;

pub use codec::{cobs_decode, cobs_encode, crc16, encoded_room, BODY_MAX, ENCODED_MAX};
pub use dongle::{Answer, Dongle, Order, Output, PacketStatus, OUT};
pub use ledger::{Ledger, Report, LEDGER_LINES};
pub use message::{
    frame_room, read_answer, read_frame, read_rx, read_tx_done, write_command, Command, Frame,
    Kind, Message, Origin, Outcome, Rx, TxDone, PAYLOAD, PAYLOAD_MAX, RX_PACKET,
};
pub use refusal::Refusal;
