//! A dongle's host and radio: events whose answers are kept, and what they should be.

use super::{hex, run, LORA};
use crate::{read_rx, write_command, Answer, Command, Dongle, Order, PacketStatus, Refusal, Rx};
use crate::{ENCODED_MAX, OUT};

/// An answer with copies of its bytes.
#[derive(Debug, PartialEq)]
pub(super) struct Kept {
    pub(super) bytes: Vec<u8>,
    pub(super) order: Ordered,
}

#[derive(Debug, PartialEq)]
pub(super) enum Ordered {
    Nothing,
    Standby,
    Configure(Vec<u8>, bool),
    Transmit(Vec<u8>, bool),
    Receive,
}

pub(super) fn keep(answer: Answer<'_>) -> Kept {
    let order = match answer.order {
        Order::Nothing => Ordered::Nothing,
        Order::Standby => Ordered::Standby,
        Order::Configure { parameters, ldro } => Ordered::Configure(parameters.to_vec(), ldro),
        Order::Transmit { packet, listen } => Ordered::Transmit(packet.to_vec(), listen),
        Order::Receive => Ordered::Receive,
    };
    Kept {
        bytes: answer.bytes.to_vec(),
        order,
    }
}

/// An answer with these bytes, in hexadecimal, and this order.
pub(super) fn kept(bytes: &str, order: Ordered) -> Result<Kept, Refusal> {
    Ok(Kept {
        bytes: hex(bytes),
        order,
    })
}

pub(super) fn plain() -> Result<Kept, Refusal> {
    kept("", Ordered::Nothing)
}

/// Events whose answers are kept. The output holds something before each, and all that was not
/// written must hold it afterwards.
impl Dongle {
    fn lend(
        &mut self,
        call: impl for<'a> FnOnce(&'a mut Dongle, &'a mut [u8; OUT]) -> Result<Answer<'a>, Refusal>,
    ) -> Result<Kept, Refusal> {
        let mut out = [0xAA; OUT];
        let answer = call(self, &mut out).map(keep);
        let written = answer.as_ref().map_or(0, |kept| kept.bytes.len());
        assert!(out[written..].iter().all(|&byte| byte == 0xAA));
        answer
    }

    pub(super) fn on_byte(&mut self, b: u8) -> Result<Kept, Refusal> {
        self.lend(|dongle, out| dongle.byte(b, out))
    }

    pub(super) fn on_busy(&mut self) -> Result<Kept, Refusal> {
        self.lend(|dongle, out| dongle.busy(out))
    }

    pub(super) fn on_sent(&mut self, airtime_us: u32) -> Result<Kept, Refusal> {
        self.lend(|dongle, out| dongle.sent(airtime_us, out))
    }

    pub(super) fn on_configured(&mut self) -> Result<Kept, Refusal> {
        self.lend(|dongle, out| dongle.configured(out))
    }

    pub(super) fn on_fault(&mut self) -> Result<Kept, Refusal> {
        self.lend(|dongle, out| dongle.fault(out))
    }

    pub(super) fn on_request(&mut self) -> Result<Kept, Refusal> {
        self.lend(|dongle, out| dongle.request(out))
    }

    pub(super) fn on_clear(&mut self) -> Result<Kept, Refusal> {
        self.clear().map(keep)
    }

    pub(super) fn on_packet(&mut self, bytes: &[u8]) -> Result<Kept, Refusal> {
        self.packet(STATUS, bytes).map(keep)
    }

    /// So many milliseconds, of which all but the last answer plainly.
    pub(super) fn on_ticks(&mut self, n: usize) -> Result<Kept, Refusal> {
        for _ in 1..n {
            assert_eq!(self.tick().map(keep), plain());
        }
        self.tick().map(keep)
    }

    /// Bytes from the host, of which all but the last answer plainly.
    pub(super) fn on_bytes(&mut self, bytes: &[u8]) -> Result<Kept, Refusal> {
        let (last, bytes) = bytes.split_last().expect("a byte");
        for &b in bytes {
            assert_eq!(self.on_byte(b), plain());
        }
        self.on_byte(*last)
    }

    /// A command from the host.
    pub(super) fn on(
        &mut self,
        command: Command,
        tag: u16,
        payload: &[u8],
    ) -> Result<Kept, Refusal> {
        let mut dst = [0; OUT];
        let frame = write_command(command, tag, payload, &mut dst).expect("a command");
        self.on_bytes(frame)
    }

    /// A dongle that is set up with LoRa.
    pub(super) fn set_up() -> Dongle {
        let mut dongle = Dongle::new();
        let order = Ordered::Configure(hex(LORA), false);
        assert_eq!(
            dongle.on(Command::SetConfig, 3, &hex(LORA)),
            kept("", order)
        );
        let ok = "03 80 03 01 09 01 01 A0 27 BE 33 07 07 02 08 04 24 14 0E 02 01 03 C8 91 00";
        assert_eq!(dongle.on_configured(), kept(ok, Ordered::Nothing));
        dongle
    }

    /// A dongle that is set up with LoRa, and receives.
    pub(super) fn receiving() -> Dongle {
        let mut dongle = Dongle::set_up();
        let ok = "03 80 06 03 60 5D 00";
        assert_eq!(
            dongle.on(Command::RxStart, 6, &[]),
            kept(ok, Ordered::Receive)
        );
        dongle
    }

    /// The RX that the host gets when it asks for a packet.
    pub(super) fn delivers(&mut self, check: impl FnOnce(Rx<'_>)) {
        let frame = self.on_request().expect("a request is taken").bytes;
        let (end, run) = frame.split_last().expect("a frame");
        assert_eq!(*end, 0);
        check(read_rx(run, &mut [0; ENCODED_MAX]).expect("an RX"));
    }
}

/// P C.2.6.
pub(super) const STATUS: PacketStatus = PacketStatus {
    rssi: -735,
    snr: 95,
    freq_err: -125,
    timestamp_us: 42_000_000,
    crc_valid: true,
};

/// The ERR with this code to the command with this tag.
pub(super) fn err(tag: u16, code: u16) -> Result<Kept, Refusal> {
    let mut bytes = run(0x81, tag, &code.to_le_bytes());
    bytes.push(0);
    Ok(Kept {
        bytes,
        order: Ordered::Nothing,
    })
}
