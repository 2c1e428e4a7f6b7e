//! The dongle, for a board's main loop.

use crate::codec::{part, start};
use crate::ffi::{self, size};
use crate::Refusal;
use core::fmt;

/// How many words the control array has.
pub(crate) const CONTROL: usize = 4;
/// How many bytes the memories have: of a run, of the commands that were taken, of the packets.
pub(crate) const RUN: usize = 282;
pub(crate) const COMMANDS: usize = 4403;
pub(crate) const PACKETS: usize = 17664;

/// How many bytes of output an event is lent: the most that an event may write.
pub const OUT: usize = 283;

/// The output that is lent to an event.
pub type Output = [u8; OUT];

/// A dongle: the protocol's state, from power-up on. It has some 22 KB of its own, and needs no
/// other memory.
///
/// Call an event whenever something happens:
///
/// | what happens | event |
/// | --- | --- |
/// | a byte has come from the host | [`byte`](Dongle::byte) |
/// | a millisecond has passed | [`tick`](Dongle::tick) |
/// | the host is gone | [`disconnect`](Dongle::disconnect) |
/// | the host can take a packet | [`request`](Dongle::request) |
/// | the radio listened: the channel is clear, or busy | [`clear`](Dongle::clear), [`busy`](Dongle::busy) |
/// | the radio has sent, is set up, or has failed | [`sent`](Dongle::sent), [`configured`](Dongle::configured), [`fault`](Dongle::fault) |
/// | the radio has received a packet | [`packet`](Dongle::packet) |
///
/// Each answers with bytes for the host and an order to the radio, or refuses, and then nothing has
/// changed. [`Refusal::Stall`] and [`Refusal::Place`] are the only refusals: an [`Output`] has the
/// size that the library asks for. An answer borrows the dongle, since the bytes of an order stand
/// in its memory: send and carry out what it says, or copy it, before the next event.
///
/// ```compile_fail
/// let (mut dongle, mut out) = (donglora::Dongle::new(), [0; donglora::OUT]);
/// let answer = dongle.byte(0, &mut out);
/// dongle.tick(); // no: the answer is looked at below
/// drop(answer);
/// ```
///
/// Whatever the state and the memories hold, the library's functions touch only what they are lent.
/// A caller of this type can't put anything there: the state is private, and starts at power-up.
#[derive(Clone)]
pub struct Dongle {
    control: [u64; CONTROL],
    run: [u8; RUN],
    commands: [u8; COMMANDS],
    packets: [u8; PACKETS],
}

/// What the radio is to do. It replaces what the radio was doing, but for a packet on air: no order
/// comes before its end. A radio that listened and is ordered elsewhere stops listening.
#[derive(Clone, Copy, Debug, PartialEq, Eq)]
pub enum Order<'a> {
    /// Go on.
    Nothing,
    /// Go to standby.
    Standby,
    /// Be set up; then comes [`Dongle::configured`], or [`Dongle::fault`] if the radio refuses.
    Configure {
        /// The modulation (1 LoRa, 2 FSK) and its parameters, as in SET_CONFIG.
        parameters: &'a [u8],
        /// Whether LoRa's low data rate optimisation is to be on.
        ldro: bool,
    },
    /// Send a packet; then comes [`Dongle::sent`], or [`Dongle::fault`] if that fails.
    Transmit {
        /// The packet.
        packet: &'a [u8],
        /// Whether to listen for a clear channel first: then comes [`Dongle::clear`] and the
        /// packet is sent, or [`Dongle::busy`] and it is not.
        listen: bool,
    },
    /// Receive without end; for each packet comes [`Dongle::packet`].
    Receive,
}

/// The answer to an event that was taken.
#[derive(Clone, Copy, Debug, PartialEq, Eq)]
pub struct Answer<'a> {
    /// What is for the host, as a part of the lent output: send it all.
    pub bytes: &'a [u8],
    /// What the radio is to do now.
    pub order: Order<'a>,
}

/// The status of a received packet.
#[derive(Clone, Copy, Debug, PartialEq, Eq)]
pub struct PacketStatus {
    /// The level, in tenths of dBm.
    pub rssi: i16,
    /// The signal-to-noise ratio, in tenths of dB.
    pub snr: i16,
    /// The frequency error, in Hz.
    pub freq_err: i32,
    /// When the packet ended, in microseconds since the device's start.
    pub timestamp_us: u64,
    /// False where the packet's CRC failed; true where it holds or there is none.
    pub crc_valid: bool,
}

impl Dongle {
    /// A dongle at power-up.
    #[must_use]
    pub fn new() -> Dongle {
        let mut dongle = Dongle {
            control: [0; CONTROL],
            run: [0; RUN],
            commands: [0; COMMANDS],
            packets: [0; PACKETS],
        };
        ffi::power_up(
            &mut dongle.control,
            &mut dongle.run,
            &mut dongle.commands,
            &mut dongle.packets,
        );
        dongle
    }

    /// A byte has come from the host.
    ///
    /// # Errors
    ///
    /// [`Refusal::Stall`] while a SET_CONFIG waits or runs: keep the byte, and offer it again after
    /// the next outcome of the radio, or forget it if the host is gone.
    pub fn byte<'a>(&'a mut self, b: u8, out: &'a mut Output) -> Result<Answer<'a>, Refusal> {
        let said = ffi::byte(&mut self.control, b, &mut self.run, &mut self.commands, out);
        self.answer(&said, out)
    }

    /// A millisecond has passed. The thousandth without a frame from the host ends its session.
    ///
    /// # Errors
    ///
    /// None: it is always taken.
    pub fn tick(&mut self) -> Result<Answer<'_>, Refusal> {
        let said = ffi::tick(&mut self.control, OUT);
        self.answer(&said, &[])
    }

    /// The host is gone: USB was unplugged.
    ///
    /// # Errors
    ///
    /// None: it is always taken.
    pub fn disconnect(&mut self) -> Result<Answer<'_>, Refusal> {
        let said = ffi::disconnect(&mut self.control, OUT);
        self.answer(&said, &[])
    }

    /// The radio listened, and the channel is clear: the packet goes on air.
    ///
    /// # Errors
    ///
    /// [`Refusal::Place`] where the radio doesn't listen.
    pub fn clear(&mut self) -> Result<Answer<'_>, Refusal> {
        let said = ffi::clear(&mut self.control, OUT);
        self.answer(&said, &[])
    }

    /// The radio listened, and the channel is busy: the packet is not sent.
    ///
    /// # Errors
    ///
    /// [`Refusal::Place`] where the radio doesn't listen.
    pub fn busy<'a>(&'a mut self, out: &'a mut Output) -> Result<Answer<'a>, Refusal> {
        let said = ffi::busy(&mut self.control, &self.commands, out);
        self.answer(&said, out)
    }

    /// The packet has been sent, and took so many microseconds on air.
    ///
    /// # Errors
    ///
    /// [`Refusal::Place`] where no packet is on air.
    pub fn sent<'a>(
        &'a mut self,
        airtime_us: u32,
        out: &'a mut Output,
    ) -> Result<Answer<'a>, Refusal> {
        let said = ffi::sent(&mut self.control, airtime_us, &self.commands, out);
        self.answer(&said, out)
    }

    /// The radio is set up as the last [`Order::Configure`] said. Where the host had turned receiving
    /// on, the order is [`Order::Receive`].
    ///
    /// # Errors
    ///
    /// [`Refusal::Place`] where no such order is open.
    pub fn configured<'a>(&'a mut self, out: &'a mut Output) -> Result<Answer<'a>, Refusal> {
        let said = ffi::configured(&mut self.control, &self.commands, out);
        self.answer(&said, out)
    }

    /// The radio has failed, whatever it did. This may be called at any time.
    ///
    /// # Errors
    ///
    /// None: it is always taken.
    pub fn fault<'a>(&'a mut self, out: &'a mut Output) -> Result<Answer<'a>, Refusal> {
        let said = ffi::fault(&mut self.control, &self.commands, out);
        self.answer(&said, out)
    }

    /// The radio has received a packet. One over 255 bytes is cut, and counts as one whose CRC
    /// failed.
    ///
    /// # Errors
    ///
    /// [`Refusal::Place`] where the dongle doesn't receive, or the radio is not free.
    pub fn packet(&mut self, status: PacketStatus, bytes: &[u8]) -> Result<Answer<'_>, Refusal> {
        let status = ffi::PacketStatus {
            rssi: status.rssi,
            snr: status.snr,
            freq_err: status.freq_err,
            timestamp_us: status.timestamp_us,
            crc_valid: status.crc_valid.into(),
        };
        let said = ffi::packet(&mut self.control, status, bytes, &mut self.packets, OUT);
        self.answer(&said, &[])
    }

    /// The host can take a packet: the oldest that is held is written, as an RX, or nothing.
    ///
    /// # Errors
    ///
    /// None: it is always taken.
    pub fn request<'a>(&'a mut self, out: &'a mut Output) -> Result<Answer<'a>, Refusal> {
        let said = ffi::request(&mut self.control, &mut self.packets, out);
        self.answer(&said, out)
    }

    /// What the library said, with the bytes that it names.
    fn answer<'a>(&'a self, said: &ffi::Answer, out: &'a [u8]) -> Result<Answer<'a>, Refusal> {
        Refusal::check(said.number)?;
        let bytes = part(&self.commands, size(said.at), size(said.len));
        let order = match said.order {
            1 => Order::Standby,
            2 => Order::Configure {
                parameters: bytes,
                ldro: said.ldro != 0,
            },
            3 => Order::Transmit {
                packet: bytes,
                listen: said.listen != 0,
            },
            4 => Order::Receive,
            _ => Order::Nothing, // 0: the library gives no other
        };
        let bytes = start(out, size(said.written));
        Ok(Answer { bytes, order })
    }
}

impl Default for Dongle {
    fn default() -> Dongle {
        Dongle::new()
    }
}

impl fmt::Debug for Dongle {
    fn fmt(&self, f: &mut fmt::Formatter<'_>) -> fmt::Result {
        f.debug_struct("Dongle").finish_non_exhaustive()
    }
}
