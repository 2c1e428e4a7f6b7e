//! Classes of the cases in the messages test: how many there must be at least, the name, and what a
//! case of it is.

use crate::message_inputs::closes;
use crate::message_model::*;

type Class<T> = (u64, &'static str, fn(&T) -> bool);

/// How many cases there were of each class of a table.
pub struct Tally<T: 'static> {
    classes: &'static [Class<T>],
    seen: Vec<u64>,
}

impl<T> Tally<T> {
    pub fn new(classes: &'static [Class<T>]) -> Tally<T> {
        Tally {
            classes,
            seen: vec![0; classes.len()],
        }
    }

    pub fn count(&mut self, case: &T) {
        for ((_, _, is), seen) in self.classes.iter().zip(&mut self.seen) {
            *seen += u64::from(is(case));
        }
    }

    /// Prints a line for each class. Says how many of them were hardly seen.
    pub fn print(&self) -> u32 {
        let lines = self.classes.iter().zip(&self.seen);
        lines
            .map(|((least, name, _), &seen)| print(name, *least, seen))
            .sum()
    }
}

/// Prints a line for one class. Says 1 if it was hardly seen.
pub fn print(name: &str, least: u64, seen: u64) -> u32 {
    let note = if seen < least { "  too few" } else { "" };
    println!("{name:50} {seen:8}{note}");
    u32::from(seen < least)
}

/// A reading: what was wanted, the run and the room for its body, the numbers that apply, and the
/// body.
pub struct Reading {
    pub wanted: u8,
    pub run: Vec<u8>,
    pub room: usize,
    pub faults: Vec<u8>,
    pub body: Vec<u8>,
}

/// A writing: the command and the room for its frame, the numbers that apply, and the frame.
pub struct Writing {
    pub kind: u8,
    pub tag: u16,
    pub payload: Vec<u8>,
    pub room: usize,
    pub faults: Vec<u8>,
    pub frame: Vec<u8>,
}

macro_rules! classes {
    ($table:ident: $case:ident $c:ident; $($least:literal $name:literal if $is:expr;)*) => {
        pub const $table: &[Class<$case>] = &[$(($least, $name, |$c| $is)),*];
    };
}

classes! { READING: Reading c;
    // Sizes.
    40_000 "read: TAKEN, no room to spare" if c.is(TAKEN) && c.room == c.run.len();
    5_000 "read: SHORT, one byte too few" if c.faults == [SHORT] && c.room + 1 == c.run.len();
    5_000 "read: SHORT, though the body fits" if c.faults == [SHORT] && c.room >= c.body.len();
    100 "read: STUFF, no bytes and no room" if c.run.is_empty() && c.room == 0;
    500 "read: LENGTH, only the run, of 283"
        if c.run.len() == 283 && c.faults.iter().all(|&fault| fault == LENGTH);
    500 "read: LENGTH, only the body, of 281"
        if c.run.len() == 282 && c.body.len() == 281 && c.faults == [LENGTH];
    500 "read: LENGTH, body of 4" if c.is(LENGTH) && c.body.len() == 4;
    2_000 "read: TAKEN, body of 280" if c.is(TAKEN) && c.body.len() == 280;
    2_000 "read: TAKEN, run of 281" if c.is(TAKEN) && c.run.len() == 281;
    1_000 "read: TAKEN, run of 282" if c.is(TAKEN) && c.run.len() == 282;
    2_000 "read: TAKEN, full group at the end, closed"
        if c.is(TAKEN) && closes(&c.body) && c.overhead() == 2;
    2_000 "read: TAKEN, full group at the end, not closed"
        if c.is(TAKEN) && closes(&c.body) && c.overhead() == 1;
    2_000 "read: TAKEN, full group before more"
        if c.is(TAKEN) && !closes(&c.body) && c.overhead() == 2;
    // Two faults, of which the first decides.
    1_000 "read: LENGTH of the run, SHORT too" if c.is_long() && c.has(SHORT);
    1_000 "read: LENGTH of the run, STUFF too" if c.is_long() && c.has(STUFF);
    5_000 "read: SHORT, STUFF too" if c.is(SHORT) && c.has(STUFF);
    500 "read: SHORT, LENGTH of the body too" if c.is(SHORT) && c.has(LENGTH);
    5_000 "read: SHORT, CHECK too" if c.is(SHORT) && c.has(CHECK);
    200 "read: LENGTH of the body, CHECK too" if !c.is_long() && c.is(LENGTH) && c.has(CHECK);
    2_000 "read: CHECK, TAG too" if c.is(CHECK) && c.has(TAG);
    5_000 "read: CHECK, TYPE too" if c.is(CHECK) && c.has(TYPE);
    5_000 "read: CHECK, FORM too" if c.is(CHECK) && c.has(FORM);
    2_000 "read: TAG, TYPE too" if c.is(TAG) && c.has(TYPE);
    2_000 "read: TAG, FORM too" if c.is(TAG) && c.has(FORM);
    5_000 "read: TYPE, FORM too" if c.is(TYPE) && c.has(FORM);
    // The rule for the tag goes by the type.
    1_000 "read: TAG, zero on a command" if c.is(TAG) && (PING..=RX_STOP).contains(&c.kind());
    200 "read: TAG, zero on an OK" if c.is(TAG) && c.kind() == OK;
    1_000 "read: TAG, zero on a TX_DONE" if c.is(TAG) && c.kind() == TX_DONE;
    1_000 "read: TAG, not zero on an RX" if c.is(TAG) && c.kind() == RX;
    200 "read: TYPE, zero on an ERR" if c.is(TYPE) && c.is_tag_zero() && c.kind() == ERR;
    2_000 "read: TYPE, zero on an unknown type"
        if c.is(TYPE) && c.is_tag_zero() && !is_known(c.kind());
    // Values.
    10_000 "read_rx: TAKEN, rssi under 0" if c.is_rx(|rx| rx.rssi < 0);
    10_000 "read_rx: TAKEN, snr under 0" if c.is_rx(|rx| rx.snr < 0);
    10_000 "read_rx: TAKEN, freq_err under 0" if c.is_rx(|rx| rx.freq_err < 0);
    10_000 "read_rx: TAKEN, time over 32 bits" if c.is_rx(|rx| rx.timestamp_us >> 32 != 0);
    10_000 "read_rx: TAKEN, time with bit 31" if c.is_rx(|rx| rx.timestamp_us >> 31 & 1 == 1);
    10_000 "read_rx: TAKEN, dropped over 255" if c.is_rx(|rx| rx.packets_dropped > 255);
    10_000 "read_rx: TAKEN, crc_valid is not origin" if c.is_rx(|rx| rx.crc_valid != rx.origin);
    2_000 "read_rx: TAKEN, no packet" if c.is_rx(|rx| rx.packet_len == 0);
    2_000 "read_rx: TAKEN, packet of 255" if c.is_rx(|rx| rx.packet_len == 255);
    1_000 "read_rx: FORM, 19 bytes" if c.is_form(RX) && c.payload().len() == 19;
    1_000 "read_rx: FORM, only crc_valid, 2"
        if c.is_form(RX) && matches!(c.flags(), Some((2, 0 | 1)));
    1_000 "read_rx: FORM, only origin, 2"
        if c.is_form(RX) && matches!(c.flags(), Some((0 | 1, 2)));
    2_000 "read_tx_done: TAKEN, 5 bytes" if c.is_tx_done(|_| true) && c.payload().len() == 5;
    20_000 "read_tx_done: TAKEN, more bytes" if c.is_tx_done(|_| true) && c.payload().len() > 5;
    10_000 "read_tx_done: TAKEN, result 2" if c.is_tx_done(|done| done.result == 2);
    10_000 "read_tx_done: TAKEN, airtime, result not 0"
        if c.is_tx_done(|done| done.airtime_us != 0 && done.result != 0);
    10_000 "read_tx_done: TAKEN, airtime over 16 bits"
        if c.is_tx_done(|done| done.airtime_us >> 16 != 0);
    10_000 "read_tx_done: TAKEN, tag over 255" if c.is_tx_done(|done| done.tag > 255);
    1_000 "read_tx_done: FORM, 4 bytes" if c.is_form(TX_DONE) && c.payload().len() == 4;
    1_000 "read_tx_done: FORM, only the result, 3"
        if c.is_form(TX_DONE) && c.payload().len() >= 5 && c.payload()[0] == 3;
}

classes! { WRITING: Writing c;
    20_000 "write: TAKEN, no room to spare" if c.is(TAKEN) && c.room == c.need();
    5_000 "write: SHORT, one byte too few" if c.faults == [SHORT] && c.room + 1 == c.need();
    500 "write: SHORT, though this frame fits"
        if c.faults == [SHORT] && c.room >= c.frame.len();
    // Two faults, of which the first decides.
    300 "write: TAG, TYPE too" if c.is(TAG) && c.has(TYPE);
    2_000 "write: TAG, FORM too" if c.is(TAG) && c.has(FORM);
    2_000 "write: TAG, SHORT too" if c.is(TAG) && c.has(SHORT);
    2_000 "write: TYPE, SHORT too" if c.is(TYPE) && c.has(SHORT);
    2_000 "write: FORM, SHORT too" if c.is(FORM) && c.has(SHORT);
    // The rule for the tag goes by the type.
    100 "write: TAG, RX with a tag" if c.is(TAG) && c.kind == RX;
    100 "write: TYPE, RX without a tag" if c.is(TYPE) && c.kind == RX;
    2_000 "write: TYPE, tag 0 on an unknown type"
        if c.is(TYPE) && c.tag == 0 && !is_known(c.kind);
    // Full groups, packets and parameters.
    2_000 "write: TAKEN, full group at the end"
        if c.is(TAKEN) && c.is_full() && c.frame.ends_with(&[1, 0]);
    2_000 "write: TAKEN, full group before more"
        if c.is(TAKEN) && c.is_full() && !c.frame.ends_with(&[1, 0]);
    1_000 "write: TAKEN, TX of 1 byte" if c.is_taken(TX) && c.payload.len() == 2;
    1_000 "write: TAKEN, TX of 255 bytes" if c.is_taken(TX) && c.payload.len() == 256;
    1_000 "write: FORM, TX with flags 2" if c.is_form(TX) && c.first() == 2;
    1_000 "write: FORM, TX of no bytes"
        if c.is_form(TX) && c.payload.len() == 1 && c.first() <= 1;
    1_000 "write: FORM, TX of 256 bytes"
        if c.is_form(TX) && c.payload.len() == 257 && c.first() <= 1;
    2_000 "write: TAKEN, LoRa" if c.is_taken(SET_CONFIG) && c.first() == 1;
    500 "write: TAKEN, FSK without a sync word"
        if c.is_taken(SET_CONFIG) && c.sync_word_len() == Some(0);
    500 "write: TAKEN, FSK with a sync word of 8"
        if c.is_taken(SET_CONFIG) && c.sync_word_len() == Some(8);
    1_000 "write: FORM, LoRa of 15 or 17 bytes"
        if c.is_form(SET_CONFIG) && c.first() == 1 && matches!(c.payload.len(), 15 | 17);
    200 "write: FORM, FSK with a sync word of 9"
        if c.is_form(SET_CONFIG) && c.sync_word_len() == Some(9) && c.payload.len() == 17 + 9;
    1_000 "write: FORM, FSK with a byte more or less"
        if c.is_form(SET_CONFIG) && c.sync_word_len().map_or(false, |len| {
            len <= 8 && matches!(c.payload.len() - len, 16 | 18)
        });
    500 "write: FORM, modulation 0, 3 or 4"
        if c.is_form(SET_CONFIG) && matches!((c.first(), c.payload.len()), (0 | 3 | 4, 1..));
    100 "write: FORM, no modulation" if c.is_form(SET_CONFIG) && c.payload.is_empty();
    2_000 "write: FORM, a payload where none may be"
        if c.faults == [FORM] && c.kind != SET_CONFIG && c.kind != TX;
}

impl Reading {
    fn is(&self, number: u8) -> bool {
        first(&self.faults) == number
    }

    fn has(&self, number: u8) -> bool {
        self.faults.contains(&number)
    }

    fn is_long(&self) -> bool {
        self.run.len() > ENCODED_MAX
    }

    /// How many bytes the run has more than the body.
    fn overhead(&self) -> usize {
        self.run.len() - self.body.len()
    }

    fn kind(&self) -> u8 {
        self.body[0]
    }

    fn is_tag_zero(&self) -> bool {
        self.body[1..3] == [0, 0]
    }

    fn payload(&self) -> &[u8] {
        &self.body[3..self.body.len() - 2]
    }

    /// crc_valid and origin, where all fields of an RX are there.
    fn flags(&self) -> Option<(u8, u8)> {
        let fields = self.payload().get(..20);
        fields.map(|fields| (fields[16], fields[19]))
    }

    fn is_form(&self, wanted: u8) -> bool {
        self.wanted == wanted && self.faults == [FORM]
    }

    fn is_rx(&self, what: fn(Rx) -> bool) -> bool {
        self.wanted == RX && self.is(TAKEN) && what(rx(TAKEN, &self.body))
    }

    fn is_tx_done(&self, what: fn(TxDone) -> bool) -> bool {
        self.wanted == TX_DONE && self.is(TAKEN) && what(tx_done(TAKEN, &self.body))
    }
}

impl Writing {
    fn is(&self, number: u8) -> bool {
        first(&self.faults) == number
    }

    fn has(&self, number: u8) -> bool {
        self.faults.contains(&number)
    }

    fn is_taken(&self, kind: u8) -> bool {
        self.kind == kind && self.is(TAKEN)
    }

    fn is_form(&self, kind: u8) -> bool {
        self.kind == kind && self.faults == [FORM]
    }

    fn need(&self) -> usize {
        frame_room(self.payload.len())
    }

    /// Whether the frame has a full group.
    fn is_full(&self) -> bool {
        self.frame.len() == self.payload.len() + 5 + 3
    }

    /// The modulation or the flags.
    fn first(&self) -> u8 {
        *self.payload.first().unwrap_or(&0)
    }

    /// The length of the sync word, where this is for FSK.
    fn sync_word_len(&self) -> Option<usize> {
        let len = self.payload.get(16).filter(|_| self.first() == 2);
        len.map(|&len| usize::from(len))
    }
}

fn is_known(kind: u8) -> bool {
    matches!(kind, PING..=RX_STOP | OK | ERR | RX | TX_DONE)
}
