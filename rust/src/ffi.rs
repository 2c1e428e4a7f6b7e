//! The functions of libdonglora.a, each behind a safe one. This is the only module with `unsafe`
//! code.
//!
//! What makes each call sound is the same: a slice's pointer and size name memory that is there, a
//! destination is borrowed mutably and so overlaps nothing else, the arrays have the sizes that the
//! header names, and no function keeps a pointer. The pointer of an empty slice is not NULL, and
//! the library does not look at it.

use crate::dongle::{COMMANDS, CONTROL, PACKETS, RUN};
use crate::ledger::WORDS;

/// donglora_size: 64 bits on every target.
pub(crate) type Size = u64;

/// struct donglora_message
#[repr(C)]
pub(crate) struct Message {
    pub(crate) number: u8,
    pub(crate) kind: u8,
    pub(crate) tag: u16,
    pub(crate) payload_len: Size,
}

/// struct donglora_rx
#[repr(C)]
pub(crate) struct Rx {
    pub(crate) number: u8,
    pub(crate) rssi: i16,
    pub(crate) snr: i16,
    pub(crate) freq_err: i32,
    pub(crate) timestamp_us: u64,
    pub(crate) crc_valid: u8,
    pub(crate) packets_dropped: u16,
    pub(crate) origin: u8,
    pub(crate) packet_len: Size,
}

/// struct donglora_tx_done
#[repr(C)]
pub(crate) struct TxDone {
    pub(crate) number: u8,
    pub(crate) tag: u16,
    pub(crate) result: u8,
    pub(crate) airtime_us: u32,
}

/// struct donglora_report
#[repr(C)]
pub(crate) struct Report {
    pub(crate) verdict: u8,
    pub(crate) command: u8,
    pub(crate) line: u8,
    pub(crate) closed: u8,
}

/// struct donglora_answer
#[derive(Default)]
#[repr(C)]
pub(crate) struct Answer {
    pub(crate) number: u64,
    pub(crate) written: u64,
    pub(crate) order: u64,
    pub(crate) at: u64,
    pub(crate) len: u64,
    pub(crate) ldro: u64,
    pub(crate) listen: u64,
}

/// struct donglora_packet_status
#[repr(C)]
pub(crate) struct PacketStatus {
    pub(crate) rssi: i16,
    pub(crate) snr: i16,
    pub(crate) freq_err: i32,
    pub(crate) timestamp_us: u64,
    pub(crate) crc_valid: u8,
}

extern "C" {
    fn donglora_crc16(src: *const u8, src_len: Size) -> u16;
    fn donglora_cobs_encode(
        src: *const u8,
        src_len: Size,
        dst: *mut u8,
        dst_len: Size,
        written: *mut Size,
    ) -> u8;
    fn donglora_cobs_decode(
        src: *const u8,
        src_len: Size,
        dst: *mut u8,
        dst_len: Size,
        written: *mut Size,
    ) -> u8;
    fn donglora_write_command(
        kind: u8,
        tag: u16,
        payload: *const u8,
        payload_len: Size,
        dst: *mut u8,
        dst_len: Size,
        written: *mut Size,
    ) -> u8;
    fn donglora_read_answer(
        command: u8,
        run: *const u8,
        run_len: Size,
        body: *mut u8,
        body_len: Size,
    ) -> Message;
    fn donglora_read_rx(run: *const u8, run_len: Size, body: *mut u8, body_len: Size) -> Rx;
    fn donglora_read_tx_done(
        run: *const u8,
        run_len: Size,
        body: *mut u8,
        body_len: Size,
    ) -> TxDone;
    fn donglora_read_frame(run: *const u8, run_len: Size, body: *mut u8, body_len: Size)
        -> Message;
    fn donglora_ledger_new(ledger: *mut u32);
    fn donglora_ledger_open(ledger: *mut u32, command: u8, tag: *mut u16, line: *mut u8) -> u8;
    fn donglora_ledger_answer(ledger: *mut u32, kind: u8, tag: u16) -> Report;
    fn donglora_ledger_connect(ledger: *mut u32);
    fn donglora_power_up(control: *mut u64, run: *mut u8, commands: *mut u8, packets: *mut u8);
    fn donglora_byte(
        control: *mut u64,
        b: u8,
        run: *mut u8,
        commands: *mut u8,
        out: *mut u8,
        out_len: Size,
        answer: *mut Answer,
    );
    fn donglora_tick(control: *mut u64, out_len: Size, answer: *mut Answer);
    fn donglora_disconnect(control: *mut u64, out_len: Size, answer: *mut Answer);
    fn donglora_clear(control: *mut u64, out_len: Size, answer: *mut Answer);
    fn donglora_busy(
        control: *mut u64,
        commands: *const u8,
        out: *mut u8,
        out_len: Size,
        answer: *mut Answer,
    );
    fn donglora_sent(
        control: *mut u64,
        airtime_us: u32,
        commands: *const u8,
        out: *mut u8,
        out_len: Size,
        answer: *mut Answer,
    );
    fn donglora_configured(
        control: *mut u64,
        commands: *const u8,
        out: *mut u8,
        out_len: Size,
        answer: *mut Answer,
    );
    fn donglora_fault(
        control: *mut u64,
        commands: *const u8,
        out: *mut u8,
        out_len: Size,
        answer: *mut Answer,
    );
    fn donglora_packet(
        control: *mut u64,
        status: PacketStatus,
        bytes: *const u8,
        len: Size,
        packets: *mut u8,
        out_len: Size,
        answer: *mut Answer,
    );
    fn donglora_request(
        control: *mut u64,
        packets: *mut u8,
        out: *mut u8,
        out_len: Size,
        answer: *mut Answer,
    );
}

/// The length of a slice, as the library has it.
fn len_of(slice: &[u8]) -> Size {
    slice.len() as Size
}

/// A count of bytes. One that is no usize would be no count of bytes here.
pub(crate) fn size(n: Size) -> usize {
    usize::try_from(n).unwrap_or(usize::MAX)
}

pub(crate) fn crc16(src: &[u8]) -> u16 {
    // SAFETY: the source is a slice.
    unsafe { donglora_crc16(src.as_ptr(), len_of(src)) }
}

/// The number, and how many bytes were written.
pub(crate) fn cobs_encode(src: &[u8], dst: &mut [u8]) -> (u8, Size) {
    let mut written = 0;
    let (to, room) = (dst.as_mut_ptr(), len_of(dst));
    // SAFETY: source and destination are slices, and a shared one and a mutable one do not overlap.
    let number = unsafe { donglora_cobs_encode(src.as_ptr(), len_of(src), to, room, &mut written) };
    (number, written)
}

/// The number, and how many bytes were written.
pub(crate) fn cobs_decode(src: &[u8], dst: &mut [u8]) -> (u8, Size) {
    let mut written = 0;
    let (to, room) = (dst.as_mut_ptr(), len_of(dst));
    // SAFETY: source and destination are slices, and a shared one and a mutable one do not overlap.
    let number = unsafe { donglora_cobs_decode(src.as_ptr(), len_of(src), to, room, &mut written) };
    (number, written)
}

/// The number, and how many bytes were written.
pub(crate) fn write_command(kind: u8, tag: u16, payload: &[u8], dst: &mut [u8]) -> (u8, Size) {
    let mut written = 0;
    let (from, len) = (payload.as_ptr(), len_of(payload));
    let (to, room) = (dst.as_mut_ptr(), len_of(dst));
    // SAFETY: payload and destination are slices, and a shared one and a mutable one do not
    // overlap.
    let number = unsafe { donglora_write_command(kind, tag, from, len, to, room, &mut written) };
    (number, written)
}

pub(crate) fn read_answer(command: u8, run: &[u8], body: &mut [u8]) -> Message {
    let (to, room) = (body.as_mut_ptr(), len_of(body));
    // SAFETY: run and body are slices, and a shared one and a mutable one do not overlap. The
    // struct that comes back has numbers alone.
    unsafe { donglora_read_answer(command, run.as_ptr(), len_of(run), to, room) }
}

pub(crate) fn read_rx(run: &[u8], body: &mut [u8]) -> Rx {
    // SAFETY: as in read_answer.
    unsafe { donglora_read_rx(run.as_ptr(), len_of(run), body.as_mut_ptr(), len_of(body)) }
}

pub(crate) fn read_tx_done(run: &[u8], body: &mut [u8]) -> TxDone {
    // SAFETY: as in read_answer.
    unsafe { donglora_read_tx_done(run.as_ptr(), len_of(run), body.as_mut_ptr(), len_of(body)) }
}

pub(crate) fn read_frame(run: &[u8], body: &mut [u8]) -> Message {
    // SAFETY: as in read_answer.
    unsafe { donglora_read_frame(run.as_ptr(), len_of(run), body.as_mut_ptr(), len_of(body)) }
}

pub(crate) fn ledger_new(ledger: &mut [u32; WORDS]) {
    // SAFETY: the array has the header's size.
    unsafe { donglora_ledger_new(ledger.as_mut_ptr()) }
}

/// The number, the tag and the line.
pub(crate) fn ledger_open(ledger: &mut [u32; WORDS], command: u8) -> (u8, u16, u8) {
    let (mut tag, mut line) = (0, 0);
    // SAFETY: the array has the header's size. The tag and the line are on this stack.
    let number = unsafe { donglora_ledger_open(ledger.as_mut_ptr(), command, &mut tag, &mut line) };
    (number, tag, line)
}

pub(crate) fn ledger_answer(ledger: &mut [u32; WORDS], kind: u8, tag: u16) -> Report {
    // SAFETY: the array has the header's size. The struct that comes back has numbers alone.
    unsafe { donglora_ledger_answer(ledger.as_mut_ptr(), kind, tag) }
}

pub(crate) fn ledger_connect(ledger: &mut [u32; WORDS]) {
    // SAFETY: as in ledger_new.
    unsafe { donglora_ledger_connect(ledger.as_mut_ptr()) }
}

/// The control array of a dongle, as the events have it.
type Control = [u64; CONTROL];

pub(crate) fn power_up(
    control: &mut Control,
    run: &mut [u8; RUN],
    commands: &mut [u8; COMMANDS],
    packets: &mut [u8; PACKETS],
) {
    let (run, commands) = (run.as_mut_ptr(), commands.as_mut_ptr());
    // SAFETY: the four arrays have the header's sizes, and mutable ones do not overlap.
    unsafe { donglora_power_up(control.as_mut_ptr(), run, commands, packets.as_mut_ptr()) }
}

pub(crate) fn byte(
    control: &mut Control,
    b: u8,
    run: &mut [u8; RUN],
    commands: &mut [u8; COMMANDS],
    out: &mut [u8],
) -> Answer {
    let mut answer = Answer::default();
    let (control, run) = (control.as_mut_ptr(), run.as_mut_ptr());
    let (commands, to, room) = (commands.as_mut_ptr(), out.as_mut_ptr(), len_of(out));
    // SAFETY: the arrays have the header's sizes, the output is a slice, and mutable ones do not
    // overlap. The answer is on this stack, and has numbers alone.
    unsafe { donglora_byte(control, b, run, commands, to, room, &mut answer) }
    answer
}

pub(crate) fn tick(control: &mut Control, room: usize) -> Answer {
    let mut answer = Answer::default();
    // SAFETY: the array has the header's size, and the answer is on this stack. `room` is a number.
    unsafe { donglora_tick(control.as_mut_ptr(), room as Size, &mut answer) }
    answer
}

pub(crate) fn disconnect(control: &mut Control, room: usize) -> Answer {
    let mut answer = Answer::default();
    // SAFETY: as in tick.
    unsafe { donglora_disconnect(control.as_mut_ptr(), room as Size, &mut answer) }
    answer
}

pub(crate) fn clear(control: &mut Control, room: usize) -> Answer {
    let mut answer = Answer::default();
    // SAFETY: as in tick.
    unsafe { donglora_clear(control.as_mut_ptr(), room as Size, &mut answer) }
    answer
}

pub(crate) fn busy(control: &mut Control, commands: &[u8; COMMANDS], out: &mut [u8]) -> Answer {
    let mut answer = Answer::default();
    let (control, commands) = (control.as_mut_ptr(), commands.as_ptr());
    let (to, room) = (out.as_mut_ptr(), len_of(out));
    // SAFETY: as in byte; the commands are only read.
    unsafe { donglora_busy(control, commands, to, room, &mut answer) }
    answer
}

pub(crate) fn sent(
    control: &mut Control,
    airtime_us: u32,
    commands: &[u8; COMMANDS],
    out: &mut [u8],
) -> Answer {
    let mut answer = Answer::default();
    let (control, commands) = (control.as_mut_ptr(), commands.as_ptr());
    let (to, room) = (out.as_mut_ptr(), len_of(out));
    // SAFETY: as in busy.
    unsafe { donglora_sent(control, airtime_us, commands, to, room, &mut answer) }
    answer
}

pub(crate) fn configured(
    control: &mut Control,
    commands: &[u8; COMMANDS],
    out: &mut [u8],
) -> Answer {
    let mut answer = Answer::default();
    let (control, commands) = (control.as_mut_ptr(), commands.as_ptr());
    let (to, room) = (out.as_mut_ptr(), len_of(out));
    // SAFETY: as in busy.
    unsafe { donglora_configured(control, commands, to, room, &mut answer) }
    answer
}

pub(crate) fn fault(control: &mut Control, commands: &[u8; COMMANDS], out: &mut [u8]) -> Answer {
    let mut answer = Answer::default();
    let (control, commands) = (control.as_mut_ptr(), commands.as_ptr());
    let (to, room) = (out.as_mut_ptr(), len_of(out));
    // SAFETY: as in busy.
    unsafe { donglora_fault(control, commands, to, room, &mut answer) }
    answer
}

pub(crate) fn packet(
    control: &mut Control,
    status: PacketStatus,
    bytes: &[u8],
    packets: &mut [u8; PACKETS],
    room: usize,
) -> Answer {
    let mut answer = Answer::default();
    let (control, packets) = (control.as_mut_ptr(), packets.as_mut_ptr());
    let (from, len, room) = (bytes.as_ptr(), len_of(bytes), room as Size);
    // SAFETY: the arrays have the header's sizes, the packet is a slice that is only read, and none
    // overlaps a mutable one. The answer is on this stack.
    unsafe { donglora_packet(control, status, from, len, packets, room, &mut answer) }
    answer
}

pub(crate) fn request(
    control: &mut Control,
    packets: &mut [u8; PACKETS],
    out: &mut [u8],
) -> Answer {
    let mut answer = Answer::default();
    let (control, packets) = (control.as_mut_ptr(), packets.as_mut_ptr());
    let (to, room) = (out.as_mut_ptr(), len_of(out));
    // SAFETY: as in byte.
    unsafe { donglora_request(control, packets, to, room, &mut answer) }
    answer
}
