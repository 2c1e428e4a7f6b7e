//! Compares libdonglora.a with two other codecs on random inputs: the one of model.rs, and P's
//! listings of appendix.c with the choices of 01 put around them. P is the protocol's document,
//! 01 the paper with its precise rules.
//!
//! Every call is compared whole: the number, *written, every byte of the destination and of some
//! memory before and after it, and the source. What the cases were is counted by class, and a
//! class that was hardly seen is a failure too.
//!
//! Usage: codec [SEED]

mod inputs;
mod lent;
mod model;

use inputs::{Rng, LONGEST};
use lent::{Lent, Pattern, LARGE};
use model::{Crc, Fault, FULL};
use std::process;

extern "C" {
    fn donglora_crc16(src: *const u8, src_len: usize) -> u16;
    fn donglora_cobs_encode(
        src: *const u8,
        src_len: usize,
        dst: *mut u8,
        dst_len: usize,
        written: *mut usize,
    ) -> u8;
    fn donglora_cobs_decode(
        src: *const u8,
        src_len: usize,
        dst: *mut u8,
        dst_len: usize,
        written: *mut usize,
    ) -> u8;
    fn p_cobs_encode(src: *const u8, src_len: usize, dst: *mut u8) -> usize;
    fn p_cobs_decode(src: *const u8, src_len: usize, dst: *mut u8) -> usize;
    fn p_crc16(data: *const u8, len: usize) -> u16;
}

// The numbers and limits of 01, "Numbers that come back" and "Bytes on the wire".
const TAKEN: u8 = 0;
const SHORT: u8 = 4;
const STUFF: u8 = 5;
const LENGTH: u8 = 6;
const BODY_MAX: usize = 280;
const ENCODED_MAX: usize = 282;

const ENCODE_CASES: usize = 450_000;
const DECODE_CASES: usize = 600_000;
const CRC_CASES: usize = 50_000;

/// The largest destination of the random cases.
const ROOM_MAX: usize = LONGEST + 40;

/// The bytes written, or the number of the refusal.
type Answer = Result<Vec<u8>, u8>;

#[derive(Clone, Copy, Debug, PartialEq)]
enum Way {
    Encode,
    Decode,
}

macro_rules! classes {
    ($($class:ident $least:literal $name:literal;)*) => {
        #[derive(Clone, Copy)]
        enum Class { $($class),* }
        /// Each class: its name, and how many cases of it there must be at least.
        const CLASSES: &[(&str, u64)] = &[$(($name, $least)),*];
    };
}

classes! {
    EncodeTaken 100_000 "encode: 0 TAKEN";
    EncodeShort 100_000 "encode: 4 SHORT";
    EncodeLength 50_000 "encode: 6 LENGTH";
    EncodeOneUnder 20_000 "encode: SHORT, one byte too few";
    EncodeFits 5_000 "encode: SHORT, though this encoding fits";
    EncodeLengthShort 10_000 "encode: LENGTH, room too small too";
    EncodeNone 5_000 "encode: TAKEN, no bytes";
    EncodeLongest 5_000 "encode: TAKEN, 280 bytes";
    EncodeOnlyZeros 10_000 "encode: TAKEN, only zeros";
    EncodeNoZeros 10_000 "encode: TAKEN, no zeros";
    EncodeFullEnd 5_000 "encode: TAKEN, full group at the end";
    EncodeFullZero 2_000 "encode: TAKEN, full group before a zero";
    EncodeFullMore 5_000 "encode: TAKEN, full group before more data";
    DecodeTaken 100_000 "decode: 0 TAKEN";
    DecodeShort 100_000 "decode: 4 SHORT";
    DecodeStuff 50_000 "decode: 5 STUFF";
    DecodeLength 20_000 "decode: 6 LENGTH";
    DecodeOneUnder 20_000 "decode: SHORT, one byte too few";
    DecodeFits 20_000 "decode: SHORT, though the result fits";
    DecodeLengthShort 5_000 "decode: LENGTH, room too small too";
    DecodeLengthStuff 5_000 "decode: LENGTH, bad source too";
    DecodeShortStuff 20_000 "decode: SHORT, bad source too";
    DecodeEmpty 5_000 "decode: STUFF, no bytes";
    DecodeZeroCode 5_000 "decode: STUFF, a code is zero";
    DecodeZeroInGroup 5_000 "decode: STUFF, only a zero in a group";
    DecodeCut 10_000 "decode: STUFF, ends inside a group";
    DecodeLate 10_000 "decode: STUFF, after a good first group";
    DecodeFullClosed 5_000 "decode: TAKEN, full group at the end, closed";
    DecodeFullOpen 5_000 "decode: TAKEN, full group at the end, not closed";
    DecodeFullMore 5_000 "decode: TAKEN, full group before more data";
    DecodeToNone 2_000 "decode: TAKEN, 01 alone";
    DecodeLongest 5_000 "decode: TAKEN, 282 bytes";
    DecodeTooLong 1_000 "decode: TAKEN, 282 bytes to 281";
    RoundTrip 100_000 "decode of encode";
    NullSource 5_000 "NULL source";
    NullDestination 10_000 "NULL destination";
    LargeSource 50 "source over 65535 bytes";
    LargeDestination 30 "destination over 65535 bytes";
    CrcNone 100 "crc: no bytes";
    CrcSome 30_000 "crc: 1 to 600 bytes";
    CrcMany 20 "crc: over 600 bytes";
}

use Class::*;

struct Test {
    rng: Rng,
    crc: Crc,
    /// For each length of a body the longest encoding, made by P's listing from nonzero bytes.
    longest: Vec<usize>,
    pattern: Pattern,
    seen: [u64; CLASSES.len()],
    cases: u64,
}

fn main() {
    let mut test = Test::new(inputs::seed("codec"));
    test.every_size();
    test.every_short_source();
    test.large_sizes();
    for _ in 0..ENCODE_CASES {
        test.random_encode();
    }
    for _ in 0..DECODE_CASES {
        test.random_decode();
    }
    test.crc_cases();
    test.report();
}

impl Test {
    fn new(seed: u64) -> Test {
        Test {
            rng: Rng::new(seed),
            crc: Crc::new(),
            longest: (0..=BODY_MAX)
                .map(|n| listing_encoding(&vec![1; n]).len())
                .collect(),
            pattern: Pattern::new(ROOM_MAX),
            seen: [0; CLASSES.len()],
            cases: 0,
        }
    }

    fn count(&mut self, class: Class, applies: bool) {
        self.seen[class as usize] += u64::from(applies);
    }

    /// Every length of a source with every size of a destination.
    fn every_size(&mut self) {
        for len in 0..=LONGEST {
            let body = self.rng.body(len);
            let groups = self.rng.groups(len);
            for room in 0..=LONGEST + 10 {
                self.encode(&body, room);
                self.decode(&groups, room);
            }
        }
    }

    /// Every source of up to 6 bytes out of these.
    fn every_short_source(&mut self) {
        const BYTES: [u8; 6] = [0, 1, 2, 3, 4, 255];
        for len in 0..=6 {
            for index in 0..BYTES.len().pow(len) {
                let digit = |place| index / BYTES.len().pow(place) % BYTES.len();
                let src: Vec<u8> = (0..len).map(|place| BYTES[digit(place)]).collect();
                self.encode(&src, src.len() + 1);
                self.decode(&src, src.len());
            }
        }
    }

    /// Sizes whose low 16 bits would be right.
    fn large_sizes(&mut self) {
        for len in [0, 1, 5, 253, 254, 255, 256, 279, 280, 281, 282] {
            let body = self.rng.body(len);
            let groups = self.rng.groups(len);
            self.encode(&body, LARGE + len);
            self.decode(&groups, LARGE);
            let body = self.rng.body(LARGE + len);
            let groups = self.rng.groups(LARGE + len);
            for room in [0, len, LARGE + len] {
                self.encode(&body, room);
                self.decode(&groups, room);
            }
        }
    }

    fn random_encode(&mut self) {
        let len = self.rng.length();
        let src = self.rng.body(len);
        let rule = len + len / FULL + 1;
        let room = match self.rng.below(10) {
            0..=3 => rule,
            4 => rule - 1,
            5 => 0,
            6 => model::encode(&src).len(),
            7 => rule + 1 + self.rng.below(20),
            _ => self.rng.below(ROOM_MAX + 1),
        };
        self.encode(&src, room);
    }

    fn random_decode(&mut self) {
        let src = self.rng.encoding();
        let room = match self.rng.below(10) {
            0..=4 => src.len(),
            5 => src.len().saturating_sub(1),
            6 => 0,
            7 => model::decode(&src).map_or(0, |body| body.len()),
            8 => src.len() + 1 + self.rng.below(20),
            _ => self.rng.below(ROOM_MAX + 1),
        };
        self.decode(&src, room);
    }

    /// Encodes, and decodes what came out.
    fn encode(&mut self, src: &[u8], room: usize) {
        let encoding = model::encode(src);
        self.count_encode(src, room, &encoding);
        let answer = if src.len() > BODY_MAX {
            Err(LENGTH)
        } else if room < src.len() + src.len() / FULL + 1 {
            Err(SHORT)
        } else {
            Ok(encoding)
        };
        let listing = self.listing_encode(src, room);
        self.compare(Way::Encode, src, room, &answer, &listing);
        if let Ok(encoding) = answer {
            self.count(RoundTrip, true);
            let room = encoding.len();
            let listing = listing_decode(&encoding, room);
            self.compare(Way::Decode, &encoding, room, &Ok(src.to_vec()), &listing);
        }
    }

    fn decode(&mut self, src: &[u8], room: usize) {
        let result = model::decode(src);
        self.count_decode(src, room, &result);
        let answer = if src.len() > ENCODED_MAX {
            Err(LENGTH)
        } else if room < src.len() {
            Err(SHORT)
        } else {
            result.map_err(|_| STUFF)
        };
        let listing = listing_decode(src, room);
        self.compare(Way::Decode, src, room, &answer, &listing);
    }

    fn count_encode(&mut self, src: &[u8], room: usize, encoding: &[u8]) {
        let rule = src.len() + src.len() / FULL + 1;
        let length = src.len() > BODY_MAX;
        let short = !length && room < rule;
        let taken = !length && !short;
        let mut pieces = src.rsplit(|&byte| byte == 0).map(<[u8]>::len);
        let is_full = |len: usize| len > 0 && len % FULL == 0;
        self.count(EncodeLength, length);
        self.count(EncodeLengthShort, length && room < rule);
        self.count(EncodeShort, short);
        self.count(EncodeOneUnder, short && room + 1 == rule);
        self.count(EncodeFits, short && encoding.len() <= room);
        self.count(EncodeTaken, taken);
        self.count(EncodeNone, taken && src.is_empty());
        self.count(EncodeLongest, taken && src.len() == BODY_MAX);
        let some = taken && !src.is_empty();
        self.count(EncodeOnlyZeros, some && src.iter().all(|&byte| byte == 0));
        self.count(EncodeNoZeros, some && !src.contains(&0));
        self.count(EncodeFullEnd, taken && pieces.next().map_or(false, is_full));
        self.count(EncodeFullZero, taken && pieces.any(is_full));
        let more = src.split(|&byte| byte == 0).any(|piece| piece.len() > FULL);
        self.count(EncodeFullMore, taken && more);
    }

    fn count_decode(&mut self, src: &[u8], room: usize, result: &Result<Vec<u8>, Fault>) {
        let length = src.len() > ENCODED_MAX;
        let short = !length && room < src.len();
        let fault = if length || short {
            None
        } else {
            result.as_ref().err()
        };
        self.count(DecodeLength, length);
        self.count(DecodeLengthShort, length && room < src.len());
        self.count(DecodeLengthStuff, length && result.is_err());
        self.count(DecodeShort, short);
        self.count(DecodeOneUnder, short && room + 1 == src.len());
        self.count(DecodeShortStuff, short && result.is_err());
        let fits = result.as_ref().map_or(false, |body| body.len() <= room);
        self.count(DecodeFits, short && fits);
        self.count(DecodeStuff, fault.is_some());
        self.count(DecodeEmpty, matches!(fault, Some(Fault::Empty)));
        self.count(DecodeZeroCode, matches!(fault, Some(Fault::ZeroCode)));
        self.count(DecodeZeroInGroup, matches!(fault, Some(Fault::ZeroInGroup)));
        self.count(DecodeCut, matches!(fault, Some(Fault::CutGroup)));
        let first = src.first().and_then(|&code| src.get(..usize::from(code)));
        let is_good = first.map_or(false, |group| !group.is_empty() && !group.contains(&0));
        self.count(DecodeLate, fault.is_some() && is_good);
        if let (false, false, Ok(body)) = (length, short, result) {
            self.count_decoded(src, body);
        }
    }

    fn count_decoded(&mut self, src: &[u8], body: &[u8]) {
        self.count(DecodeTaken, true);
        self.count(DecodeToNone, body.is_empty());
        self.count(DecodeLongest, src.len() == ENCODED_MAX);
        self.count(DecodeTooLong, body.len() > BODY_MAX);
        let places = model::places(src);
        for pair in places
            .windows(2)
            .filter(|pair| pair[1] - pair[0] == FULL + 1)
        {
            let after = &src[pair[1]..];
            self.count(DecodeFullOpen, after.is_empty());
            self.count(DecodeFullClosed, after == [1]);
            self.count(DecodeFullMore, after.len() > 1);
        }
    }

    /// P's encoder, with the sizes of 01 before it.
    fn listing_encode(&self, src: &[u8], room: usize) -> Answer {
        match self.longest.get(src.len()) {
            None => Err(LENGTH),
            Some(&longest) if longest > room => Err(SHORT),
            Some(_) => Ok(listing_encoding(src)),
        }
    }

    /// Calls the library once and compares all that the call left.
    fn compare(&mut self, way: Way, src: &[u8], room: usize, answer: &Answer, listing: &Answer) {
        let before = self.pattern.lend(&mut self.rng, src, room);
        let after = way.call(&before);
        if after != answered(&before, answer) || answer != listing {
            println!("case {} differs: {way:?}", self.cases);
            println!("before: {before:02X?}");
            println!("after: {after:02X?}");
            println!("model.rs says {answer:02X?}");
            println!("appendix.c says {listing:02X?}");
            process::exit(1);
        }
        self.cases += 1;
        self.count(NullSource, before.null_source);
        self.count(NullDestination, before.null_destination);
        self.count(LargeSource, src.len() >= LARGE);
        self.count(LargeDestination, room >= LARGE);
    }

    fn crc_cases(&mut self) {
        self.compare_crc(b"123456789");
        for case in 0..CRC_CASES {
            let len = match case {
                0..=600 => case,
                _ if self.rng.one_in(8) => self.rng.length(),
                _ => self.rng.below(601),
            };
            let src = self.rng.body(len);
            self.compare_crc(&src);
        }
        for case in 0..24 {
            let len = [601, 4096, 65_535, 65_536, 100_003, 1_000_000][case % 6];
            let src = self.rng.body(len);
            self.compare_crc(&src);
        }
    }

    fn compare_crc(&mut self, src: &[u8]) {
        let mut lent = self.pattern.lend(&mut self.rng, src, 0);
        let (start, len) = lent.source();
        // SAFETY: the block has the size that is passed.
        let crc = unsafe { donglora_crc16(start, len) };
        let listing = unsafe { p_crc16(start, len) };
        let model = self.crc.of(src);
        if crc != model || model != listing {
            println!("case {} differs: crc", self.cases);
            println!("source {src:02X?}");
            println!("model.rs says {model:04X}, appendix.c {listing:04X}, the library {crc:04X}");
            process::exit(1);
        }
        self.cases += 1;
        self.count(NullSource, lent.null_source);
        self.count(CrcNone, src.is_empty());
        self.count(CrcSome, (1..=600).contains(&src.len()));
        self.count(CrcMany, src.len() > 600);
    }

    /// Prints a line for each class, and ends with status 1 if one was hardly seen.
    fn report(&self) {
        let mut scarce = 0;
        for (&(name, least), &seen) in CLASSES.iter().zip(&self.seen) {
            let note = if seen < least { "  too few" } else { "" };
            println!("{name:50} {seen:8}{note}");
            scarce += u32::from(seen < least);
        }
        if scarce > 0 {
            println!(
                "codec: {} cases, but {scarce} classes were hardly seen",
                self.cases
            );
            process::exit(1);
        }
        println!("codec: {} cases, 0 differ", self.cases);
    }
}

impl Way {
    /// The number that the library answers, and what it leaves.
    fn call(self, before: &Lent) -> (u8, Lent) {
        let mut after = before.clone();
        let (src, src_len) = after.source();
        let (dst, dst_len) = after.destination();
        let function = match self {
            Way::Encode => donglora_cobs_encode,
            Way::Decode => donglora_cobs_decode,
        };
        // SAFETY: both blocks have the sizes that are passed, and do not overlap.
        let number = unsafe { function(src, src_len, dst, dst_len, &mut after.written) };
        (number, after)
    }
}

/// The number of this answer, and what must be left: after a refusal, all as before.
fn answered(before: &Lent, answer: &Answer) -> (u8, Lent) {
    let mut after = before.clone();
    match answer {
        Ok(bytes) => {
            after.written = bytes.len();
            after.write(bytes);
            (TAKEN, after)
        }
        Err(number) => (*number, after),
    }
}

fn listing_encoding(src: &[u8]) -> Vec<u8> {
    let mut out = vec![0; src.len() + src.len() / FULL + 1];
    // SAFETY: the room is the most that a source of this length needs.
    let len = unsafe { p_cobs_encode(src.as_ptr(), src.len(), out.as_mut_ptr()) };
    out.truncate(len);
    out
}

/// P's decoder, with the sizes of 01 before it and its choices: no bytes and a zero anywhere are
/// STUFF, and 01 alone is the one source that has an empty result.
fn listing_decode(src: &[u8], room: usize) -> Answer {
    if src.len() > ENCODED_MAX {
        return Err(LENGTH);
    }
    if room < src.len() {
        return Err(SHORT);
    }
    if src.is_empty() || src.contains(&0) {
        return Err(STUFF);
    }
    let mut out = vec![0; src.len()];
    // SAFETY: each code byte gives at most one byte, so the result is no longer than the source.
    let len = unsafe { p_cobs_decode(src.as_ptr(), src.len(), out.as_mut_ptr()) };
    if len == 0 && src != [1] {
        return Err(STUFF);
    }
    out.truncate(len);
    Ok(out)
}
