use super::{hex, run, FSK, LORA};
use crate::{
    cobs_decode, crc16, frame_room, read_answer, read_frame, read_rx, read_tx_done, write_command,
    Command, Frame, Kind, Message, Origin, Outcome, Refusal, Rx, TxDone, ENCODED_MAX, PAYLOAD,
    PAYLOAD_MAX, RX_PACKET,
};

pub(super) const COMMANDS: [Command; 6] = [
    Command::Ping,
    Command::GetInfo,
    Command::SetConfig,
    Command::Tx,
    Command::RxStart,
    Command::RxStop,
];

/// What a command is written as, with room to spare, and that the rest of the room stays.
fn written(command: Command, tag: u16, payload: &[u8]) -> Result<Vec<u8>, Refusal> {
    let mut dst = [0xAA; 300];
    let frame = write_command(command, tag, payload, &mut dst).map(<[u8]>::to_vec);
    let len = frame.as_ref().map_or(0, Vec::len);
    assert!(dst[len..].iter().all(|&byte| byte == 0xAA));
    frame
}

#[test]
fn known_commands() {
    for (command, tag, payload, frame) in [
        (Command::Ping, 0x0001, "", "03 01 01 03 9D C8 00"),
        (Command::RxStart, 0x0006, "", "03 05 06 03 CA 8D 00"),
        (Command::RxStop, 0x0008, "", "03 06 08 03 95 F7 00"),
        (
            Command::Tx,
            0x0028,
            "00 68 69",
            "03 04 28 01 05 68 69 24 7D 00",
        ),
        (
            Command::SetConfig,
            0x0003,
            LORA,
            "03 03 03 08 01 A0 27 BE 33 07 07 02 08 04 24 14 0E 02 01 03 D9 1F 00",
        ),
    ] {
        assert_eq!(written(command, tag, &hex(payload)), Ok(hex(frame)));
    }
}

#[test]
fn each_command_has_its_type() {
    for (kind, command) in (1..).zip(COMMANDS) {
        let payload = match command {
            Command::SetConfig => hex(FSK),
            Command::Tx => hex("01 02"),
            _ => vec![],
        };
        let frame = written(command, 0x1234, &payload).unwrap();
        let (end, frame) = frame.split_last().unwrap();
        let mut body = [0; ENCODED_MAX];
        let body = cobs_decode(frame, &mut body).unwrap();
        let (front, check) = body.split_at(body.len() - 2);
        assert_eq!((*end, front[0]), (0, kind));
        assert_eq!(&front[1..3], &[0x34, 0x12]);
        assert_eq!(&front[PAYLOAD..], &payload[..]);
        assert_eq!(check, &crc16(front).to_le_bytes()[..]);
    }
}

#[test]
fn commands_are_refused() {
    for command in COMMANDS {
        assert_eq!(written(command, 0, &[9; 300]), Err(Refusal::Tag));
    }
    for command in [
        Command::Ping,
        Command::GetInfo,
        Command::RxStart,
        Command::RxStop,
    ] {
        assert_eq!(written(command, 1, &[0]), Err(Refusal::Form));
    }
    let (lora, fsk) = (hex(LORA), hex(FSK));
    for config in [
        &lora[..15],
        &fsk[..18],
        &[],
        &[3; 16],
        &[&fsk[..], &[0]].concat(),
    ] {
        assert_eq!(written(Command::SetConfig, 1, config), Err(Refusal::Form));
    }
    for tx in [&[][..], &[0], &[2, 1], &[0; 257]] {
        assert_eq!(written(Command::Tx, 1, tx), Err(Refusal::Form));
    }
    assert!(written(Command::Tx, 0xFFFF, &[1; 256]).is_ok());
    let mut dst = [0; frame_room(2)];
    assert!(write_command(Command::Tx, 1, &[0, 1], &mut dst).is_ok());
    let mut dst = [0xAA; frame_room(2) - 1];
    assert_eq!(
        write_command(Command::Tx, 1, &[0, 1], &mut dst),
        Err(Refusal::Short)
    );
    assert_eq!(
        write_command(Command::Tx, 1, &[2, 1], &mut dst),
        Err(Refusal::Form)
    );
    assert_eq!(dst, [0xAA; frame_room(2) - 1]);
    assert_eq!(frame_room(usize::MAX), usize::MAX);
    assert_eq!(frame_room(PAYLOAD_MAX), 283);
}

/// Reads an answer, and checks that a refused one leaves the body.
fn read(command: Command, run: &[u8], room: usize) -> Result<(Kind, u16, Vec<u8>), Refusal> {
    let mut body = vec![0xAA; room];
    let message = read_answer(command, run, &mut body);
    let message = message.map(|Message { kind, tag, payload }| (kind, tag, payload.to_vec()));
    assert!(message.is_ok() || body.iter().all(|&byte| byte == 0xAA));
    message
}

#[test]
fn known_answers() {
    for (frame, kind, tag, payload) in [
        ("03 80 01 03 F7 C4", Kind::Ok, 0x0001, ""),
        ("03 80 33 01 02 A7", Kind::Ok, 0x0033, ""),
        ("03 81 28 02 03 03 53 7E", Kind::Err, 0x0028, "03 00"),
        ("03 81 2A 02 01 03 59 F5", Kind::Err, 0x002A, "01 00"),
        ("02 81 01 05 02 01 CE EF", Kind::Err, 0x0000, "02 01"),
        (
            "03 C1 14 02 02 01 01 01 03 82 CF",
            Kind::TxDone,
            0x0014,
            "02 00 00 00 00",
        ),
    ] {
        let expected = (kind, tag, hex(payload));
        assert_eq!(read(Command::Tx, &hex(frame), 282), Ok(expected));
    }
    let rx =
        hex("02 C0 01 04 26 FD 64 02 32 01 01 05 A0 45 C7 07 01 01 01 03 01 03 01 05 01 02 A7 86");
    let (kind, tag, payload) = read(Command::Ping, &rx, 282).unwrap();
    assert_eq!((kind, tag, payload.len()), (Kind::Rx, 0, 22));
}

/// P C.2.2 and C.2.3: the payloads of these OK have a layout, if their commands are named.
#[test]
fn an_ok_is_read_with_its_command_named() {
    let info = hex(
        "03 80 02 02 01 01 02 01 02 02 02 03 02 01 01 01 01 01 06 E0 1F FF 03 FF 02 40 02 10 05 80 \
         D1 F0 08 0F 70 38 39 F7 16 08 DE AD BE EF 01 23 45 67 03 FA A4",
    );
    let (_, tag, payload) = read(Command::GetInfo, &info, 282).unwrap();
    assert_eq!((tag, payload.len()), (2, 45));
    assert_eq!(payload[36..44], hex("DE AD BE EF 01 23 45 67"));
    let config = hex("03 80 03 01 09 01 01 A0 27 BE 33 07 07 02 08 04 24 14 0E 02 01 03 C8 91");
    let (_, tag, payload) = read(Command::SetConfig, &config, 282).unwrap();
    assert_eq!((tag, payload), (3, [hex("00 01"), hex(LORA)].concat()));
    for command in COMMANDS {
        let form = match command {
            Command::GetInfo | Command::SetConfig => Err(Refusal::Form),
            _ => Ok((Kind::Ok, 7, vec![9; 10])),
        };
        assert_eq!(read(command, &run(0x80, 7, &[9; 10]), 282), form);
    }
}

#[test]
fn answers_are_refused_in_order() {
    let ok = hex("03 80 01 03 F7 C4");
    assert_eq!(read(Command::Ping, &[1; 283], 0), Err(Refusal::Length));
    assert_eq!(read(Command::Ping, &ok, 5), Err(Refusal::Short));
    assert!(read(Command::Ping, &ok, 6).is_ok());
    assert_eq!(read(Command::Ping, &[], 0), Err(Refusal::Stuff));
    assert_eq!(read(Command::Ping, &ok[..5], 6), Err(Refusal::Stuff));
    assert_eq!(read(Command::Ping, &[1], 6), Err(Refusal::Length));
    assert_eq!(
        read(Command::Ping, &hex("05 80 01 F7 C4"), 6),
        Err(Refusal::Length)
    );
    assert_eq!(
        read(Command::Ping, &hex("03 80 01 03 F7 C5"), 6),
        Err(Refusal::Check)
    );
    assert_eq!(
        read(Command::Ping, &run(0x80, 0, &[]), 9),
        Err(Refusal::Tag)
    );
    assert_eq!(
        read(Command::Ping, &run(0xC1, 0, &[]), 9),
        Err(Refusal::Tag)
    );
    assert_eq!(
        read(Command::Ping, &run(0x01, 0, &[]), 9),
        Err(Refusal::Tag)
    );
    assert_eq!(
        read(Command::Ping, &run(0xC0, 1, &[]), 9),
        Err(Refusal::Tag)
    );
    assert_eq!(
        read(Command::Ping, &run(0x01, 1, &[]), 9),
        Err(Refusal::Type)
    );
    assert_eq!(
        read(Command::Ping, &run(0x82, 0, &[]), 9),
        Err(Refusal::Type)
    );
    assert_eq!(
        read(Command::Ping, &run(0x81, 0, &[1]), 9),
        Err(Refusal::Form)
    );
}

/// Reads a frame, and checks that a refused one leaves the body.
fn frame(run: &[u8], room: usize) -> Result<(u8, u16, Vec<u8>), Refusal> {
    let mut body = vec![0xAA; room];
    let frame = read_frame(run, &mut body);
    let frame = frame.map(|Frame { kind, tag, payload }| (kind, tag, payload.to_vec()));
    assert!(frame.is_ok() || body.iter().all(|&byte| byte == 0xAA));
    frame
}

#[test]
fn frames_of_any_type_and_tag() {
    for kind in 0..=255 {
        for tag in [0, 1, 0x1234, 0xFFFF] {
            for payload in [&[][..], &[0], &[7; PAYLOAD_MAX]] {
                let expected = (kind, tag, payload.to_vec());
                assert_eq!(frame(&run(kind, tag, payload), 282), Ok(expected));
            }
        }
    }
    let ping = hex("03 01 01 03 9D C8");
    assert_eq!(frame(&ping, 6), Ok((Command::Ping as u8, 1, vec![])));
    let mut body = [0xAA; ENCODED_MAX];
    read_frame(&ping, &mut body).unwrap();
    assert_eq!(&body[..6], &hex("01 01 00 9D C8 AA")[..]);
}

#[test]
fn frames_are_refused_in_order() {
    let ok = hex("03 80 01 03 F7 C4");
    assert_eq!(frame(&[1; 283], 0), Err(Refusal::Length));
    assert_eq!(frame(&ok, 5), Err(Refusal::Short));
    assert!(frame(&ok, 6).is_ok());
    assert_eq!(frame(&[], 0), Err(Refusal::Stuff));
    assert_eq!(frame(&ok[..5], 6), Err(Refusal::Stuff));
    assert_eq!(frame(&[1], 6), Err(Refusal::Length));
    assert_eq!(frame(&[1; 282], 282), Err(Refusal::Length));
    assert_eq!(frame(&hex("03 80 01 03 F7 C5"), 6), Err(Refusal::Check));
}

/// Reads an RX, and compares it.
fn reads_rx(frame: &str, expected: Rx<'_>) {
    let mut body = [0xAA; ENCODED_MAX];
    assert_eq!(read_rx(&hex(frame), &mut body), Ok(expected));
    let end = RX_PACKET + expected.packet.len();
    assert_eq!(&body[RX_PACKET..end], expected.packet);
    assert!(body[end + 2..].iter().all(|&byte| byte == 0xAA));
}

/// P C.6.2, C.6.3 and C.4.1; the last has the level of 01's sheet.
#[test]
fn known_rx() {
    reads_rx(
        "02 C0 01 07 E6 FB B0 FF 98 08 01 01 04 0E 27 07 01 01 01 01 01 01 01 04 41 42 FF 04 CC 04 3C",
        Rx {
            rssi: -1050,
            snr: -80,
            freq_err: 2200,
            timestamp_us: 120_000_000,
            crc_valid: false,
            packets_dropped: 0,
            origin: Origin::Air,
            packet: &[0x41, 0x42, 0xFF, 0x00, 0xCC],
        },
    );
    reads_rx(
        "02 C0 01 04 26 FD 64 02 32 01 01 05 A0 45 C7 07 01 01 01 03 01 03 01 05 01 02 A7 86",
        Rx {
            rssi: -730,
            snr: 100,
            freq_err: 50,
            timestamp_us: 130_500_000,
            crc_valid: true,
            packets_dropped: 3,
            origin: Origin::Air,
            packet: &[1, 2],
        },
    );
    reads_rx(
        "02 C0 01 04 CC FC 50 01 01 01 01 05 80 F0 FA 02 01 01 01 02 01 01 01 05 AA BB 54 C0",
        Rx {
            rssi: -820,
            snr: 80,
            freq_err: 0,
            timestamp_us: 50_000_000,
            crc_valid: true,
            packets_dropped: 0,
            origin: Origin::Air,
            packet: &[0xAA, 0xBB],
        },
    );
}

/// Every byte of every column has its place.
#[test]
fn columns_of_an_rx() {
    let fields = hex("34 12 78 56 F0 DE BC 9A 08 07 06 05 04 03 02 81 01 22 11 01");
    let mut body = [0; ENCODED_MAX];
    let packet = [7; 255];
    let frame = run(0xC0, 0, &[&fields[..], &packet].concat());
    let rx = read_rx(&frame, &mut body).unwrap();
    let expected = Rx {
        rssi: 0x1234,
        snr: 0x5678,
        freq_err: 0x9ABC_DEF0_u32 as i32,
        timestamp_us: 0x8102_0304_0506_0708,
        crc_valid: true,
        packets_dropped: 0x1122,
        origin: Origin::Device,
        packet: &packet,
    };
    assert_eq!(rx, expected);
}

#[test]
fn other_frames_are_no_rx() {
    let mut body = [0xAA; ENCODED_MAX];
    for (frame, refusal) in [
        (run(0xC1, 1, &[0; 5]), Refusal::Type),
        (run(0x80, 1, &[]), Refusal::Type),
        (run(0xC0, 1, &[0; 20]), Refusal::Tag),
        (run(0xC0, 0, &[0; 19]), Refusal::Form),
        (run(0xC0, 0, &[2; 20]), Refusal::Form),
        (vec![5], Refusal::Stuff),
        (vec![1; 283], Refusal::Length),
    ] {
        assert_eq!(read_rx(&frame, &mut body), Err(refusal));
    }
    assert_eq!(read_rx(&[9; 9], &mut body[..8]), Err(Refusal::Short));
    assert_eq!(body, [0xAA; ENCODED_MAX]);
}

#[test]
fn known_tx_done() {
    let mut body = [0; ENCODED_MAX];
    for (frame, tag, result, airtime_us) in [
        (
            "03 C1 14 02 02 01 01 01 03 82 CF",
            0x14,
            Outcome::Cancelled,
            0,
        ),
        (
            "03 C1 04 01 01 02 79 01 03 E3 FA",
            0x04,
            Outcome::Transmitted,
            30_976,
        ),
        (
            "03 C1 05 01 01 02 84 01 03 81 E3",
            0x05,
            Outcome::Transmitted,
            33_792,
        ),
    ] {
        let expected = TxDone {
            tag,
            result,
            airtime_us,
        };
        assert_eq!(read_tx_done(&hex(frame), &mut body), Ok(expected));
    }
    let busy = run(0xC1, 0x0102, &hex("01 78 56 34 12 EE"));
    let expected = TxDone {
        tag: 0x0102,
        result: Outcome::ChannelBusy,
        airtime_us: 0x1234_5678,
    };
    assert_eq!(read_tx_done(&busy, &mut body), Ok(expected));
    assert_eq!(body[PAYLOAD + 5], 0xEE);
}

#[test]
fn other_frames_are_no_tx_done() {
    let mut body = [0xAA; ENCODED_MAX];
    for (frame, refusal) in [
        (run(0xC0, 0, &[0; 20]), Refusal::Type),
        (run(0x81, 1, &[0; 2]), Refusal::Type),
        (run(0xC1, 0, &[0; 5]), Refusal::Tag),
        (run(0xC1, 1, &[0; 4]), Refusal::Form),
        (run(0xC1, 1, &[3, 0, 0, 0, 0]), Refusal::Form),
    ] {
        assert_eq!(read_tx_done(&frame, &mut body), Err(refusal));
    }
    assert_eq!(read_tx_done(&[9; 9], &mut body[..8]), Err(Refusal::Short));
    assert_eq!(body, [0xAA; ENCODED_MAX]);
}
