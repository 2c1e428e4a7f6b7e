use super::host::{err, keep, kept, plain, Ordered};
use super::{hex, run, FSK, LORA};
use crate::{cobs_decode, read_answer, Command, Dongle, Origin, PacketStatus, Refusal, Rx};
use crate::{ENCODED_MAX, OUT};

const EPARAM: u16 = 1;
const ENOTCONFIGURED: u16 = 3;
const EUNKNOWN_CMD: u16 = 5;
const EBUSY: u16 = 6;
const EFRAME: u16 = 0x0102;

#[test]
fn ping() {
    let mut dongle = Dongle::new();
    let ok = kept("03 80 01 03 F7 C4 00", Ordered::Nothing);
    assert_eq!(dongle.on_bytes(&hex("03 01 01 03 9D C8 00")), ok);
    assert_eq!(dongle.on(Command::Ping, 1, &[]), ok);
    assert_eq!(dongle.on_byte(0), plain());
}

#[test]
fn errors() {
    let mut dongle = Dongle::new();
    let tx = dongle.on_bytes(&hex("03 04 28 01 05 68 69 24 7D 00"));
    assert_eq!(tx, kept("03 81 28 02 03 03 53 7E 00", Ordered::Nothing));
    assert_eq!(tx, err(0x28, ENOTCONFIGURED));
    let damaged = dongle.on_bytes(&hex("05 00"));
    assert_eq!(
        damaged,
        kept("02 81 01 05 02 01 CE EF 00", Ordered::Nothing)
    );
    assert_eq!(
        dongle.on_bytes(&[&[1; 283][..], &[0]].concat()),
        err(0, EFRAME)
    );
    let unknown = [run(7, 9, &[]), vec![0]].concat();
    assert_eq!(dongle.on_bytes(&unknown), err(9, EUNKNOWN_CMD));
    let mut dongle = Dongle::set_up();
    let flags = [run(4, 0x2A, &[2, 0x41]), vec![0]].concat();
    assert_eq!(
        dongle.on_bytes(&flags),
        kept("03 81 2A 02 01 03 59 F5 00", Ordered::Nothing)
    );
}

/// P C.2.
#[test]
fn conversation() {
    let mut dongle = Dongle::set_up();
    let order = Ordered::Transmit(b"Hello".to_vec(), true);
    let tx = dongle.on(Command::Tx, 4, b"\x00Hello");
    assert_eq!(tx, kept("03 80 04 03 02 3B 00", order));
    assert_eq!(dongle.on_clear(), plain());
    let done = "03 C1 04 01 01 02 79 01 03 E3 FA 00";
    assert_eq!(dongle.on_sent(30_976), kept(done, Ordered::Standby));

    let order = Ordered::Transmit(b"URGENT".to_vec(), false);
    let tx = dongle.on(Command::Tx, 5, b"\x01URGENT");
    assert_eq!(tx, kept("03 80 05 03 33 08 00", order));
    let done = "03 C1 05 01 01 02 84 01 03 81 E3 00";
    assert_eq!(dongle.on_sent(33_792), kept(done, Ordered::Standby));

    let start = dongle.on(Command::RxStart, 6, &[]);
    assert_eq!(start, kept("03 80 06 03 60 5D 00", Ordered::Receive));
    assert_eq!(dongle.on_packet(&[1, 2, 3, 4]), plain());
    let rx =
        "02 C0 01 04 21 FD 5F 09 83 FF FF FF 80 DE 80 02 01 01 01 02 01 01 01 07 01 02 03 04 B9 \
              8E 00";
    assert_eq!(dongle.on_request(), kept(rx, Ordered::Nothing));
    assert_eq!(dongle.on_request(), plain());
    let stop = dongle.on(Command::RxStop, 8, &[]);
    assert_eq!(stop, kept("03 80 08 03 6F 7E 00", Ordered::Standby));

    assert_eq!(dongle.disconnect().map(keep), kept("", Ordered::Standby));
    assert_eq!(dongle.on(Command::Tx, 9, b"\x00x"), err(9, ENOTCONFIGURED));
}

#[test]
fn get_info() {
    let frame = Dongle::new().on(Command::GetInfo, 2, &[]).unwrap().bytes;
    let mut body = [0; ENCODED_MAX];
    let answer = read_answer(Command::GetInfo, &frame[..frame.len() - 1], &mut body);
    let payload = answer.unwrap().payload;
    assert_eq!(payload.len(), 45);
    assert_eq!(payload[5..7], [2, 0]); // SX1262
    assert_eq!(payload[36..44], hex("DE AD BE EF 01 23 45 67"));
}

#[test]
fn bytes_stall_until_the_radio_is_set_up() {
    let mut dongle = Dongle::new();
    dongle.on(Command::SetConfig, 3, &hex(LORA)).unwrap();
    for b in [0, 3, 0xFF] {
        assert_eq!(dongle.on_byte(b), Err(Refusal::Stall));
    }
    assert_eq!(dongle.on_ticks(2000), plain());
    assert!(dongle.on_configured().is_ok());
    assert_eq!(
        dongle
            .on_bytes(&hex("03 01 01 03 9D C8 00"))
            .unwrap()
            .bytes
            .len(),
        7
    );
}

#[test]
fn outcomes_that_do_not_fit_are_refused() {
    let place = Err(Refusal::Place);
    for mut dongle in [Dongle::new(), Dongle::set_up()] {
        assert_eq!(dongle.on_clear(), place);
        assert_eq!(dongle.on_busy(), place);
        assert_eq!(dongle.on_sent(1), place);
        assert_eq!(dongle.on_configured(), place);
        assert_eq!(dongle.on_packet(&[1]), place);
    }
    let mut dongle = Dongle::receiving();
    dongle.on(Command::Tx, 1, &[0, 1]).unwrap();
    assert_eq!(dongle.on_sent(1), place); // it listens
    assert_eq!(dongle.on_packet(&[1]), place);
    assert_eq!(dongle.on_clear(), plain());
    assert_eq!(dongle.on_clear(), place);
    assert_eq!(dongle.on_busy(), place);
    assert_eq!(dongle.on_sent(1).unwrap().order, Ordered::Receive);
    assert_eq!(dongle.on_sent(1), place);
}

#[test]
fn sixteen_tx_are_open_at_most() {
    let mut dongle = Dongle::set_up();
    for tag in 1..=16 {
        let taken = dongle.on(Command::Tx, tag, &[1, tag as u8]).unwrap();
        let first = Ordered::Transmit(vec![1], false);
        let order = if tag == 1 { first } else { Ordered::Nothing };
        assert_eq!(taken.order, order);
        assert_eq!(taken.bytes, [run(0x80, tag, &[]), vec![0]].concat());
    }
    assert_eq!(dongle.on(Command::Tx, 17, &[1, 17]), err(17, EBUSY));
    for tag in 1..=16 {
        let done = dongle.on_sent(7).unwrap();
        assert_eq!(
            done.bytes,
            [run(0xC1, tag, &[0, 7, 0, 0, 0]), vec![0]].concat()
        );
        let next = Ordered::Transmit(vec![tag as u8 + 1], false);
        let order = if tag < 16 { next } else { Ordered::Standby };
        assert_eq!(done.order, order);
    }
}

/// P C.4.2: those that wait, and one that listens, are cancelled in order.
#[test]
fn a_set_config_cancels() {
    let mut dongle = Dongle::set_up();
    dongle.on(Command::Tx, 0x14, b"\x00first").unwrap();
    dongle.on(Command::Tx, 0x15, b"\x00second").unwrap();
    let done = "03 C1 14 02 02 01 01 01 03 82 CF 00 03 C1 15 02 02 01 01 01 03 E3 77 00";
    let order = Ordered::Configure(hex(FSK), false);
    assert_eq!(
        dongle.on(Command::SetConfig, 0x16, &hex(FSK)),
        kept(done, order)
    );
    let ok = dongle.on_configured().unwrap();
    let payload = [hex("00 01"), hex(FSK)].concat();
    assert_eq!(ok.bytes, [run(0x80, 0x16, &payload), vec![0]].concat());
    // FSK has no channel to listen for.
    let tx = dongle.on(Command::Tx, 0x17, b"\x00x").unwrap();
    assert_eq!(tx.order, Ordered::Transmit(b"x".to_vec(), false));
}

#[test]
fn a_set_config_waits_for_a_packet_on_air() {
    let mut dongle = Dongle::set_up();
    dongle.on(Command::Tx, 4, &[1, 0x41]).unwrap();
    dongle.on(Command::Tx, 5, &[1, 0x42]).unwrap();
    assert_eq!(dongle.on(Command::SetConfig, 6, &hex(LORA)), plain());
    assert_eq!(dongle.on_byte(1), Err(Refusal::Stall));
    let done = "03 C1 04 01 01 02 79 01 03 E3 FA 00 03 C1 05 02 02 01 01 01 03 98 40 00";
    let order = Ordered::Configure(hex(LORA), false);
    assert_eq!(dongle.on_sent(30_976), kept(done, order));
}

#[test]
fn busy_and_fault() {
    let mut dongle = Dongle::set_up();
    dongle.on(Command::Tx, 1, &[0, 1]).unwrap();
    let busy = dongle.on_busy().unwrap();
    assert_eq!(
        busy.bytes,
        [run(0xC1, 1, &[1, 0, 0, 0, 0]), vec![0]].concat()
    );
    assert_eq!(busy.order, Ordered::Standby);
    dongle.on(Command::Tx, 2, &[1, 1]).unwrap();
    let fault = dongle.on_fault().unwrap();
    let eradio = hex("02 81 01 05 01 01 9D BA 00");
    let cancelled = [run(0xC1, 2, &[2, 0, 0, 0, 0]), vec![0]].concat();
    assert_eq!(fault.bytes, [eradio, cancelled].concat());
    assert_eq!(fault.order, Ordered::Standby);
    assert_eq!(Dongle::new().on_fault(), kept("", Ordered::Standby));
}

#[test]
fn the_ring_holds_64_packets() {
    let mut dongle = Dongle::receiving();
    for packet in 0..65 {
        assert_eq!(dongle.on_packet(&[packet]), plain());
    }
    for packet in 1..65 {
        let dropped = u16::from(packet == 1);
        dongle.delivers(|rx| {
            assert_eq!((rx.packet, rx.packets_dropped), (&[packet][..], dropped));
        });
    }
    assert_eq!(dongle.on_request(), plain());
}

#[test]
fn a_long_packet_is_cut() {
    let mut dongle = Dongle::receiving();
    let bytes: Vec<u8> = (0..300).map(|i| (i % 255 + 1) as u8).collect();
    for (len, held) in [(0, 0), (1, 1), (255, 255), (256, 255), (300, 255)] {
        assert_eq!(dongle.on_packet(&bytes[..len]), plain());
        dongle.delivers(|rx| {
            let expected = Rx {
                rssi: -735,
                snr: 95,
                freq_err: -125,
                timestamp_us: 42_000_000,
                crc_valid: len == held,
                packets_dropped: 0,
                origin: Origin::Air,
                packet: &bytes[..held],
            };
            assert_eq!(rx, expected);
        });
    }
}

/// An RX of a full packet may take all of the output.
#[test]
fn the_longest_output() {
    let mut dongle = Dongle::receiving();
    assert_eq!(dongle.on_packet(&[7; 255]), plain());
    let frame = dongle.on_request().unwrap().bytes;
    assert_eq!(frame.len(), OUT);
    let mut body = [0; ENCODED_MAX];
    assert_eq!(
        cobs_decode(&frame[..OUT - 1], &mut body).map(<[u8]>::len),
        Ok(280)
    );
}

/// No value changes its place on the way from the radio to the host.
#[test]
fn a_status_is_delivered() {
    let mut dongle = Dongle::receiving();
    for crc_valid in [false, true] {
        let status = PacketStatus {
            rssi: i16::MIN,
            snr: 0x1234,
            freq_err: i32::MIN + 5,
            timestamp_us: 0x8102_0304_0506_0708,
            crc_valid,
        };
        assert_eq!(dongle.packet(status, &[0]).map(keep), plain());
        dongle.delivers(|rx| {
            assert_eq!((rx.rssi, rx.snr), (i16::MIN, 0x1234));
            assert_eq!(rx.freq_err, i32::MIN + 5);
            assert_eq!(rx.timestamp_us, 0x8102_0304_0506_0708);
            assert_eq!(rx.crc_valid, crc_valid);
        });
    }
}

#[test]
fn the_1000th_tick_ends_a_session() {
    let mut dongle = Dongle::set_up();
    assert_eq!(dongle.on_ticks(999), plain());
    assert!(dongle.on(Command::Ping, 1, &[]).is_ok());
    assert_eq!(dongle.on_ticks(999), plain());
    assert_eq!(dongle.on_ticks(1), kept("", Ordered::Standby));
    assert_eq!(dongle.on(Command::RxStart, 2, &[]), err(2, ENOTCONFIGURED));
    assert_eq!(Dongle::new().on_ticks(3000), plain());
}

#[test]
fn power_and_ldro() {
    // Where power, SF and bandwidth stand in SET_CONFIG.
    let (power, sf, bw) = (12, 5, 6);
    let order = |at: usize, value: u8, and: usize, other: u8| {
        let mut config = hex(LORA);
        config[at] = value;
        config[and] = other;
        let answer = Dongle::new().on(Command::SetConfig, 1, &config);
        if let Ok(Ordered::Configure(parameters, _)) = answer.as_ref().map(|kept| &kept.order) {
            assert_eq!(parameters, &config);
        }
        answer
    };
    assert!(matches!(
        order(power, 22, sf, 7).unwrap().order,
        Ordered::Configure(_, false)
    ));
    assert_eq!(order(power, 23, sf, 7), err(1, EPARAM));
    assert!(matches!(
        order(sf, 11, bw, 7).unwrap().order,
        Ordered::Configure(_, true)
    ));
    assert!(matches!(
        order(sf, 10, bw, 7).unwrap().order,
        Ordered::Configure(_, false)
    ));
    assert!(matches!(
        order(sf, 12, bw, 9).unwrap().order,
        Ordered::Configure(_, false)
    ));
}

/// A packet on air when its session ends is reported to nobody.
#[test]
fn a_disconnect_leaves_an_orphan() {
    let mut dongle = Dongle::receiving();
    dongle.on(Command::Tx, 1, &[1, 1]).unwrap();
    assert_eq!(dongle.disconnect().map(keep), plain());
    assert_eq!(dongle.on(Command::SetConfig, 2, &hex(LORA)), plain());
    let order = Ordered::Configure(hex(LORA), false);
    assert_eq!(dongle.on_sent(5), kept("", order));
}

#[test]
fn dongles_are_apart() {
    let mut one = Dongle::set_up();
    let mut two = one.clone();
    one.on(Command::Tx, 1, &[1, 1]).unwrap();
    assert_eq!(two.on_sent(1), Err(Refusal::Place));
    assert!(one.on_sent(1).is_ok());
    assert_eq!(Dongle::default().on_sent(1), Err(Refusal::Place));
    assert_eq!(format!("{one:?}"), "Dongle { .. }");
}
