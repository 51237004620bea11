//! The marked cases of document 01 that the interface reaches, and each refusal with its number.

use ribsaddle::{Config, Error, Packet, PacketBuilder, PacketType, ReceiveBuffer, SelectiveAck, SentPackets};
use std::time::Duration;

const P1: [u8; 21] = [1, 0, 0x12, 0x34, 0, 0, 0, 1, 0, 0, 0, 2, 0, 0, 0x10, 0, 0, 5, 0, 4, 0x41];

fn state(extension: u8, rest: &[u8]) -> Vec<u8> {
    let mut bytes = vec![0x21, extension];
    bytes.extend([0; 18]);
    bytes.extend(rest);
    bytes
}

fn config() -> Config {
    Config {
        target_delay_micros: 100_000,
        initial_timeout: Duration::from_secs(1),
        min_timeout: Duration::from_micros(1),
        max_packet_size_bytes: 1_000,
        max_window_size_inc_bytes: 3_000,
        gain: 1.0,
        delay_window: Duration::from_secs(120),
    }
}

fn at(micros: u64) -> Duration {
    Duration::from_micros(micros)
}

#[test]
fn packets() {
    let packet = Packet::decode(&P1).unwrap();
    assert_eq!((packet.packet_type(), packet.conn_id(), packet.ts_micros()), (PacketType::Data, 0x1234, 1));
    assert_eq!((packet.ts_diff_micros(), packet.window_size(), packet.seq_num()), (2, 4_096, 5));
    assert_eq!((packet.ack_num(), packet.payload(), packet.selective_ack()), (4, &b"A"[..], None));
    assert_eq!(packet.payload().as_ptr(), P1[20..].as_ptr(), "nothing is copied");
    let mut room = [0; 21];
    assert_eq!(packet.encode(&mut room), Ok(21));
    assert_eq!(room, P1);
    assert_eq!(Packet::decode(&P1[..20]), Err(Error::EmptyData));
    let p3 = state(1, &[0, 4, 5, 0, 0, 0x80]);
    let sack = Packet::decode(&p3).unwrap().selective_ack().unwrap();
    let set: Vec<usize> = sack.acked().enumerate().filter(|(_, bit)| *bit).map(|(place, _)| place).collect();
    assert_eq!((set, sack.acked().count()), (vec![0, 2, 31], 32));
    assert_eq!(Packet::decode(&state(1, &[0, 5, 5, 0, 0, 0x80, 0])), Err(Error::SackNotWords));
    assert_eq!(Packet::decode(&state(1, &[0, 4, 5, 0, 0])), Err(Error::Extension));
}

#[test]
fn refusals_of_the_codec() {
    assert_eq!(Packet::decode(&[]), Err(Error::TooShort));
    assert_eq!(Packet::decode(&[0x51; 20]), Err(Error::UnknownType));
    assert_eq!(Packet::decode(&[0x22; 20]), Err(Error::UnknownVersion));
    assert_eq!(Packet::decode(&state(1, &[0, 0])), Err(Error::SackShort));
    let plain = PacketBuilder::new(PacketType::State, 0, 0, 0, 0);
    let mut room = [0xEE; 300];
    let mut encode = |sack: &[u8]| {
        let answer = plain.selective_ack(SelectiveAck::new(sack)).build().encode(&mut room);
        assert_eq!(room, [0xEE; 300], "a refusal writes nothing");
        answer
    };
    assert_eq!(encode(&[0; 3]), Err(Error::SackShort));
    assert_eq!(encode(&[0; 257]), Err(Error::SackNotWords));
    assert_eq!(encode(&[0; 256]), Err(Error::SackLong));
    assert_eq!(
        PacketBuilder::new(PacketType::Data, 0, 0, 0, 0).build().encode(&mut room),
        Err(Error::EmptyData)
    );
    assert_eq!(plain.build().encode(&mut []), Err(Error::NoRoom));
}

#[test]
fn windows() {
    let after = |second: u64| {
        let mut sent = SentPackets::new(0, &config()).unwrap();
        sent.on_transmit(1, PacketType::Data, 0, 1_000, at(0)).unwrap();
        sent.on_transmit(2, PacketType::Data, 0, 1_000, at(0)).unwrap();
        sent.on_ack(1, None, at(100_000), at(100_000)).unwrap();
        assert_eq!((sent.max_window(), sent.in_flight(), sent.timeout()), (3_500, 1_000, at(112_500)));
        sent.on_ack(2, None, at(second), at(100_000)).unwrap();
        (sent.max_window(), sent.timeout())
    };
    assert_eq!(after(250_000), (2_000, at(185_937)));
    assert_eq!(after(400_000).0, 2_000);
}

#[test]
fn losses() {
    let ack_of_one = |sent: u16, sack: u8| {
        let mut tracker = SentPackets::new(0, &config()).unwrap();
        for number in 1..=sent {
            tracker.on_transmit(number, PacketType::Data, 90, 100, at(0)).unwrap();
        }
        tracker.on_ack(1, SelectiveAck::new(&[sack, 0, 0, 0]), at(0), at(0)).unwrap();
        tracker.lost_packets().collect::<Vec<_>>()
    };
    assert_eq!(ack_of_one(4, 3), []);
    assert_eq!(ack_of_one(5, 7), [(2, PacketType::Data, 90)]);
    let mut tracker = SentPackets::new(100, &config()).unwrap();
    assert_eq!(tracker.on_ack(100, None, at(0), at(0)), Err(Error::NotSent));
}

#[test]
fn refusals_of_the_tracker() {
    assert_eq!(SentPackets::new(0, &Config { gain: f64::NAN, ..config() }).unwrap_err(), Error::BadSetting);
    assert_eq!(SentPackets::new(0, &Config { min_timeout: Duration::MAX, ..config() }).unwrap_err(), Error::BadSetting);
    let mut sent = SentPackets::new(65_535, &config()).unwrap();
    assert_eq!(sent.on_transmit(0, PacketType::Data, 0, 2_001, at(0)), Err(Error::NoWindow));
    assert_eq!(sent.on_transmit(0, PacketType::Data, 0, 0, Duration::MAX), Err(Error::BadTime));
    for number in 0..512 {
        assert_eq!(sent.next_seq_num(), number);
        sent.on_transmit(number, PacketType::Syn, 0, 0, at(9)).unwrap();
    }
    assert_eq!(sent.on_transmit(512, PacketType::Data, 0, 0, at(9)), Err(Error::NoPlace));
    assert_eq!(sent.on_ack(0, None, at(0), at(8)), Err(Error::BadTime));
    for (len, refusal) in [(3, 5), (5, 6), (256, 8)] {
        let answer = sent.on_ack(0, SelectiveAck::new(&vec![0; len]), at(0), at(9));
        assert_eq!(answer.unwrap_err().number(), refusal);
    }
    let range = sent.seq_num_range();
    assert_eq!((range.start(), range.end()), (65_535, 511));
    assert!(range.contains(65_535) && range.contains(0) && range.contains(511) && !range.contains(512));
    for _ in 0..60 {
        sent.on_timeout();
    }
    assert_eq!(sent.timeout(), at(1 << 53));
}

#[test]
fn sixty_thousand() {
    let (mut sent, mut received) = (SentPackets::new(0, &config()).unwrap(), ReceiveBuffer::<1>::new(0).unwrap());
    for number in 1..=60_000 {
        sent.on_transmit(number, PacketType::Data, 0, 0, at(0)).unwrap();
        if number % 512 == 0 || number == 60_000 {
            sent.on_ack(number, None, at(0), at(0)).unwrap();
        }
        received.write(&[], number).unwrap();
    }
    assert_eq!(sent.on_transmit(60_001, PacketType::Data, 0, 0, at(0)), Err(Error::TooMany));
    assert_eq!(received.write(&[], 60_001), Err(Error::TooMany));
    assert_eq!((sent.ack_num(), received.ack_num()), (60_000, 60_000));
}

#[test]
fn received() {
    let mut buffer = ReceiveBuffer::<8>::new(65_533).unwrap();
    buffer.write(&[2], 65_535).unwrap();
    buffer.write(&[3], 0).unwrap();
    let mut room = [0xEE; 6];
    assert_eq!(buffer.selective_ack(&mut room).unwrap().unwrap().as_bytes(), [3, 0, 0, 0]);
    assert_eq!(room[4..], [0xEE, 0xEE]);
    assert_eq!(buffer.selective_ack(&mut room[..3]), Err(Error::NoRoom));
    buffer.write(&[1], 65_534).unwrap();
    assert_eq!((buffer.ack_num(), buffer.waiting(), buffer.ready(), buffer.available()), (0, 0, 3, 5));
    assert_eq!(buffer.selective_ack(&mut []), Ok(None));
    assert_eq!(buffer.write(&[0; 6], 1), Err(Error::PayloadTooLong));
    assert_eq!(buffer.write(&[], 257), Err(Error::TooFarAhead));
    assert_eq!(buffer.write(&[9; 100], 65_535), Ok(()), "already there");
    let mut out = [0xEE; 8];
    assert_eq!(buffer.read(&mut out[..2]), 2);
    assert_eq!(buffer.read(&mut out[2..]), 1);
    assert_eq!(out, [1, 2, 3, 0xEE, 0xEE, 0xEE, 0xEE, 0xEE]);
    assert!(buffer.is_empty() && buffer.was_written(0) && !buffer.was_written(1) && buffer.init_seq_num() == 65_533);
    assert_eq!(ReceiveBuffer::<0>::new(0).unwrap_err(), Error::BadSetting);
    assert_eq!(ReceiveBuffer::<65_537>::new(0).unwrap_err(), Error::BadSetting);
}

#[test]
fn numbers() {
    for number in 1..=19 {
        let error = Error::from_number(number).unwrap();
        assert_eq!(error.number(), number);
        assert!(error.to_string().ends_with(&format!("({number})")));
    }
    assert_eq!((Error::from_number(0), Error::from_number(20)), (None, None));
}
