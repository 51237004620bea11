//! The smallest inputs found on which the Rust does not do what document 01 says, each run as this list is made.

use crate::clock;
use crate::codec::rust_encode;
use crate::congestion::{self, Ack, Transmit};
use crate::controller::{plain_settings, rust_controller};
use crate::model::codec::{self as model, Parts};
use crate::model::controller::{Settings, LAST_TIME};
use crate::packet::{Packet, PacketBuilder, PacketType, SelectiveAck};
use crate::recv::ReceiveBuffer;
use crate::sent::SentPackets;
use crate::tools::{panics, List};
use std::time::Duration;

/// One departure: what it is, the calls, what the Rust did, what document 01 says.
fn line(text: &mut String, name: &str, input: impl AsRef<str>, rust: impl AsRef<str>, document: impl AsRef<str>) {
    let (input, rust, document) = (input.as_ref(), rust.as_ref(), document.as_ref());
    text.push_str(&format!("{name}\n  input:       {input}\n  the Rust:    {rust}\n  document 01: {document}\n"));
}

fn hex(bytes: &[u8]) -> String {
    bytes.iter().map(|byte| format!("{byte:02x}")).collect::<Vec<_>>().join(" ")
}

fn zero_parts(kind: u8) -> Parts {
    Parts { kind, connection: 0, timestamp: 0, difference: 0, window: 0, sequence: 0, ack: 0 }
}

fn head_and_length(bytes: &[u8]) -> String {
    format!("{} bytes, from place 20: {}", bytes.len(), hex(&bytes[20..bytes.len().min(24)]))
}

fn codec(text: &mut String) {
    let datagram = [&[0x21, 2][..], &[0; 18], &[0, 0]].concat();
    let again = Packet::decode(&datagram).expect("accepted").encode();
    line(
        text,
        "unknown first extension written back",
        format!("decode, then encode: {}", hex(&datagram)),
        format!("{} (read again: {})", hex(&again), model::decode(&again).expect_err("refused")),
        "extension byte 0: 21 00 and 18 zeros",
    );
    let datagram = [&[0x21, 2][..], &[0; 18], &[1, 0, 0, 4, 1, 0, 0, 0]].concat();
    let again = Packet::decode(&datagram).expect("accepted").encode();
    line(
        text,
        "unknown first extension written back over a SACK",
        format!("decode, then encode: {}", hex(&datagram)),
        format!(
            "{} (read again: accepted, SACK of {} bytes)",
            hex(&again),
            model::decode(&again).expect("accepted").sack.1
        ),
        "extension byte 1: 21 01, 18 zeros, 00 04 01 00 00 00",
    );
    let cut = rust_encode(&zero_parts(2), &[0; 256], b"").expect("written");
    line(
        text,
        "SACK length cut to eight bits",
        "encode State, all numbers 0, SACK of 256 zero bytes, no payload",
        format!("{} (read again: {})", head_and_length(&cut), model::decode(&cut).expect_err("refused")),
        "8, nothing written",
    );
    let cut = rust_encode(&zero_parts(2), &[0; 260], b"").expect("written");
    let read = model::decode(&cut).expect("accepted");
    line(
        text,
        "SACK length cut to eight bits, and read back as another packet",
        "encode State, all numbers 0, SACK of 260 zero bytes, no payload",
        format!("{} (read again: SACK of {} bytes, payload of {})", head_and_length(&cut), read.sack.1, read.payload.1),
        "8, nothing written",
    );
    let empty = rust_encode(&zero_parts(0), &[], b"").expect("written");
    line(
        text,
        "Data with empty payload written",
        "encode Data, all numbers 0, no SACK, no payload",
        format!("{} (read again: {})", hex(&empty), model::decode(&empty).expect_err("refused")),
        "7, nothing written",
    );
    let lone = PacketBuilder::new(PacketType::State, 0, 0, 0, 0)
        .selective_ack(Some(SelectiveAck::new(vec![])))
        .build()
        .encode();
    line(
        text,
        "SACK of no bits written",
        "encode State, all numbers 0, selective_ack(Some(SelectiveAck::new(vec![])))",
        format!("{} (read again: {})", hex(&lone), model::decode(&lone).expect_err("refused")),
        "an empty SACK means none: 21 00 and 18 zeros",
    );
}

fn receiver(text: &mut String) {
    let mut buffer = ReceiveBuffer::<2>::new(65_533);
    buffer.write(&[1], 65_535);
    buffer.write(&[2], 0);
    let sack = buffer.selective_ack().expect("two are waiting").encode();
    line(
        text,
        "SACK in numeric order (R1)",
        "ReceiveBuffer::<2>::new(65533); write(&[1], 65535); write(&[2], 0); selective_ack()",
        format!(
            "{} bytes, the first four {}, the last four {}",
            sack.len(),
            hex(&sack[..4]),
            hex(&sack[sack.len() - 4..])
        ),
        "4 bytes: 03 00 00 00",
    );
    let mut buffer = ReceiveBuffer::<1>::new(0);
    buffer.write(&[], 257);
    line(
        text,
        "more than 256 ahead is stored",
        "ReceiveBuffer::<1>::new(0); write(&[], 257)",
        format!("stored; the SACK then has {} bytes", buffer.selective_ack().expect("waiting").encoded_len()),
        "16",
    );
    buffer.write(&[], 60_001);
    buffer.write(&[], 65_535);
    line(
        text,
        "an offset above 60,000 is stored",
        "ReceiveBuffer::<1>::new(0); write(&[], 60001); write(&[], 65535)",
        format!("was_written is then {} and {}", buffer.was_written(60_001), buffer.was_written(65_535)),
        "15; 15",
    );
    let panicked = panics(|| ReceiveBuffer::<1>::new(0).write(&[1, 2], 1));
    line(
        text,
        "no room",
        "ReceiveBuffer::<1>::new(0); write(&[1, 2], 1)",
        if panicked { "panics" } else { "done" },
        "17",
    );
    let made = !panics(|| drop((ReceiveBuffer::<0>::new(0), ReceiveBuffer::<65_537>::new(0))));
    line(
        text,
        "any buffer length",
        "ReceiveBuffer::<0>::new(0), ReceiveBuffer::<65537>::new(0)",
        if made { "makes them" } else { "panics" },
        "10",
    );
}

fn heard(delay: u64, rtt: u64, now: u64) -> Ack {
    clock::set(now);
    Ack { delay: Duration::from_micros(delay), rtt: Duration::from_micros(rtt), received_at: clock::at(now) }
}

fn first(bytes: u32) -> Transmit {
    Transmit::Initial { bytes }
}

fn controller(text: &mut String) {
    let plain = "largest packet 1,000, increase 3,000, gain 1, target 100,000";
    let mut rust = rust_controller(&plain_settings());
    for number in [0, 1] {
        rust.on_transmit(number, first(1_000)).expect("fits");
    }
    rust.on_ack(0, heard(100_000, 100_000, 100_000)).expect("sent");
    rust.on_ack(1, heard(400_000, 100_000, 100_000)).expect("sent");
    line(
        text,
        "old maximum + adjustment below 0 is cast to u32 (W3)",
        format!("{plain}; two packets of 1,000 sent; acks with delay 100,000, then 400,000"),
        format!("maximum {}: it grew by the increase", rust.inside().0),
        "maximum 2,000, the minimum",
    );
    let settings = Settings { largest_packet: 65_535, increase: 1 << 20, ..plain_settings() };
    let mut rust = rust_controller(&settings);
    let (mut acks, mut before) = (0u16, 0);
    while rust.inside().0 > before {
        before = rust.inside().0;
        rust.on_transmit(acks, first(1)).expect("fits");
        rust.on_ack(acks, heard(0, 1, u64::from(acks))).expect("sent");
        acks += 1;
    }
    line(
        text,
        "old maximum + adjustment above 2^32 - 1 is cast to u32",
        "largest packet 65,535, increase 2^20, gain 1; one packet of 1 byte sent and acknowledged with delay 0, again and again",
        format!("ack {acks}: the maximum goes from {before} to {}", rust.inside().0),
        "maximum 4,294,967,295",
    );
    let mut rust = rust_controller(&Settings { largest_packet: 1, ..plain_settings() });
    let (one, two) = (rust.on_transmit(0, first(3)), rust.on_transmit(0, first(1)));
    line(
        text,
        "a packet is recorded before the window check",
        "largest packet 1; Controller::on_transmit(0, Initial of 3 bytes), then on_transmit(0, Initial of 1 byte)",
        format!("{one:?}, then {two:?}"),
        "13, then 0",
    );
    let mut rust = rust_controller(&plain_settings());
    rust.on_transmit(0, first(1)).expect("fits");
    let answer = rust.on_transmit(1, first(u32::MAX));
    line(
        text,
        "in flight + length wraps",
        "Controller::on_transmit(0, Initial of 1 byte), on_transmit(1, Initial of 4,294,967,295 bytes); compiled with -O, else it panics",
        format!("{answer:?}, in flight {}", rust.inside().1),
        "13",
    );
    let mut rust = rust_controller(&Settings { largest_packet: 1, ..plain_settings() });
    rust.on_transmit(0, first(2)).expect("fits");
    rust.on_ack(0, heard(0, 0, 0)).expect("sent");
    rust.on_transmit(1, first(3)).expect("fits");
    rust.on_timeout();
    let (one, two) = (rust.on_transmit(2, first(0)), rust.on_transmit(2, first(0)));
    line(
        text,
        "a packet of no bytes with more in flight than the maximum",
        "largest packet 1, increase 3,000; 2 bytes sent and acknowledged, 3 bytes sent, timeout; Controller::on_transmit(2, Initial of 0 bytes), twice",
        format!("{one:?}, then {two:?}: it was recorded"),
        "0 the first time: no bytes are not longer than a free window of 0",
    );
    let mut rust = rust_controller(&Settings { first_timeout: LAST_TIME, ..plain_settings() });
    let mut count = 0;
    let mut fourth = 0;
    while !panics(|| rust.on_timeout()) {
        count += 1;
        if count == 4 {
            fourth = rust.inside().2;
        }
    }
    line(
        text,
        "the timeout is not held at 2^53",
        "first timeout 2^50; timeouts in a row",
        format!("after four {fourth}; number {} panics", count + 1),
        "9007199254740992 (2^53) from the third on",
    );
    let odd = congestion::Config { gain: f32::NAN, max_packet_size_bytes: 0, ..congestion::Config::default() };
    let made = !panics(|| drop(congestion::Controller::new(odd)));
    line(
        text,
        "settings are not checked, and the gain is an f32",
        "gain NaN, largest packet 0",
        if made { "makes the controller" } else { "panics" },
        "10; the gain is an f64",
    );
}

fn sent_packets(initial: u16, settings: Settings) -> SentPackets {
    SentPackets::new(initial, rust_controller(&settings))
}

fn send(rust: &mut SentPackets, number: u16, length: u32, now: u64) {
    rust.on_transmit(number, PacketType::Data, None, length, clock::at(now));
}

fn hear(rust: &mut SentPackets, number: u16, sack: Option<SelectiveAck>, delay: u64, now: u64) {
    clock::set(now);
    rust.on_ack(number, sack.as_ref(), Duration::from_micros(delay), clock::at(now));
}

fn tracker(text: &mut String) {
    let done = |panicked: bool| if panicked { "panics" } else { "done" };
    let small = Settings { largest_packet: 1, ..plain_settings() };
    let answers = [
        done(panics(|| hear(&mut sent_packets(0, small), 1, None, 0, 0))),
        done(panics(|| hear(&mut sent_packets(0, small), 0, None, 0, 0))),
        done(panics(|| send(&mut sent_packets(0, small), 2, 0, 0))),
        done(panics(|| send(&mut sent_packets(0, small), 0, 0, 0))),
    ];
    line(
        text,
        "number not sent (S3)",
        "SentPackets::new(0, ..); on_ack of 1; on_ack of 0; on_transmit of 2; on_transmit of 0 (each on a fresh one)",
        answers.join("; "),
        "12 each",
    );
    let answer = done(panics(|| send(&mut sent_packets(0, small), 1, 3, 0)));
    line(
        text,
        "longer than the free window",
        "largest packet 1; SentPackets::new(0, ..); on_transmit of 1, 3 bytes",
        answer,
        "13",
    );
    let mut rust = sent_packets(0, small);
    for number in 1..=513 {
        send(&mut rust, number, 0, 0);
    }
    line(
        text,
        "more than 512 places",
        "SentPackets::new(0, ..); on_transmit of 1 to 513, 0 bytes each",
        format!("513 is taken: the next number is {}", rust.next_seq_num()),
        "14",
    );
    let mut rust = sent_packets(0, small);
    let mut next = 0;
    for number in 1..=65_535 {
        send(&mut rust, number, 0, 0);
        if number % 512 == 0 {
            hear(&mut rust, number, None, 0, 0);
        }
        if number == 60_001 {
            next = rust.next_seq_num();
        }
    }
    let answer = done(panics(|| send(&mut rust, 0, 0, 0)));
    line(
        text,
        "more than 60,000 packets; offset 0 as a packet behind 65,535 others",
        "SentPackets::new(0, ..); on_transmit of 1 to 65,535, 0 bytes each, with an on_ack of every 512th; on_transmit of 0",
        format!("60,001 is taken: the next number is {next}; the initial number: {answer}"),
        "15 at 60,001; 12 for the initial number",
    );
    let mut rust = sent_packets(0, small);
    send(&mut rust, 1, 0, 0);
    let sack = SelectiveAck::decode(&[0; 256]).expect("taken");
    let answer = done(panics(|| hear(&mut rust, 1, Some(sack), 0, 0)));
    line(
        text,
        "SACK above 252 bytes",
        "on_transmit of 1, 0 bytes; on_ack of 1 with a SACK of 256 zero bytes",
        answer,
        "8",
    );
    let mut rust = sent_packets(0, small);
    send(&mut rust, 1, 0, 1);
    let back = done(panics(|| hear(&mut rust, 1, None, 0, 0)));
    let round_trip = rust.controller().inside().3;
    send(&mut rust, 2, 0, 1);
    let late = done(panics(|| hear(&mut rust, 2, None, LAST_TIME + 1, LAST_TIME + 1)));
    line(
        text,
        "time that goes back, times and delays above 2^50",
        "on_transmit of 1 at now 1, on_ack of 1 at now 0; on_ack with now and delay 2^50 + 1",
        format!("{back}, with a round trip of {round_trip}; {late}"),
        "11; 11",
    );
    let mut rust = sent_packets(0, small);
    send(&mut rust, 1, 2, 0);
    hear(&mut rust, 1, None, 0, 0);
    send(&mut rust, 2, 3, 0);
    rust.on_timeout();
    let answer = done(panics(|| send(&mut rust, 3, 0, 0)));
    line(
        text,
        "a packet of no bytes with more in flight than the maximum, in the tracker",
        "largest packet 1, increase 3,000; on_transmit of 1, 2 bytes; on_ack of 1, delay 0; on_transmit of 2, 3 bytes; on_timeout; on_transmit of 3, 0 bytes",
        format!("{answer}, and the next number is then {}", rust.next_seq_num()),
        "0",
    );
}

pub fn list() -> List {
    let mut text = String::new();
    for (name, part) in [
        ("Packet codec", codec as fn(&mut String)),
        ("Receiver", receiver),
        ("Congestion controller", controller),
        ("Tracker", tracker),
    ] {
        text.push_str(&format!("== {name}\n"));
        part(&mut text);
    }
    List { bytes: text.into_bytes(), said: vec![] }
}
