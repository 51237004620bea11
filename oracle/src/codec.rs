//! Lists 1 and 2: what `Packet::decode` and `Packet::encode` answer.

use crate::model::codec::{self as model, Parts, Read};
use crate::packet::{
    ExtensionError, Packet, PacketBuilder, PacketError, PacketHeaderError, PacketType, SelectiveAck, SelectiveAckError,
};
use crate::tools::{List, Random, Source};
use std::collections::{BTreeMap, HashSet};

/// The Rust's refusal as document 01's number.
fn number_of(error: &PacketError) -> u8 {
    match error {
        PacketError::InvalidHeader(PacketHeaderError::InvalidLen) => 1,
        PacketError::InvalidHeader(PacketHeaderError::InvalidPacketType(_)) => 2,
        PacketError::InvalidHeader(PacketHeaderError::InvalidVersion(_)) => 3,
        PacketError::InvalidExtension(ExtensionError::InsufficientLen) => 4,
        PacketError::InvalidExtension(ExtensionError::InvalidSelectiveAck(error)) => sack_number(error),
        PacketError::EmptyDataPayload => 7,
        other => panic!("the Rust gave {other:?}, which has no number"),
    }
}

pub fn sack_number(error: &SelectiveAckError) -> u8 {
    match error {
        SelectiveAckError::InsufficientLen => 5,
        SelectiveAckError::InvalidLen => 6,
    }
}

/// What the Rust answers, in the shape of the model. The Rust tells the payload and the SACK's bits but no places: the
/// payload is the datagram's tail, and the SACK's place is the model's, taken only if the bytes there are the bits again.
pub fn rust_decode(datagram: &[u8]) -> Result<Read, u8> {
    let packet = Packet::decode(datagram).map_err(|error| number_of(&error))?;
    let sack = match packet.selective_ack() {
        None => (0, 0),
        Some(sack) => {
            let (at, length) = model::decode(datagram).expect("the Rust accepted it").sack;
            assert_eq!(sack.encode(), &datagram[at..at + length], "SACK bytes of {datagram:02x?}");
            (at, sack.encoded_len())
        }
    };
    let payload_at = datagram.len() - packet.payload().len();
    assert_eq!(packet.payload(), &datagram[payload_at..]);
    Ok(Read {
        parts: Parts {
            kind: u8::from(packet.packet_type()),
            connection: packet.conn_id(),
            timestamp: packet.ts_micros(),
            difference: packet.ts_diff_micros(),
            window: packet.window_size(),
            sequence: packet.seq_num(),
            ack: packet.ack_num(),
        },
        sack,
        payload: (payload_at, packet.payload().len()),
    })
}

/// A header of 20 bytes with the given first two, and numbers that tell the fields apart.
fn header(first: u8, extension: u8) -> Vec<u8> {
    let mut bytes = vec![first, extension, 0x12, 0x34];
    bytes.extend([0x80, 0x00, 0x00, 0x01, 0x00, 0xFF, 0x01, 0x02, 0x00, 0x00, 0x10, 0x00]);
    bytes.extend([0xFF, 0xFE, 0x00, 0x04]);
    bytes
}

/// A header, a chain given as (number, body), and a payload.
fn datagram(first: u8, chain: &[(u8, Vec<u8>)], payload: &[u8]) -> Vec<u8> {
    let mut bytes = header(first, chain.first().map_or(0, |(number, _)| *number));
    for (place, (_, body)) in chain.iter().enumerate() {
        bytes.push(chain.get(place + 1).map_or(0, |(number, _)| *number));
        bytes.push(u8::try_from(body.len()).expect("at most 255"));
        bytes.extend(body);
    }
    bytes.extend(payload);
    bytes
}

/// Datagrams in the order they were first added, each once.
#[derive(Default)]
struct Datagrams {
    all: Vec<Vec<u8>>,
    seen: HashSet<Vec<u8>>,
}

impl Datagrams {
    fn add(&mut self, datagram: Vec<u8>) {
        if self.seen.insert(datagram.clone()) {
            self.all.push(datagram);
        }
    }

    /// The datagram cut to every length from `low` up to its own.
    fn add_cuts(&mut self, datagram: &[u8], low: usize) {
        for length in low..=datagram.len() {
            self.add(datagram[..length].to_vec());
        }
    }
}

const STATE: u8 = 0x21;
const DATA: u8 = 0x01;

/// The marked cases P1 to P5 of document 01.
fn marked(list: &mut Datagrams) {
    let p1 = [1, 0, 0x12, 0x34, 0, 0, 0, 1, 0, 0, 0, 2, 0, 0, 0x10, 0, 0, 5, 0, 4, 0x41];
    list.add(p1.to_vec());
    list.add(p1[..20].to_vec());
    list.add(datagram(STATE, &[(1, vec![0x05, 0, 0, 0x80])], b""));
    list.add(datagram(STATE, &[(1, vec![0x05, 0, 0, 0x80, 0])], b""));
    list.add([header(STATE, 1), vec![0, 4, 0x05, 0, 0]].concat());
}

/// Every length around the header, every first byte, every first and second extension.
fn heads(list: &mut Datagrams) {
    let firsts = [0x01, 0x11, 0x21, 0x31, 0x41, 0x51, 0xF1, 0x00, 0x20, 0x02, 0x42, 0x0F, 0x50, 0xFF];
    for first in firsts {
        for extension in [0, 1, 2, 255] {
            let mut bytes = header(first, extension);
            bytes.extend([0, 2, 0, 0]);
            list.add_cuts(&bytes, 0);
        }
    }
    for first in 0..=255 {
        list.add(header(first, 0));
        let mut longer = header(first, 0);
        longer.push(0x41);
        list.add(longer);
        let mut chain = header(first, 1);
        chain.extend([0, 1, 0]);
        list.add(chain);
    }
    for extension in 0..=255 {
        list.add(header(STATE, extension));
        list.add(datagram(STATE, &[(extension.max(1), vec![])], b""));
        list.add(datagram(DATA, &[(extension.max(1), vec![0x05, 0, 0, 0x80])], b"A"));
        list.add(datagram(STATE, &[(7, vec![1, 2]), (extension.max(1), vec![0xAA; 3])], b"xyz"));
    }
}

/// SACKs of every length around 4, 8, 252 and 255: whole, with and without payload, cut by one, alone and behind others.
fn sacks(list: &mut Datagrams, random: &mut Random) {
    let lengths: Vec<usize> = (0..=17).chain(28..=36).chain(124..=132).chain(243..=255).collect();
    for &length in &lengths {
        let body = random.bytes(length);
        for first in [STATE, DATA, 0x11, 0x41] {
            for payload in [&b""[..], b"A"] {
                let whole = datagram(first, &[(1, body.clone())], payload);
                list.add(whole.clone());
                if first == STATE {
                    list.add(whole[..whole.len() - 1].to_vec());
                }
            }
        }
        list.add(datagram(DATA, &[(2, vec![]), (1, body.clone())], b"pq"));
        list.add(datagram(STATE, &[(1, body.clone()), (9, vec![1])], b""));
    }
    for bit in 0..64 {
        let mut body = vec![0; 8];
        body[bit / 8] = 1 << (bit % 8);
        list.add(datagram(STATE, &[(1, body)], b""));
    }
    for first in [0, 1, 3, 4, 5, 6, 8] {
        for second in [0, 1, 3, 4, 5, 8] {
            let chain = [(1, random.bytes(first)), (1, random.bytes(second))];
            let whole = datagram(STATE, &chain, b"");
            list.add(whole.clone());
            list.add(whole[..whole.len() - 1].to_vec());
            list.add(datagram(DATA, &chain, b"Z"));
            list.add(datagram(DATA, &chain, b""));
        }
    }
}

/// Chains of several, cut at every length; zero-length ones; long ones; the longest datagrams.
fn chains(list: &mut Datagrams, random: &mut Random) {
    let shapes: [&[(u8, usize)]; 9] = [
        &[(2, 0)],
        &[(2, 8)],
        &[(3, 4), (1, 4)],
        &[(1, 4), (2, 0), (3, 1)],
        &[(2, 0), (2, 0), (2, 0), (1, 8)],
        &[(255, 3), (128, 2), (1, 12), (1, 3), (1, 0)],
        &[(1, 5), (2, 1)],
        &[(1, 0)],
        &[(4, 1), (1, 3), (1, 4)],
    ];
    for shape in shapes {
        for (first, payload) in [(STATE, &b"tail"[..]), (DATA, b"t")] {
            let chain: Vec<(u8, Vec<u8>)> =
                shape.iter().map(|(number, length)| (*number, random.bytes(*length))).collect();
            list.add_cuts(&datagram(first, &chain, payload), 18);
        }
    }
    for unknown in [0, 1, 2, 3, 4, 5, 253, 254, 255] {
        for behind in [0, 1, 2, 3, 4, 5] {
            let chain = [(9, random.bytes(unknown)), (1, random.bytes(behind))];
            let whole = datagram(STATE, &chain, b"");
            for cut in 0..4 {
                list.add(whole[..whole.len() - cut].to_vec());
            }
            list.add(datagram(DATA, &chain, b"!"));
        }
    }
    for count in [2, 3, 10, 100, 1000] {
        let unknown = vec![(2, vec![]); count];
        list.add(datagram(STATE, &unknown, b""));
        list.add(datagram(DATA, &unknown, b""));
        list.add(datagram(DATA, &unknown, b"end"));
        let mut with_sack = unknown.clone();
        with_sack.push((1, vec![1, 0, 0, 0]));
        list.add(datagram(STATE, &with_sack, b""));
        let whole = datagram(STATE, &with_sack, b"");
        list.add(whole[..whole.len() - 1].to_vec());
    }
    let mut full = vec![(200, random.bytes(255)); 16];
    full.push((1, random.bytes(252)));
    list.add(datagram(DATA, &full, b"payload"));
    // Extension 1 with length 0 over and over, 65,535 bytes and 65,534; then a whole chain of them, and one of extension 2.
    let mut endless = header(STATE, 1);
    while endless.len() < 65_535 {
        endless.push(1 - (endless.len() % 2) as u8);
    }
    list.add(endless.clone());
    let mut ended = endless[..65_534].to_vec();
    ended[65_532] = 0;
    list.add(ended);
    let mut unknown = header(DATA, 2);
    while unknown.len() < 65_534 {
        unknown.push(2 - 2 * (unknown.len() % 2) as u8);
    }
    unknown[65_532] = 0;
    unknown.push(0x41);
    list.add(unknown);
    let mut payload = header(DATA, 0);
    payload.extend(random.bytes(65_515));
    list.add(payload);
}

/// Copies of good datagrams with a bit turned over, a byte replaced or a piece cut off.
fn damaged(list: &mut Datagrams, random: &mut Random) {
    let good = [
        datagram(DATA, &[], b"A"),
        datagram(DATA, &[], b"a payload of some length"),
        datagram(STATE, &[(1, vec![0x05, 0, 0, 0x80])], b""),
        datagram(DATA, &[(1, random.bytes(8))], b"with payload"),
        datagram(0x41, &[(2, vec![0; 8])], b""),
        datagram(0x11, &[(3, vec![0, 0, 0, 15])], b""),
        datagram(0x31, &[], b""),
        datagram(STATE, &[(2, random.bytes(3)), (1, random.bytes(16)), (3, random.bytes(4))], b""),
    ];
    for bytes in &good {
        list.add(bytes.clone());
        let chain_end = bytes.len().min(56);
        for bit in (0..16).chain(160..chain_end * 8) {
            let mut copy = bytes.clone();
            copy[bit / 8] ^= 1 << (bit % 8);
            list.add(copy);
        }
        for _ in 0..60 {
            let mut copy = bytes.clone();
            for _ in 0..random.between(1, 3) {
                let place = random.below(copy.len() as u64) as usize;
                copy[place] = random.next() as u8;
            }
            if random.chance(1, 3) {
                copy.truncate(random.below(copy.len() as u64 + 1) as usize);
            }
            list.add(copy);
        }
    }
}

/// Bytes at random, and packets at random with chains that mostly hold.
fn random_ones(list: &mut Datagrams, random: &mut Random) {
    for _ in 0..250 {
        let length = random.below(60) as usize;
        list.add(random.bytes(length));
    }
    for _ in 0..900 {
        let mut bytes = random.bytes(20);
        bytes[0] = random.pick(&[0x01, 0x01, 0x11, 0x21, 0x21, 0x31, 0x41]);
        let count = random.pick(&[0, 0, 1, 1, 2, 3, 6]);
        let mut number_at = 1;
        bytes[1] = 0;
        for _ in 0..count {
            bytes[number_at] = random.pick(&[1, 1, 1, 2, 3, 77, 255]);
            let length = random.pick(&[0, 1, 2, 3, 4, 4, 4, 5, 8, 12, 32]);
            number_at = bytes.len();
            bytes.extend([0, length]);
            bytes.extend(random.bytes(usize::from(length)));
        }
        let tail = random.pick(&[0, 0, 1, 2, 20]);
        bytes.extend(random.bytes(tail));
        if random.chance(1, 6) {
            bytes.truncate(random.between(18, bytes.len() as u64) as usize);
        }
        list.add(bytes);
    }
}

pub fn decode_list() -> List {
    let mut random = Random::new(0x0001);
    let mut datagrams = Datagrams::default();
    marked(&mut datagrams);
    heads(&mut datagrams);
    sacks(&mut datagrams, &mut random);
    chains(&mut datagrams, &mut random);
    damaged(&mut datagrams, &mut random);
    random_ones(&mut datagrams, &mut random);
    let mut list = List::default();
    let mut counts: BTreeMap<u8, usize> = BTreeMap::new();
    for datagram in &datagrams.all {
        let answer = rust_decode(datagram);
        assert_eq!(answer, model::decode(datagram), "the Rust and document 01 on {datagram:02x?}");
        *counts.entry(answer.as_ref().err().copied().unwrap_or(0)).or_default() += 1;
        list.counted(datagram);
        match answer {
            Err(number) => list.u8(number),
            Ok(read) => {
                list.u8(0);
                list.u8(read.parts.kind);
                list.u16(read.parts.connection);
                list.u32(read.parts.timestamp);
                list.u32(read.parts.difference);
                list.u32(read.parts.window);
                list.u16(read.parts.sequence);
                list.u16(read.parts.ack);
                for value in [read.sack.0, read.sack.1, read.payload.0, read.payload.1] {
                    list.u16(u16::try_from(value).expect("a place in a datagram"));
                }
            }
        }
    }
    list.say(format!("decode: {} datagrams, by answer {counts:?}", datagrams.all.len()));
    list
}

/// What the Rust writes, or the number of the refusal it has for the SACK's bytes.
pub fn rust_encode(parts: &Parts, sack: &[u8], payload: &[u8]) -> Result<Vec<u8>, u8> {
    let sack = match sack {
        [] => None,
        bytes => Some(SelectiveAck::decode(bytes).map_err(|error| sack_number(&error))?),
    };
    let kind = PacketType::try_from(parts.kind).expect("one of the five");
    let packet = PacketBuilder::new(kind, parts.connection, parts.timestamp, parts.window, parts.sequence)
        .ts_diff_micros(parts.difference)
        .ack_num(parts.ack)
        .selective_ack(sack)
        .payload(payload.to_vec())
        .build();
    let bytes = packet.encode();
    assert_eq!(bytes.len(), packet.encoded_len());
    Ok(bytes)
}

fn parts(random: &mut Random, kind: u8) -> Parts {
    let extreme = random.below(8);
    let mut number = |bits: u32| match extreme {
        0 => 0,
        1 => (1u64 << bits) - 1,
        _ => random.next() & ((1u64 << bits) - 1),
    };
    Parts {
        kind,
        connection: number(16) as u16,
        timestamp: number(32) as u32,
        difference: number(32) as u32,
        window: number(32) as u32,
        sequence: number(16) as u16,
        ack: number(16) as u16,
    }
}

/// Inputs of the writer: parts, SACK, payload, room.
fn writes(random: &mut Random) -> Vec<(Parts, Vec<u8>, Vec<u8>, usize)> {
    let mut all = Vec::new();
    let mut add = |random: &mut Random, kind: u8, sack: usize, payload: usize, room: Option<isize>| {
        let fits = 20 + if sack == 0 { 0 } else { sack + 2 } + payload;
        let room = match room {
            None => 0,
            Some(spare) => (fits as isize + spare).max(0) as usize,
        };
        all.push((parts(random, kind), random.bytes(sack), random.bytes(payload), room));
    };
    for kind in 0..5 {
        for sack in (0..=13).chain(16..=17).chain(247..=261).chain([264, 508, 511, 512, 513, 516, 1024]) {
            for payload in [0, 1, 9] {
                for room in [None, Some(-1), Some(0), Some(3)] {
                    // Every combination for the short ones, a part of them for the rest.
                    if sack < 10 || random.chance(1, 4) {
                        add(random, kind, sack, payload, room);
                    }
                }
            }
        }
        for sack in (4..=252).step_by(4) {
            add(random, kind, sack, 1, Some(0));
        }
        for payload in [2, 19, 20, 21, 255, 256, 1400] {
            for sack in [0, 4] {
                add(random, kind, sack, payload, Some(0));
                add(random, kind, sack, payload, Some(-1));
            }
        }
        for spare in -22..=2 {
            add(random, kind, 0, 2, Some(spare));
            add(random, kind, 4, 0, Some(spare));
        }
    }
    for _ in 0..400 {
        let kind = random.below(5) as u8;
        let sack = random.pick(&[0, 0, 0, 4, 4, 8, 12, 32, 1, 6, 252, 256]);
        let payload = random.below(40) as usize;
        let spare = random.between(0, 30) as isize - 6;
        add(random, kind, sack, payload, Some(spare));
    }
    add(random, 0, 0, 65_535, Some(0));
    add(random, 0, 252, 65_535, Some(-1));
    add(random, 2, 65_532, 0, Some(0));
    add(random, 2, 65_535, 0, None);
    all
}

pub fn encode_list() -> List {
    let mut random = Random::new(0x0002);
    let mut list = List::default();
    let mut counts: BTreeMap<(u8, u8), usize> = BTreeMap::new();
    let inputs = writes(&mut random);
    for (parts, sack, payload, room) in &inputs {
        let expected = model::encode(parts, sack, payload, *room);
        let rust = rust_encode(parts, sack, payload);
        // The Rust writes into a vector that grows: it has no 9. It has no 7 and no 8 either.
        let source = match (&expected, &rust) {
            (Err(7 | 8 | 9), Ok(_)) => Source::Document,
            _ => Source::Rust,
        };
        if source == Source::Rust {
            assert_eq!(expected, rust, "the Rust and document 01 on {parts:?} {sack:02x?} {payload:02x?} {room}");
            if let Ok(bytes) = &rust {
                let read = model::decode(bytes).expect("a written packet can be read");
                assert_eq!(read.parts, *parts);
                assert_eq!(&bytes[read.sack.0..read.sack.0 + read.sack.1], &sack[..]);
                assert_eq!(&bytes[read.payload.0..], &payload[..]);
            }
        }
        *counts.entry((expected.as_ref().err().copied().unwrap_or(0), source as u8)).or_default() += 1;
        list.u8(parts.kind);
        list.u16(parts.connection);
        list.u32(parts.timestamp);
        list.u32(parts.difference);
        list.u32(parts.window);
        list.u16(parts.sequence);
        list.u16(parts.ack);
        list.counted(sack);
        list.counted(payload);
        list.u32(*room as u32);
        list.u8(expected.as_ref().err().copied().unwrap_or(0));
        list.u8(source as u8);
        let written = expected.unwrap_or_default();
        list.u32(written.len() as u32);
        list.bytes.extend(written);
    }
    list.say(format!("encode: {} packets, by (answer, source) {counts:?}", inputs.len()));
    list
}
