//! Reader and writer: the port, the Rust and document 01 on the same bytes.

use crate::classes::{Class, Counts};
use crate::model::codec::{self as model, Parts};
use crate::oracle_codec::{rust_decode, rust_encode};
use crate::packet::{Packet, PacketBuilder, PacketType, SelectiveAck};
use crate::port::{Fault, Port};
use crate::tools::Random;

/// One datagram: what the port reads is what document 01 says and the Rust reads; and what was read, written again.
pub fn read(port: &mut Port, datagram: &[u8], again: bool, counts: &mut Counts) -> Result<(), Fault> {
    let wanted = model::decode(datagram);
    let told = port.decode(datagram)?;
    counts.answered("decode", *told.as_ref().err().unwrap_or(&0));
    if told != wanted {
        return Err(format!("the port reads {told:?}, document 01 {wanted:?}"));
    }
    let rust = rust_decode(datagram);
    if rust != wanted {
        return Err(format!("the Rust reads {rust:?}, document 01 and the port {wanted:?}: not listed"));
    }
    let Ok(found) = wanted else { return Ok(()) };
    if !again {
        return Ok(());
    }
    let part = |(at, len): (usize, usize)| &datagram[at..at + len];
    let (sack, payload) = (part(found.sack), part(found.payload));
    let room = datagram.len();
    let written =
        port.encode(&found.parts, sack, payload, room)?.map_err(|number| format!("written again: {number}"))?;
    let rust = Packet::decode(datagram).map_err(|error| format!("{error:?}"))?.encode();
    if written != rust {
        if datagram[1] < 2 {
            return Err(format!("written again, the port: {written:02x?}, the Rust: {rust:02x?}: not listed"));
        }
        counts.met(Class::UnknownExtension);
    }
    if model::decode(&written).map(|read| read.parts) != Ok(found.parts) {
        return Err("what was written again reads otherwise".into());
    }
    Ok(())
}

/// Parts, SACK, payload, room.
#[derive(Clone, Debug)]
pub struct Writing {
    pub parts: Parts,
    pub sack: Vec<u8>,
    pub payload: Vec<u8>,
    pub room: usize,
}

pub fn write(port: &mut Port, writing: &Writing, counts: &mut Counts) -> Result<(), Fault> {
    let Writing { parts, sack, payload, room } = writing;
    let told = port.encode(parts, sack, payload, *room)?;
    counts.answered("encode", *told.as_ref().err().unwrap_or(&0));
    // The Rust has no type but the five.
    let wanted = if parts.kind > 4 { Err(2) } else { model::encode(parts, sack, payload, *room) };
    if told != wanted {
        return Err(format!("the port writes {told:02x?}, document 01 {wanted:02x?}"));
    }
    if parts.kind > 4 {
        return Ok(());
    }
    let rust = rust_encode(parts, sack, payload);
    if rust != told {
        counts.met(match (&told, &rust) {
            (Err(7), Ok(_)) => Class::EmptyData,
            (Err(8), Ok(_)) => Class::SackLengthCut,
            (Err(9), Ok(_)) => Class::OutputRoom,
            _ => return Err(format!("the Rust writes {rust:02x?}, the port {told:02x?}: not listed")),
        });
    }
    if sack.is_empty() && told.is_ok() && parts.sequence % 16 == 0 {
        empty_sack(parts, payload, &told.expect("written"), counts)?;
    }
    Ok(())
}

/// The Rust given `Some` of no bits, where the port was given no bytes.
fn empty_sack(parts: &Parts, payload: &[u8], told: &[u8], counts: &mut Counts) -> Result<(), Fault> {
    let kind = PacketType::try_from(parts.kind).expect("one of the five");
    let rust = PacketBuilder::new(kind, parts.connection, parts.timestamp, parts.window, parts.sequence)
        .ts_diff_micros(parts.difference)
        .ack_num(parts.ack)
        .selective_ack(Some(SelectiveAck::new(vec![])))
        .payload(payload.to_vec())
        .build()
        .encode();
    let mut listed = told.to_vec();
    listed[1] = 1;
    listed.splice(20..20, [0, 0]);
    if rust != listed {
        return Err(format!("the Rust writes a SACK of no bits as {rust:02x?}: not listed"));
    }
    counts.met(Class::EmptySack);
    Ok(())
}

// ---- inputs

/// A header with numbers that tell the fields apart.
fn header(first: u8, extension: u8) -> Vec<u8> {
    let mut bytes = vec![first, extension, 0x12, 0x34];
    bytes.extend([0x80, 0x00, 0x00, 0x01, 0x00, 0xFF, 0x01, 0x02, 0x00, 0x00, 0x10, 0x00]);
    bytes.extend([0xFF, 0xFE, 0x00, 0x04]);
    bytes
}

/// The first bytes of the five types under version 1, and the rest.
const KNOWN: [u8; 5] = [0x01, 0x11, 0x21, 0x31, 0x41];

/// Calls `each` with every datagram of the set, of which a share (one of `stride`, from `from` on) is taken:
/// - every first byte, every extension byte, cut to every length from 0 to 20;
/// - the five first bytes that are read on, every extension byte, every tail of 1 and 2 bytes;
/// - these five, extension byte 0, 1 and 2, every tail of 3 bytes;
/// - the 251 others, extension byte 0, 1 and 2, every tail of 1 and 2 bytes.
pub fn every(stride: u64, from: u64, mut each: impl FnMut(&[u8]) -> Result<(), Fault>) -> Result<u64, Fault> {
    let mut index = from;
    let mut taken = 0;
    let mut take = |bytes: &[u8]| -> Result<(), Fault> {
        index += 1;
        if index % stride == 0 {
            taken += 1;
            each(bytes)
        } else {
            Ok(())
        }
    };
    for first in 0..=255 {
        for extension in 0..=255 {
            let head = header(first, extension);
            for length in 0..=20 {
                take(&head[..length])?;
            }
        }
    }
    for first in 0..=255 {
        let known = KNOWN.contains(&first);
        for extension in 0..=if known { 255 } else { 2 } {
            let mut bytes = [header(first, extension), vec![0; 3]].concat();
            for one in 0..=255 {
                bytes[20] = one;
                take(&bytes[..21])?;
                for two in 0..=255 {
                    bytes[21] = two;
                    take(&bytes[..22])?;
                    if known && extension < 3 {
                        for three in 0..=255 {
                            bytes[22] = three;
                            take(&bytes)?;
                        }
                    }
                }
            }
        }
    }
    Ok(taken)
}

/// A datagram at random: whole, damaged, of random bytes, short, long.
pub fn datagram(random: &mut Random) -> Vec<u8> {
    let mut bytes = random.bytes(20);
    match random.below(40) {
        0 => {
            let length = random.below(24) as usize;
            return random.bytes(length);
        }
        1 => {
            let length = random.below(80) as usize;
            return random.bytes(length);
        }
        2 => bytes[0] = random.next() as u8,
        _ => bytes[0] = random.pick(&[0x01, 0x01, 0x11, 0x21, 0x21, 0x31, 0x41]),
    }
    if random.chance(1, 16) {
        bytes[16] = 0x41;
        bytes[17] = 0x41;
    }
    chain(random, &mut bytes);
    let tail = random.pick(&[0, 0, 1, 2, 3, 20]);
    let tail = if random.chance(1, 200) { random.below(1_500) as usize } else { tail };
    let tail = if random.chance(1, 20_000) { random.below(65_000) as usize } else { tail };
    bytes.extend(random.bytes(tail));
    if random.chance(1, 3) {
        damage(random, &mut bytes);
    }
    bytes.truncate(65_535);
    bytes
}

fn chain(random: &mut Random, bytes: &mut Vec<u8>) {
    let count = random.pick(&[0, 0, 0, 1, 1, 1, 2, 3, 6]);
    let count = if random.chance(1, 5_000) { random.below(400) } else { count };
    let mut number_at = 1;
    bytes[1] = 0;
    for _ in 0..count {
        bytes[number_at] = random.pick(&[1, 1, 1, 2, 3, 77, 255]);
        let length = random.pick(&[0, 1, 2, 3, 4, 4, 4, 5, 8, 12, 32]);
        let length = if random.chance(1, 50) { random.next() as u8 } else { length };
        number_at = bytes.len();
        bytes.extend([0, length]);
        bytes.extend(random.bytes(usize::from(length)));
    }
}

fn damage(random: &mut Random, bytes: &mut Vec<u8>) {
    for _ in 0..random.between(1, 3) {
        let place = random.below(bytes.len() as u64) as usize;
        match random.below(6) {
            0 => bytes.truncate(place),
            1 => bytes[place] ^= 1 << random.below(8),
            2 => bytes[place] = random.next() as u8,
            3 => bytes.insert(place, random.next() as u8),
            4 => drop(bytes.remove(place)),
            _ => bytes[place] = random.pick(&[0, 1, 2, 255]),
        }
        if bytes.is_empty() {
            return;
        }
    }
}

pub fn writing(random: &mut Random) -> Writing {
    let parts = Parts {
        kind: if random.chance(1, 30) { random.next() as u8 } else { random.below(5) as u8 },
        connection: random.next() as u16,
        timestamp: random.next() as u32,
        difference: random.next() as u32,
        window: random.next() as u32,
        sequence: random.next() as u16,
        ack: random.next() as u16,
    };
    let sack = random.pick(&[0, 0, 0, 0, 4, 4, 4, 8, 12, 32, 1, 2, 3, 5, 6, 7, 252, 248, 253, 256, 260]);
    let sack = if random.chance(1, 20) { random.below(600) as usize } else { sack };
    let sack = if random.chance(1, 50_000) { random.below(65_536) as usize } else { sack };
    let payload = random.pick(&[0, 0, 1, 1, 2, 9, 20, 40]);
    let payload = if random.chance(1, 100) { random.below(1_500) as usize } else { payload };
    let payload = if random.chance(1, 50_000) { random.below(65_536) as usize } else { payload };
    let fits = 20 + if sack == 0 { 0 } else { sack + 2 } + payload;
    let room = match random.below(8) {
        0 => random.below(fits as u64 + 1) as usize,
        1 => fits.saturating_sub(1),
        2 => 0,
        3 => fits + random.below(40) as usize,
        _ => fits,
    };
    Writing { parts, sack: random.bytes(sack), payload: random.bytes(payload), room }
}

// ---- the smallest input of a fault

/// Drops bytes, then sets them to 0, as long as it is a fault.
pub fn smallest_bytes(bytes: &[u8], mut is_fault: impl FnMut(&[u8]) -> bool) -> Vec<u8> {
    let mut best = bytes.to_vec();
    let mut size = best.len().next_power_of_two();
    while size > 0 {
        let mut at = 0;
        while at < best.len() {
            let mut fewer = best.clone();
            fewer.drain(at..(at + size).min(best.len()));
            if is_fault(&fewer) {
                best = fewer;
            } else {
                at += size;
            }
        }
        size /= 2;
    }
    for at in 0..best.len() {
        let mut plain = best.clone();
        plain[at] = 0;
        if is_fault(&plain) {
            best = plain;
        }
    }
    best
}

pub fn smallest_writing(writing: &Writing, mut is_fault: impl FnMut(&Writing) -> bool) -> Writing {
    let mut best = writing.clone();
    best.sack = smallest_bytes(&best.sack.clone(), |sack| is_fault(&Writing { sack: sack.to_vec(), ..best.clone() }));
    best.payload = smallest_bytes(&best.payload.clone(), |payload| {
        is_fault(&Writing { payload: payload.to_vec(), ..best.clone() })
    });
    while best.room > 0 && is_fault(&Writing { room: best.room - 1, ..best.clone() }) {
        best.room -= 1;
    }
    best
}
