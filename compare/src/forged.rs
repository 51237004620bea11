//! Forged states: bits of a state changed at random. One that docs/STATE.md calls sound works as document 01 says of it; any
//! other gets 19 from every call, and nothing changes.

use crate::classes::Counts;
use crate::model::controller::{Controller, Departures, Settings, LAST_TIME};
use crate::model::receiver::{Receiver as ReceiverModel, Written};
use crate::model::tracker::{Sent as SentModel, Tracker as TrackerModel};
use crate::port::{bytes_of, Fault, Receiver, Tracker};
use crate::raw::{Recv, Sent, SentPacket};
use crate::tools::Random;
use crate::{receiver, tracker};
use std::mem::{offset_of, size_of};

fn same<T: PartialEq + std::fmt::Debug>(what: &str, told: T, wanted: T) -> Result<(), Fault> {
    if told == wanted {
        Ok(())
    } else {
        Err(format!("{what}: {told:?}, wanted {wanted:?}"))
    }
}

// ---- the tracker

/// docs/STATE.md, "The tracker of sent packets".
fn tracker_sound(sent: &Sent) -> bool {
    let n = &sent.numbers;
    let times = 1..=LAST_TIME;
    let numbers = n.target >= 1_000
        && times.contains(&n.minimum_timeout)
        && times.contains(&n.delay_window)
        && (1..=65_535).contains(&n.largest_packet)
        && (1..=1 << 20).contains(&n.increase)
        && n.gain >= 1.0 / 1_024.0
        && n.gain <= 1.0
        && n.maximum >= 2 * n.largest_packet
        && n.trip <= LAST_TIME
        && n.variance <= LAST_TIME
        && (1..=1 << 53).contains(&n.timeout)
        && n.last <= LAST_TIME;
    if !numbers || sent.live > 512 || sent.live > sent.count || sent.count > 60_000 || sent.kept > 1_024 {
        return false;
    }
    let samples = &sent.samples[..sent.kept as usize];
    let ordered = samples.windows(2).all(|pair| pair[0].delay < pair[1].delay && pair[0].at <= pair[1].at);
    let last_in = samples.last().is_none_or(|last| last.delay <= LAST_TIME && last.at <= n.last);
    let kept: Vec<SentPacket> = (0..sent.live as usize).map(|place| sent.packet(place)).collect();
    let mut acknowledged_later = 0;
    let mut marked = true;
    for packet in kept.iter().rev() {
        let lost = packet.acked == 0 && acknowledged_later >= 3;
        marked &= packet.kind <= 4 && packet.acked <= 1 && packet.resent <= 1 && packet.sent_at <= n.last;
        marked &= packet.lost == u8::from(lost);
        acknowledged_later += u32::from(packet.acked == 1);
    }
    let sum: u64 = kept.iter().filter(|packet| packet.acked == 0).map(|packet| u64::from(packet.len)).sum();
    ordered && last_in && marked && kept.first().is_none_or(|first| first.acked == 0) && sum == u64::from(n.in_flight)
}

/// Document 01's tracker of a sound state.
fn tracker_model(sent: &Sent) -> TrackerModel {
    let n = &sent.numbers;
    let controller = Controller {
        settings: Settings {
            target: n.target.into(),
            first_timeout: 1,
            minimum_timeout: n.minimum_timeout,
            largest_packet: n.largest_packet.into(),
            increase: n.increase.into(),
            gain: n.gain,
            delay_window: n.delay_window,
        },
        maximum: n.maximum.into(),
        in_flight: n.in_flight.into(),
        timeout: n.timeout,
        round_trip: n.trip.into(),
        variance: n.variance.into(),
        samples: sent.samples[..sent.kept as usize].iter().map(|sample| (sample.delay, sample.at)).collect(),
        departures: Departures::default(),
    };
    let gone = sent.count - sent.live;
    let number = |offset: u32| sent.initial.wrapping_add(offset as u16);
    let mut packets: Vec<SentModel> = (1..=gone)
        .map(|offset| SentModel {
            number: number(offset),
            kind: 0,
            tag: 0,
            length: 0,
            first_sent: 0,
            sent_once: true,
            acknowledged: true,
            lost: false,
        })
        .collect();
    packets.extend((0..sent.live).map(|place| {
        let packet = sent.packet(place as usize);
        SentModel {
            number: number(gone + 1 + place),
            kind: packet.kind,
            tag: packet.tag,
            length: packet.len,
            first_sent: packet.sent_at,
            sent_once: packet.resent == 0,
            acknowledged: packet.acked == 1,
            lost: packet.lost == 1,
        }
    }));
    TrackerModel { initial: sent.initial, packets, controller, clock: n.last }
}

/// Bits and bytes of the parts that are looked at, more often than of the rest.
fn forge(random: &mut Random, bytes: &mut [u8], parts: &[(usize, usize)]) {
    if random.chance(1, 40) {
        let noise = random.bytes(bytes.len());
        bytes.copy_from_slice(&noise);
        return;
    }
    for _ in 0..random.pick(&[1, 1, 1, 2, 3, 8]) {
        let (from, count) = if random.chance(1, 12) { (0, bytes.len()) } else { random.pick(parts) };
        let at = from + random.below(count as u64) as usize;
        match random.below(5) {
            0 => bytes[at] = random.next() as u8,
            1 => bytes[at] = random.pick(&[0, 1, 2, 4, 5, 255, 127, 128]),
            2 => bytes[at] = bytes[at].wrapping_add(1),
            3 => bytes[at] = bytes[at].wrapping_sub(1),
            _ => bytes[at] ^= 1 << random.below(8),
        }
    }
}

/// A state that events reached: what is forged from.
pub fn reached_tracker(random: &mut Random, port: &mut Tracker) -> Result<Vec<u8>, Fault> {
    let session = tracker::session(random, 0);
    port.start(session.initial, &session.settings)?;
    for event in session.events.iter().take(random.below(120) as usize) {
        match event {
            tracker::Event::Transmit { number, kind, tag, length, now } => {
                port.transmit(*number, *kind, *tag, *length, *now)?;
            }
            tracker::Event::Ack { number, sack, delay, now } => {
                port.ack(*number, sack, *delay, *now)?;
            }
            tracker::Event::Timeout => {
                port.timeout()?;
            }
        }
    }
    Ok(port.bytes().to_vec())
}

pub fn tracker(random: &mut Random, port: &mut Tracker, base: &[u8], counts: &mut Counts) -> Result<(), Fault> {
    let (samples, times) = (offset_of!(Sent, samples), offset_of!(Sent, times));
    let (sizes, marks) = (offset_of!(Sent, sizes), offset_of!(Sent, marks));
    // The counts, the numbers, the first samples; then of the first packets, and of more of them, each array.
    let parts = [
        (0, 12),
        (offset_of!(Sent, kept), 4),
        (offset_of!(Sent, numbers), 80),
        (samples, 48),
        (times, 8 * 4),
        (sizes, 8 * 4),
        (marks, 4 * 4),
        (times, 8 * 60),
        (sizes, 8 * 60),
        (marks, 4 * 60),
    ];
    let mut bytes = base.to_vec();
    forge(random, &mut bytes, &parts);
    port.set(&bytes);
    let is_sound = tracker_sound(port.sent());
    let number = port.sent().initial.wrapping_add(random.below(u64::from(port.sent().count.min(70_000)) + 3) as u16);
    let number = if random.chance(1, 4) { random.next() as u16 } else { number };
    let now = port.sent().numbers.last.wrapping_add(random.pick(&[0, 0, 1, 1_000]));
    let sack = random.pick(&[0, 0, 4, 8, 252, 5, 256]);
    let (sack, delay) = (random.bytes(sack), random.pick(&[0, 1_000, 100_000, 1 << 33, LAST_TIME]));
    let (kind, tag, length) = (random.below(6) as u8, random.next() as u32, random.pick(&[0, 1, 500, u32::MAX]));
    same("sound", port.sound()?, if is_sound { 0 } else { 19 })?;
    counts.answered("forged tracker", if is_sound { 0 } else { 19 });
    let call = random.below(3);
    let answer = |port: &mut Tracker| match call {
        0 => port.transmit(number, kind, tag, length, now),
        1 => port.ack(number, &sack, delay, now),
        _ => port.timeout(),
    };
    if !is_sound {
        same("seen", port.seen()?, Err(19))?;
        same("lost_at", port.lost_at(tag)?, Err(19))?;
        return same("call", answer(port)?, 19);
    }
    let mut model = tracker_model(port.sent());
    same("seen", port.seen()?, Ok(tracker::seen_of(&model)))?;
    let wanted = match call {
        0 if kind > 4 => Err(2),
        0 => model.transmit(number, kind, tag, length, now),
        1 => model.ack(number, &sack, delay, now),
        _ => {
            model.timeout_event();
            Ok(())
        }
    };
    same("call", answer(port)?, wanted.err().unwrap_or(0))?;
    tracker::same_state(port, &model)?;
    same("sound afterwards", tracker_sound(port.sent()), true)?;
    same("seen afterwards", port.seen()?, Ok(tracker::seen_of(&model)))
}

// ---- the receiver

/// docs/STATE.md, "The receiver".
fn receiver_sound(recv: &Recv) -> bool {
    if !(1..=65_536).contains(&recv.length) || recv.span > 256 || u64::from(recv.count) + u64::from(recv.span) > 60_000
    {
        return false;
    }
    let table = &recv.waiting[..recv.span as usize];
    let waits: u64 = table.iter().filter(|entry| **entry > 0).map(|entry| u64::from(*entry) - 1).sum();
    table.first().is_none_or(|entry| *entry == 0)
        && table.last().is_none_or(|entry| *entry != 0)
        && u64::from(recv.ready) + waits <= u64::from(recv.length)
}

/// Document 01's receiver of a sound state and its buffer: the ready bytes, then what waits in order.
fn receiver_model(recv: &Recv, buf: &[u8]) -> ReceiverModel {
    let mut at = recv.ready as usize;
    let mut model = ReceiverModel {
        length: recv.length as usize,
        initial: recv.initial,
        c: recv.count,
        ready: buf[..at].iter().copied().collect(),
        waiting: Default::default(),
    };
    for (place, entry) in recv.waiting[..recv.span as usize].iter().enumerate().filter(|(_, entry)| **entry > 0) {
        let payload = buf[at..at + *entry as usize - 1].to_vec();
        at += payload.len();
        model.waiting.insert(recv.count + 1 + place as u32, payload);
    }
    model
}

pub fn reached_receiver(random: &mut Random, port: &mut Receiver) -> Result<(Vec<u8>, Vec<u8>), Fault> {
    let mut session = receiver::session(random);
    session.length = session.length.clamp(1, 4_096);
    port.start(session.initial, session.length)?;
    for event in session.events.iter().take(random.below(80) as usize) {
        match event {
            receiver::Event::Write(number, payload) => drop(port.write(*number, payload, false)?),
            receiver::Event::Read(output) => drop(port.read(*output, false)?),
            _ => {}
        }
    }
    Ok((bytes_of(port.recv()).to_vec(), port.buf().to_vec()))
}

pub fn receiver(
    random: &mut Random,
    port: &mut Receiver,
    base: &(Vec<u8>, Vec<u8>),
    counts: &mut Counts,
) -> Result<(), Fault> {
    let table = offset_of!(Recv, waiting);
    let mut bytes = base.0.clone();
    let longer = random.chance(1, 8);
    forge(random, &mut bytes, &[(0, table), (0, table), (4, 16), (table, 40), (table, size_of::<Recv>() - table)]);
    if longer {
        // A length that is sound with more ready or waiting than was reached.
        bytes[4..8].copy_from_slice(&65_536u32.to_ne_bytes());
    }
    port.set(&bytes, &base.1);
    let recv = *port.recv();
    let is_sound = receiver_sound(&recv);
    counts.answered("forged receiver", if is_sound { 0 } else { 19 });
    let length = if is_sound { recv.length as usize } else { base.1.len() };
    let buf = random.bytes(length);
    port.set(&bytes, &buf);
    let number = recv.initial.wrapping_add(recv.count as u16).wrapping_add(random.below(300) as u16);
    let (count, output) = (random.pick(&[0, 1, 5, 300]), random.pick(&[0, 1, 40, 3_000]));
    let payload = random.bytes(count);
    if !is_sound {
        same("seen", port.seen()?, Err(19))?;
        same("was written", port.was_written(number)?, Err(19))?;
        same("SACK", port.selective_ack(32)?, Err(19))?;
        same("read", port.read(output, false)?, Err(19))?;
        return same("write", port.write(number, &payload, false)?, 19);
    }
    let mut model = receiver_model(&recv, &buf);
    same("seen", port.seen()?, Ok(receiver::seen_of(&model)))?;
    same("SACK", port.selective_ack(32)?, Ok(model.sack()))?;
    same("was written", port.was_written(number)?, Ok(model.was_written(number)))?;
    let wanted = if let Written::Refused(number) = model.write(number, &payload) { number } else { 0 };
    same("write", port.write(number, &payload, false)?, wanted)?;
    receiver::same_state(port, &model)?;
    let wanted = model.read(output);
    same("read", port.read(output, false)?, Ok(wanted))?;
    receiver::same_state(port, &model)?;
    same("sound afterwards", receiver_sound(port.recv()), true)
}
