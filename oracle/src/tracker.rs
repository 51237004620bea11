//! List 5: sessions of `SentPackets` over its `Controller`.

use crate::clock;
use crate::codec::sack_number;
use crate::controller::{
    model_numbers, pick_delay, pick_step, plain_settings, random_settings, report, rust_controller,
    settings_at_the_ends, write_settings, Counts,
};
use crate::model::controller::{Departures, Settings, LAST_TIME};
use crate::model::tracker::Tracker;
use crate::packet::{PacketType, SelectiveAck};
use crate::sent::SentPackets;
use crate::tools::{panics, List, Random, Source};
use std::collections::BTreeSet;
use std::time::Duration;

#[derive(Clone, Debug)]
enum Event {
    Transmit {
        number: u16,
        kind: u8,
        length: u32,
        now: u64,
    },
    Ack {
        number: u16,
        sack: Vec<u8>,
        delay: u64,
        now: u64,
    },
    Timeout,
    /// So many first transmits in a row from `number` on, alike but for the number; only in the long session.
    Run {
        number: u16,
        kind: u8,
        length: u32,
        now: u64,
        count: u64,
    },
}

struct Session {
    model: Tracker,
    /// None once the two have come apart.
    rust: Option<SentPackets>,
    records: List,
    events: u32,
    sack_lengths: BTreeSet<usize>,
}

fn rust_transmit(rust: &mut SentPackets, number: u16, kind: u8, tag: u32, length: u32, now: u64) {
    let kind = PacketType::try_from(kind).expect("one of the five");
    clock::set(now);
    rust.on_transmit(number, kind, Some(tag.to_be_bytes().to_vec()), length, clock::at(now));
}

/// The refusal of the SACK's bytes, if the Rust has one; else the ack is heard.
fn rust_ack(rust: &mut SentPackets, number: u16, sack: &[u8], delay: u64, now: u64) -> Result<(), u8> {
    let sack = match sack {
        [] => None,
        bytes => Some(SelectiveAck::decode(bytes).map_err(|error| sack_number(&error))?),
    };
    clock::set(now);
    rust.on_ack(number, sack.as_ref(), Duration::from_micros(delay), clock::at(now));
    Ok(())
}

impl Session {
    fn new(initial: u16, settings: Settings) -> Self {
        Session {
            model: Tracker::new(initial, settings).expect("settings in range"),
            rust: Some(SentPackets::new(initial, rust_controller(&settings))),
            records: List::default(),
            events: 0,
            sack_lengths: BTreeSet::new(),
        }
    }

    fn same(&self, rust: &SentPackets) -> bool {
        let model = &self.model;
        let tagged = |data: Option<Vec<u8>>| u32::from_be_bytes(data.expect("a tag").try_into().expect("four bytes"));
        let lost: Vec<(u16, u8, u32)> = rust
            .lost_packets()
            .into_iter()
            .map(|(number, kind, data)| (number, u8::from(kind), tagged(data)))
            .collect();
        rust.controller().inside() == model_numbers(&model.controller)
            && lost == model.lost_list()
            && rust.has_lost_packets() != lost.is_empty()
            && rust.ack_num() == model.ack_num()
            && rust.next_seq_num() == model.number(model.packets.len() + 1)
            && rust.has_unacked_packets() == (model.places_held() > 0)
            && i128::from(rust.window()) == model.controller.free_window()
    }

    /// Where what is seen after an event comes from. The two may come apart only where the model has seen a reason.
    fn agree(&mut self) -> Source {
        assert!(self.model.sound());
        let Some(rust) = &self.rust else {
            return Source::After;
        };
        if self.same(rust) {
            return Source::Rust;
        }
        assert_ne!(self.model.controller.departures, Departures::default(), "{:?} {:?}", rust, self.model);
        self.rust = None;
        Source::Document
    }

    /// A refusal: what a copy of the Rust does with the same call, the Rust itself being left as it was.
    fn refused(&self, call: impl FnOnce(&mut SentPackets) -> Result<(), u8>, number: u8) -> Source {
        let Some(rust) = &self.rust else {
            return Source::After;
        };
        let mut copy = rust.clone();
        let mut answer = Ok(());
        if panics(|| answer = call(&mut copy)) {
            return Source::Panic;
        }
        match (number, answer) {
            (5 | 6, Err(same)) if same == number => Source::Rust,
            (12 | 13, _) => panic!("{number}, and the Rust did not panic"),
            _ => Source::Document,
        }
    }

    fn transmit(&mut self, number: u16, kind: u8, length: u32, now: u64) -> (u8, Source) {
        let (answer, source) = self.transmit_unseen(number, kind, length, now);
        (answer, source.unwrap_or_else(|| self.agree()))
    }

    /// Without a look at the two afterwards, where that is still to come.
    fn transmit_unseen(&mut self, number: u16, kind: u8, length: u32, now: u64) -> (u8, Option<Source>) {
        let tag = self.events;
        let first = self.model.offset(number) == self.model.packets.len() + 1;
        let over = self.model.controller.in_flight > self.model.controller.maximum;
        match self.model.transmit(number, kind, tag, length, now) {
            Err(refusal) => {
                let call = |rust: &mut SentPackets| {
                    rust_transmit(rust, number, kind, tag, length, now);
                    Ok(())
                };
                (refusal, Some(self.refused(call, refusal)))
            }
            Ok(()) => {
                if let Some(rust) = &mut self.rust {
                    if panics(|| rust_transmit(rust, number, kind, tag, length, now)) {
                        // In flight above the maximum, and a first packet of no bytes: the Rust records it and panics.
                        assert!(first && over && length == 0, "the Rust panicked on transmit of {number}");
                        self.rust = None;
                        return (0, Some(Source::Panic));
                    }
                }
                (0, None)
            }
        }
    }

    fn ack(&mut self, number: u16, sack: &[u8], delay: u64, now: u64) -> (u8, Source) {
        match self.model.ack(number, sack, delay, now) {
            Err(refusal) => {
                let call = |rust: &mut SentPackets| rust_ack(rust, number, sack, delay, now);
                (refusal, self.refused(call, refusal))
            }
            Ok(()) => {
                self.sack_lengths.insert(sack.len());
                if let Some(rust) = &mut self.rust {
                    let mut answer = Ok(());
                    assert!(
                        !panics(|| answer = rust_ack(rust, number, sack, delay, now)),
                        "the Rust panicked on ack of {number}"
                    );
                    assert_eq!(answer, Ok(()));
                }
                (0, self.agree())
            }
        }
    }

    fn event(&mut self, event: &Event, counts: &mut Counts) -> u8 {
        let (mut head, mut bytes) = ((0u8, 0u8, 0u16, 0u32, 0u64, 0u64), &[][..]);
        let (answer, source) = match event {
            Event::Transmit { number, kind, length, now } => {
                head = (1, *kind, *number, *length, *now, 0);
                self.transmit(*number, *kind, *length, *now)
            }
            Event::Ack { number, sack, delay, now } => {
                head = (2, 0, *number, sack.len() as u32, *now, *delay);
                bytes = sack;
                self.ack(*number, sack, *delay, *now)
            }
            Event::Timeout => {
                head.0 = 3;
                self.model.timeout_event();
                if let Some(rust) = &mut self.rust {
                    rust.on_timeout();
                }
                (0, self.agree())
            }
            Event::Run { number, kind, length, now, count } => {
                head = (4, *kind, *number, *length, *now, *count);
                for step in 0..*count {
                    let answer = self.transmit_unseen(number.wrapping_add(step as u16), *kind, *length, *now);
                    assert_eq!(answer, (0, None));
                }
                (0, self.agree())
            }
        };
        let name = ["transmit", "ack", "timeout", "run"][usize::from(head.0) - 1];
        *counts.entry((format!("{name} {answer}"), source as u8)).or_default() += 1;
        let records = &mut self.records;
        records.u8(head.0);
        records.u8(head.1);
        records.u16(head.2);
        records.u32(head.3);
        records.u64(head.4);
        records.u64(head.5);
        records.bytes.extend(bytes);
        records.u8(answer);
        records.u8(source as u8);
        records.u32(self.model.controller.in_flight as u32);
        records.u32(self.model.controller.maximum as u32);
        records.u64(self.model.controller.timeout);
        records.u16(self.model.ack_num());
        let lost = self.model.lost_list();
        records.u16(lost.len() as u16);
        for (number, kind, tag) in lost {
            records.u16(number);
            records.u8(kind);
            records.u32(tag);
        }
        self.events += 1;
        answer
    }

    fn close(self, list: &mut List, lengths: &mut BTreeSet<usize>) {
        write_settings(list, self.model.initial, &self.model.controller.settings);
        list.u8(0);
        list.u32(self.events);
        list.bytes.extend(self.records.bytes);
        lengths.extend(self.sack_lengths);
    }

    fn sent(&self) -> usize {
        self.model.packets.len()
    }

    fn next(&self) -> u16 {
        self.model.number(self.sent() + 1)
    }
}

/// The far end: what has arrived, by offset, and what is under way.
#[derive(Default)]
struct FarEnd {
    arrived: BTreeSet<usize>,
    under_way: Vec<usize>,
    heard: Vec<(usize, Vec<u8>)>,
}

impl FarEnd {
    /// The offset acknowledged and the SACK, as document 01's receiver makes them, at most 252 bytes.
    fn acknowledgement(&self) -> (usize, Vec<u8>) {
        let c = (1..).take_while(|offset| self.arrived.contains(offset)).count();
        let bits: Vec<usize> =
            self.arrived.range(c + 2..).map(|offset| offset - c - 2).filter(|bit| *bit < 2016).collect();
        let mut sack = vec![0u8; bits.last().map_or(0, |last| last / 32 * 4 + 4)];
        for bit in bits {
            sack[bit / 8] |= 1 << (bit % 8);
        }
        (c, sack)
    }
}

/// How a random session goes.
#[derive(Copy, Clone)]
struct Weather {
    calm: bool,
    /// Of 100 packets, so many are lost.
    loss: u64,
    /// Of 100 events, so many are odd: refusals, SACKs at random.
    odd: u64,
}

fn odd_event(random: &mut Random, session: &Session, settings: &Settings, weather: Weather, now: u64) -> Event {
    let model = &session.model;
    let anywhere = model.number(random.between(0, session.sent() as u64 + 3) as usize);
    let delay = pick_delay(random, settings, weather.calm, 0);
    let kind = random.below(5) as u8;
    let length = random.between(0, settings.largest_packet) as u32;
    let good = 4 * random.below(64) as usize;
    let good = if random.chance(1, 2) { good.min(16) } else { good };
    let bad = random.pick(&[1, 2, 3, 5, 6, 7, 9, 250, 251, 253, 254, 255, 256, 257, 260, 512]);
    // Some of them ahead of the time that goes on: a refusal must not move the clock.
    let current = now;
    let now = (now + random.pick(&[0, 0, 1, 5_000])).min(LAST_TIME);
    match random.below(15) {
        0 => Event::Ack { number: anywhere, sack: random.bytes(bad), delay, now },
        // Several faults at once: which is named?
        12 => {
            let number = random.pick(&[anywhere, model.initial, model.number(session.sent() + 1)]);
            let length = random.pick(&[bad, bad, good]);
            let delay = random.pick(&[delay, delay, LAST_TIME + 1]);
            let now = random.pick(&[now, now, LAST_TIME + 1, current.wrapping_sub(1)]);
            Event::Ack { number, sack: random.bytes(length), delay, now }
        }
        13 => {
            let number = random.pick(&[anywhere, model.initial, session.next(), model.number(session.sent() + 2)]);
            let length = random.pick(&[length, u32::MAX]);
            let now = random.pick(&[now, now, LAST_TIME + 1, u64::MAX, current.wrapping_sub(1)]);
            Event::Transmit { number, kind, length, now }
        }
        1 => Event::Ack { number: anywhere, sack: vec![], delay, now: current.wrapping_sub(random.between(1, 1_000)) },
        2 => Event::Ack { number: anywhere, sack: vec![], delay: LAST_TIME + random.pick(&[0, 1, 2]), now },
        3 => Event::Transmit { number: session.next(), kind, length, now: LAST_TIME + 1 },
        4 => Event::Transmit { number: session.next(), kind, length, now: current.wrapping_sub(1) },
        5 => Event::Transmit { number: anywhere, kind, length, now },
        6 => Event::Transmit {
            number: random.pick(&[model.initial, model.number(session.sent() + 2)]),
            kind,
            length,
            now,
        },
        7 => {
            let free = model.controller.free_window() as u32;
            Event::Transmit {
                number: session.next(),
                kind,
                length: free.saturating_add(random.between(0, 2) as u32),
                now,
            }
        }
        8 => Event::Ack { number: random.next() as u16, sack: random.bytes(good), delay, now },
        9 => Event::Ack { number: anywhere, sack: vec![0; good], delay, now },
        _ => {
            let sparse = random.pick(&[1, 2, 3]);
            let sack = random
                .bytes(good)
                .into_iter()
                .map(|byte| if sparse == 1 { byte } else { byte & random.next() as u8 })
                .collect();
            Event::Ack { number: anywhere, sack, delay, now }
        }
    }
}

fn random_session(random: &mut Random, initial: u16, weather: Weather, events: u32, counts: &mut Counts) -> Session {
    let mut settings = random_settings(random, weather.calm);
    settings.largest_packet = settings.largest_packet.max(random.pick(&[1, 100, 1_000]));
    let mut session = Session::new(initial, settings);
    let mut far = FarEnd::default();
    let mut now = random.pick(&[0, 1, 1_000_000, LAST_TIME - 30_000_000_000]);
    let level = random.pick(&[0, 20_000]);
    let typical = random.pick(&[settings.largest_packet, (settings.largest_packet / 8).max(1), 1]);
    while session.events < events {
        now = (now + pick_step(random, &settings) / random.pick(&[1, 4, 20])).min(LAST_TIME);
        if random.chance(weather.odd, 100) {
            let event = odd_event(random, &session, &settings, weather, now);
            if session.event(&event, counts) == 0 {
                now = now.max(session.model.clock);
            }
            continue;
        }
        match random.below(100) {
            0..=47 => {
                let free = session.model.controller.free_window() as u64;
                let mut length = random.between(0, typical);
                if length > free && !random.chance(1, 8) {
                    length = free;
                }
                // A packet of no bytes with more in flight than the maximum: the Rust panics. Seldom in calm sessions.
                if length == 0 && free == 0 && weather.calm && !random.chance(1, 60) {
                    length = 1;
                }
                let number = session.next();
                let kind = random.pick(&[0, 0, 0, 0, 0, 0, 1, 2, 3, 4]);
                if session.event(&Event::Transmit { number, kind, length: length as u32, now }, counts) == 0
                    && !random.chance(weather.loss, 100)
                {
                    far.under_way.push(session.sent());
                }
            }
            48..=85 => {
                for _ in 0..random.between(1, 3) {
                    if !far.under_way.is_empty() {
                        let place =
                            if random.chance(2, 3) { 0 } else { random.below(far.under_way.len() as u64) as usize };
                        far.arrived.insert(far.under_way.remove(place));
                    }
                }
                let fresh = far.acknowledgement();
                far.heard.push(fresh.clone());
                let (offset, sack) = if random.chance(1, 12) {
                    far.heard[random.below(far.heard.len() as u64) as usize].clone()
                } else {
                    fresh
                };
                if (offset > 0 || random.chance(1, 4)) && !random.chance(1, 10) {
                    let number = session.model.number(offset);
                    let delay = pick_delay(random, &settings, weather.calm, level);
                    session.event(&Event::Ack { number, sack, delay, now }, counts);
                }
            }
            86..=95 if session.sent() > 0 => {
                let lost = session.model.lost_list();
                let number = match lost.first() {
                    Some(_) if random.chance(4, 5) => random.pick(&lost).0,
                    _ => session.model.number(random.between(1, session.sent() as u64) as usize),
                };
                let length = random.pick(&[0, 1, u32::MAX, settings.largest_packet as u32]);
                session.event(&Event::Transmit { number, kind: 0, length, now }, counts);
                if !random.chance(weather.loss, 100) {
                    far.under_way.push(session.model.offset(number));
                }
            }
            96..=97 => {
                session.event(&Event::Timeout, counts);
            }
            _ => {}
        }
    }
    session
}

fn ack(number: u16, sack: &[u8], now: u64) -> Event {
    Event::Ack { number, sack: sack.to_vec(), delay: 100_000, now }
}

fn transmit(number: u16, length: u32, now: u64) -> Event {
    Event::Transmit { number, kind: 0, length, now }
}

fn given_session(initial: u16, settings: Settings, events: &[Event], counts: &mut Counts) -> Session {
    let mut session = Session::new(initial, settings);
    for event in events {
        session.event(event, counts);
    }
    session
}

/// The marked cases, and the whole case of document 02, No. 3.
fn marked_cases(counts: &mut Counts) -> Vec<Session> {
    let settings = Settings { minimum_timeout: 500_000, ..plain_settings() };
    let four: Vec<Event> = (1..=4).map(|number| transmit(number, 100, 0)).collect();
    let mut all = Vec::new();
    let s1 = given_session(0, settings, &[&four[..], &[ack(1, &[3, 0, 0, 0], 10)]].concat(), counts);
    assert_eq!(s1.model.lost_list(), [], "S1");
    all.push(s1);
    let five = [&four[..], &[transmit(5, 100, 0), ack(1, &[7, 0, 0, 0], 10), ack(0, &[], 10), Event::Timeout]].concat();
    let s2 = given_session(0, settings, &five, counts);
    assert_eq!(s2.model.lost_list(), [(2, 0, 1)], "S2");
    all.push(s2);
    let mut s3 = Session::new(100, settings);
    assert_eq!(s3.event(&ack(100, &[], 0), counts), 12, "S3");
    s3.event(&transmit(101, 1_000, 0), counts);
    assert_eq!(s3.event(&ack(100, &[1, 0, 0, 0], 0), counts), 12, "S3");
    all.push(s3);
    let whole = given_session(100, settings, &[transmit(101, 1_000, 0), ack(101, &[], 100_000)], counts);
    assert_eq!((whole.model.controller.maximum, whole.model.controller.timeout), (5_000, 500_000));
    all.push(whole);
    // In flight above the maximum after a timeout: a packet of no bytes is taken, one of one byte is not.
    let mut over =
        Vec::from([transmit(1, 2_000, 0), ack(1, &[], 5), transmit(2, 5_000, 6), Event::Timeout, transmit(3, 1, 7)]);
    over.extend([transmit(3, 0, 7), transmit(3, 0, 7), transmit(4, 0, 7), ack(4, &[], 8)]);
    all.push(given_session(0, settings, &over, counts));
    // The last time and the longest delay; a refusal leaves the clock, a repeat moves it, a timeout does not.
    let long_ack = |delay: u64, now: u64| Event::Ack { number: 1, sack: vec![], delay, now };
    let mut ends =
        Vec::from([transmit(1, 10, 5), transmit(3, 10, LAST_TIME), long_ack(LAST_TIME + 1, 9), long_ack(LAST_TIME, 8)]);
    ends.extend([transmit(1, 10, 20), transmit(2, 10, 19), long_ack(0, 30), transmit(2, 10, 29), Event::Timeout]);
    ends.extend([
        transmit(2, 10, 30),
        transmit(2, 10, LAST_TIME + 1),
        ack(2, &[], LAST_TIME),
        transmit(3, 10, LAST_TIME),
    ]);
    ends.extend([transmit(4, 10, LAST_TIME - 1), ack(3, &[], LAST_TIME + 1), ack(3, &[], LAST_TIME)]);
    all.push(given_session(0, settings, &ends, counts));
    all
}

/// All 512 places held: 14, with 13, 12 and 11 before it; a retransmission needs no place; places are used again.
fn full_places(initial: u16, counts: &mut Counts) -> Session {
    let settings = Settings { largest_packet: 65_535, ..plain_settings() };
    let mut session = Session::new(initial, settings);
    for offset in 1..=512 {
        session.event(&transmit(session.model.number(offset), 1 + offset as u32 % 7, offset as u64), counts);
    }
    let at = |offset: usize| initial.wrapping_add(offset as u16);
    let bits = |offsets: &[usize], from: usize, length: usize| {
        let mut sack = vec![0u8; length];
        for offset in offsets {
            sack[(offset - from - 2) / 8] |= 1 << ((offset - from - 2) % 8);
        }
        sack
    };
    let events = [
        transmit(at(513), 1, 600),
        transmit(at(513), 200_000, 600),
        transmit(at(514), 1, 600),
        transmit(at(513), 1, 511),
        transmit(at(512), 1, 600),
        transmit(at(1), 1, 600),
        ack(at(1), &bits(&[3, 512], 1, 64), 700),
        transmit(at(513), 9, 700),
        transmit(at(514), 9, 700),
        ack(at(3), &[], 800),
        transmit(at(514), 9, 800),
        transmit(at(515), 9, 800),
        transmit(at(516), 9, 800),
        ack(at(500), &[], 900),
        transmit(at(1), 9, 900),
        transmit(at(516), 9, 900),
        ack(at(516), &[], 1_000),
        ack(at(2), &bits(&[300, 516], 2, 252), 1_000),
    ];
    for event in &events {
        session.event(event, counts);
    }
    session
}

/// At the edge of the 512 places for long: as many sent as are freed, and at times more.
fn busy_places(initial: u16, random: &mut Random, counts: &mut Counts) -> Session {
    let settings = Settings { largest_packet: 65_535, ..plain_settings() };
    let mut session = Session::new(initial, settings);
    for _ in 0..512 {
        session.event(&transmit(session.next(), random.between(0, 9) as u32, 0), counts);
    }
    for now in 1..75 {
        for _ in 0..random.between(1, 9) {
            session.event(&transmit(session.next(), random.between(0, 9) as u32, now), counts);
        }
        // Near the first unacknowledged packet, with a hole or two behind it: a hole holds every later place.
        let far = (session.model.run() + random.pick(&[0, 1, 1, 2, 3])).max(1);
        let sack = if random.chance(1, 2) { vec![random.next() as u8, 0, 0, 0] } else { vec![] };
        session.event(&ack(session.model.number(far), &sack, now), counts);
    }
    session
}

/// All 512 places held and all but a few packets lost at once, across the end of the numbers; then heard of one by one.
fn many_lost(initial: u16, counts: &mut Counts) -> Session {
    let settings = Settings { largest_packet: 65_535, increase: 1 << 20, ..plain_settings() };
    let mut session = Session::new(initial, settings);
    for offset in 1..=512 {
        session.event(&transmit(session.model.number(offset), 100, offset as u64), counts);
    }
    let number = |offset: u16| initial.wrapping_add(offset);
    let last_three = [vec![0; 63], vec![0x38]].concat();
    session.event(&ack(number(1), &last_three, 600), counts);
    for (event, lost) in [
        (transmit(number(2), 100, 601), 508),
        (ack(number(1), &last_three, 602), 508),
        (ack(number(2), &[1, 0, 0, 0], 603), 506),
        (Event::Timeout, 506),
        (transmit(number(513), 1, 604), 506),
        (ack(number(512), &[], 605), 0),
    ] {
        session.event(&event, counts);
        assert_eq!(session.model.lost_list().len(), lost);
    }
    session
}

/// A SACK of every length that is taken, 0 and 4 to 252, over many packets, some of them lost for long.
fn every_sack_length(initial: u16, random: &mut Random, counts: &mut Counts) -> Session {
    let settings = Settings { largest_packet: 65_535, increase: 65_535, ..plain_settings() };
    let mut session = Session::new(initial, settings);
    let mut now = 0;
    for step in 0..64 {
        for _ in 0..7 {
            now += 3;
            session.event(&transmit(session.next(), random.between(0, 40) as u32, now), counts);
        }
        // Few holes, so that the lost list stays short; the ack moves on by three.
        let sack: Vec<u8> =
            (0..4 * step).map(|_| if random.chance(1, 6) { random.next() as u8 } else { 0xFF }).collect();
        let number = session.model.number(1 + 3 * step);
        session.event(&Event::Ack { number, sack, delay: random.between(1_000, 190_000), now }, counts);
    }
    session
}

pub fn list() -> List {
    let mut random = Random::new(0x0005);
    let mut list = List::default();
    let mut counts = Counts::new();
    let mut lengths = BTreeSet::new();
    let (mut sessions, mut departed) = (0, 0);
    let mut close = |session: Session, list: &mut List| {
        assert!(session.events <= 1_000);
        departed += usize::from(session.rust.is_none());
        session.close(list, &mut lengths);
        sessions += 1;
    };
    for session in marked_cases(&mut counts) {
        close(session, &mut list);
    }
    for initial in [0, 65_300] {
        close(full_places(initial, &mut counts), &mut list);
        close(every_sack_length(initial, &mut random, &mut counts), &mut list);
        close(busy_places(initial, &mut random, &mut counts), &mut list);
    }
    close(many_lost(65_200, &mut counts), &mut list);
    let initials = [0, 1, 100, 32_767, 65_400, 65_480, 65_510, 65_530, 65_533, 65_534, 65_535];
    for round in 0..330u64 {
        let weather =
            Weather { calm: round % 4 != 3, loss: random.pick(&[0, 2, 8, 20, 40]), odd: random.pick(&[0, 3, 10, 30]) };
        let initial = if round % 5 == 0 { random.next() as u16 } else { random.pick(&initials) };
        let events = 60 + 10 * (round % 8) as u32 + if round % 33 == 0 { 300 } else { 0 };
        close(random_session(&mut random, initial, weather, events, &mut counts), &mut list);
    }
    for settings in settings_at_the_ends() {
        write_settings(&mut list, 7, &settings);
        list.u8(if settings.in_range() { 0 } else { 10 });
        list.u32(0);
    }
    let ends = settings_at_the_ends().len();
    assert_eq!(lengths, (0..=252).step_by(4).collect::<BTreeSet<usize>>(), "every SACK length");
    list.say(format!("sent: and {ends} sessions of no events, for answers 0 and 10 to settings"));
    list.say(format!("sent: {departed} sessions depart"));
    report(&mut list, "sent", sessions, &counts);
    list
}

/// A session of 60,000 packets to its end, with loss and SACKs. Transmits in a row are one event of kind 4.
pub fn long_list() -> List {
    let mut random = Random::new(0x0006);
    let mut list = List::default();
    let mut counts = Counts::new();
    let settings = Settings { largest_packet: 1_400, increase: 1_400, minimum_timeout: 500_000, ..plain_settings() };
    let mut session = Session::new(50_000, settings);
    let mut now = 0;
    while session.sent() < 60_000 {
        now += random.between(1_000, 40_000);
        let length = random.pick(&[20, 100, 333, 1_400]);
        let room = session.model.controller.free_window() as u64 / u64::from(length);
        let places = 512 - session.model.places_held() as u64;
        let count = room.min(places).min(60_000 - session.sent() as u64).min(random.between(1, 400));
        if count > 0 {
            let number = session.next();
            session.event(&Event::Run { number, kind: 0, length, now, count }, &mut counts);
        }
        now += random.between(10_000, 60_000);
        let lost = session.model.lost_list();
        for (number, _, _) in lost.iter().take(3) {
            session.event(&Event::Transmit { number: *number, kind: 0, length, now }, &mut counts);
        }
        // The ack reaches a little way into what is under way, or all of it; the SACK has a hole here and there.
        let (run, sent) = (session.model.run(), session.sent());
        let reach =
            if random.chance(1, 3) { sent } else { random.between((run + 1).min(sent) as u64, sent as u64) as usize };
        let holes = random.pick(&[0, 0, 0, 1]);
        let far = (sent - reach) / 32 * 4 + 4;
        let sack: Vec<u8> = (0..far.min(252) * 8)
            .map(|_| !random.chance(holes, 30))
            .collect::<Vec<bool>>()
            .chunks(8)
            .map(|bits| bits.iter().enumerate().map(|(place, bit)| u8::from(*bit) << place).sum())
            .collect();
        let sack = if random.chance(1, 4) { vec![] } else { sack };
        let delay = random.between(20_000, 130_000);
        session.event(&Event::Ack { number: session.model.number(reach), sack, delay, now }, &mut counts);
        if random.chance(1, 200) {
            session.event(&Event::Timeout, &mut counts);
        }
    }
    let next = session.next();
    let last = session.model.number(60_000);
    for event in [
        transmit(next, 1, now),
        transmit(next, u32::MAX, now),
        transmit(next.wrapping_add(1), 1, now),
        transmit(session.model.initial, 1, now),
        transmit(last, 1, now),
        transmit(session.model.number(1), 1, now),
        ack(session.model.number(1), &[0xFF; 252], now),
        ack(next, &[], now),
        ack(last, &[0xFF; 4], now),
        transmit(next, 1, now),
        ack(session.model.initial, &[], now),
    ] {
        session.event(&event, &mut counts);
    }
    let mut lengths = BTreeSet::new();
    session.close(&mut list, &mut lengths);
    report(&mut list, "sent-long", 1, &counts);
    list
}
