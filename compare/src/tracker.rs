//! Tracker sessions: the port, the Rust and document 01 on the same events.

use crate::classes::{Class, Counts};
use crate::clock;
use crate::controller::{
    model_numbers, pick_delay, pick_step, plain_settings, random_settings, rust_controller, settings_at_the_ends,
};
use crate::model::controller::{Settings, LAST_TIME};
use crate::model::tracker::Tracker as Model;
use crate::oracle_codec::sack_number;
use crate::packet::{PacketType, SelectiveAck};
use crate::port::{Fault, Tracker as Port, TrackerSeen};
use crate::raw::SentPacket;
use crate::sent::SentPackets;
use crate::tools::{panics, Random};
use std::collections::BTreeSet;
use std::time::Duration;

#[derive(Clone, Debug)]
pub enum Event {
    Transmit { number: u16, kind: u8, tag: u32, length: u32, now: u64 },
    Ack { number: u16, sack: Vec<u8>, delay: u64, now: u64 },
    Timeout,
}

#[derive(Clone, Debug)]
pub struct Session {
    pub initial: u16,
    pub settings: Settings,
    pub events: Vec<Event>,
}

fn same<T: PartialEq + std::fmt::Debug>(what: &str, told: T, wanted: T) -> Result<(), Fault> {
    if told == wanted {
        Ok(())
    } else {
        Err(format!("{what}: {told:?}, wanted {wanted:?}"))
    }
}

pub fn seen_of(model: &Model) -> TrackerSeen {
    let sent = model.packets.len();
    TrackerSeen {
        timeout: model.controller.timeout,
        window: model.controller.free_window() as u64,
        in_flight: model.controller.in_flight as u64,
        maximum: model.controller.maximum as u64,
        ack_num: model.ack_num().into(),
        next: model.number(sent + 1).into(),
        unacked: model.places_held() > 0,
        range: (model.initial.into(), model.number(sent).into()),
        lost: model.lost_list(),
    }
}

/// The state's own fields.
pub fn same_state(port: &mut Port, model: &Model) -> Result<(), Fault> {
    let sent = port.sent();
    let (numbers, controller) = (&sent.numbers, &model.controller);
    same("initial", sent.initial, model.initial)?;
    same("count", sent.count as usize, model.packets.len())?;
    same("live", sent.live as usize, model.places_held())?;
    let told = (numbers.trip as i128, numbers.variance as i128, numbers.timeout, numbers.last);
    same(
        "round trip, variance, timeout, clock",
        told,
        (controller.round_trip, controller.variance, controller.timeout, model.clock),
    )?;
    let kept: Vec<(u64, u64)> =
        sent.samples[..sent.kept as usize].iter().map(|sample| (sample.delay, sample.at)).collect();
    same("samples", &kept, &controller.samples)?;
    for (place, packet) in model.packets[model.run()..].iter().enumerate() {
        let wanted = SentPacket {
            sent_at: packet.first_sent,
            tag: packet.tag,
            len: packet.length,
            kind: packet.kind,
            acked: packet.acknowledged.into(),
            lost: packet.lost.into(),
            resent: (!packet.sent_once).into(),
        };
        same("packet", sent.packet(place), wanted)?;
    }
    Ok(())
}

fn rust_transmit(rust: &mut SentPackets, number: u16, kind: u8, tag: u32, length: u32, now: u64) {
    let kind = PacketType::try_from(kind).expect("one of the five");
    clock::set(now);
    rust.on_transmit(number, kind, Some(tag.to_be_bytes().to_vec()), length, clock::at(now));
}

/// The refusal of the SACK's bytes, if the Rust has one; else the ack is heard.
fn rust_ack(rust: &mut SentPackets, number: u16, sack: &[u8], delay: u64, now: u64) -> Result<(), u8> {
    let sack = match sack {
        [] => None,
        bytes => Some(SelectiveAck::decode(bytes).map_err(|error| sack_number(&error))?),
    };
    clock::set(now);
    rust.on_ack(number, sack.as_ref(), Duration::from_micros(delay), clock::at(now));
    Ok(())
}

struct Pair {
    model: Model,
    /// None once the two have come apart.
    rust: Option<SentPackets>,
}

impl Pair {
    fn rust_is_same(&self, rust: &SentPackets) -> bool {
        let model = &self.model;
        let tagged = |data: Option<Vec<u8>>| u32::from_be_bytes(data.expect("a tag").try_into().expect("four bytes"));
        let lost = rust.lost_packets().into_iter().map(|(number, kind, data)| (number, u8::from(kind), tagged(data)));
        let range = rust.seq_num_range();
        rust.controller().inside() == model_numbers(&model.controller)
            && lost.collect::<Vec<_>>() == model.lost_list()
            && rust.has_lost_packets() != model.lost_list().is_empty()
            && rust.ack_num() == model.ack_num()
            && rust.next_seq_num() == model.number(model.packets.len() + 1)
            && (range.start(), range.end()) == (model.initial, model.number(model.packets.len()))
            && rust.has_unacked_packets() == (model.places_held() > 0)
            && i128::from(rust.window()) == model.controller.free_window()
            && rust.timeout().as_micros() == u128::from(model.controller.timeout)
    }

    /// The two may come apart only where a listed reason was seen.
    fn agree(&mut self, counts: &mut Counts) -> Result<(), Fault> {
        let Some(rust) = &self.rust else { return Ok(()) };
        if self.rust_is_same(rust) {
            return Ok(());
        }
        let seen = &self.model.controller.departures;
        if seen.outside_u32 {
            counts.met(Class::Cast);
        } else if seen.timeout_held {
            counts.met(Class::TimeoutHeld);
        } else if seen.dropped_for_room {
            counts.met(Class::SamplesBeyond);
        } else {
            let (told, wanted) = (rust.controller().inside(), model_numbers(&self.model.controller));
            return Err(format!("the Rust comes apart, not listed: {told:?}, wanted {wanted:?}"));
        }
        self.rust = None;
        Ok(())
    }

    /// A refusal: what a copy of the Rust does with the same call, the Rust itself being left as it was.
    fn refused(
        &self,
        number: u8,
        class: Class,
        call: impl FnOnce(&mut SentPackets) -> Result<(), u8>,
        counts: &mut Counts,
    ) -> Result<(), Fault> {
        let Some(rust) = &self.rust else { return Ok(()) };
        let mut copy = rust.clone();
        let mut answer = Ok(());
        let panicked = panics(|| answer = call(&mut copy));
        match (number, answer) {
            (5 | 6, Err(same)) if same == number => return Ok(()),
            (12 | 13, _) if !panicked => return Err(format!("{number}, and the Rust did it: not listed")),
            _ => counts.met(class),
        }
        Ok(())
    }

    fn time_class(&self, now: u64) -> Class {
        if now < self.model.clock {
            Class::TimeGoesBack
        } else {
            Class::SettingsOrTimes
        }
    }

    fn transmit(&mut self, event: (u16, u8, u32, u32, u64), answer: u8, counts: &mut Counts) -> Result<(), Fault> {
        let (number, kind, tag, length, now) = event;
        if kind > 4 {
            return same("transmit of a type above 4", answer, 2);
        }
        let (first, over) = (
            self.model.offset(number) == self.model.packets.len() + 1,
            self.model.controller.in_flight > self.model.controller.maximum,
        );
        let wanted = self.model.transmit(number, kind, tag, length, now).err().unwrap_or(0);
        same("transmit", answer, wanted)?;
        counts.answered("transmit", wanted);
        if wanted != 0 {
            let class = match wanted {
                11 => self.time_class(now),
                12 => Class::TransmitNotNext,
                13 => Class::LongerThanWindow,
                14 => Class::Places,
                _ => Class::SixtyThousand,
            };
            let call = |rust: &mut SentPackets| {
                rust_transmit(rust, number, kind, tag, length, now);
                Ok(())
            };
            return self.refused(wanted, class, call, counts);
        }
        if let Some(rust) = &mut self.rust {
            if panics(|| rust_transmit(rust, number, kind, tag, length, now)) {
                if !(first && over && length == 0) {
                    return Err(format!("the Rust panics on a transmit of {number}: not listed"));
                }
                counts.met(Class::WindowOver);
                self.rust = None;
            }
        }
        self.agree(counts)
    }

    fn ack(&mut self, event: (u16, &[u8], u64, u64), answer: u8, counts: &mut Counts) -> Result<(), Fault> {
        let (number, sack, delay, now) = event;
        let wanted = self.model.ack(number, sack, delay, now).err().unwrap_or(0);
        same("ack", answer, wanted)?;
        counts.answered("ack", wanted);
        if wanted != 0 {
            let class = match wanted {
                11 => self.time_class(now),
                12 => Class::AckNotSent,
                _ => Class::SackInAck,
            };
            return self.refused(wanted, class, |rust| rust_ack(rust, number, sack, delay, now), counts);
        }
        if let Some(rust) = &mut self.rust {
            let mut heard = Ok(());
            if panics(|| heard = rust_ack(rust, number, sack, delay, now)) || heard.is_err() {
                return Err(format!("the Rust refuses an ack of {number}: not listed"));
            }
        }
        self.agree(counts)
    }

    fn event(&mut self, port: &mut Port, event: &Event, counts: &mut Counts) -> Result<(), Fault> {
        match event {
            Event::Transmit { number, kind, tag, length, now } => {
                let answer = port.transmit(*number, *kind, *tag, *length, *now)?;
                self.transmit((*number, *kind, *tag, *length, *now), answer, counts)?;
            }
            Event::Ack { number, sack, delay, now } => {
                let answer = port.ack(*number, sack, *delay, *now)?;
                self.ack((*number, sack, *delay, *now), answer, counts)?;
            }
            Event::Timeout => {
                same("timeout", port.timeout()?, 0)?;
                self.model.timeout_event();
                if let Some(rust) = &mut self.rust {
                    if panics(|| rust.on_timeout()) {
                        if !self.model.controller.departures.timeout_held {
                            return Err("the Rust panics on a timeout: not listed".into());
                        }
                        counts.met(Class::TimeoutHeld);
                        self.rust = None;
                    }
                }
                counts.answered("timeout", 0);
                self.agree(counts)?;
            }
        }
        same_state(port, &self.model)?;
        same("sound", port.sound()?, 0)?;
        same("seen", port.seen()?, Ok(seen_of(&self.model)))
    }
}

pub fn play(port: &mut Port, session: &Session, counts: &mut Counts) -> Result<(), Fault> {
    let made = Model::new(session.initial, session.settings);
    let answer = *made.as_ref().err().unwrap_or(&0);
    same("new", port.start(session.initial, &session.settings)?, answer)?;
    counts.answered("sent_new", answer);
    let Ok(model) = made else {
        counts.met(Class::SettingsOrTimes);
        return Ok(());
    };
    // The Rust's gain is an f32: it takes part where the gain is one exactly.
    let settings = &session.settings;
    let exact = f64::from(settings.gain as f32) == settings.gain;
    let mut pair = Pair { model, rust: exact.then(|| SentPackets::new(session.initial, rust_controller(settings))) };
    same("seen", port.seen()?, Ok(seen_of(&pair.model)))?;
    for (place, event) in session.events.iter().enumerate() {
        pair.event(port, event, counts).map_err(|fault| format!("event {place}: {fault}"))?;
    }
    Ok(())
}

// ---- sessions at random

/// The far end: what has arrived, by offset, and what is under way.
#[derive(Default)]
struct FarEnd {
    arrived: BTreeSet<usize>,
    under_way: Vec<usize>,
    heard: Vec<(usize, Vec<u8>)>,
}

impl FarEnd {
    /// The offset acknowledged and the SACK, as document 01's receiver makes them, at most 252 bytes.
    fn acknowledgement(&self) -> (usize, Vec<u8>) {
        let c = (1..).take_while(|offset| self.arrived.contains(offset)).count();
        let bits: Vec<usize> =
            self.arrived.range(c + 2..).map(|offset| offset - c - 2).filter(|bit| *bit < 2_016).collect();
        let mut sack = vec![0u8; bits.last().map_or(0, |last| last / 32 * 4 + 4)];
        for bit in bits {
            sack[bit / 8] |= 1 << (bit % 8);
        }
        (c, sack)
    }
}

struct Maker<'a> {
    random: &'a mut Random,
    model: Model,
    events: Vec<Event>,
    now: u64,
    calm: bool,
}

impl Maker<'_> {
    fn transmit(&mut self, number: u16, kind: u8, length: u32, now: u64) -> bool {
        let tag = self.random.next() as u32;
        self.events.push(Event::Transmit { number, kind, tag, length, now });
        kind < 5 && self.model.transmit(number, kind, tag, length, now).is_ok()
    }

    fn ack(&mut self, number: u16, sack: Vec<u8>, delay: u64, now: u64) -> bool {
        let done = self.model.ack(number, &sack, delay, now).is_ok();
        self.events.push(Event::Ack { number, sack, delay, now });
        done
    }

    fn timeout(&mut self) {
        self.events.push(Event::Timeout);
        self.model.timeout_event();
    }

    fn sent(&self) -> usize {
        self.model.packets.len()
    }

    /// Refusals, several faults at once, SACKs at random.
    fn odd(&mut self) {
        let settings = self.model.controller.settings;
        let (sent, current) = (self.sent(), self.now);
        let any = self.random.next();
        let offset = self.random.between(0, sent as u64 + 3) as usize;
        let number = self.random.pick(&[offset, offset, offset, sent + 1, sent + 2, 0]);
        let number = if self.random.chance(1, 20) { any as u16 } else { self.model.number(number) };
        let now = self.random.pick(&[
            current,
            current,
            current,
            current + 1,
            current + 5_000,
            LAST_TIME + 1,
            u64::MAX,
            current.wrapping_sub(1),
        ]);
        let now = if self.random.chance(2, 3) { current } else { now };
        if self.random.chance(2, 5) {
            let free = self.model.controller.free_window() as u32;
            let length =
                self.random.pick(&[0, 1, free, free.saturating_add(1), settings.largest_packet as u32, u32::MAX]);
            let kind = if self.random.chance(1, 12) { any as u8 } else { self.random.below(5) as u8 };
            if self.transmit(number, kind, length, now) {
                self.now = now;
            }
            return;
        }
        let good = 4 * self.random.below(64) as usize;
        let bad = self.random.pick(&[1, 2, 3, 5, 6, 7, 9, 250, 251, 253, 254, 255, 256, 257, 260, 512]);
        let short = good.min(16);
        let count = self.random.pick(&[good, good, short, short, short, 0, bad]);
        let sparse = self.random.below(3);
        let mut sack = self.random.bytes(count);
        for byte in &mut sack {
            *byte &= match sparse {
                0 => 255,
                1 => self.random.next() as u8,
                _ => 0,
            };
        }
        let delay = pick_delay(self.random, &settings, self.calm, 0);
        let delay = if self.random.chance(1, 20) { LAST_TIME + self.random.below(3) } else { delay };
        if self.ack(number, sack, delay, now) {
            self.now = now;
        }
    }
}

fn settings_of(random: &mut Random, calm: bool) -> Settings {
    if random.chance(1, 40) {
        let ends = settings_at_the_ends();
        return random.pick(&ends);
    }
    let mut settings = random_settings(random, calm);
    settings.largest_packet = settings.largest_packet.max(random.pick(&[1, 100, 1_000]));
    settings
}

/// 60,000 packets to the end, with a loss now and then, and past it.
fn longest(random: &mut Random, initial: u16) -> Session {
    let settings = Settings { largest_packet: 1_000, increase: 1_000, ..random_settings(random, true) };
    let mut events = Vec::new();
    for offset in 1..=60_002u16 {
        let (number, tag, now) = (initial.wrapping_add(offset), random.next() as u32, u64::from(offset) * 100);
        events.push(Event::Transmit { number, kind: 0, tag, length: random.below(3) as u32, now });
        if offset % 100 == 0 {
            let sack = if random.chance(1, 3) { vec![] } else { random.bytes(8) };
            events.push(Event::Ack {
                number: initial.wrapping_add(offset - 60),
                sack,
                delay: random.below(90_000),
                now,
            });
            events.push(Event::Ack { number, sack: vec![], delay: random.below(90_000), now });
        }
    }
    Session { initial, settings, events }
}

/// More samples than are kept: packets acknowledged one by one with delays that rise; then one more, when all but some that a
/// list with no end would still hold are past the delay window.
fn rising(random: &mut Random, initial: u16) -> Session {
    let settings = Settings { delay_window: 5_000, ..plain_settings() };
    let mut events = Vec::new();
    for offset in 1..=1_061u16 {
        let late = if offset == 1_061 { settings.delay_window - 80 } else { 0 };
        let (number, now) = (initial.wrapping_add(offset), 4 * u64::from(offset) + random.below(3) + late);
        events.push(Event::Transmit { number, kind: 0, tag: random.next() as u32, length: 1, now });
        events.push(Event::Ack { number, sack: vec![], delay: u64::from(offset) * 40 + random.below(40), now });
    }
    Session { initial, settings, events }
}

/// A session at random: packets and acks over a channel that loses, or, seldom, all 512 places held, or many samples.
pub fn session(random: &mut Random, index: u64) -> Session {
    if index % 20_000 == 19_999 {
        let initial = random.next() as u16;
        return longest(random, initial);
    }
    if index % 700 == 699 {
        let initial = random.next() as u16;
        return rising(random, initial);
    }
    let calm = random.chance(1, 2);
    let anywhere = random.next() as u16;
    let initial = random.pick(&[0, 100, 65_535, 65_500, 65_000, anywhere, anywhere]);
    let settings = settings_of(random, calm);
    let mut session = Session { initial, settings, events: Vec::new() };
    let Ok(model) = Model::new(initial, settings) else { return session };
    let now = random.pick(&[0, 1, 1_000_000, LAST_TIME - 30_000_000_000]);
    let many = random.chance(1, 60);
    let count = if many { 700 } else { random.pick(&[4, 12, 40, 80, 150, 250]) };
    let (loss, odd) = (random.pick(&[0, 2, 10, 40]), random.pick(&[0, 3, 15, 60]));
    let typical = random.pick(&[settings.largest_packet, (settings.largest_packet / 8).max(1), 1, 0]);
    let typical = if many { 0 } else { typical };
    let level = random.pick(&[0, 20_000]);
    let mut maker = Maker { random, model, events: Vec::new(), now, calm };
    let mut far = FarEnd::default();
    while maker.events.len() < count {
        let step = pick_step(maker.random, &settings) / maker.random.pick(&[1, 4, 20]);
        maker.now = (maker.now + step).min(LAST_TIME);
        if maker.random.chance(odd, 100) {
            maker.odd();
            continue;
        }
        let kind_of_event = if many && maker.sent() < 520 { 0 } else { maker.random.below(100) };
        match kind_of_event {
            0..=47 => {
                let free = maker.model.controller.free_window() as u64;
                let mut length = maker.random.between(0, typical);
                if length > free && !maker.random.chance(1, 8) {
                    length = free;
                }
                let number = maker.model.number(maker.sent() + 1);
                let kind = maker.random.pick(&[0, 0, 0, 0, 0, 0, 1, 2, 3, 4]);
                let now = maker.now;
                if maker.transmit(number, kind, length as u32, now) && !maker.random.chance(loss, 100) {
                    far.under_way.push(maker.sent());
                }
            }
            48..=85 => {
                for _ in 0..maker.random.between(1, if many { 90 } else { 3 }) {
                    if !far.under_way.is_empty() {
                        let anywhere = maker.random.below(far.under_way.len() as u64) as usize;
                        let place = if maker.random.chance(2, 3) { 0 } else { anywhere };
                        far.arrived.insert(far.under_way.remove(place));
                    }
                }
                let fresh = far.acknowledgement();
                far.heard.push(fresh.clone());
                let old = maker.random.below(far.heard.len() as u64) as usize;
                let (offset, sack) = if maker.random.chance(1, 12) { far.heard[old].clone() } else { fresh };
                if (offset > 0 || maker.random.chance(1, 4)) && !maker.random.chance(1, 10) {
                    let number = maker.model.number(offset);
                    let delay = pick_delay(maker.random, &settings, calm, level);
                    let now = maker.now;
                    maker.ack(number, sack, delay, now);
                }
            }
            86..=95 if maker.sent() > 0 => {
                let lost = maker.model.lost_list();
                let offset = maker.random.between(1, maker.sent() as u64) as usize;
                let number = match lost.first() {
                    Some(_) if maker.random.chance(4, 5) => maker.random.pick(&lost).0,
                    _ => maker.model.number(offset),
                };
                let length = maker.random.pick(&[0, 1, u32::MAX, settings.largest_packet as u32]);
                let now = maker.now;
                maker.transmit(number, 0, length, now);
                if !maker.random.chance(loss, 100) {
                    far.under_way.push(maker.model.offset(number));
                }
            }
            96..=97 => maker.timeout(),
            _ => {}
        }
    }
    session.events = maker.events;
    session
}
