//! List 4: sessions of `congestion::Controller`. Packets are given by length, whether sent once, and transmit time.

use crate::clock;
use crate::congestion::{self, Ack, Error, Transmit};
use crate::model::controller::{Controller, Departures, Settings, LAST_TIME};
use crate::tools::{List, Random, Source};
use std::collections::BTreeMap;
use std::time::Duration;

/// The eight settings of a recorded session, the initial number first.
pub fn write_settings(list: &mut List, initial: u16, settings: &Settings) {
    list.u64(u64::from(initial));
    list.u64(settings.target);
    list.u64(settings.first_timeout);
    list.u64(settings.minimum_timeout);
    list.u64(settings.largest_packet);
    list.u64(settings.increase);
    list.u64(settings.gain.to_bits());
    list.u64(settings.delay_window);
}

/// The Rust's controller under the same settings; the gain must be an exact f32.
pub fn rust_controller(settings: &Settings) -> congestion::Controller {
    let gain = settings.gain as f32;
    assert_eq!(f64::from(gain), settings.gain, "a gain that is no exact f32");
    congestion::Controller::new(congestion::Config {
        target_delay_micros: u32::try_from(settings.target).expect("in range"),
        initial_timeout: Duration::from_micros(settings.first_timeout),
        min_timeout: Duration::from_micros(settings.minimum_timeout),
        max_packet_size_bytes: u32::try_from(settings.largest_packet).expect("in range"),
        max_window_size_inc_bytes: u32::try_from(settings.increase).expect("in range"),
        gain,
        delay_window: Duration::from_micros(settings.delay_window),
    })
}

/// Maximum, in flight, timeout, round trip, variance.
pub type Numbers = (i128, i128, u128, i128, i128);

pub fn model_numbers(model: &Controller) -> Numbers {
    (model.maximum, model.in_flight, u128::from(model.timeout), model.round_trip, model.variance)
}

/// Settings at random: `calm` ones keep old maximum + adjustment at 0 or more as long as no delay is more than twice the
/// target above the base.
pub fn random_settings(random: &mut Random, calm: bool) -> Settings {
    let largest_packet = if calm {
        random.pick(&[1, 2, 100, 576, 1_000, 1_400, 2_048, 65_535])
    } else {
        random.pick(&[1, 3, 100, 1_000, 1_400, 65_535])
    };
    let increase = if calm {
        random.pick(&[1, largest_packet, 2 * largest_packet]).min(1 << 20)
    } else {
        random.pick(&[1, 1_000, 3_000, 65_536, 1 << 20])
    };
    let quiet = random.between(1_000, 200_000);
    Settings {
        target: random.pick(&[1_000, 1_001, 25_000, 100_000, 100_000, quiet, (1 << 32) - 1]),
        first_timeout: random.pick(&[1, 1_000_000, 1_000_000, 3_000_000, LAST_TIME]),
        minimum_timeout: random.pick(&[1, 1, 1_000, 500_000, 500_000, LAST_TIME]),
        largest_packet,
        increase,
        gain: f64::from(random.pick(&[1.0f32, 1.0, 0.5, 0.75, 0.1, 0.333, 0.999_999, 1.0 / 1024.0, 0.001])),
        delay_window: random.pick(&[1, 50, 1_000, 60_000, 400_000, 120_000_000, 120_000_000, LAST_TIME]),
    }
}

#[derive(Copy, Clone, Debug)]
enum Event {
    Transmit {
        length: u32,
        now: u64,
    },
    /// The packet by its place among those sent.
    Ack {
        packet: usize,
        delay: u64,
        now: u64,
    },
    Timeout,
    Loss {
        packet: usize,
    },
}

#[derive(Clone, Debug)]
struct Sent {
    length: u32,
    sent_at: u64,
    once: bool,
    acknowledged: bool,
}

struct Session {
    model: Controller,
    /// None once the two have come apart.
    rust: Option<congestion::Controller>,
    sent: Vec<Sent>,
    clock: u64,
    records: List,
    events: u32,
}

pub type Counts = BTreeMap<(String, u8), usize>;

impl Session {
    fn new(settings: Settings) -> Self {
        Session {
            model: Controller::new(settings).expect("settings in range"),
            rust: Some(rust_controller(&settings)),
            sent: Vec::new(),
            clock: 0,
            records: List::default(),
            events: 0,
        }
    }

    /// Where the numbers after an event come from. The two may come apart only where the model has seen a reason.
    fn agree(&mut self) -> Source {
        let Some(rust) = &self.rust else {
            return Source::After;
        };
        if rust.inside() == model_numbers(&self.model) {
            return Source::Rust;
        }
        assert_ne!(self.model.departures, Departures::default(), "{:?} {:?}", rust.inside(), self.model);
        self.rust = None;
        Source::Document
    }

    fn transmit(&mut self, length: u32, now: u64) -> (u8, Source) {
        if now > LAST_TIME || now < self.clock {
            return (11, Source::Document);
        }
        let over = self.model.in_flight > self.model.maximum;
        let answer = self.model.transmit(length);
        let number = u16::try_from(self.sent.len()).expect("few packets");
        let mut source = Source::Rust;
        if let Some(rust) = &mut self.rust {
            let before = rust.clone();
            let rust_answer = rust.on_transmit(number, Transmit::Initial { bytes: length });
            match (answer, rust_answer) {
                (Ok(()), Ok(())) => {}
                // In flight above the maximum, and a packet of no bytes: the Rust refuses, having recorded it.
                (Ok(()), Err(Error::InsufficientWindowSize)) if over && length == 0 => source = Source::Document,
                // The Rust records first and then refuses.
                (Err(13), Err(Error::InsufficientWindowSize)) => *rust = before,
                // In flight plus length goes past 2^32 - 1 and the Rust's sum wraps.
                (Err(13), Ok(())) if self.model.in_flight + i128::from(length) > u32::MAX.into() => {
                    source = Source::Document;
                    *rust = before;
                }
                both => panic!("transmit of {length}: {both:?}"),
            }
        }
        if answer.is_ok() {
            self.clock = now;
            self.sent.push(Sent { length, sent_at: now, once: true, acknowledged: false });
        }
        let numbers = self.agree();
        (answer.err().unwrap_or(0), if numbers == Source::Rust { source } else { numbers })
    }

    fn ack(&mut self, packet: usize, delay: u64, now: u64) -> (u8, Source) {
        if now > LAST_TIME || delay > LAST_TIME || now < self.clock {
            return (11, Source::Document);
        }
        self.clock = now;
        let sent = &mut self.sent[packet];
        assert!(!sent.acknowledged);
        sent.acknowledged = true;
        self.model.ack(sent.length, sent.once.then_some(sent.sent_at), delay, now);
        if let Some(rust) = &mut self.rust {
            clock::set(now);
            let rtt = Duration::from_micros(now - sent.sent_at);
            let ack = Ack { delay: Duration::from_micros(delay), rtt, received_at: clock::at(now) };
            rust.on_ack(packet as u16, ack).expect("a packet that was sent");
        }
        (0, self.agree())
    }

    /// Not an event of the list: it shows as `sent once` in the packet's ack.
    fn retransmit(&mut self, packet: usize) {
        self.sent[packet].once = false;
        if let Some(rust) = &mut self.rust {
            rust.on_transmit(packet as u16, Transmit::Retransmission).expect("a packet that was sent");
        }
    }

    fn event(&mut self, event: Event, counts: &mut Counts) {
        let mut fields = (0u8, 0u8, 0u32, 0u64, 0u64, 0u64);
        let (answer, source) = match event {
            Event::Transmit { length, now } => {
                fields = (1, 0, length, now, 0, 0);
                self.transmit(length, now)
            }
            Event::Ack { packet, delay, now } => {
                let sent = &self.sent[packet];
                fields = (2, u8::from(sent.once), sent.length, now, delay, sent.sent_at);
                self.ack(packet, delay, now)
            }
            Event::Timeout => {
                fields.0 = 3;
                self.model.timeout_event();
                if let Some(rust) = &mut self.rust {
                    rust.on_timeout();
                }
                (0, self.agree())
            }
            Event::Loss { packet } => {
                fields.0 = 4;
                self.model.loss();
                if let Some(rust) = &mut self.rust {
                    rust.on_lost_packet(packet as u16, true).expect("a packet that was sent");
                }
                (0, self.agree())
            }
        };
        let name = ["transmit", "ack", "timeout", "loss"][usize::from(fields.0) - 1];
        *counts.entry((format!("{name} {answer}"), source as u8)).or_default() += 1;
        let records = &mut self.records;
        records.u8(fields.0);
        records.u8(fields.1);
        records.u32(fields.2);
        records.u64(fields.3);
        records.u64(fields.4);
        records.u64(fields.5);
        records.u8(answer);
        records.u8(source as u8);
        records.u32(self.model.in_flight as u32);
        records.u32(self.model.maximum as u32);
        records.u64(self.model.timeout);
        records.u64(self.model.round_trip as u64);
        records.u64(self.model.variance as u64);
        self.events += 1;
    }

    fn close(self, list: &mut List) {
        write_settings(list, 0, &self.model.settings);
        list.u8(0);
        list.u32(self.events);
        list.bytes.extend(self.records.bytes);
    }

    fn outstanding(&self) -> Vec<usize> {
        (0..self.sent.len()).filter(|place| !self.sent[*place].acknowledged).collect()
    }
}

pub fn plain_settings() -> Settings {
    Settings {
        target: 100_000,
        first_timeout: 1_000_000,
        minimum_timeout: 1,
        largest_packet: 1_000,
        increase: 3_000,
        gain: 1.0,
        delay_window: 120_000_000,
    }
}

fn marked_cases(list: &mut List, counts: &mut Counts) -> usize {
    use Event::{Ack, Timeout, Transmit};
    for second in [250_000, 400_000] {
        let mut session = Session::new(plain_settings());
        session.event(Transmit { length: 1_000, now: 0 }, counts);
        session.event(Transmit { length: 1_000, now: 0 }, counts);
        session.event(Ack { packet: 0, delay: 100_000, now: 100_000 }, counts);
        assert_eq!((session.model.maximum, session.model.in_flight), (3_500, 1_000), "W1");
        assert_eq!(session.model.timeout, 112_500, "W4");
        session.event(Ack { packet: 1, delay: second, now: 100_000 }, counts);
        assert_eq!((session.model.maximum, session.model.timeout), (2_000, 185_937), "W2, W3, W4");
        assert_eq!(session.rust.is_none(), second == 400_000, "W3");
        session.event(Timeout, counts);
        session.event(Transmit { length: 2_001, now: 100_000 }, counts);
        session.event(Transmit { length: 2_000, now: 100_000 }, counts);
        session.close(list);
    }
    let mut session = Session::new(plain_settings());
    session.event(Transmit { length: 10, now: 0 }, counts);
    session.event(Ack { packet: 0, delay: 0, now: 80 }, counts);
    session.event(Transmit { length: 10, now: 80 }, counts);
    session.event(Ack { packet: 1, delay: 0, now: 83 }, counts);
    assert_eq!(session.model.round_trip, 10, "W5");
    session.close(list);
    3
}

/// A delay for an ack: near the base and the target, or anything at all.
pub fn pick_delay(random: &mut Random, settings: &Settings, calm: bool, level: u64) -> u64 {
    if calm {
        let spread = random.between(0, 2 * settings.target);
        return level
            + random.pick(&[
                0,
                0,
                settings.target,
                settings.target - 1,
                spread,
                spread,
                spread / 2,
                2 * settings.target,
            ]);
    }
    match random.below(12) {
        0 => 0,
        1 => u64::from(u32::MAX),
        2 => u64::from(u32::MAX) + 1,
        3 => LAST_TIME,
        4 => random.between(0, LAST_TIME),
        5 => random.between((1 << 32) - 1_000, (1 << 32) + 1_000),
        6 => random.between(0, 20 * settings.target),
        7 => settings.target,
        _ => level + random.between(0, 3 * settings.target),
    }
}

/// A step of the clock: often none, at times just up to, onto or past the end of the delay window.
pub fn pick_step(random: &mut Random, settings: &Settings) -> u64 {
    let window = settings.delay_window.min(200_000_000);
    match random.below(12) {
        0..=3 => 0,
        4 => 1,
        5 => window,
        6 => window - 1,
        7 => window / 2,
        8 => random.between(1, 2_000_000),
        _ => random.between(1, 60_000),
    }
}

fn random_session(random: &mut Random, list: &mut List, counts: &mut Counts, calm: bool, events: usize) {
    let settings = random_settings(random, calm);
    let mut session = Session::new(settings);
    let level = if calm { random.pick(&[0, 7, 30_000, 1 << 31]) } else { random.pick(&[0, 50_000]) };
    let mut now = random.pick(&[0, 1, 1_000_000, LAST_TIME - 20_000_000_000]);
    for _ in 0..events {
        now = (now + pick_step(random, &settings)).min(LAST_TIME);
        let outstanding = session.outstanding();
        match random.below(100) {
            0..=43 => {
                let free = session.model.free_window() as u32;
                let small = random.between(0, settings.largest_packet) as u32;
                let other = random.pick(&[0, free, free, free.saturating_add(1), free / 2, u32::MAX, u32::MAX - small]);
                let length = if random.chance(3, 4) { small } else { other };
                session.event(Event::Transmit { length, now }, counts);
            }
            44..=89 if !outstanding.is_empty() => {
                let packet = if random.chance(1, 2) { outstanding[0] } else { random.pick(&outstanding) };
                let delay = pick_delay(random, &settings, calm, level);
                session.event(Event::Ack { packet, delay, now }, counts);
            }
            90..=93 if !outstanding.is_empty() => session.retransmit(random.pick(&outstanding)),
            94..=96 if !outstanding.is_empty() => {
                session.event(Event::Loss { packet: random.pick(&outstanding) }, counts);
            }
            97 => session.event(Event::Timeout, counts),
            _ => {}
        }
    }
    session.close(list);
}

/// Few delays, so that many are equal, in a short window.
fn equal_delays(random: &mut Random, list: &mut List, counts: &mut Counts) {
    let settings = Settings { delay_window: random.pick(&[1, 2, 10, 100]), ..plain_settings() };
    let mut session = Session::new(settings);
    let mut now = 0;
    for _ in 0..80 {
        session.event(Event::Transmit { length: random.between(1, 40) as u32, now }, counts);
        if random.chance(2, 3) {
            now +=
                random.pick(&[0, 1, 1, 2, settings.delay_window / 2, settings.delay_window - 1, settings.delay_window]);
            let packet = random.pick(&session.outstanding());
            let delay = random.pick(&[40_000, 40_000, 50_000, 60_000, 60_000, 150_000]);
            session.event(Event::Ack { packet, delay, now }, counts);
        }
    }
    session.close(list);
}

/// Timeouts in a row up to the hold at 2^53 and past it; an ack brings the timeout back.
fn timeouts(list: &mut List, counts: &mut Counts, first_timeout: u64, count: usize) {
    let mut session = Session::new(Settings { first_timeout, ..plain_settings() });
    session.event(Event::Transmit { length: 700, now: 5 }, counts);
    for _ in 0..count {
        session.event(Event::Timeout, counts);
    }
    session.event(Event::Ack { packet: 0, delay: 9, now: LAST_TIME }, counts);
    session.event(Event::Transmit { length: 1, now: LAST_TIME }, counts);
    session.event(Event::Ack { packet: 1, delay: 9, now: LAST_TIME }, counts);
    session.event(Event::Timeout, counts);
    session.close(list);
}

/// One packet at a time with no delay: the maximum grows by the increase until it stands at 2^32 - 1.
fn to_the_top(list: &mut List, counts: &mut Counts) {
    let settings = Settings { largest_packet: 65_535, increase: 1 << 20, ..plain_settings() };
    let mut session = Session::new(settings);
    let mut packet = 0;
    while session.model.maximum < u32::MAX.into() {
        session.event(Event::Transmit { length: 1 + packet as u32 % 1_400, now: packet as u64 }, counts);
        session.event(Event::Ack { packet, delay: 0, now: packet as u64 + 1 }, counts);
        packet += 1;
    }
    for length in [u32::MAX, 1, 0, u32::MAX] {
        session.event(Event::Transmit { length, now: 1_000_000 }, counts);
    }
    session.event(Event::Ack { packet, delay: 0, now: 1_000_001 }, counts);
    session.event(Event::Loss { packet: packet + 1 }, counts);
    session.event(Event::Ack { packet: packet + 1, delay: 300_000, now: 1_000_002 }, counts);
    session.event(Event::Timeout, counts);
    session.close(list);
}

/// More rising delays than are kept, then the clock past the first of them.
fn more_than_kept(list: &mut List, counts: &mut Counts) {
    let settings = Settings { delay_window: 10_000, increase: 2_000, target: 1_000, ..plain_settings() };
    let mut session = Session::new(settings);
    for place in 0..1_040 {
        let now = 4 * place as u64;
        session.event(Event::Transmit { length: 100, now }, counts);
        session.event(Event::Ack { packet: place, delay: 1 + place as u64, now }, counts);
    }
    for place in 1_040..1_100 {
        let now = 14_000 + 4 * (place as u64 - 1_040);
        session.event(Event::Transmit { length: 100, now }, counts);
        session.event(Event::Ack { packet: place, delay: 2_000 + place as u64, now }, counts);
    }
    session.close(list);
}

/// More equal delays than are kept, of which only one is, then rising ones; then the clock past them one by one.
fn more_equal_than_kept(list: &mut List, counts: &mut Counts) {
    let settings = Settings { delay_window: 10_000, increase: 2_000, target: 1_000, ..plain_settings() };
    let mut session = Session::new(settings);
    for place in 0..1_040 {
        let (delay, now) =
            if place < 1_030 { (50, place as u64) } else { (60 * (place as u64 - 1_029), 40 * place as u64 - 39_000) };
        session.event(Event::Transmit { length: 100, now }, counts);
        session.event(Event::Ack { packet: place, delay, now }, counts);
    }
    for place in 1_040..1_060 {
        let now = 11_000 + 80 * (place as u64 - 1_040);
        session.event(Event::Transmit { length: 100, now }, counts);
        session.event(Event::Ack { packet: place, delay: 900, now }, counts);
    }
    assert!(session.rust.is_some());
    session.close(list);
}

/// Settings at each end of each range, and just outside: answer 0 or 10.
pub fn settings_at_the_ends() -> Vec<Settings> {
    let plain = plain_settings();
    let mut all = Vec::new();
    for target in [0, 999, 1_000, (1 << 32) - 1, 1 << 32, u64::MAX] {
        all.push(Settings { target, ..plain });
    }
    for time in [0, 1, LAST_TIME, LAST_TIME + 1, u64::MAX] {
        all.push(Settings { first_timeout: time, ..plain });
        all.push(Settings { minimum_timeout: time, ..plain });
        all.push(Settings { delay_window: time, ..plain });
    }
    for largest_packet in [0, 1, 65_535, 65_536, 1 << 32, u64::MAX] {
        all.push(Settings { largest_packet, ..plain });
    }
    for increase in [0, 1, 1 << 20, (1 << 20) + 1, 1 << 32, u64::MAX] {
        all.push(Settings { increase, ..plain });
    }
    let (low, one) = ((1.0f64 / 1024.0).to_bits(), 1.0f64.to_bits());
    let sign = 1u64 << 63;
    let infinity = f64::INFINITY.to_bits();
    let odd =
        [0, 1, sign, low - 1, low, low + 1, one - 1, one, one + 1, one | sign, low | sign, infinity, infinity | sign];
    for bits in odd.into_iter().chain([infinity + 1, f64::NAN.to_bits(), f64::NAN.to_bits() | sign, u64::MAX]) {
        all.push(Settings { gain: f64::from_bits(bits), ..plain });
    }
    all
}

pub fn list() -> List {
    let mut random = Random::new(0x0004);
    let mut list = List::default();
    let mut counts = Counts::new();
    let mut sessions = marked_cases(&mut list, &mut counts);
    for settings in settings_at_the_ends() {
        write_settings(&mut list, 0, &settings);
        list.u8(if settings.in_range() { 0 } else { 10 });
        list.u32(0);
        sessions += 1;
    }
    for round in 0..70 {
        random_session(&mut random, &mut list, &mut counts, true, 90 + round);
        random_session(&mut random, &mut list, &mut counts, false, 30 + round / 2);
        sessions += 2;
    }
    for _ in 0..12 {
        equal_delays(&mut random, &mut list, &mut counts);
    }
    for (first_timeout, count) in [(1, 56), (LAST_TIME, 4), (LAST_TIME, 3), (3, 53), (1_000_000, 35)] {
        timeouts(&mut list, &mut counts, first_timeout, count);
    }
    more_than_kept(&mut list, &mut counts);
    more_equal_than_kept(&mut list, &mut counts);
    to_the_top(&mut list, &mut counts);
    sessions += 12 + 5 + 3;
    report(&mut list, "congestion", sessions, &counts);
    list
}

/// Times and delays out of range and clocks that go back: answer 11. A list of its own, since it asks for a clock.
pub fn clock_list() -> List {
    use Event::{Ack, Loss, Timeout, Transmit};
    let mut list = List::default();
    let mut counts = Counts::new();
    let mut session = Session::new(plain_settings());
    let mut events = vec![
        Transmit { length: 500, now: LAST_TIME + 1 },
        Transmit { length: 500, now: u64::MAX },
        Transmit { length: 500, now: 1_000 },
        Transmit { length: 5_000, now: 2_000 },
        Transmit { length: 500, now: 999 },
        Transmit { length: 5_000, now: 999 },
        Transmit { length: 500, now: 1_000 },
        Ack { packet: 0, delay: LAST_TIME + 1, now: 1_000 },
        Ack { packet: 0, delay: u64::MAX, now: 1_000 },
        Ack { packet: 0, delay: 5, now: 999 },
        Ack { packet: 0, delay: 5, now: LAST_TIME + 1 },
        Timeout,
        Loss { packet: 0 },
        Ack { packet: 0, delay: LAST_TIME, now: 1_500 },
        Transmit { length: 1, now: 1_499 },
        Ack { packet: 1, delay: 5, now: 1_499 },
        Transmit { length: 1, now: LAST_TIME },
        Ack { packet: 1, delay: 5, now: 1_500 },
        Ack { packet: 1, delay: 5, now: LAST_TIME },
        Transmit { length: 1, now: LAST_TIME },
        Ack { packet: 2, delay: 5, now: LAST_TIME },
    ];
    for event in events.drain(..) {
        session.event(event, &mut counts);
    }
    session.close(&mut list);
    report(&mut list, "congestion-clock", 1, &counts);
    list
}

pub fn report(list: &mut List, name: &str, sessions: usize, counts: &Counts) {
    let events: usize = counts.values().sum();
    let agreeing: usize = counts.iter().filter(|((_, source), _)| *source == 0).map(|(_, count)| count).sum();
    list.say(format!("{name}: {sessions} sessions, {events} events, the Rust gave the expected answer in {agreeing}"));
    list.say(format!("  by (event and answer, source) {counts:?}"));
}
