//! List 3: sessions of `ReceiveBuffer`.

use crate::model::receiver::{Receiver, Written};
use crate::recv::ReceiveBuffer;
use crate::tools::{panics, List, Random, Source};
use std::collections::BTreeMap;

/// What happens to a receiver.
#[derive(Clone, Debug)]
enum Event {
    Write(u16, Vec<u8>),
    Read(usize),
    Ack(usize),
    Ask(u16),
    /// The next so many numbers in order, each with an empty payload.
    Run(u16),
}

struct Pair<const N: usize> {
    model: Receiver,
    rust: ReceiveBuffer<N>,
}

/// Events and those of them in which the Rust gave the expected answer, by source.
type Counts = BTreeMap<(&'static str, u8), usize>;

impl<const N: usize> Pair<N> {
    fn new(initial: u16) -> Self {
        let model = Receiver::new(N as u32, initial).expect("a length in range");
        Pair { model, rust: ReceiveBuffer::new(initial) }
    }

    /// The two hold the same.
    fn agree(&self) {
        let (model, rust) = (&self.model, &self.rust);
        let (ready, waiting, c) = rust.inside();
        assert_eq!((model.ready.len(), model.waiting_bytes(), model.c), (ready, waiting, u32::from(c)));
        assert_eq!(model.available(), rust.available());
        assert_eq!(model.is_empty(), rust.is_empty());
        assert_eq!(model.ack_number(), rust.ack_num());
        assert_eq!(model.initial, rust.init_seq_num());
    }

    fn write(&mut self, number: u16, payload: &[u8]) -> (Written, Source) {
        assert_eq!(self.model.was_written(number), self.rust.was_written(number));
        let answer = self.model.write(number, payload);
        let mut copy = self.rust.clone();
        let panicked = panics(|| copy.write(payload, number));
        let source = match answer {
            // The Rust has no 15 and no 16: it stores, unless there is no room. It is left as it was.
            Written::Refused(15 | 16) if panicked => Source::Panic,
            Written::Refused(15 | 16) => Source::Document,
            Written::Refused(17) => {
                assert!(panicked, "no room, and the Rust did not panic");
                Source::Panic
            }
            _ => {
                assert!(!panicked, "the Rust panicked on {number}");
                self.rust = copy;
                Source::Rust
            }
        };
        (answer, source)
    }

    fn sack(&self) -> (Vec<u8>, Source) {
        let expected = self.model.sack();
        let rust = self.rust.selective_ack().map_or(vec![], |sack| sack.encode());
        let next = self.model.ack_number().wrapping_add(1);
        let numbers: Vec<u16> =
            self.model.waiting.keys().map(|offset| self.model.initial.wrapping_add(*offset as u16)).collect();
        let straddles = numbers.iter().any(|number| *number < next) && numbers.iter().any(|number| *number >= next);
        if straddles {
            assert_ne!(expected, rust, "numeric order, and yet the same SACK");
            (expected, Source::Document)
        } else {
            assert_eq!(expected, rust, "SACK");
            (expected, Source::Rust)
        }
    }

    fn event(&mut self, event: &Event, list: &mut List, counts: &mut Counts) {
        let (name, source) = match event {
            Event::Write(number, payload) => {
                let (answer, source) = self.write(*number, payload);
                list.u8(1);
                list.u16(*number);
                list.counted(payload);
                let (value, name) = match answer {
                    Written::Stored => (0, "stored"),
                    Written::Already => (0, "already there"),
                    Written::Refused(15) => (15, "15"),
                    Written::Refused(16) => (16, "16"),
                    Written::Refused(number) => (number, "17"),
                };
                list.u8(value);
                list.u8(source as u8);
                list.u8(u8::from(answer == Written::Already));
                list.u32(self.model.available() as u32);
                (name, source)
            }
            Event::Read(output) => {
                let expected = self.model.read(*output);
                let mut room = vec![0xEE; *output];
                let count = self.rust.read(&mut room).expect("the Rust's read has no error");
                assert_eq!(expected, room[..count], "read");
                assert!(room[count..].iter().all(|byte| *byte == 0xEE), "output past the bytes read");
                list.u8(2);
                list.u32(*output as u32);
                list.u8(0);
                list.u8(0);
                list.u32(count as u32);
                list.bytes.extend(&expected);
                list.u32(self.model.available() as u32);
                ("read", Source::Rust)
            }
            Event::Ack(room) => {
                let (sack, source) = self.sack();
                let fits = sack.len() <= *room;
                // The Rust has no room to write to, so no 9.
                let source = if fits { source } else { Source::Document };
                list.u8(3);
                list.u16(*room as u16);
                list.u8(if fits { 0 } else { 9 });
                list.u8(source as u8);
                list.u16(self.model.ack_number());
                list.counted(if fits { &sack } else { &[] });
                (if fits { "ack" } else { "9" }, source)
            }
            Event::Ask(number) => {
                assert_eq!(self.model.was_written(*number), self.rust.was_written(*number));
                list.u8(4);
                list.u16(*number);
                list.u8(0);
                list.u8(0);
                list.u8(u8::from(self.model.was_written(*number)));
                list.u8(u8::from(self.model.is_empty()));
                list.u32(self.model.available() as u32);
                list.u32(self.model.ready.len() as u32);
                list.u32(self.model.waiting_bytes() as u32);
                list.u16(self.model.waiting.len() as u16);
                list.u16(self.model.c as u16);
                ("ask", Source::Rust)
            }
            Event::Run(count) => {
                for _ in 0..*count {
                    let number = self.model.ack_number().wrapping_add(1);
                    let (answer, source) = self.write(number, &[]);
                    assert_eq!((answer, source), (Written::Stored, Source::Rust));
                }
                list.u8(5);
                list.u16(*count);
                list.u8(0);
                list.u8(0);
                list.u16(self.model.c as u16);
                ("run", Source::Rust)
            }
        };
        *counts.entry((name, source as u8)).or_default() += 1;
        self.agree();
    }
}

fn session_head(list: &mut List, length: u32, initial: u16, answer: u8, events: u32) {
    list.u32(length);
    list.u16(initial);
    list.u8(answer);
    list.u32(events);
}

/// How a session picks the offsets it writes.
#[derive(Copy, Clone)]
enum Order {
    InOrder,
    Shuffled(u64),
    Edges,
}

fn pick_offset(random: &mut Random, order: Order, c: u32) -> u32 {
    let far = match order {
        Order::InOrder => random.pick(&[1, 1, 1, 1, 1, 1, 2, 3]),
        Order::Shuffled(width) => {
            if random.chance(1, 4) {
                1
            } else {
                random.between(1, width) as u32
            }
        }
        Order::Edges => random
            .pick(&[1, 1, 2, 3, 9, 10, 17, 32, 33, 34, 35, 65, 66, 97, 98, 255, 256, 257, 258, 300, 30_000, 40_000]),
    };
    match random.below(60) {
        0 => 0,
        1 => c,
        2 => c.saturating_sub(random.below(5) as u32),
        3 => 60_000,
        4 => 60_001,
        5 => 65_535,
        6 => c + 257,
        _ => (c + far) % 65_536,
    }
}

fn pick_length(random: &mut Random, buffer: usize) -> usize {
    match buffer {
        1 => random.pick(&[0, 0, 1, 1, 2]),
        4 => random.pick(&[0, 1, 1, 2, 3, 4, 5]),
        64 => random.pick(&[0, 1, 2, 5, 8, 13, 30, 64, 65]),
        1024 => random.pick(&[0, 1, 4, 9, 16, 25, 40, 40, 200]),
        _ => random.pick(&[0, 1, 2, 3, 10, 20, 40]),
    }
}

fn random_session<const N: usize>(
    random: &mut Random,
    list: &mut List,
    counts: &mut Counts,
    initial: u16,
    order: Order,
    events: usize,
) {
    session_head(list, N as u32, initial, 0, events as u32);
    let mut pair = Pair::<N>::new(initial);
    for _ in 0..events {
        let event = match random.below(100) {
            0..=64 => {
                let offset = pick_offset(random, order, pair.model.c);
                let length = pick_length(random, N);
                Event::Write(initial.wrapping_add(offset as u16), random.bytes(length))
            }
            65..=76 => Event::Read(random.pick(&[0, 1, 2, 3, 7, 16, 64, 100, 2000])),
            77..=88 => Event::Ack(random.pick(&[32, 32, 32, 32, 64, 0, 3, 4, 8, 31])),
            _ => {
                let near = random.between(0, 300) as u16;
                Event::Ask(pair.model.ack_number().wrapping_add(near).wrapping_sub(20))
            }
        };
        pair.event(&event, list, counts);
    }
}

fn given_session<const N: usize>(list: &mut List, counts: &mut Counts, initial: u16, events: &[Event]) {
    session_head(list, N as u32, initial, 0, events.len() as u32);
    let mut pair = Pair::<N>::new(initial);
    for event in events {
        pair.event(event, list, counts);
    }
}

/// The marked cases, and corners that chance does not reach.
fn chosen_sessions(list: &mut List, counts: &mut Counts, random: &mut Random) -> usize {
    use Event::{Ack, Ask, Read, Run, Write};
    let byte = |number: u16| Write(number, vec![number as u8]);
    // R1, R2.
    let mut events = vec![byte(65_535), byte(0), Ack(32), byte(65_534), Ack(32), Read(8), Ask(0)];
    given_session::<64>(list, counts, 65_533, &events);
    // The furthest that is allowed, from each side of the wrap; every bit of a SACK alone.
    for initial in [0, 65_279, 65_400, 65_535] {
        events.clear();
        for far in [2, 33, 34, 65, 66, 97, 98, 129, 161, 193, 225, 226, 255, 256, 257] {
            events.extend([byte(u16::wrapping_add(initial, far)), Ack(32), Ask(initial.wrapping_add(far))]);
        }
        events.extend([byte(initial.wrapping_add(1)), Ack(32), Read(300), Ack(0)]);
        given_session::<65_536>(list, counts, initial, &events);
    }
    // Backward from the furthest, then the one that was missing.
    events.clear();
    for far in (1..=256).rev() {
        events.push(byte(u16::wrapping_add(65_300, far)));
        if far % 16 == 0 || far < 4 {
            events.push(Ack(32));
        }
    }
    events.extend([Ask(65_300), Read(100), Read(200), Read(1), Ask(20)]);
    given_session::<1024>(list, counts, 65_300, &events);
    // Room: filled exactly, over by one, freed by a read and used again, with something waiting.
    let of = |number: u16, count: usize| Write(number, vec![number as u8; count]);
    events = vec![
        of(1, 4),
        of(2, 1),
        of(2, 0),
        Ask(2),
        Read(1),
        of(3, 2),
        of(3, 1),
        Ack(4),
        Read(9),
        Ask(3),
        of(5, 3),
        of(4, 2),
        of(4, 1),
        Ack(4),
        Read(2),
        Read(2),
        Read(2),
        Ask(5),
        of(7, 0),
        of(8, 0),
        Ack(4),
        of(6, 0),
        Ack(4),
        Ask(8),
    ];
    given_session::<4>(list, counts, 0, &events);
    // A buffer of one byte: a byte that waits holds up the one before it, which has no room.
    events = vec![of(2, 1), of(1, 1), Ack(4), of(1, 0), Ack(4), Read(1), Ask(2), of(3, 2), of(3, 1), Read(0), Read(1)];
    given_session::<1>(list, counts, 0, &events);
    // 64 KiB filled to the last byte by large payloads.
    events.clear();
    for number in [2, 3, 1] {
        events.push(Write(number, random.bytes(20_000)));
    }
    events.extend([
        of(4, 5_537),
        of(4, 5_536),
        Ask(4),
        of(5, 1),
        Ack(32),
        Read(30_000),
        of(6, 30_000),
        of(5, 1),
        of(5, 0),
    ]);
    events.extend([Read(65_536), Ask(6), Read(1)]);
    given_session::<65_536>(list, counts, 0, &events);
    // To the end of the numbers that a receiver takes.
    let at = |offset: u32| 40_000u16.wrapping_add(offset as u16);
    events = vec![Run(59_740), Ask(at(59_740))];
    events.extend([59_742, 59_996, 59_997, 60_000, 60_001, 65_535, 0, 1].map(|offset| byte(at(offset))));
    events.extend([Ack(32), Run(1), Ack(32), Ask(at(60_000))]);
    events.extend([
        Run(100),
        byte(at(60_000)),
        byte(at(60_001)),
        Ack(32),
        byte(at(59_843)),
        Ack(32),
        Run(152),
        Ack(32),
    ]);
    events.extend([
        Ask(at(59_995)),
        Run(1),
        Ask(at(59_998)),
        Run(2),
        Ask(at(60_000)),
        Ack(32),
        byte(at(60_001)),
        byte(at(60_000)),
    ]);
    events.extend([Read(100), byte(at(60_257)), byte(at(65_535)), Ask(at(60_001))]);
    given_session::<64>(list, counts, 40_000, &events);
    // Lengths that are refused.
    for length in [0, 65_537, u32::MAX] {
        session_head(list, length, 7, 10, 0);
    }
    1 + 4 + 1 + 1 + 1 + 1 + 1 + 3
}

pub fn list() -> List {
    let mut random = Random::new(0x0003);
    let mut list = List::default();
    let mut counts = Counts::new();
    let mut sessions = chosen_sessions(&mut list, &mut counts, &mut random);
    let initials = [0, 1, 100, 32_767, 65_300, 65_500, 65_533, 65_534, 65_535, 5_535, 5_536];
    let orders = [
        Order::InOrder,
        Order::Shuffled(3),
        Order::Shuffled(12),
        Order::Shuffled(40),
        Order::Shuffled(256),
        Order::Edges,
    ];
    for round in 0..42 {
        let order = orders[round % orders.len()];
        let events = 60 + 20 * (round % 5);
        for buffer in [1, 4, 64, 1024, 65_536] {
            let initial = if random.chance(1, 4) { random.next() as u16 } else { random.pick(&initials) };
            let run = match buffer {
                1 => random_session::<1>,
                4 => random_session::<4>,
                64 => random_session::<64>,
                1024 => random_session::<1024>,
                _ => random_session::<65_536>,
            };
            run(&mut random, &mut list, &mut counts, initial, order, events);
            sessions += 1;
        }
    }
    list.say(format!("recv: {sessions} sessions, {} events", counts.values().sum::<usize>()));
    list.say(format!("  by (kind, source) {counts:?}"));
    list
}
