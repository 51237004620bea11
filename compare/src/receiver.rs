//! Receiver sessions: the port, the Rust and document 01 on the same events.

use crate::classes::{Class, Counts};
use crate::model::receiver::{Receiver as Model, Written};
use crate::port::{Fault, Receiver as Port, ReceiverSeen};
use crate::recv::ReceiveBuffer;
use crate::tools::{panics, Random};

#[derive(Clone, Debug)]
pub enum Event {
    Write(u16, Vec<u8>),
    Read(usize),
    /// The SACK, into so much room.
    Ack(usize),
    Ask(u16),
    /// A write, and a read, with a buffer that is one byte short.
    Short(u16, Vec<u8>),
    /// So many writes in a row of the next number, each with an empty payload.
    Run(u16),
}

#[derive(Clone, Debug)]
pub struct Session {
    pub length: usize,
    pub initial: u16,
    pub events: Vec<Event>,
}

/// The Rust's receiver of any length.
trait Rust {
    fn write_panics(&mut self, number: u16, payload: &[u8], keep: bool) -> bool;
    fn read(&mut self, out: &mut [u8]) -> usize;
    fn sack(&self) -> Vec<u8>;
    fn was_written(&self, number: u16) -> bool;
    fn inside(&self) -> (usize, usize, usize, u16, u16, u16, bool);
}

impl<const N: usize> Rust for ReceiveBuffer<N> {
    /// `keep` is false where document 01 refuses: the Rust then goes on as it was.
    fn write_panics(&mut self, number: u16, payload: &[u8], keep: bool) -> bool {
        if keep {
            return panics(|| self.write(payload, number));
        }
        let mut copy = self.clone();
        panics(|| copy.write(payload, number))
    }

    fn read(&mut self, out: &mut [u8]) -> usize {
        ReceiveBuffer::read(self, out).expect("the Rust's read has no error")
    }

    fn sack(&self) -> Vec<u8> {
        self.selective_ack().map_or(vec![], |sack| sack.encode())
    }

    fn was_written(&self, number: u16) -> bool {
        ReceiveBuffer::was_written(self, number)
    }

    fn inside(&self) -> (usize, usize, usize, u16, u16, u16, bool) {
        let (ready, waiting, c) = ReceiveBuffer::inside(self);
        (self.available(), ready, waiting, c, self.ack_num(), self.init_seq_num(), self.is_empty())
    }
}

const LENGTHS: [usize; 10] = [1, 2, 4, 7, 64, 100, 1_024, 1_500, 4_096, 65_536];

fn rust_of(length: usize, initial: u16) -> Option<Box<dyn Rust>> {
    Some(match length {
        1 => Box::new(ReceiveBuffer::<1>::new(initial)),
        2 => Box::new(ReceiveBuffer::<2>::new(initial)),
        4 => Box::new(ReceiveBuffer::<4>::new(initial)),
        7 => Box::new(ReceiveBuffer::<7>::new(initial)),
        64 => Box::new(ReceiveBuffer::<64>::new(initial)),
        100 => Box::new(ReceiveBuffer::<100>::new(initial)),
        1_024 => Box::new(ReceiveBuffer::<1_024>::new(initial)),
        1_500 => Box::new(ReceiveBuffer::<1_500>::new(initial)),
        4_096 => Box::new(ReceiveBuffer::<4_096>::new(initial)),
        65_536 => Box::new(ReceiveBuffer::<65_536>::new(initial)),
        _ => return None,
    })
}

fn same<T: PartialEq + std::fmt::Debug>(what: &str, told: T, wanted: T) -> Result<(), Fault> {
    if told == wanted {
        Ok(())
    } else {
        Err(format!("{what}: {told:?}, wanted {wanted:?}"))
    }
}

pub fn seen_of(model: &Model) -> ReceiverSeen {
    ReceiverSeen {
        available: model.available() as u64,
        is_empty: model.is_empty(),
        initial: model.initial.into(),
        ack_num: model.ack_number().into(),
        count: model.c.into(),
        ready: model.ready.len() as u64,
        waiting: model.waiting.len() as u64,
        waiting_bytes: model.waiting_bytes() as u64,
    }
}

/// The state's own fields, and its buffer's bytes.
pub fn same_state(port: &mut Port, model: &Model) -> Result<(), Fault> {
    let recv = *port.recv();
    same("initial", recv.initial, model.initial)?;
    same("length", recv.length as usize, model.length)?;
    same("count", recv.count, model.c)?;
    same("ready", recv.ready as usize, model.ready.len())?;
    let span = model.waiting.last_key_value().map_or(0, |(furthest, _)| furthest - model.c);
    same("span", recv.span, span)?;
    for place in 0..span {
        let waits = model.waiting.get(&(model.c + 1 + place)).map_or(0, |payload| payload.len() as u32 + 1);
        same("waiting", recv.waiting[place as usize], waits)?;
    }
    let held: Vec<u8> = model.ready.iter().copied().chain(model.waiting.values().flatten().copied()).collect();
    same("held bytes", &port.buf()[..held.len()], &held[..])?;
    same("spare bytes are the old ones", port.spare_untouched(held.len()), true)
}

struct Pair {
    model: Model,
    rust: Option<Box<dyn Rust>>,
}

impl Pair {
    fn write(&mut self, port: &mut Port, number: u16, payload: &[u8], counts: &mut Counts) -> Result<(), Fault> {
        same("was written", port.was_written(number)?, Ok(self.model.was_written(number)))?;
        let answer = self.model.write(number, payload);
        let wanted = if let Written::Refused(number) = answer { number } else { 0 };
        same("write", port.write(number, payload, false)?, wanted)?;
        counts.answered("write", wanted);
        let Some(rust) = &mut self.rust else { return Ok(()) };
        let panicked = rust.write_panics(number, payload, wanted == 0);
        match (wanted, panicked) {
            (0, false) => {}
            (15, _) => counts.met(Class::PastLimit),
            (16, _) => counts.met(Class::FarAhead),
            (17, true) => counts.met(Class::NoRoom),
            _ => return Err(format!("write of {number}: {wanted}, the Rust panicked: {panicked}: not listed")),
        }
        Ok(())
    }

    /// The Rust departs exactly where numbers wait on both sides of the wrap.
    fn ack(&mut self, port: &mut Port, room: usize, counts: &mut Counts) -> Result<(), Fault> {
        let sack = self.model.sack();
        let fits = sack.len() <= room;
        same("SACK", port.selective_ack(room)?, if fits { Ok(sack.clone()) } else { Err(9) })?;
        counts.answered("selective_ack", if fits { 0 } else { 9 });
        let Some(rust) = &self.rust else { return Ok(()) };
        let next = self.model.ack_number().wrapping_add(1);
        let before = self.model.waiting.keys().map(|offset| self.model.initial.wrapping_add(*offset as u16) < next);
        let straddles = before.clone().any(|it| it) && before.clone().any(|it| !it);
        match (rust.sack() == sack, straddles) {
            (true, false) => {}
            (false, true) => counts.met(Class::NumericOrder),
            (same, _) => return Err(format!("SACK {sack:02x?}, the Rust's the same: {same}: not listed")),
        }
        if !fits {
            counts.met(Class::OutputRoom);
        }
        Ok(())
    }

    fn event(&mut self, port: &mut Port, event: &Event, counts: &mut Counts) -> Result<(), Fault> {
        match event {
            Event::Write(number, payload) => self.write(port, *number, payload, counts)?,
            Event::Read(output) => {
                let wanted = self.model.read(*output);
                same("read", port.read(*output, false)?, Ok(wanted.clone()))?;
                counts.answered("read", 0);
                if let Some(rust) = &mut self.rust {
                    let mut out = vec![0xEE; *output];
                    let count = rust.read(&mut out);
                    same("the Rust's read", &out[..count], &wanted[..])?;
                }
            }
            Event::Ack(room) => self.ack(port, *room, counts)?,
            Event::Ask(number) => {
                let wanted = self.model.was_written(*number);
                same("was written", port.was_written(*number)?, Ok(wanted))?;
                if let Some(rust) = &self.rust {
                    same("the Rust's was_written", rust.was_written(*number), wanted)?;
                }
            }
            Event::Short(number, payload) => {
                same("write into a short buffer", port.write(*number, payload, true)?, 18)?;
                same("read from a short buffer", port.read(payload.len(), true)?, Err(18))?;
                counts.answered("write", 18);
                counts.answered("read", 18);
            }
            Event::Run(count) => {
                for _ in 0..*count {
                    self.write(port, self.model.ack_number().wrapping_add(1), &[], counts)?;
                }
            }
        }
        same_state(port, &self.model)?;
        same("seen", port.seen()?, Ok(seen_of(&self.model)))?;
        if let Some(rust) = &self.rust {
            let model = &self.model;
            let wanted = (
                model.available(),
                model.ready.len(),
                model.waiting_bytes(),
                model.c as u16,
                model.ack_number(),
                model.initial,
                model.is_empty(),
            );
            same("the Rust", rust.inside(), wanted)?;
        }
        Ok(())
    }
}

fn model_of(session: &Session) -> Result<Model, u8> {
    Model::new(u32::try_from(session.length).unwrap_or(u32::MAX), session.initial)
}

pub fn play(port: &mut Port, session: &Session, counts: &mut Counts) -> Result<(), Fault> {
    let made = model_of(session);
    let answer = *made.as_ref().err().unwrap_or(&0);
    same("new", port.start(session.initial, session.length)?, answer)?;
    counts.answered("recv_new", answer);
    let Ok(model) = made else {
        counts.met(Class::BufferLength);
        return Ok(());
    };
    let mut pair = Pair { model, rust: rust_of(session.length, session.initial) };
    for (place, event) in session.events.iter().enumerate() {
        pair.event(port, event, counts).map_err(|fault| format!("event {place}: {fault}"))?;
    }
    let rest = pair.model.read(65_536);
    same("what is left", port.read(65_536, false)?, Ok(rest))
}

// ---- sessions at random

fn offset(random: &mut Random, style: u64, width: u64, c: u32) -> u32 {
    let far = match style {
        0 => random.pick(&[1, 1, 1, 1, 1, 1, 2, 3]),
        1 if random.chance(1, 4) => 1,
        1 => random.between(1, width) as u32,
        _ => random.pick(&[1, 1, 2, 3, 9, 10, 17, 32, 33, 34, 35, 65, 66, 97, 98, 255, 256, 257, 258, 300, 40_000]),
    };
    match random.below(60) {
        0 => 0,
        1 => c,
        2 => c.saturating_sub(random.below(5) as u32),
        3 => 60_000,
        4 => 60_001,
        5 => 65_535,
        6 => c + 257,
        _ => (c + far) % 65_536,
    }
}

pub fn session(random: &mut Random) -> Session {
    let length = match random.below(40) {
        0 => random.pick(&[0, 65_537, 1 << 20, 65_536, usize::MAX, (1 << 32) + 64]),
        1 => random.between(1, 3_000) as usize,
        _ => random.pick(&LENGTHS),
    };
    let anywhere = random.next() as u16;
    let initial = random.pick(&[0, 65_535, 65_300, 65_500, anywhere, anywhere]);
    let mut session = Session { length, initial, events: Vec::new() };
    let Ok(mut model) = model_of(&session) else { return session };
    let (style, width) = (random.below(3), random.pick(&[4, 20, 64, 256]));
    let usual = random.pick(&[1, length / 16 + 1, length / 3 + 1, 40]).min(4_000);
    if random.chance(1, 100) {
        session.events.push(Event::Run(random.pick(&[300, 59_700, 59_990])));
    }
    let count = random.pick(&[5, 20, 60, 120, 300]);
    for place in 0..count {
        if place == 0 {
            if let Some(Event::Run(run)) = session.events.first() {
                model.c = u32::from(*run);
            }
        }
        let event = match random.below(100) {
            0..=62 => {
                let number = initial.wrapping_add(offset(random, style, width, model.c) as u16);
                let fewer = random.below(usual as u64 + 1) as usize;
                let length = random.pick(&[0, 1, usual, fewer, length.min(5_000), usual]);
                let length = length + usize::from(random.chance(1, 20));
                let payload = random.bytes(length);
                model.write(number, &payload);
                Event::Write(number, payload)
            }
            63..=76 => {
                let output = random.pick(&[0, 1, 2, 3, 7, 16, 64, 100, 2_000, 65_536]);
                model.read(output);
                Event::Read(output)
            }
            77..=88 => Event::Ack(random.pick(&[32, 32, 32, 32, 64, 0, 3, 4, 8, 31])),
            89 => Event::Short(random.next() as u16, random.bytes(3)),
            _ => Event::Ask(model.ack_number().wrapping_add(random.below(300) as u16).wrapping_sub(20)),
        };
        session.events.push(event);
    }
    session
}
