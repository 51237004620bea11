//! The port's functions over lent memory: each call is held to what is said of every call. Its answer is a number of document
//! 01; what is only read does not change; after a refusal nothing did; and nothing was touched beside what was lent.

use crate::lent::Lent;
use crate::model::codec::{Parts, Read};
use crate::model::controller::Settings;
use crate::raw::{self, Header, Numbers, Packet, Recv, Sent};
use std::mem::{offset_of, size_of};

/// What is wrong, in words.
pub type Fault = String;

/// A value that no call leaves by chance.
const UNTOLD: u64 = 0xDEAD_BEEF_0BAD_CAFE;

pub struct Port {
    packet: Lent,
    datagram: Lent,
    header: Lent,
    sack: Lent,
    payload: Lent,
    room: Lent,
    values: [Lent; 3],
    front: bool,
    /// A fault planted on purpose, so that it can be seen that faults are found.
    planted: Option<String>,
}

/// The bytes of a plain value.
pub fn bytes_of<T: Copy>(value: &T) -> &[u8] {
    unsafe { std::slice::from_raw_parts((value as *const T).cast(), size_of::<T>()) }
}

/// The padding between the fields of a tracker, of a receiver and of a packet that was read, as (place, length). It is no part of
/// a value, and may hold anything.
fn tracker_padding() -> Vec<(usize, usize)> {
    vec![(2, 2), (offset_of!(Sent, numbers) + offset_of!(Numbers, in_flight) + 4, 4)]
}

fn receiver_padding() -> Vec<(usize, usize)> {
    vec![(2, 2)]
}

fn packet_padding() -> Vec<(usize, usize)> {
    vec![(1, 1), (20, 4)]
}

/// Nothing, where two blocks are the same but for padding; else what differs.
fn unchanged(
    what: &str,
    answer: u32,
    now: &[u8],
    before: &[u8],
    padding: fn() -> Vec<(usize, usize)>,
) -> Result<(), Fault> {
    if now == before {
        return Ok(());
    }
    let gaps = padding();
    let is_field = |at: &usize| !gaps.iter().any(|(from, count)| (*from..from + count).contains(at));
    let differ: Vec<String> = (0..before.len())
        .filter(|at| now[*at] != before[*at])
        .filter(is_field)
        .take(8)
        .map(|at| format!("{at}: {:02x} became {:02x}", before[at], now[at]))
        .collect();
    check(differ.is_empty(), || format!("{answer}, and {what} was changed (byte {})", differ.join(", ")))
}

fn check(holds: bool, fault: impl FnOnce() -> Fault) -> Result<(), Fault> {
    if holds {
        Ok(())
    } else {
        Err(fault())
    }
}

impl Port {
    pub fn new() -> Self {
        let longest = 70_000;
        Port {
            packet: Lent::new(56),
            datagram: Lent::new(longest),
            header: Lent::new(20),
            sack: Lent::new(longest),
            payload: Lent::new(longest),
            room: Lent::new(2 * longest),
            values: [Lent::new(8), Lent::new(8), Lent::new(8)],
            front: false,
            planted: std::env::var("COMPARE_PLANT").ok(),
        }
    }

    fn is_planted(&self, name: &str) -> bool {
        self.planted.as_deref() == Some(name)
    }

    fn turn(&mut self) {
        self.front = !self.front;
    }

    fn value(&mut self, place: usize) -> *mut u64 {
        self.values[place].with(&UNTOLD.to_ne_bytes(), self.front).cast()
    }

    fn told(&mut self, place: usize) -> u64 {
        u64::from_ne_bytes(self.values[place].bytes().try_into().expect("eight bytes"))
    }

    /// The values told by a call that answered `answer`: told where it is 0, else left.
    fn values(&mut self, count: usize, answer: u32) -> Result<[u64; 3], Fault> {
        let mut told = [0; 3];
        for place in 0..count {
            told[place] = self.told(place);
            check(self.values[place].beside_untouched(), || format!("memory beside value {place} was written"))?;
            check(answer == 0 || told[place] == UNTOLD, || format!("{answer}, and value {place} was written"))?;
        }
        Ok(told)
    }

    pub fn decode(&mut self, datagram: &[u8]) -> Result<Result<Read, u8>, Fault> {
        self.turn();
        let old = [0xA7; 56];
        let packet = self.packet.with(&old, self.front).cast::<Packet>();
        let place = self.datagram.with(datagram, self.front);
        let answer = unsafe { raw::ribsaddle_decode(packet, place, datagram.len()) };
        check(self.datagram.bytes() == datagram, || "the datagram was changed".into())?;
        check(self.datagram.beside_untouched() && self.packet.beside_untouched(), || {
            "memory beside was written".into()
        })?;
        if answer != 0 {
            check(answer <= 7, || format!("decode answers {answer}"))?;
            unchanged("the packet", answer, self.packet.bytes(), &old, packet_padding)?;
            return Ok(Err(answer as u8));
        }
        let mut read: Packet = unsafe { packet.read() };
        if self.is_planted("decode") && read.header.seq_num == 0x4141 {
            read.payload_len ^= 1;
        }
        let header = read.header;
        Ok(Ok(Read {
            parts: Parts {
                kind: header.packet_type,
                connection: header.conn_id,
                timestamp: header.ts_micros,
                difference: header.ts_diff_micros,
                window: header.window_size,
                sequence: header.seq_num,
                ack: header.ack_num,
            },
            sack: (read.sack_at, read.sack_len),
            payload: (read.payload_at, read.payload_len),
        }))
    }

    pub fn encode(
        &mut self,
        parts: &Parts,
        sack: &[u8],
        payload: &[u8],
        room: usize,
    ) -> Result<Result<Vec<u8>, u8>, Fault> {
        self.turn();
        let header = Header {
            packet_type: parts.kind,
            conn_id: parts.connection,
            ts_micros: parts.timestamp,
            ts_diff_micros: parts.difference,
            window_size: parts.window,
            seq_num: parts.sequence,
            ack_num: parts.ack,
        };
        let front = self.front;
        let head = self.header.place(20, front).cast::<Header>();
        unsafe { head.write(header) };
        let before = self.header.bytes().to_vec();
        let (sack_at, payload_at) = (self.sack.with(sack, front), self.payload.with(payload, front));
        let room_at = self.room.place(room, front);
        self.room.bytes().fill(0x9B);
        let size = self.value(0);
        let answer =
            unsafe { raw::ribsaddle_encode(head, sack_at, sack.len(), payload_at, payload.len(), room_at, room, size) };
        check(self.sack.bytes() == sack && self.payload.bytes() == payload, || "SACK or payload was changed".into())?;
        check(*self.header.bytes() == before, || "the header was changed".into())?;
        for lent in [&mut self.sack, &mut self.payload, &mut self.room, &mut self.header] {
            check(lent.beside_untouched(), || "memory beside was written".into())?;
        }
        let [size, ..] = self.values(1, answer)?;
        if self.is_planted("encode") && answer == 0 && parts.sequence % 64 == 1 {
            *self.room.bytes().last_mut().expect("room") ^= 1;
        }
        if answer != 0 {
            check([2, 5, 6, 7, 8, 9].contains(&answer), || format!("encode answers {answer}"))?;
            check(self.room.bytes().iter().all(|byte| *byte == 0x9B), || {
                format!("{answer}, and the room was written")
            })?;
            return Ok(Err(answer as u8));
        }
        let size = size as usize;
        check(size <= room, || format!("size {size} in a room of {room}"))?;
        check(self.room.bytes()[size..].iter().all(|byte| *byte == 0x9B), || {
            "the room past the packet was written".into()
        })?;
        Ok(Ok(self.room.bytes()[..size].to_vec()))
    }
}

/// The tracker behind a pointer.
pub struct Tracker {
    state: Lent,
    sack: Lent,
    port: Port,
    before: Vec<u8>,
}

/// What the readers tell.
#[derive(Clone, Debug, PartialEq, Eq)]
pub struct TrackerSeen {
    pub timeout: u64,
    pub window: u64,
    pub in_flight: u64,
    pub maximum: u64,
    pub ack_num: u64,
    pub next: u64,
    pub unacked: bool,
    pub range: (u64, u64),
    pub lost: Vec<(u16, u8, u32)>,
}

impl Tracker {
    pub fn new() -> Self {
        let (state, sack) = (Lent::new(size_of::<Sent>()), Lent::new(70_000));
        Tracker { state, sack, port: Port::new(), before: Vec::new() }
    }

    /// The state where it now stands.
    fn at(&mut self) -> *mut Sent {
        self.state.bytes().as_mut_ptr().cast()
    }

    pub fn sent(&mut self) -> &Sent {
        unsafe { &*self.at() }
    }

    /// Puts any bytes there as a state.
    pub fn set(&mut self, bytes: &[u8]) {
        self.port.turn();
        self.state.with(bytes, self.port.front);
    }

    pub fn bytes(&mut self) -> &[u8] {
        self.state.bytes()
    }

    fn ready(&mut self) {
        let Tracker { before, state, .. } = self;
        before.clear();
        before.extend_from_slice(state.bytes());
    }

    /// What is said of every call, of one that may answer the numbers given.
    fn called(&mut self, answer: u32, may: &[u32], reads: bool) -> Result<u8, Fault> {
        check(answer == 0 || may.contains(&answer), || format!("answers {answer}"))?;
        check(self.state.beside_untouched(), || "memory beside the state was written".into())?;
        if answer != 0 || reads {
            unchanged("the state", answer, self.state.bytes(), &self.before, tracker_padding)?;
        }
        Ok(answer as u8)
    }

    pub fn start(&mut self, initial: u16, s: &Settings) -> Result<u8, Fault> {
        self.set(&vec![0xA7; size_of::<Sent>()]);
        self.ready();
        let answer = unsafe {
            raw::ribsaddle_sent_new(
                self.at(),
                initial,
                s.target,
                s.first_timeout,
                s.minimum_timeout,
                s.largest_packet,
                s.increase,
                s.delay_window,
                s.gain,
            )
        };
        self.called(answer, &[10], false)
    }

    pub fn transmit(&mut self, number: u16, kind: u8, tag: u32, length: u32, now: u64) -> Result<u8, Fault> {
        self.ready();
        let answer = unsafe { raw::ribsaddle_sent_transmit(self.at(), number, kind, tag, length, now) };
        self.called(answer, &[19, 2, 11, 12, 13, 14, 15], false)
    }

    pub fn ack(&mut self, number: u16, sack: &[u8], delay: u64, now: u64) -> Result<u8, Fault> {
        self.ready();
        let place = self.sack.with(sack, self.port.front);
        let answer = unsafe { raw::ribsaddle_sent_ack(self.at(), number, place, sack.len(), delay, now) };
        check(self.sack.bytes() == sack && self.sack.beside_untouched(), || "the SACK was changed".into())?;
        if self.port.is_planted("tracker") && answer == 0 && self.sent().count > 9 {
            unsafe { (*self.at()).numbers.variance += 1 };
        }
        self.called(answer, &[19, 5, 6, 8, 11, 12], false)
    }

    pub fn timeout(&mut self) -> Result<u8, Fault> {
        self.ready();
        let answer = unsafe { raw::ribsaddle_sent_on_timeout(self.at()) };
        self.called(answer, &[19], false)
    }

    pub fn sound(&mut self) -> Result<u8, Fault> {
        self.ready();
        let answer = unsafe { raw::ribsaddle_sent_sound(self.at()) };
        self.called(answer, &[19], true)
    }

    pub fn lost_at(&mut self, position: u32) -> Result<Result<(u16, u8, u32), u8>, Fault> {
        self.ready();
        let (number, kind, tag) = (self.port.value(0), self.port.value(1), self.port.value(2));
        let answer = unsafe { raw::ribsaddle_sent_lost_at(self.at(), position, number, kind, tag) };
        let answer = self.called(answer, &[19, 12], true)?;
        let [number, kind, tag] = self.port.values(3, answer.into())?;
        if answer != 0 {
            return Ok(Err(answer));
        }
        check(number < 65_536 && kind < 5 && tag < 1 << 32, || format!("lost: {number} {kind} {tag}"))?;
        Ok(Ok((number as u16, kind as u8, tag as u32)))
    }

    fn told(&mut self, reader: unsafe extern "C" fn(*const Sent, *mut u64) -> u32) -> Result<Result<u64, u8>, Fault> {
        let value = self.port.value(0);
        let answer = unsafe { reader(self.at(), value) };
        let answer = self.called(answer, &[19], true)?;
        let [told, ..] = self.port.values(1, answer.into())?;
        Ok(if answer == 0 { Ok(told) } else { Err(answer) })
    }

    /// Everything that can be asked; 19 where each of the readers answers so.
    pub fn seen(&mut self) -> Result<Result<TrackerSeen, u8>, Fault> {
        self.ready();
        let readers: [unsafe extern "C" fn(*const Sent, *mut u64) -> u32; 9] = [
            raw::ribsaddle_sent_timeout,
            raw::ribsaddle_sent_window,
            raw::ribsaddle_sent_in_flight,
            raw::ribsaddle_sent_maximum,
            raw::ribsaddle_sent_ack_num,
            raw::ribsaddle_sent_next_seq_num,
            raw::ribsaddle_sent_lost_count,
            raw::ribsaddle_sent_has_unacked,
            raw::ribsaddle_sent_has_lost,
        ];
        let mut told = [0; 9];
        let mut refused = 0;
        for (place, reader) in readers.into_iter().enumerate() {
            match self.told(reader)? {
                Ok(value) => told[place] = value,
                Err(_) => refused += 1,
            }
        }
        let (start, end) = (self.port.value(0), self.port.value(1));
        let answer = unsafe { raw::ribsaddle_sent_range(self.at(), start, end) };
        let answer = self.called(answer, &[19], true)?;
        let [start, end, _] = self.port.values(2, answer.into())?;
        check(refused == if answer == 0 { 0 } else { 9 }, || "readers do not agree on 19".into())?;
        if answer != 0 {
            return Ok(Err(answer));
        }
        let mut lost = Vec::new();
        for position in 0..told[6] {
            match self.lost_at(position as u32)? {
                Ok(packet) => lost.push(packet),
                Err(number) => return Err(format!("lost packet {position} of {}: {number}", told[6])),
            }
        }
        check(self.lost_at(told[6] as u32)? == Err(12), || "no 12 past the lost".into())?;
        check(told[8] == u64::from(told[6] > 0) && told[7] < 2, || format!("lost {} of {}", told[8], told[6]))?;
        Ok(Ok(TrackerSeen {
            timeout: told[0],
            window: told[1],
            in_flight: told[2],
            maximum: told[3],
            ack_num: told[4],
            next: told[5],
            unacked: told[7] == 1,
            range: (start, end),
            lost,
        }))
    }
}

/// The receiver behind a pointer, and its buffer.
pub struct Receiver {
    state: Lent,
    buf: Lent,
    payload: Lent,
    out: Lent,
    port: Port,
    before: (Vec<u8>, Vec<u8>),
}

/// What the readers tell.
#[derive(Clone, Debug, PartialEq, Eq)]
pub struct ReceiverSeen {
    pub available: u64,
    pub is_empty: bool,
    pub initial: u64,
    pub ack_num: u64,
    pub count: u64,
    pub ready: u64,
    pub waiting: u64,
    pub waiting_bytes: u64,
}

impl Receiver {
    pub fn new() -> Self {
        Receiver {
            state: Lent::new(size_of::<Recv>()),
            buf: Lent::new(70_000),
            payload: Lent::new(70_000),
            out: Lent::new(70_000),
            port: Port::new(),
            before: (Vec::new(), Vec::new()),
        }
    }

    fn at(&mut self) -> *mut Recv {
        self.state.bytes().as_mut_ptr().cast()
    }

    pub fn recv(&mut self) -> &Recv {
        unsafe { &*self.at() }
    }

    pub fn buf(&mut self) -> &mut [u8] {
        self.buf.bytes()
    }

    /// Are the bytes of the buffer past the first `held` those from before the last write or read?
    pub fn spare_untouched(&mut self, held: usize) -> bool {
        let Receiver { before, buf, .. } = self;
        buf.bytes()[held..] == before.1[held..]
    }

    /// Puts any bytes there as a state, over a buffer.
    pub fn set(&mut self, bytes: &[u8], buf: &[u8]) {
        self.port.turn();
        self.state.with(bytes, self.port.front);
        self.buf.with(buf, self.port.front);
    }

    fn ready(&mut self, writes: bool) {
        let Receiver { before, state, buf, .. } = self;
        before.0.clear();
        before.0.extend_from_slice(state.bytes());
        if writes {
            before.1.clear();
            before.1.extend_from_slice(buf.bytes());
        }
    }

    fn called(&mut self, answer: u32, may: &[u32], writes: bool) -> Result<u8, Fault> {
        check(answer == 0 || may.contains(&answer), || format!("answers {answer}"))?;
        check(self.state.beside_untouched() && self.buf.beside_untouched(), || "memory beside was written".into())?;
        if answer != 0 || !writes {
            unchanged("the state", answer, self.state.bytes(), &self.before.0, receiver_padding)?;
            if writes {
                unchanged("the buffer", answer, self.buf.bytes(), &self.before.1, Vec::new)?;
            }
        }
        Ok(answer as u8)
    }

    pub fn start(&mut self, initial: u16, length: usize) -> Result<u8, Fault> {
        let buf = vec![0x3D; length.min(65_536)];
        self.set(&[0xA7; size_of::<Recv>()], &buf);
        self.ready(true);
        let answer = unsafe { raw::ribsaddle_recv_new(self.at(), initial, length) };
        self.called(answer, &[10], true)
    }

    /// A write; `short` lends the buffer without its last byte.
    pub fn write(&mut self, number: u16, payload: &[u8], short: bool) -> Result<u8, Fault> {
        self.ready(true);
        let place = self.payload.with(payload, self.port.front);
        let buf_len = self.buf.bytes().len() - usize::from(short);
        let buf = self.buf.bytes().as_mut_ptr();
        let answer = unsafe { raw::ribsaddle_recv_write(self.at(), buf, buf_len, number, place, payload.len()) };
        check(self.payload.bytes() == payload && self.payload.beside_untouched(), || "the payload was changed".into())?;
        if self.port.is_planted("receiver") && answer == 0 && payload.len() > 3 {
            let last = self.buf.bytes().len() - 1;
            self.buf.bytes()[last.min(2)] ^= 4;
        }
        self.called(answer, &[19, 18, 15, 16, 17], true)
    }

    pub fn read(&mut self, out: usize, short: bool) -> Result<Result<Vec<u8>, u8>, Fault> {
        self.ready(true);
        let place = self.out.place(out, self.port.front);
        self.out.bytes().fill(0x9B);
        let buf_len = self.buf.bytes().len() - usize::from(short);
        let (buf, count) = (self.buf.bytes().as_mut_ptr(), self.port.value(0));
        let answer = unsafe { raw::ribsaddle_recv_read(self.at(), buf, buf_len, place, out, count) };
        let answer = self.called(answer, &[19, 18], true)?;
        let [count, ..] = self.port.values(1, answer.into())?;
        let count = if answer == 0 { count as usize } else { 0 };
        check(count <= out && self.out.beside_untouched(), || format!("{count} read into {out}"))?;
        check(self.out.bytes()[count..].iter().all(|byte| *byte == 0x9B), || {
            "output past the bytes was written".into()
        })?;
        Ok(if answer == 0 { Ok(self.out.bytes()[..count].to_vec()) } else { Err(answer) })
    }

    pub fn selective_ack(&mut self, room: usize) -> Result<Result<Vec<u8>, u8>, Fault> {
        self.ready(false);
        let place = self.out.place(room, self.port.front);
        self.out.bytes().fill(0x9B);
        let size = self.port.value(0);
        let answer = unsafe { raw::ribsaddle_recv_selective_ack(self.at(), place, room, size) };
        let answer = self.called(answer, &[19, 9], false)?;
        let [size, ..] = self.port.values(1, answer.into())?;
        let size = if answer == 0 { size as usize } else { 0 };
        check(size <= room && self.out.beside_untouched(), || format!("SACK of {size} in a room of {room}"))?;
        check(self.out.bytes()[size..].iter().all(|byte| *byte == 0x9B), || "room past the SACK was written".into())?;
        Ok(if answer == 0 { Ok(self.out.bytes()[..size].to_vec()) } else { Err(answer) })
    }

    pub fn was_written(&mut self, number: u16) -> Result<Result<bool, u8>, Fault> {
        self.ready(false);
        let value = self.port.value(0);
        let answer = unsafe { raw::ribsaddle_recv_was_written(self.at(), number, value) };
        let answer = self.called(answer, &[19], false)?;
        let [told, ..] = self.port.values(1, answer.into())?;
        check(answer != 0 || told < 2, || format!("was written: {told}"))?;
        Ok(if answer == 0 { Ok(told == 1) } else { Err(answer) })
    }

    pub fn seen(&mut self) -> Result<Result<ReceiverSeen, u8>, Fault> {
        self.ready(false);
        let readers: [unsafe extern "C" fn(*const Recv, *mut u64) -> u32; 8] = [
            raw::ribsaddle_recv_available,
            raw::ribsaddle_recv_is_empty,
            raw::ribsaddle_recv_init_seq_num,
            raw::ribsaddle_recv_ack_num,
            raw::ribsaddle_recv_count,
            raw::ribsaddle_recv_ready,
            raw::ribsaddle_recv_waiting,
            raw::ribsaddle_recv_waiting_bytes,
        ];
        let mut told = [0; 8];
        let mut refused = 0;
        for (place, reader) in readers.into_iter().enumerate() {
            let value = self.port.value(0);
            let answer = unsafe { reader(self.at(), value) };
            let answer = self.called(answer, &[19], false)?;
            let [value, ..] = self.port.values(1, answer.into())?;
            told[place] = value;
            refused += u32::from(answer != 0);
        }
        check(refused == 0 || refused == 8, || "readers do not agree on 19".into())?;
        if refused > 0 {
            return Ok(Err(19));
        }
        check(told[1] < 2, || format!("is empty: {}", told[1]))?;
        Ok(Ok(ReceiverSeen {
            available: told[0],
            is_empty: told[1] == 1,
            initial: told[2],
            ack_num: told[3],
            count: told[4],
            ready: told[5],
            waiting: told[6],
            waiting_bytes: told[7],
        }))
    }
}
