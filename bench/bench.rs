//! The port beside the Rust: the same inputs to both in one process, medians of processor time in nanoseconds.
//!
//!     bench                       the table
//!     bench CASE port|rust        a round of one side alone, for callgrind
//!     bench cases                 the names of the cases, each with its operations a round

#[allow(dead_code)]
#[path = "../oracle/src/clock.rs"]
mod clock;
#[allow(dead_code)]
#[path = "../bindings/rust/src/raw.rs"]
mod raw;

#[allow(dead_code)]
mod packet {
    include!(concat!(env!("UTP_RS_SRC"), "/src/packet.rs"));
}
#[allow(dead_code)]
mod seq {
    include!(concat!(env!("UTP_RS_SRC"), "/src/seq.rs"));
}
#[allow(dead_code)]
mod recv {
    include!(concat!(env!("UTP_RS_SRC"), "/src/recv.rs"));
}
#[allow(dead_code)]
mod congestion {
    include!(concat!(env!("ORACLE_BUILD"), "/congestion.rs"));
}
#[allow(dead_code)]
mod sent {
    include!(concat!(env!("UTP_RS_SRC"), "/src/sent.rs"));
}

use packet::{Packet, PacketBuilder, PacketType, SelectiveAck};
use raw::*;
use recv::ReceiveBuffer;
use sent::SentPackets;
use std::hint::black_box;
use std::time::Duration;

#[link(name = "ribsaddle", kind = "static")]
extern "C" {}

/// One case on one side: a fresh state, what is timed, and how many operations that is.
struct Side {
    round: Box<dyn FnMut() -> Prepared>,
}

/// What is timed, ready to run once.
type Prepared = Box<dyn FnOnce()>;

struct Case {
    name: String,
    operations: u32,
    rounds: u32,
    port: Side,
    rust: Side,
}

fn side(round: impl FnMut() -> Prepared + 'static) -> Side {
    Side { round: Box::new(round) }
}

fn done(answer: u32) {
    assert_eq!(answer, 0, "the port refused");
}

// ---- codec

const BATCH: u32 = 512;

fn datagram(kind: u8, sack: usize, length: usize) -> Vec<u8> {
    let mut bytes = vec![kind << 4 | 1, u8::from(sack > 0), 0x12, 0x34];
    bytes.extend([0, 1, 2, 3, 0, 0, 7, 9, 0, 1, 0, 0, 0, 5, 0, 4]);
    if sack > 0 {
        bytes.extend([0, sack as u8]);
        bytes.extend((0..sack).map(|place| place as u8 * 37 + 1));
    }
    bytes.extend((bytes.len()..length).map(|place| place as u8));
    bytes
}

fn kinds() -> [(&'static str, Vec<u8>); 3] {
    [
        ("Data, 21 bytes", datagram(0, 0, 21)),
        ("State, SACK of 32 bytes", datagram(2, 32, 54)),
        ("Data, 1,400 bytes", datagram(0, 0, 1_400)),
    ]
}

fn decode(name: &str, bytes: Vec<u8>) -> Case {
    let ours = bytes.clone();
    let port = side(move || {
        let bytes = ours.clone();
        Box::new(move || {
            for _ in 0..BATCH {
                let mut packet = raw::Packet::default();
                let datagram = black_box(&bytes[..]);
                done(unsafe { ribsaddle_decode(&mut packet, datagram.as_ptr(), datagram.len()) });
                black_box(&packet);
            }
        })
    });
    let rust = side(move || {
        let bytes = bytes.clone();
        Box::new(move || {
            for _ in 0..BATCH {
                black_box(Packet::decode(black_box(&bytes[..])).expect("accepted"));
            }
        })
    });
    Case { name: format!("decode, {name}"), operations: BATCH, rounds: 301, port, rust }
}

fn encode(name: &str, bytes: Vec<u8>) -> Case {
    let mut packet = raw::Packet::default();
    done(unsafe { ribsaddle_decode(&mut packet, bytes.as_ptr(), bytes.len()) });
    let ours = bytes.clone();
    let port = side(move || {
        let bytes = ours.clone();
        let mut room = vec![0; 2_000];
        Box::new(move || {
            let sack = &bytes[packet.sack_at..packet.sack_at + packet.sack_len];
            let payload = &bytes[packet.payload_at..];
            for _ in 0..BATCH {
                let (header, sack, payload) = (black_box(&packet.header), black_box(sack), black_box(payload));
                let mut size = 0;
                done(unsafe {
                    ribsaddle_encode(
                        header,
                        sack.as_ptr(),
                        sack.len(),
                        payload.as_ptr(),
                        payload.len(),
                        room.as_mut_ptr(),
                        room.len(),
                        &mut size,
                    )
                });
                black_box(&room[..size as usize]);
            }
        })
    });
    let rust = side(move || {
        let packet = Packet::decode(&bytes).expect("accepted");
        Box::new(move || {
            for _ in 0..BATCH {
                black_box(black_box(&packet).encode());
            }
        })
    });
    Case { name: format!("encode, {name}"), operations: BATCH, rounds: 301, port, rust }
}

/// The Rust's way from parts to bytes: it builds a `Packet`, which owns payload and bits, and encodes it.
fn build_and_encode(name: &str, bytes: Vec<u8>) -> Case {
    let port = encode(name, bytes.clone()).port;
    let rust = side(move || {
        let packet = Packet::decode(&bytes).expect("accepted");
        let sack = packet.selective_ack().map(SelectiveAck::acked);
        let payload = packet.payload().clone();
        Box::new(move || {
            for _ in 0..BATCH {
                let kind = black_box(packet.packet_type());
                let built = PacketBuilder::new(
                    kind,
                    packet.conn_id(),
                    packet.ts_micros(),
                    packet.window_size(),
                    packet.seq_num(),
                )
                .ack_num(packet.ack_num())
                .ts_diff_micros(packet.ts_diff_micros())
                .selective_ack(black_box(&sack).clone().map(SelectiveAck::new))
                .payload(black_box(&payload).clone())
                .build();
                black_box(built.encode());
            }
        })
    });
    Case { name: format!("build and encode, {name}"), operations: BATCH, rounds: 301, port, rust }
}

// ---- tracker

const IN_FLIGHT: u32 = 32;
const LENGTH: u32 = 500;
const STEP: u64 = 100;

fn port_tracker() -> Box<Sent> {
    let mut state: Box<Sent> = unsafe { Box::new_zeroed().assume_init() };
    done(unsafe { ribsaddle_sent_new(&mut *state, 0, 100_000, 1_000_000, 500_000, 65_535, 3_000, 120_000_000, 1.0) });
    state
}

fn rust_tracker() -> SentPackets {
    let config = congestion::Config {
        target_delay_micros: 100_000,
        initial_timeout: Duration::from_micros(1_000_000),
        min_timeout: Duration::from_micros(500_000),
        max_packet_size_bytes: 65_535,
        max_window_size_inc_bytes: 3_000,
        gain: 1.0,
        delay_window: Duration::from_micros(120_000_000),
    };
    SentPackets::new(0, congestion::Controller::new(config))
}

trait Tracker {
    fn transmit(&mut self, number: u32, now: u64);
    fn ack(&mut self, number: u32, sack: &[u8], now: u64);
}

impl Tracker for Box<Sent> {
    fn transmit(&mut self, number: u32, now: u64) {
        done(unsafe { ribsaddle_sent_transmit(&mut **self, number as u16, 0, number, LENGTH, now) });
    }

    fn ack(&mut self, number: u32, sack: &[u8], now: u64) {
        done(unsafe {
            ribsaddle_sent_ack(&mut **self, number as u16, sack.as_ptr(), sack.len(), 50_000 + now % 7_001, now)
        });
    }
}

impl Tracker for SentPackets {
    fn transmit(&mut self, number: u32, now: u64) {
        let data = Some(number.to_be_bytes().to_vec());
        self.on_transmit(number as u16, PacketType::Data, data, LENGTH, clock::at(now));
    }

    fn ack(&mut self, number: u32, sack: &[u8], now: u64) {
        let sack = (!sack.is_empty()).then(|| SelectiveAck::decode(sack).expect("taken"));
        clock::set(now);
        let delay = Duration::from_micros(50_000 + now % 7_001);
        self.on_ack(number as u16, sack.as_ref(), delay, clock::at(now));
    }
}

/// `count` packets sent and acknowledged, 256 at a time.
fn sent_before(tracker: &mut impl Tracker, count: u32) {
    let mut number = 0;
    while number < count {
        let last = (number + 256).min(count);
        for next in number + 1..=last {
            tracker.transmit(next, u64::from(next) * STEP);
        }
        tracker.ack(last, &[], u64::from(last) * STEP);
        number = last;
    }
}

/// The acks of 32 packets that were sent, each with its SACK: in order, or with every eighth packet lost, from the second on.
fn acks_of(first: u32, loss: bool) -> Vec<(u32, Vec<u8>)> {
    let is_lost = |place: u32| loss && place % 8 == 1;
    let mut acks = Vec::new();
    for place in (0..IN_FLIGHT).filter(|place| !is_lost(*place)) {
        let run = (0..=place).take_while(|earlier| !is_lost(*earlier)).count() as u32;
        let mut sack = vec![];
        for later in (run + 1..=place).filter(|later| !is_lost(*later)) {
            sack.resize(4, 0u8);
            let bit = later - run - 1;
            sack[bit as usize / 8] |= 1 << (bit % 8);
        }
        acks.push((first + run - 1, sack));
    }
    acks
}

fn tracker_rounds(sent: u32) -> u32 {
    if sent > 10_000 {
        11
    } else {
        51
    }
}

/// A tracker is made anew for each round: a copy of the Rust's would have its vectors at their least capacity.
fn ack_side<T: Tracker + 'static>(made: fn() -> T, sent: u32, loss: bool) -> Side {
    side(move || {
        let first = sent - IN_FLIGHT + 1;
        let (mut tracker, acks) = (made(), acks_of(first, loss));
        sent_before(&mut tracker, first - 1);
        for place in 0..IN_FLIGHT {
            tracker.transmit(first + place, u64::from(sent + place) * STEP);
        }
        Box::new(move || {
            for (place, (number, sack)) in acks.iter().enumerate() {
                tracker.ack(*number, sack, u64::from(sent + IN_FLIGHT + place as u32) * STEP);
            }
            std::mem::forget(tracker);
        })
    })
}

fn transmit_side<T: Tracker + 'static>(made: fn() -> T, sent: u32, loss: bool) -> Side {
    side(move || {
        let first = sent - 2 * IN_FLIGHT + 1;
        let mut tracker = made();
        sent_before(&mut tracker, first - 1);
        for place in 0..IN_FLIGHT {
            tracker.transmit(first + place, u64::from(sent) * STEP);
        }
        for (number, sack) in acks_of(first, loss) {
            tracker.ack(number, &sack, u64::from(sent) * STEP);
        }
        Box::new(move || {
            for place in 0..IN_FLIGHT {
                tracker.transmit(first + IN_FLIGHT + place, u64::from(sent + place) * STEP);
            }
            std::mem::forget(tracker);
        })
    })
}

fn tracker_cases(sent: u32, loss: bool) -> [Case; 2] {
    let how = if loss { "loss" } else { "no loss" };
    let acks = acks_of(1, loss).len() as u32;
    [
        Case {
            name: format!("transmit at {sent} sent, {how}"),
            operations: IN_FLIGHT,
            rounds: tracker_rounds(sent),
            port: transmit_side(port_tracker, sent, loss),
            rust: transmit_side(rust_tracker, sent, loss),
        },
        Case {
            name: format!("ack at {sent} sent, {how}"),
            operations: acks,
            rounds: tracker_rounds(sent),
            port: ack_side(port_tracker, sent, loss),
            rust: ack_side(rust_tracker, sent, loss),
        },
    ]
}

// ---- receiver

const PAYLOADS: u32 = 64;
const ROOM: usize = 65_536;

trait Receiver {
    fn write(&mut self, number: u16, payload: &[u8]);
    fn read(&mut self, out: &mut [u8]) -> usize;
    fn sack(&self) -> usize;
}

#[derive(Clone)]
struct Lent {
    state: Recv,
    buf: Vec<u8>,
}

impl Receiver for Lent {
    fn write(&mut self, number: u16, payload: &[u8]) {
        let buf = &mut self.buf;
        done(unsafe {
            ribsaddle_recv_write(&mut self.state, buf.as_mut_ptr(), buf.len(), number, payload.as_ptr(), payload.len())
        });
    }

    fn read(&mut self, out: &mut [u8]) -> usize {
        let (mut count, buf) = (0, &mut self.buf);
        done(unsafe {
            ribsaddle_recv_read(&mut self.state, buf.as_mut_ptr(), buf.len(), out.as_mut_ptr(), out.len(), &mut count)
        });
        count as usize
    }

    fn sack(&self) -> usize {
        let (mut room, mut size) = ([0; 32], 0);
        done(unsafe { ribsaddle_recv_selective_ack(&self.state, room.as_mut_ptr(), room.len(), &mut size) });
        black_box(&room);
        size as usize
    }
}

impl Receiver for ReceiveBuffer<ROOM> {
    fn write(&mut self, number: u16, payload: &[u8]) {
        ReceiveBuffer::write(self, payload, number);
    }

    fn read(&mut self, out: &mut [u8]) -> usize {
        ReceiveBuffer::read(self, out).expect("no error")
    }

    /// To bytes, as the port's are.
    fn sack(&self) -> usize {
        black_box(self.selective_ack().expect("some wait").encode()).len()
    }
}

fn port_receiver() -> Lent {
    let mut lent = Lent { state: unsafe { std::mem::zeroed() }, buf: vec![0; ROOM] };
    done(unsafe { ribsaddle_recv_new(&mut lent.state, 0, ROOM) });
    lent
}

fn rust_receiver() -> ReceiveBuffer<ROOM> {
    ReceiveBuffer::new(0)
}

/// Of the 64 payloads, the order in which they come: in order, or each eight of them backward.
fn order(backward: bool) -> Vec<u16> {
    (0..PAYLOADS).map(|place| 1 + if backward { place / 8 * 8 + 7 - place % 8 } else { place } as u16).collect()
}

fn in_turn<R: Receiver + Clone + 'static>(made: fn() -> R, backward: bool) -> Side {
    side(move || {
        let mut receiver = made();
        let (payload, mut out, order) = (vec![7; 1_000], vec![0; 1_000], order(backward));
        Box::new(move || {
            for number in &order {
                receiver.write(*number, black_box(&payload));
                if !backward || number % 8 == 1 {
                    for _ in 0..if backward { 8 } else { 1 } {
                        assert_eq!(receiver.read(black_box(&mut out)), 1_000);
                    }
                }
            }
            std::mem::forget(receiver);
        })
    })
}

fn write_side<R: Receiver + Clone + 'static>(made: fn() -> R, backward: bool) -> Side {
    side(move || {
        let mut receiver = made();
        let (payload, order) = (vec![7; 1_000], order(backward));
        Box::new(move || {
            for number in &order {
                receiver.write(*number, black_box(&payload));
            }
            std::mem::forget(receiver);
        })
    })
}

/// Reads the 64 payloads, all ready, 1,000 bytes at a time: what is left is moved down each time.
fn read_side<R: Receiver + Clone + 'static>(made: fn() -> R) -> Side {
    side(move || {
        let mut receiver = made();
        let (payload, mut out) = (vec![7; 1_000], vec![0; 1_000]);
        for number in order(false) {
            receiver.write(number, &payload);
        }
        Box::new(move || {
            for _ in 0..PAYLOADS {
                assert_eq!(receiver.read(black_box(&mut out)), 1_000);
            }
            std::mem::forget(receiver);
        })
    })
}

fn sack_side<R: Receiver + Clone + 'static>(made: fn() -> R) -> Side {
    side(move || {
        let mut receiver = made();
        for number in 2..252 {
            receiver.write(number, &[1; 10]);
        }
        Box::new(move || {
            for _ in 0..PAYLOADS {
                assert_eq!(black_box(&receiver).sack(), 32);
            }
            std::mem::forget(receiver);
        })
    })
}

fn receiver_cases() -> Vec<Case> {
    let case = |name: &str, operations: u32, port: Side, rust: Side| Case {
        name: name.into(),
        operations,
        rounds: 201,
        port,
        rust,
    };
    vec![
        case(
            "write and read 1,000 bytes, in order",
            PAYLOADS,
            in_turn(port_receiver, false),
            in_turn(rust_receiver, false),
        ),
        case(
            "write and read 1,000 bytes, eights backward",
            PAYLOADS,
            in_turn(port_receiver, true),
            in_turn(rust_receiver, true),
        ),
        case(
            "write 1,000 bytes, 64 in order",
            PAYLOADS,
            write_side(port_receiver, false),
            write_side(rust_receiver, false),
        ),
        case(
            "write 1,000 bytes, 64 in eights backward",
            PAYLOADS,
            write_side(port_receiver, true),
            write_side(rust_receiver, true),
        ),
        case("read 1,000 bytes of 64,000 ready", PAYLOADS, read_side(port_receiver), read_side(rust_receiver)),
        case("SACK with 250 waiting", PAYLOADS, sack_side(port_receiver), sack_side(rust_receiver)),
    ]
}

// ---- the table

fn cases() -> Vec<Case> {
    let mut all = Vec::new();
    for (name, bytes) in kinds() {
        all.push(decode(name, bytes));
    }
    for (name, bytes) in kinds() {
        all.push(encode(name, bytes));
    }
    for (name, bytes) in kinds() {
        all.push(build_and_encode(name, bytes));
    }
    for loss in [false, true] {
        for sent in [100, 1_000, 5_000, 20_000, 60_000] {
            all.extend(tracker_cases(sent, loss));
        }
    }
    all.extend(receiver_cases());
    all
}

/// Callgrind's requests to begin and to end the counting, which do nothing outside it.
const BEGIN: u64 = 0x4354_0004;
const END: u64 = 0x4354_0005;

fn callgrind(request: u64) {
    let words = [request, 0, 0, 0, 0, 0];
    unsafe {
        std::arch::asm!(
            "rol rdi, 3", "rol rdi, 13", "rol rdi, 61", "rol rdi, 51", "xchg rbx, rbx",
            in("rax") words.as_ptr(), inout("rdx") 0u64 => _, inout("rdi") 0u64 => _,
        );
    }
}

extern "C" {
    fn clock_gettime(clock: i32, time: *mut [i64; 2]) -> i32;
}

/// Processor time of this thread, in nanoseconds: what else runs on the machine is not in it.
fn spent() -> i64 {
    let mut time = [0; 2];
    assert_eq!(unsafe { clock_gettime(3, &mut time) }, 0);
    time[0] * 1_000_000_000 + time[1]
}

fn once(side: &mut Side) -> f64 {
    let prepared = (side.round)();
    callgrind(BEGIN);
    let start = spent();
    prepared();
    let end = spent();
    callgrind(END);
    (end - start) as f64
}

fn median(mut times: Vec<f64>) -> f64 {
    times.sort_by(f64::total_cmp);
    times[times.len() / 2]
}

fn main() {
    let words: Vec<String> = std::env::args().skip(1).collect();
    match &words.iter().map(String::as_str).collect::<Vec<_>>()[..] {
        [] => {
            for mut case in cases() {
                let (mut port, mut rust) = (Vec::new(), Vec::new());
                for _ in 0..case.rounds {
                    port.push(once(&mut case.port) / f64::from(case.operations));
                    rust.push(once(&mut case.rust) / f64::from(case.operations));
                }
                println!("{}|{:.0}|{:.0}", case.name, median(port), median(rust));
            }
        }
        ["cases"] => {
            for case in cases() {
                println!("{}|{}", case.name, case.operations);
            }
        }
        [name, which] => {
            let mut case = cases().into_iter().find(|case| case.name == *name).expect("a case");
            let side = if *which == "port" { &mut case.port } else { &mut case.rust };
            once(side);
        }
        _ => panic!("usage: bench [cases | CASE port|rust]"),
    }
}
