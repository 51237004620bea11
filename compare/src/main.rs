//! The port, the Rust and document 01 on the same inputs. Every case is made from the seed, its part and its index.
//!
//!     compare PERCENT SEED        so much of the full count of every part
//!     compare PERCENT SEED PART   of one part
//!     compare PART INDEX SEED     one case again

#[allow(dead_code)]
#[path = "../../oracle/src/clock.rs"]
mod clock;
#[allow(dead_code)]
#[path = "../../oracle/src/controller.rs"]
mod controller;
#[allow(dead_code)]
#[path = "../../oracle/src/model/mod.rs"]
mod model;
#[allow(dead_code)]
#[path = "../../oracle/src/codec.rs"]
mod oracle_codec;
#[allow(dead_code)]
#[path = "../../bindings/rust/src/raw.rs"]
mod raw;
#[allow(dead_code)]
#[path = "../../oracle/src/tools.rs"]
mod tools;

mod classes;
mod codec;
mod forged;
mod lent;
mod port;
mod receiver;
mod tracker;

#[allow(dead_code)]
mod packet {
    include!(concat!(env!("UTP_RS_SRC"), "/src/packet.rs"));
}
#[allow(dead_code)]
mod seq {
    include!(concat!(env!("UTP_RS_SRC"), "/src/seq.rs"));
}
mod recv {
    include!(concat!(env!("UTP_RS_SRC"), "/src/recv.rs"));

    impl<const N: usize> ReceiveBuffer<N> {
        /// Ready bytes, waiting bytes, payloads in order.
        pub fn inside(&self) -> (usize, usize, u16) {
            (self.offset, self.pending.values().map(Vec::len).sum(), self.consumed)
        }
    }
}
#[allow(dead_code)]
mod congestion {
    include!(concat!(env!("ORACLE_BUILD"), "/congestion.rs"));

    impl Controller {
        /// Maximum, in flight, timeout, round trip, variance.
        pub fn inside(&self) -> crate::controller::Numbers {
            (
                self.max_window_size_bytes.into(),
                self.window_size_bytes.into(),
                self.timeout.as_micros(),
                self.rtt.as_micros() as i128,
                self.rtt_variance_micros.into(),
            )
        }
    }
}
#[allow(dead_code)]
mod sent {
    include!(concat!(env!("UTP_RS_SRC"), "/src/sent.rs"));

    impl SentPackets {
        pub fn controller(&self) -> &congestion::Controller {
            &self.congestion_ctrl
        }
    }
}

use classes::Counts;
use port::Fault;
use tools::Random;

#[link(name = "ribsaddle", kind = "static")]
extern "C" {}

/// A fault with the smallest input that shows it.
type Report = String;

/// What a worker of a part does with one index.
type Worker = Box<dyn FnMut(u64, u64, &mut Counts) -> Result<(), Report>>;

struct Part {
    name: &'static str,
    /// The full count.
    full: u64,
    worker: fn() -> Worker,
}

static PARTS: [Part; 6] = [
    Part { name: "decode", full: 12_000_000, worker: decode },
    Part { name: "encode", full: 12_000_000, worker: encode },
    Part { name: "tracker", full: 24_000, worker: tracker_sessions },
    Part { name: "receiver", full: 24_000, worker: receiver_sessions },
    Part { name: "forged-tracker", full: 1_000_000, worker: forged_trackers },
    Part { name: "forged-receiver", full: 2_000_000, worker: forged_receivers },
];

fn random_of(part: &str, index: u64, seed: u64) -> Random {
    let name = part.bytes().fold(0u64, |hash, byte| hash.wrapping_mul(257).wrapping_add(byte.into()));
    let mut random =
        Random::new(seed ^ name.wrapping_mul(0x9E37_79B9_7F4A_7C15) ^ index.wrapping_mul(0xD1B5_4A32_D192_ED03));
    random.next();
    random
}

/// A panic in a case is a fault of it.
fn guarded(case: impl FnOnce() -> Result<(), Fault>) -> Result<(), Fault> {
    std::panic::catch_unwind(std::panic::AssertUnwindSafe(case)).unwrap_or_else(|reason| {
        let text = reason.downcast_ref::<String>().map(String::as_str).or(reason.downcast_ref::<&str>().copied());
        Err(format!("panicked: {}", text.unwrap_or("for an unknown reason")))
    })
}

fn hex(bytes: &[u8]) -> String {
    bytes.iter().map(|byte| format!("{byte:02x}")).collect::<Vec<_>>().join(" ")
}

fn read_case(port: &mut port::Port, datagram: &[u8], again: bool, counts: &mut Counts) -> Result<(), Report> {
    guarded(|| codec::read(port, datagram, again, counts)).map_err(|_| {
        let smallest = codec::smallest_bytes(datagram, |bytes| {
            guarded(|| codec::read(port, bytes, again, &mut Counts::default())).is_err()
        });
        let fault = guarded(|| codec::read(port, &smallest, again, &mut Counts::default())).expect_err("still a fault");
        format!("{fault}\n  smallest datagram: {}", hex(&smallest))
    })
}

fn decode() -> Worker {
    let mut port = port::Port::new();
    Box::new(move |index, seed, counts| {
        let datagram = codec::datagram(&mut random_of("decode", index, seed));
        read_case(&mut port, &datagram, index % 4 == 0, counts)
    })
}

fn encode() -> Worker {
    let mut port = port::Port::new();
    Box::new(move |index, seed, counts| {
        let writing = codec::writing(&mut random_of("encode", index, seed));
        guarded(|| codec::write(&mut port, &writing, counts)).map_err(|_| {
            let smallest = codec::smallest_writing(&writing, |writing| {
                guarded(|| codec::write(&mut port, writing, &mut Counts::default())).is_err()
            });
            let fault =
                guarded(|| codec::write(&mut port, &smallest, &mut Counts::default())).expect_err("still a fault");
            format!("{fault}\n  smallest input: {smallest:02x?}")
        })
    })
}

/// Drops events as long as it is a fault.
fn smallest_events<E: Clone>(events: &[E], mut is_fault: impl FnMut(&[E]) -> bool) -> Vec<E> {
    let mut best = events.to_vec();
    let mut size = best.len().next_power_of_two();
    while size > 0 {
        let mut at = 0;
        while at < best.len() {
            let mut fewer = best.clone();
            fewer.drain(at..(at + size).min(best.len()));
            if is_fault(&fewer) {
                best = fewer;
            } else {
                at += size;
            }
        }
        size /= 2;
    }
    best
}

fn tracker_sessions() -> Worker {
    let mut port = port::Tracker::new();
    Box::new(move |index, seed, counts| {
        let session = tracker::session(&mut random_of("tracker", index, seed), index);
        guarded(|| tracker::play(&mut port, &session, counts)).map_err(|_| {
            let with = |events: &[tracker::Event]| tracker::Session { events: events.to_vec(), ..session.clone() };
            let mut fault_of = |session: &tracker::Session| {
                guarded(|| tracker::play(&mut port, session, &mut Counts::default())).err()
            };
            let smallest = with(&smallest_events(&session.events, |events| fault_of(&with(events)).is_some()));
            format!("{}\n  smallest session: {smallest:?}", fault_of(&smallest).expect("still a fault"))
        })
    })
}

fn receiver_sessions() -> Worker {
    let mut port = port::Receiver::new();
    Box::new(move |index, seed, counts| {
        let session = receiver::session(&mut random_of("receiver", index, seed));
        guarded(|| receiver::play(&mut port, &session, counts)).map_err(|_| {
            let with = |events: &[receiver::Event]| receiver::Session { events: events.to_vec(), ..session.clone() };
            let mut fault_of = |session: &receiver::Session| {
                guarded(|| receiver::play(&mut port, session, &mut Counts::default())).err()
            };
            let smallest = with(&smallest_events(&session.events, |events| fault_of(&with(events)).is_some()));
            format!("{}\n  smallest session: {smallest:?}", fault_of(&smallest).expect("still a fault"))
        })
    })
}

/// So many states are forged from one that was reached.
const OF_ONE: u64 = 50;

fn forged_trackers() -> Worker {
    let mut port = port::Tracker::new();
    let mut base = (u64::MAX, Vec::new());
    Box::new(move |index, seed, counts| {
        let mut random = random_of("forged-tracker", index, seed);
        guarded(|| {
            if base.0 != index / OF_ONE {
                let mut reach = random_of("reached-tracker", index / OF_ONE, seed);
                base = (index / OF_ONE, forged::reached_tracker(&mut reach, &mut port)?);
            }
            forged::tracker(&mut random, &mut port, &base.1, counts)
        })
        .map_err(|fault| format!("{fault}\n  state reached by case {}, forged by case {index}", index / OF_ONE))
    })
}

fn forged_receivers() -> Worker {
    let mut port = port::Receiver::new();
    let mut base = (u64::MAX, (Vec::new(), Vec::new()));
    Box::new(move |index, seed, counts| {
        let mut random = random_of("forged-receiver", index, seed);
        guarded(|| {
            if base.0 != index / OF_ONE {
                let mut reach = random_of("reached-receiver", index / OF_ONE, seed);
                base = (index / OF_ONE, forged::reached_receiver(&mut reach, &mut port)?);
            }
            forged::receiver(&mut random, &mut port, &base.1, counts)
        })
        .map_err(|fault| format!("{fault}\n  state reached by case {}, forged by case {index}", index / OF_ONE))
    })
}

/// Runs `work` of each of the processors; a fault stops the program.
fn in_parallel(work: impl Fn(u64, u64, &mut Counts) -> Result<u64, (u64, Report)> + Sync, name: &str, seed: u64) {
    let workers = std::thread::available_parallelism().map_or(1, |count| count.get() as u64);
    let start = std::time::Instant::now();
    let done: Vec<_> = std::thread::scope(|scope| {
        let work = &work;
        let handles: Vec<_> = (0..workers)
            .map(|place| {
                scope.spawn(move || {
                    let mut counts = Counts::default();
                    (work(place, workers, &mut counts), counts)
                })
            })
            .collect();
        handles.into_iter().map(|handle| handle.join().expect("a worker")).collect()
    });
    let (mut total, mut all) = (0, Counts::default());
    for (result, counts) in done {
        match result {
            Err((index, report)) => {
                println!("compare: DIFFERENCE in {name}, seed {seed}, case {index}: {report}");
                std::process::exit(1);
            }
            Ok(count) => total += count,
        }
        for (key, count) in counts.classes {
            *all.classes.entry(key).or_default() += count;
        }
        for (key, count) in counts.answers {
            *all.answers.entry(key).or_default() += count;
        }
    }
    print!("{name}: {total} cases, {:.0} s", start.elapsed().as_secs_f64());
    all.say();
}

fn every_datagram(percent: u64, seed: u64) {
    let stride = (100 / percent).max(1);
    let work = |place: u64, workers: u64, counts: &mut Counts| {
        let mut port = port::Port::new();
        let mut index = 0;
        let each = |datagram: &[u8]| {
            index += 1;
            read_case(&mut port, datagram, false, counts)
        };
        codec::every(stride * workers, seed % stride + place * stride, each).map_err(|report| (index, report))
    };
    in_parallel(work, "every datagram", seed);
}

fn run_part(part: &Part, percent: u64, seed: u64) {
    let count = part.full * percent / 100;
    // Indices go to the workers in blocks, so that states forged from one come together.
    let work = |place: u64, workers: u64, counts: &mut Counts| {
        let mut worker = (part.worker)();
        let mut taken = 0;
        for index in (0..count).filter(|index| index / OF_ONE % workers == place) {
            worker(index, seed, counts).map_err(|report| (index, report))?;
            taken += 1;
        }
        Ok(taken)
    };
    in_parallel(work, part.name, seed);
}

fn main() {
    std::panic::set_hook(Box::new(|_| {}));
    classes_are_listed();
    let words: Vec<String> = std::env::args().skip(1).collect();
    let number = |word: &str| word.parse::<u64>().unwrap_or_else(|_| usage());
    match &words.iter().map(String::as_str).collect::<Vec<_>>()[..] {
        [percent, seed] => {
            let (percent, seed) = (number(percent).clamp(1, 100), number(seed));
            println!("compare: {percent} of 100, seed {seed}");
            every_datagram(percent, seed);
            for part in &PARTS {
                run_part(part, percent, seed);
            }
            println!("compare: no difference that docs/DIFFERENCES.md does not list");
        }
        [percent, seed, name] if percent.parse::<u64>().is_ok() => {
            run_part(part_of(name), number(percent).clamp(1, 100), number(seed));
        }
        [name, index, seed] => {
            let mut counts = Counts::default();
            match (part_of(name).worker)()(number(index), number(seed), &mut counts) {
                Ok(()) => counts.say(),
                Err(report) => {
                    println!("compare: DIFFERENCE in {name}, seed {seed}, case {index}: {report}");
                    std::process::exit(1);
                }
            }
        }
        _ => usage(),
    }
}

fn part_of(name: &str) -> &'static Part {
    PARTS.iter().find(|part| part.name == name).unwrap_or_else(|| usage())
}

fn classes_are_listed() {
    let page = include_str!("../../docs/DIFFERENCES.md");
    for (class, words) in classes::LISTED {
        if !page.contains(words) {
            println!("compare: docs/DIFFERENCES.md does not list {class:?}: {words}");
            std::process::exit(1);
        }
    }
}

fn usage() -> ! {
    println!("usage: compare PERCENT SEED [PART] | compare PART INDEX SEED");
    std::process::exit(2);
}
