//! Time as the Rust knows it, from document 01's whole microseconds; and the given now that the one edit reads.

use std::cell::Cell;
use std::sync::OnceLock;
use std::time::{Duration, Instant};

thread_local! {
    static NOW: Cell<Option<Instant>> = const { Cell::new(None) };
}

fn start() -> Instant {
    static START: OnceLock<Instant> = OnceLock::new();
    *START.get_or_init(Instant::now)
}

pub fn at(micros: u64) -> Instant {
    start() + Duration::from_micros(micros)
}

pub fn set(micros: u64) {
    NOW.with(|now| now.set(Some(at(micros))));
}

/// Stands where congestion.rs asks `Instant::now()`.
pub fn given_now() -> Instant {
    NOW.with(|now| now.get()).expect("a now was given")
}
