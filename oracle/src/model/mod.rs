//! What document 01 says, written from its text and not from the Rust. Nothing here uses the Rust's modules.
//! Where the Rust answers as document 01 does, the driver holds the two against each other at every event; where the
//! Rust panics or departs, the expected answer is the one worked out here.

pub mod codec;
pub mod controller;
pub mod receiver;
pub mod tracker;
