//! uTP (BEP 29) without sockets, for Rust programs: the proved port of utp-rs's modules packet, sent, recv and congestion.
//!
//! What these functions answer is proved of the library behind them (crates/ in the repository); this package hands slices and
//! states to it and gives names to its answers. It has no dependency, and calls the library as include/ribsaddle.h declares it
//! ([`raw`]).
//!
//! Where the port differs from utp-rs: nothing panics, and a call that cannot be done returns an [`Error`], having changed
//! nothing; a [`Packet`] borrows its selective ACK and its payload; output goes to room that the caller lends; a sent packet's
//! data is a 32-bit tag; times are a `Duration` since a moment that the caller picks. The readers that return a plain value
//! panic only where the memory of their state was overwritten from outside. docs/DIFFERENCES.md lists the rest.

mod error;
mod packet;
pub mod raw;
mod recv;
mod sent;
mod seq;

pub use error::Error;
pub use packet::{Packet, PacketBuilder, PacketType, SelectiveAck};
pub use recv::ReceiveBuffer;
pub use sent::{Config, SentPackets};
pub use seq::CircularRangeInclusive;
