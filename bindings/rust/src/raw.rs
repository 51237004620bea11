//! The C interface as include/ribsaddle.h declares it, one to one.
//!
//! Every function returns document 01's number, 0 for done. Where it refuses, all memory that it was lent is as it was. A
//! pointer is never null, even where the length beside it is 0, and the memory behind it is the call's alone while it runs.
//! Nothing is kept of it afterwards.

/// A header: 20 bytes, aligned to 4.
#[repr(C)]
#[derive(Copy, Clone, Debug, Default, PartialEq, Eq)]
pub struct Header {
    /// The number of a packet type; above 4 is refused with 2.
    pub packet_type: u8,
    pub conn_id: u16,
    pub ts_micros: u32,
    pub ts_diff_micros: u32,
    pub window_size: u32,
    pub seq_num: u16,
    pub ack_num: u16,
}

/// A packet that was read: 56 bytes, aligned to 8. SACK and payload are places and lengths in the datagram; a SACK of length
/// 0 is none.
#[repr(C)]
#[derive(Copy, Clone, Debug, Default, PartialEq, Eq)]
pub struct Packet {
    pub header: Header,
    pub sack_at: usize,
    pub sack_len: usize,
    pub payload_at: usize,
    pub payload_len: usize,
}

/// The controller's numbers in a [`Sent`].
#[repr(C)]
#[derive(Copy, Clone, Debug)]
pub struct Numbers {
    pub target: u32,
    pub largest_packet: u32,
    pub increase: u32,
    pub maximum: u32,
    pub in_flight: u32,
    pub minimum_timeout: u64,
    pub delay_window: u64,
    pub gain: f64,
    pub trip: u64,
    pub variance: u64,
    pub timeout: u64,
    pub last: u64,
}

/// A kept delay sample.
#[repr(C)]
#[derive(Copy, Clone, Debug, PartialEq, Eq)]
pub struct Sample {
    pub delay: u64,
    pub at: u64,
}

/// The tag and the first length of a packet that is kept.
#[repr(C)]
#[derive(Copy, Clone, Debug, PartialEq, Eq)]
pub struct Size {
    pub tag: u32,
    pub len: u32,
}

/// The type's number of a packet that is kept, and what is known of it, 0 or 1 each.
#[repr(C)]
#[derive(Copy, Clone, Debug, PartialEq, Eq)]
pub struct Marks {
    pub kind: u8,
    pub acked: u8,
    pub lost: u8,
    pub resent: u8,
}

/// A tracker: 26,720 bytes, aligned to 8. Any bits are one; one that is not sound is refused with 19 (docs/STATE.md).
///
/// The kept samples stand at the front of `samples`, the kept packets at the front of `times`, `sizes` and `marks`.
#[repr(C)]
#[derive(Copy, Clone)]
pub struct Sent {
    pub initial: u16,
    pub count: u32,
    pub live: u32,
    pub kept: u32,
    pub numbers: Numbers,
    pub samples: [Sample; 1024],
    pub times: [u64; 512],
    pub sizes: [Size; 512],
    pub marks: [Marks; 512],
}

/// A sent packet that is kept, put together from its place in the arrays of a [`Sent`].
#[derive(Copy, Clone, Debug, PartialEq, Eq)]
pub struct SentPacket {
    pub sent_at: u64,
    pub tag: u32,
    pub len: u32,
    pub kind: u8,
    pub acked: u8,
    pub lost: u8,
    pub resent: u8,
}

impl Sent {
    /// The packet at a place, from 0 to 511. The first `live` are kept.
    pub fn packet(&self, place: usize) -> SentPacket {
        let (Size { tag, len }, Marks { kind, acked, lost, resent }) = (self.sizes[place], self.marks[place]);
        SentPacket { sent_at: self.times[place], tag, len, kind, acked, lost, resent }
    }
}

/// A receiver: 1,044 bytes, aligned to 4. Any bits are one; one that is not sound is refused with 19 (docs/STATE.md).
#[repr(C)]
#[derive(Copy, Clone)]
pub struct Recv {
    pub initial: u16,
    pub length: u32,
    pub count: u32,
    pub ready: u32,
    pub span: u32,
    pub waiting: [u32; 256],
}

/// The header's sizes and alignments.
const _: () = {
    use std::mem::{align_of, offset_of, size_of};
    assert!(size_of::<Header>() == 20 && align_of::<Header>() == 4);
    assert!(size_of::<Packet>() == 56 && align_of::<Packet>() == 8);
    assert!(size_of::<Sent>() == 26_720 && align_of::<Sent>() == 8);
    assert!(size_of::<Recv>() == 1_044 && align_of::<Recv>() == 4);
    assert!(offset_of!(Sent, kept) == 12 && offset_of!(Sent, numbers) == 16 && offset_of!(Sent, samples) == 96);
    assert!(offset_of!(Sent, times) == 16_480 && offset_of!(Sent, sizes) == 20_576 && offset_of!(Sent, marks) == 24_672);
    assert!(offset_of!(Recv, waiting) == 20);
};

#[rustfmt::skip]
extern "C" {
    pub fn ribsaddle_decode(packet: *mut Packet, datagram: *const u8, datagram_len: usize) -> u32;
    pub fn ribsaddle_encode(header: *const Header, sack: *const u8, sack_len: usize, payload: *const u8, payload_len: usize, room: *mut u8, room_len: usize, size: *mut u64) -> u32;

    pub fn ribsaddle_sent_new(sent: *mut Sent, initial: u16, target_delay: u64, first_timeout: u64, minimum_timeout: u64, largest_packet: u64, increase: u64, delay_window: u64, gain: f64) -> u32;
    pub fn ribsaddle_sent_transmit(sent: *mut Sent, number: u16, packet_type: u8, tag: u32, len: u32, now: u64) -> u32;
    pub fn ribsaddle_sent_ack(sent: *mut Sent, number: u16, sack: *const u8, sack_len: usize, delay: u64, now: u64) -> u32;
    pub fn ribsaddle_sent_on_timeout(sent: *mut Sent) -> u32;
    pub fn ribsaddle_sent_sound(sent: *const Sent) -> u32;
    pub fn ribsaddle_sent_timeout(sent: *const Sent, value: *mut u64) -> u32;
    pub fn ribsaddle_sent_window(sent: *const Sent, value: *mut u64) -> u32;
    pub fn ribsaddle_sent_in_flight(sent: *const Sent, value: *mut u64) -> u32;
    pub fn ribsaddle_sent_maximum(sent: *const Sent, value: *mut u64) -> u32;
    pub fn ribsaddle_sent_lost_count(sent: *const Sent, value: *mut u64) -> u32;
    pub fn ribsaddle_sent_ack_num(sent: *const Sent, value: *mut u64) -> u32;
    pub fn ribsaddle_sent_next_seq_num(sent: *const Sent, value: *mut u64) -> u32;
    pub fn ribsaddle_sent_has_unacked(sent: *const Sent, value: *mut u64) -> u32;
    pub fn ribsaddle_sent_has_lost(sent: *const Sent, value: *mut u64) -> u32;
    pub fn ribsaddle_sent_range(sent: *const Sent, start: *mut u64, end: *mut u64) -> u32;
    pub fn ribsaddle_sent_lost_at(sent: *const Sent, position: u32, number: *mut u64, packet_type: *mut u64, tag: *mut u64) -> u32;

    pub fn ribsaddle_recv_new(recv: *mut Recv, initial: u16, length: usize) -> u32;
    pub fn ribsaddle_recv_write(recv: *mut Recv, buf: *mut u8, buf_len: usize, number: u16, payload: *const u8, payload_len: usize) -> u32;
    pub fn ribsaddle_recv_read(recv: *mut Recv, buf: *mut u8, buf_len: usize, out: *mut u8, out_len: usize, count: *mut u64) -> u32;
    pub fn ribsaddle_recv_selective_ack(recv: *const Recv, room: *mut u8, room_len: usize, size: *mut u64) -> u32;
    pub fn ribsaddle_recv_available(recv: *const Recv, value: *mut u64) -> u32;
    pub fn ribsaddle_recv_is_empty(recv: *const Recv, value: *mut u64) -> u32;
    pub fn ribsaddle_recv_init_seq_num(recv: *const Recv, value: *mut u64) -> u32;
    pub fn ribsaddle_recv_ack_num(recv: *const Recv, value: *mut u64) -> u32;
    pub fn ribsaddle_recv_count(recv: *const Recv, value: *mut u64) -> u32;
    pub fn ribsaddle_recv_ready(recv: *const Recv, value: *mut u64) -> u32;
    pub fn ribsaddle_recv_waiting(recv: *const Recv, value: *mut u64) -> u32;
    pub fn ribsaddle_recv_waiting_bytes(recv: *const Recv, value: *mut u64) -> u32;
    pub fn ribsaddle_recv_was_written(recv: *const Recv, number: u16, value: *mut u64) -> u32;
}
