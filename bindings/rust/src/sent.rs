use crate::error::{answered, sound, Error};
use crate::packet::{bytes_of, PacketType, SelectiveAck};
use crate::raw;
use crate::seq::CircularRangeInclusive;
use std::time::Duration;

/// The settings of a tracker, all of them given.
///
/// | Setting | Range |
/// |---|---|
/// | `target_delay_micros` | 1,000 to 2^32 - 1 |
/// | `initial_timeout`, `min_timeout`, `delay_window` | 1 to 2^50 microseconds |
/// | `max_packet_size_bytes` | 1 to 65,535 |
/// | `max_window_size_inc_bytes` | 1 to 2^20 |
/// | `gain` | 2^-10 to 1 |
#[derive(Copy, Clone, Debug, PartialEq)]
pub struct Config {
    pub target_delay_micros: u32,
    pub initial_timeout: Duration,
    pub min_timeout: Duration,
    pub max_packet_size_bytes: u32,
    pub max_window_size_inc_bytes: u32,
    pub gain: f64,
    pub delay_window: Duration,
}

/// Whole microseconds, held at the largest number, which every call refuses as a time.
fn micros(time: Duration) -> u64 {
    u64::try_from(time.as_micros()).unwrap_or(u64::MAX)
}

/// The tracker of sent packets, with its congestion window. 26,720 bytes on the heap, allocated once.
///
/// Times are told as a `Duration` since a moment that the caller picks, in whole microseconds.
///
/// ```
/// use ribsaddle::{Config, Error, PacketType, SelectiveAck, SentPackets};
/// use std::time::Duration;
///
/// let config = Config {
///     target_delay_micros: 100_000,
///     initial_timeout: Duration::from_secs(1),
///     min_timeout: Duration::from_millis(500),
///     max_packet_size_bytes: 1_000,
///     max_window_size_inc_bytes: 3_000,
///     gain: 1.0,
///     delay_window: Duration::from_secs(120),
/// };
/// let mut sent = SentPackets::new(0, &config)?;
/// let at = Duration::from_micros;
/// for number in 1..=5 {
///     sent.on_transmit(number, PacketType::Data, u32::from(number) + 70, 100, at(0))?;
/// }
/// assert_eq!(sent.window(), 1_500);
/// // 1 is acknowledged, and behind the missing 2 the packets 3, 4 and 5: 2 is lost.
/// sent.on_ack(1, SelectiveAck::new(&[0x07, 0, 0, 0]), at(50_000), at(100_000))?;
/// assert_eq!(sent.lost_packets().collect::<Vec<_>>(), [(2, PacketType::Data, 72)]);
/// assert_eq!(sent.on_ack(6, None, at(0), at(100_000)), Err(Error::NotSent));
/// sent.on_transmit(2, PacketType::Data, 72, 100, at(100_000))?;
/// sent.on_ack(5, None, at(50_000), at(200_000))?;
/// assert!(!sent.has_unacked_packets());
/// # Ok::<(), Error>(())
/// ```
#[derive(Clone)]
pub struct SentPackets {
    state: Box<raw::Sent>,
}

impl SentPackets {
    /// Refuses with 10.
    ///
    /// Note: `init_seq_num` corresponds to the sequence number just before the sequence number of
    /// the first packet to track.
    pub fn new(init_seq_num: u16, config: &Config) -> Result<Self, Error> {
        // Zeros are a state, as any bits are.
        let mut state: Box<raw::Sent> = unsafe { Box::new_zeroed().assume_init() };
        answered(unsafe {
            raw::ribsaddle_sent_new(
                &mut *state,
                init_seq_num,
                config.target_delay_micros.into(),
                micros(config.initial_timeout),
                micros(config.min_timeout),
                config.max_packet_size_bytes.into(),
                config.max_window_size_inc_bytes.into(),
                micros(config.delay_window),
                config.gain,
            )
        })?;
        Ok(Self { state })
    }

    /// What a reader of the state tells.
    fn told(&self, reader: unsafe extern "C" fn(*const raw::Sent, *mut u64) -> u32) -> u64 {
        let mut value = 0;
        sound(unsafe { reader(&*self.state, &mut value) });
        value
    }

    /// Returns the number of the next packet.
    pub fn next_seq_num(&self) -> u16 {
        self.told(raw::ribsaddle_sent_next_seq_num) as u16
    }

    /// Returns the last number of the acknowledged run, or 0 if there is none. 0 can be a packet's number too;
    /// there is a run once an ack was accepted.
    pub fn ack_num(&self) -> u16 {
        self.told(raw::ribsaddle_sent_ack_num) as u16
    }

    /// Returns the numbers from the initial one to the last sent.
    pub fn seq_num_range(&self) -> CircularRangeInclusive {
        let (mut start, mut end) = (0, 0);
        sound(unsafe { raw::ribsaddle_sent_range(&*self.state, &mut start, &mut end) });
        CircularRangeInclusive::new(start as u16, end as u16)
    }

    /// Returns the timeout.
    pub fn timeout(&self) -> Duration {
        Duration::from_micros(self.told(raw::ribsaddle_sent_timeout))
    }

    /// Registers a timeout: the maximum window falls to its minimum, and the timeout doubles.
    pub fn on_timeout(&mut self) {
        sound(unsafe { raw::ribsaddle_sent_on_timeout(&mut *self.state) });
    }

    /// Returns how many bytes may be sent now.
    pub fn window(&self) -> u32 {
        self.told(raw::ribsaddle_sent_window) as u32
    }

    /// Returns the bytes in flight.
    pub fn in_flight(&self) -> u32 {
        self.told(raw::ribsaddle_sent_in_flight) as u32
    }

    /// Returns the maximum of the window, in flight and free together.
    pub fn max_window(&self) -> u32 {
        self.told(raw::ribsaddle_sent_maximum) as u32
    }

    /// Returns `true` if a packet is not acknowledged.
    pub fn has_unacked_packets(&self) -> bool {
        self.told(raw::ribsaddle_sent_has_unacked) == 1
    }

    /// Returns `true` if a packet is lost.
    pub fn has_lost_packets(&self) -> bool {
        self.told(raw::ribsaddle_sent_has_lost) == 1
    }

    /// Returns the lost packets with their types and tags, in ascending order of the number.
    pub fn lost_packets(&self) -> impl Iterator<Item = (u16, PacketType, u32)> + '_ {
        let count = self.told(raw::ribsaddle_sent_lost_count) as u32;
        (0..count).map(|position| {
            let (mut number, mut kind, mut tag) = (0, 0, 0);
            sound(unsafe { raw::ribsaddle_sent_lost_at(&*self.state, position, &mut number, &mut kind, &mut tag) });
            let kind = PacketType::try_from(kind as u8).expect("a packet is kept with its type");
            (number as u16, kind, tag as u32)
        })
    }

    /// Registers that a packet goes out: the next number for the first time, or an earlier one again. The tag stands for its
    /// data, and is told when the packet is lost. Refuses with 11, 12, and a first transmit with 15, 13, 14.
    pub fn on_transmit(
        &mut self,
        seq_num: u16,
        packet_type: PacketType,
        tag: u32,
        len: u32,
        now: Duration,
    ) -> Result<(), Error> {
        let kind = packet_type.into();
        answered(unsafe { raw::ribsaddle_sent_transmit(&mut *self.state, seq_num, kind, tag, len, micros(now)) })
    }

    /// Registers that an ack comes in. Refuses with 11, 5, 6, 8, 12.
    pub fn on_ack(
        &mut self,
        ack_num: u16,
        selective_ack: Option<SelectiveAck<'_>>,
        delay: Duration,
        now: Duration,
    ) -> Result<(), Error> {
        let sack = bytes_of(selective_ack);
        answered(unsafe {
            raw::ribsaddle_sent_ack(&mut *self.state, ack_num, sack.as_ptr(), sack.len(), micros(delay), micros(now))
        })
    }
}

impl std::fmt::Debug for SentPackets {
    fn fmt(&self, f: &mut std::fmt::Formatter<'_>) -> std::fmt::Result {
        let kept: Vec<_> = (0..self.state.live.min(512) as usize).map(|place| self.state.packet(place)).collect();
        f.debug_struct("SentPackets")
            .field("seq_num_range", &self.seq_num_range())
            .field("numbers", &self.state.numbers)
            .field("kept", &kept)
            .finish()
    }
}
