//! Document 01, "Settings and time" and "A newly acknowledged packet".

/// Times are whole microseconds, 0 to 2^50.
pub const LAST_TIME: u64 = 1 << 50;
pub const LARGEST_MAXIMUM: i128 = (1 << 32) - 1;
pub const LARGEST_TIMEOUT: u64 = 1 << 53;
pub const KEPT_SAMPLES: usize = 1_024;

#[derive(Copy, Clone, Debug)]
pub struct Settings {
    pub target: u64,
    pub first_timeout: u64,
    pub minimum_timeout: u64,
    pub largest_packet: u64,
    pub increase: u64,
    pub gain: f64,
    pub delay_window: u64,
}

impl Settings {
    pub fn in_range(&self) -> bool {
        let time = 1..=LAST_TIME;
        (1_000..=(1 << 32) - 1).contains(&self.target)
            && time.contains(&self.first_timeout)
            && time.contains(&self.minimum_timeout)
            && time.contains(&self.delay_window)
            && (1..=65_535).contains(&self.largest_packet)
            && (1..=1 << 20).contains(&self.increase)
            && self.gain >= 1.0 / 1024.0
            && self.gain <= 1.0
    }
}

#[derive(Clone, Debug)]
pub struct Controller {
    pub settings: Settings,
    pub maximum: i128,
    pub in_flight: i128,
    pub timeout: u64,
    pub round_trip: i128,
    pub variance: i128,
    /// The kept samples: delay and time, oldest first.
    pub samples: Vec<(u64, u64)>,
    /// What happened that may set the Rust apart from here on.
    pub departures: Departures,
}

#[derive(Clone, Debug, Default, PartialEq, Eq)]
pub struct Departures {
    /// Old maximum + adjustment was below 0 or above 2^32 - 1: the Rust casts it to u32.
    pub outside_u32: bool,
    /// A timeout was held at 2^53.
    pub timeout_held: bool,
    /// A sample was dropped for room.
    pub dropped_for_room: bool,
}

impl Controller {
    /// A window begins, and has its minimum, at twice the largest packet.
    pub fn new(settings: Settings) -> Result<Self, u8> {
        if !settings.in_range() {
            return Err(10);
        }
        Ok(Controller {
            settings,
            maximum: i128::from(2 * settings.largest_packet),
            in_flight: 0,
            timeout: settings.first_timeout,
            round_trip: 0,
            variance: 0,
            samples: Vec::new(),
            departures: Departures::default(),
        })
    }

    pub fn minimum(&self) -> i128 {
        i128::from(2 * self.settings.largest_packet)
    }

    pub fn free_window(&self) -> i128 {
        (self.maximum - self.in_flight).max(0)
    }

    /// A first transmit, if it is not longer than the free window.
    pub fn transmit(&mut self, length: u32) -> Result<(), u8> {
        if i128::from(length) > self.free_window() {
            return Err(13);
        }
        self.in_flight += i128::from(length);
        Ok(())
    }

    /// Step 1, which gives the base delay.
    fn take_sample(&mut self, delay: u64, now: u64) -> u64 {
        while self.samples.first().is_some_and(|(_, time)| now >= time + self.settings.delay_window) {
            self.samples.remove(0);
        }
        while self.samples.last().is_some_and(|(kept, _)| *kept >= delay) {
            self.samples.pop();
        }
        if self.samples.len() == KEPT_SAMPLES {
            self.samples.pop();
            self.departures.dropped_for_room = true;
        }
        self.samples.push((delay, now));
        self.samples[0].0
    }

    /// Step 2.
    fn adjustment(&self, delay: u64, base: u64, length: u32) -> i128 {
        if self.in_flight == 0 {
            return 0;
        }
        let held = |value: u64| value.min((1 << 32) - 1) as i64;
        let off = self.settings.target as i64 - (held(delay) - held(base));
        let off_part = off as f64 / self.settings.target as f64;
        let length_part = f64::from(length) / self.in_flight as f64;
        let scaled = self.settings.gain * self.settings.increase as f64 * off_part * length_part;
        scaled.trunc() as i128
    }

    /// A newly acknowledged packet: its first length, and its transmit time if it was sent once.
    pub fn ack(&mut self, length: u32, sent_once_at: Option<u64>, delay: u64, now: u64) {
        let base = self.take_sample(delay, now);
        let adjusted = self.maximum + self.adjustment(delay, base, length);
        if !(0..=LARGEST_MAXIMUM).contains(&adjusted) {
            self.departures.outside_u32 = true;
        }
        self.maximum =
            adjusted.max(self.minimum()).min(self.maximum + i128::from(self.settings.increase)).min(LARGEST_MAXIMUM);
        self.in_flight -= i128::from(length);
        if let Some(sent_at) = sent_once_at {
            let p = i128::from(now) - i128::from(sent_at);
            let (r, v) = (self.round_trip, self.variance);
            self.variance = (v + ((r - p).abs() - v) / 4).max(0);
            self.round_trip = (r + (p - r) / 8).max(0);
            let timeout = self.round_trip + 4 * self.variance;
            self.timeout = (timeout as u64).max(self.settings.minimum_timeout);
        }
    }

    pub fn timeout_event(&mut self) {
        self.maximum = self.minimum();
        if 2 * self.timeout > LARGEST_TIMEOUT {
            self.departures.timeout_held = true;
        }
        self.timeout = (2 * self.timeout).min(LARGEST_TIMEOUT);
    }

    pub fn loss(&mut self) {
        self.maximum = (self.maximum / 2).max(self.minimum());
    }
}
