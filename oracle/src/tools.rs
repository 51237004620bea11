//! What every list needs: a generator with a fixed seed, a writer of big-endian numbers, a call that may panic.

/// SplitMix64.
pub struct Random(u64);

impl Random {
    pub fn new(seed: u64) -> Self {
        Random(seed)
    }

    pub fn next(&mut self) -> u64 {
        self.0 = self.0.wrapping_add(0x9E37_79B9_7F4A_7C15);
        let mut z = self.0;
        z = (z ^ (z >> 30)).wrapping_mul(0xBF58_476D_1CE4_E5B9);
        z = (z ^ (z >> 27)).wrapping_mul(0x94D0_49BB_1331_11EB);
        z ^ (z >> 31)
    }

    /// A number below `limit`, which is above 0.
    pub fn below(&mut self, limit: u64) -> u64 {
        self.next() % limit
    }

    /// A number from `low` to `high`, both included.
    pub fn between(&mut self, low: u64, high: u64) -> u64 {
        low + self.below(high - low + 1)
    }

    /// True in `part` of `whole` cases.
    pub fn chance(&mut self, part: u64, whole: u64) -> bool {
        self.below(whole) < part
    }

    pub fn pick<T: Copy>(&mut self, from: &[T]) -> T {
        from[self.below(from.len() as u64) as usize]
    }

    pub fn bytes(&mut self, count: usize) -> Vec<u8> {
        (0..count).map(|_| self.next() as u8).collect()
    }
}

/// A list under way: its bytes, and what is said about it on the way out.
#[derive(Default)]
pub struct List {
    pub bytes: Vec<u8>,
    pub said: Vec<String>,
}

impl List {
    pub fn u8(&mut self, value: u8) {
        self.bytes.push(value);
    }

    pub fn u16(&mut self, value: u16) {
        self.bytes.extend(value.to_be_bytes());
    }

    pub fn u32(&mut self, value: u32) {
        self.bytes.extend(value.to_be_bytes());
    }

    pub fn u64(&mut self, value: u64) {
        self.bytes.extend(value.to_be_bytes());
    }

    /// A 2-byte length, then the bytes.
    pub fn counted(&mut self, bytes: &[u8]) {
        self.u16(u16::try_from(bytes.len()).expect("at most 65,535 bytes"));
        self.bytes.extend(bytes);
    }

    pub fn say(&mut self, line: String) {
        self.said.push(line);
    }
}

pub fn store(file: &str, list: List) {
    std::fs::write(file, &list.bytes).expect("the list's file can be written");
    for line in &list.said {
        println!("{line}");
    }
    println!("{} bytes", list.bytes.len());
}

/// Where an expected answer comes from.
#[derive(Copy, Clone, Debug, PartialEq, Eq)]
pub enum Source {
    /// The Rust gave exactly this.
    Rust = 0,
    /// The Rust panicked; document 01's number.
    Panic = 1,
    /// The Rust gives something else, or has no such refusal; document 01's answer.
    Document = 2,
    /// The Rust gave something else earlier in this session; document 01's answer.
    After = 3,
}

/// Does the call panic? What it was given may be left half done, so give it a copy.
pub fn panics(call: impl FnOnce()) -> bool {
    std::panic::catch_unwind(std::panic::AssertUnwindSafe(call)).is_err()
}
