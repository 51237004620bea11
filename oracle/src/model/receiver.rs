//! Document 01, "Receiving".

use std::collections::{BTreeMap, VecDeque};

#[derive(Clone, Debug)]
pub struct Receiver {
    pub length: usize,
    pub initial: u16,
    /// Payloads in order so far.
    pub c: u32,
    pub ready: VecDeque<u8>,
    /// By offset.
    pub waiting: BTreeMap<u32, Vec<u8>>,
}

#[derive(Copy, Clone, Debug, PartialEq, Eq)]
pub enum Written {
    Stored,
    Already,
    Refused(u8),
}

impl Receiver {
    /// Buffer length 1 to 65,536, else 10.
    pub fn new(length: u32, initial: u16) -> Result<Self, u8> {
        if !(1..=65_536).contains(&length) {
            return Err(10);
        }
        Ok(Receiver { length: length as usize, initial, c: 0, ready: VecDeque::new(), waiting: BTreeMap::new() })
    }

    pub fn offset(&self, number: u16) -> u32 {
        u32::from(number.wrapping_sub(self.initial))
    }

    pub fn waiting_bytes(&self) -> usize {
        self.waiting.values().map(Vec::len).sum()
    }

    pub fn available(&self) -> usize {
        self.length - self.ready.len() - self.waiting_bytes()
    }

    pub fn is_empty(&self) -> bool {
        self.ready.is_empty() && self.waiting.is_empty()
    }

    pub fn was_written(&self, number: u16) -> bool {
        let offset = self.offset(number);
        offset <= self.c || self.waiting.contains_key(&offset)
    }

    pub fn write(&mut self, number: u16, payload: &[u8]) -> Written {
        let offset = self.offset(number);
        if self.was_written(number) {
            return Written::Already;
        }
        if offset > 60_000 {
            return Written::Refused(15);
        }
        if offset > self.c + 256 {
            return Written::Refused(16);
        }
        if payload.len() > self.available() {
            return Written::Refused(17);
        }
        self.waiting.insert(offset, payload.to_vec());
        while let Some(next) = self.waiting.remove(&(self.c + 1)) {
            self.ready.extend(next);
            self.c += 1;
        }
        Written::Stored
    }

    /// The smaller of output length and ready bytes, oldest first.
    pub fn read(&mut self, output: usize) -> Vec<u8> {
        let count = output.min(self.ready.len());
        self.ready.drain(..count).collect()
    }

    pub fn ack_number(&self) -> u16 {
        self.initial.wrapping_add(self.c as u16)
    }

    /// None with nothing waiting, else bit i for offset c + 2 + i up to the furthest, padded with zeros to 32 bits.
    pub fn sack(&self) -> Vec<u8> {
        let Some((furthest, _)) = self.waiting.last_key_value() else {
            return vec![];
        };
        let bits = (furthest - self.c - 2 + 1) as usize;
        let mut bytes = vec![0u8; (bits + 31) / 32 * 4];
        for offset in self.waiting.keys() {
            let bit = (offset - self.c - 2) as usize;
            bytes[bit / 8] |= 1 << (bit % 8);
        }
        bytes
    }
}
