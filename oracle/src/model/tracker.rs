//! Document 01, "Sent packets".

use super::codec::sack_refused;
use super::controller::{Controller, Settings, LAST_TIME};

#[derive(Clone, Debug)]
pub struct Sent {
    pub number: u16,
    pub kind: u8,
    pub tag: u32,
    pub length: u32,
    pub first_sent: u64,
    pub sent_once: bool,
    pub acknowledged: bool,
    pub lost: bool,
}

#[derive(Clone, Debug)]
pub struct Tracker {
    pub initial: u16,
    /// The packet of offset k is at k - 1.
    pub packets: Vec<Sent>,
    pub controller: Controller,
    /// The last accepted now.
    pub clock: u64,
}

impl Tracker {
    pub fn new(initial: u16, settings: Settings) -> Result<Self, u8> {
        Ok(Tracker { initial, packets: Vec::new(), controller: Controller::new(settings)?, clock: 0 })
    }

    pub fn offset(&self, number: u16) -> usize {
        usize::from(number.wrapping_sub(self.initial))
    }

    pub fn number(&self, offset: usize) -> u16 {
        self.initial.wrapping_add(offset as u16)
    }

    /// The length of the acknowledged run.
    pub fn run(&self) -> usize {
        self.packets.iter().take_while(|packet| packet.acknowledged).count()
    }

    /// Places run from the first unacknowledged packet to the last sent.
    pub fn places_held(&self) -> usize {
        self.packets.len() - self.run()
    }

    /// The last of the acknowledged run, or 0 if none.
    pub fn ack_num(&self) -> u16 {
        match self.run() {
            0 => 0,
            run => self.number(run),
        }
    }

    /// In ascending order of the 16-bit number.
    pub fn lost_list(&self) -> Vec<(u16, u8, u32)> {
        let lost = self.packets.iter().filter(|packet| packet.lost);
        let mut list: Vec<_> = lost.map(|packet| (packet.number, packet.kind, packet.tag)).collect();
        list.sort();
        list
    }

    fn time_refused(&self, now: u64) -> bool {
        now > LAST_TIME || now < self.clock
    }

    pub fn transmit(&mut self, number: u16, kind: u8, tag: u32, length: u32, now: u64) -> Result<(), u8> {
        if self.time_refused(now) {
            return Err(11);
        }
        let (offset, n) = (self.offset(number), self.packets.len());
        if offset == 0 || offset > n + 1 {
            return Err(12);
        }
        if offset <= n {
            self.packets[offset - 1].sent_once = false;
        } else {
            if n >= 60_000 {
                return Err(15);
            }
            if i128::from(length) > self.controller.free_window() {
                return Err(13);
            }
            if self.places_held() >= 512 {
                return Err(14);
            }
            self.controller.transmit(length)?;
            self.packets.push(Sent {
                number,
                kind,
                tag,
                length,
                first_sent: now,
                sent_once: true,
                acknowledged: false,
                lost: false,
            });
        }
        self.clock = now;
        Ok(())
    }

    fn acknowledge(&mut self, offset: usize, delay: u64, now: u64) {
        let packet = &mut self.packets[offset - 1];
        if packet.acknowledged {
            return;
        }
        packet.acknowledged = true;
        packet.lost = false;
        let sent_once_at = packet.sent_once.then_some(packet.first_sent);
        self.controller.ack(packet.length, sent_once_at, delay, now);
    }

    pub fn ack(&mut self, number: u16, sack: &[u8], delay: u64, now: u64) -> Result<(), u8> {
        if self.time_refused(now) || delay > LAST_TIME {
            return Err(11);
        }
        if let Some(refusal) = sack_refused(sack) {
            return Err(refusal);
        }
        let (offset, n) = (self.offset(number), self.packets.len());
        if offset == 0 || offset > n {
            return Err(12);
        }
        self.acknowledge(offset, delay, now);
        for bit in 0..sack.len() * 8 {
            let later = offset + 2 + bit;
            if later > n {
                break;
            }
            if sack[bit / 8] >> (bit % 8) & 1 == 1 {
                self.acknowledge(later, delay, now);
            }
        }
        for earlier in 1..offset {
            self.acknowledge(earlier, delay, now);
        }
        self.find_losses();
        self.clock = now;
        Ok(())
    }

    /// An unacknowledged packet with three or more acknowledged later ones is lost, and counts once.
    fn find_losses(&mut self) {
        let mut acknowledged_later = 0;
        for packet in self.packets.iter_mut().rev() {
            if packet.acknowledged {
                acknowledged_later += 1;
            } else if acknowledged_later >= 3 && !packet.lost {
                packet.lost = true;
                self.controller.loss();
            }
        }
    }

    pub fn timeout_event(&mut self) {
        self.controller.timeout_event();
    }

    /// Bytes in flight are the summed first lengths of unacknowledged packets, and the maximum is at least the minimum.
    pub fn sound(&self) -> bool {
        let unacknowledged = self.packets.iter().filter(|packet| !packet.acknowledged);
        let sum: i128 = unacknowledged.map(|packet| i128::from(packet.length)).sum();
        sum == self.controller.in_flight && self.controller.maximum >= self.controller.minimum()
    }
}
