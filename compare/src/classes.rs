//! The classes of difference between the Rust and the port, each a row of docs/DIFFERENCES.md.

use std::collections::BTreeMap;

#[derive(Copy, Clone, Debug, PartialEq, Eq, PartialOrd, Ord)]
pub enum Class {
    UnknownExtension,
    SackLengthCut,
    EmptyData,
    EmptySack,
    OutputRoom,
    Cast,
    WindowOver,
    TimeoutHeld,
    SettingsOrTimes,
    SamplesBeyond,
    NumericOrder,
    NoRoom,
    FarAhead,
    PastLimit,
    BufferLength,
    TransmitNotNext,
    LongerThanWindow,
    AckNotSent,
    Places,
    SixtyThousand,
    TimeGoesBack,
    SackInAck,
}

/// Each class with words of its row in docs/DIFFERENCES.md.
pub const LISTED: [(Class, &str); 22] = [
    (Class::UnknownExtension, "(first extension 2, empty), decoded and encoded again"),
    (Class::SackLengthCut, "a SACK of 256 bytes, encoded"),
    (Class::EmptyData, "Data with an empty payload, encoded"),
    (Class::EmptySack, "`Some(SelectiveAck::new(vec![]))`, encoded"),
    (Class::OutputRoom, "the caller's room; 9 where it is too small"),
    (Class::Cast, "Old maximum + adjustment below 0 (W3)"),
    (Class::WindowOver, "An empty first transmit while in flight is above the maximum"),
    (Class::TimeoutHeld, "Timeouts in a row"),
    (Class::SettingsOrTimes, "Settings, times and delays out of range"),
    (Class::SamplesBeyond, "Samples beyond 1,024"),
    (Class::NumericOrder, "SACK past 65,535 (R1)"),
    (Class::NoRoom, "3 bytes into a buffer of 2"),
    (Class::FarAhead, "initial 0; 300 arrives"),
    (Class::PastLimit, "initial 0; 60,001 arrives"),
    (Class::BufferLength, "Buffer of length 0"),
    (Class::TransmitNotNext, "transmit of number 2 first"),
    (Class::LongerThanWindow, "a first transmit of 4,097 bytes"),
    (Class::AckNotSent, "ack of number 1 with nothing sent"),
    (Class::Places, "513 first transmits of 0 bytes"),
    (Class::SixtyThousand, "60,001 first transmits"),
    (Class::TimeGoesBack, "transmit at 2 s, then its ack at 0 s"),
    (Class::SackInAck, "it has no answers 5, 6 and 8 in an ack"),
];

/// How often each class was met, and each answer given.
#[derive(Default)]
pub struct Counts {
    pub classes: BTreeMap<Class, u64>,
    pub answers: BTreeMap<(&'static str, u8), u64>,
}

impl Counts {
    pub fn met(&mut self, class: Class) {
        *self.classes.entry(class).or_default() += 1;
    }

    pub fn answered(&mut self, call: &'static str, answer: u8) {
        *self.answers.entry((call, answer)).or_default() += 1;
    }

    pub fn say(&self) {
        let mut last = "";
        for ((call, answer), count) in &self.answers {
            print!("{}{answer}: {count}", if *call == last { ", ".into() } else { format!("\n  {call} ") });
            last = call;
        }
        println!();
        for (class, count) in &self.classes {
            println!("  differs, {class:?}: {count}");
        }
    }
}
