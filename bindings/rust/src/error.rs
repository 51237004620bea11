use std::fmt;

/// Why a call was refused. Each has its number in document 01, which [`Error::number`] tells.
///
/// A refused call changed nothing.
#[derive(Copy, Clone, Debug, Eq, PartialEq, Hash)]
#[repr(u8)]
#[non_exhaustive]
pub enum Error {
    /// A datagram under 20 bytes.
    TooShort = 1,
    /// A packet type above 4.
    UnknownType = 2,
    /// A version that is not 1.
    UnknownVersion = 3,
    /// An extension's head or body runs past the end.
    Extension = 4,
    /// A selective ACK of 1 to 3 bytes; in decoding, of 0 to 3.
    SackShort = 5,
    /// A selective ACK of 4 bytes or more, not a multiple of 4.
    SackNotWords = 6,
    /// Data with an empty payload.
    EmptyData = 7,
    /// A selective ACK above 252 bytes.
    SackLong = 8,
    /// The output room is too small.
    NoRoom = 9,
    /// A setting out of range.
    BadSetting = 10,
    /// A time or delay above 2^50 microseconds, or a now below the last accepted one.
    BadTime = 11,
    /// A number that was not sent.
    NotSent = 12,
    /// A first transmit longer than the free window.
    NoWindow = 13,
    /// All 512 places of the tracker are held.
    NoPlace = 14,
    /// 60,000 packets were sent, or a receiver's offset is above 60,000.
    TooMany = 15,
    /// More than 256 ahead of the receiver.
    TooFarAhead = 16,
    /// A payload longer than the free room of the receiver.
    PayloadTooLong = 17,
    /// A receive buffer of another length than was named at the start.
    OtherLength = 18,
    /// A state that is not sound.
    NotSound = 19,
}

impl Error {
    /// In the order of their numbers.
    const ALL: [Error; 19] = [
        Error::TooShort,
        Error::UnknownType,
        Error::UnknownVersion,
        Error::Extension,
        Error::SackShort,
        Error::SackNotWords,
        Error::EmptyData,
        Error::SackLong,
        Error::NoRoom,
        Error::BadSetting,
        Error::BadTime,
        Error::NotSent,
        Error::NoWindow,
        Error::NoPlace,
        Error::TooMany,
        Error::TooFarAhead,
        Error::PayloadTooLong,
        Error::OtherLength,
        Error::NotSound,
    ];

    /// Document 01's number.
    pub fn number(self) -> u32 {
        self as u32
    }

    /// The refusal of a number, 1 to 19.
    pub fn from_number(number: u32) -> Option<Self> {
        Self::ALL.into_iter().find(|error| error.number() == number)
    }
}

impl fmt::Display for Error {
    fn fmt(&self, f: &mut fmt::Formatter<'_>) -> fmt::Result {
        let s = match self {
            Self::TooShort => "datagram under 20 bytes",
            Self::UnknownType => "packet type above 4",
            Self::UnknownVersion => "version not 1",
            Self::Extension => "extension runs past the end",
            Self::SackShort => "selective ACK under 4 bytes",
            Self::SackNotWords => "selective ACK not a multiple of 4 bytes",
            Self::EmptyData => "Data with empty payload",
            Self::SackLong => "selective ACK above 252 bytes",
            Self::NoRoom => "output room too small",
            Self::BadSetting => "setting out of range",
            Self::BadTime => "time out of range or behind the last",
            Self::NotSent => "number not sent",
            Self::NoWindow => "longer than the free window",
            Self::NoPlace => "512 packets are held already",
            Self::TooMany => "60,000 packets are the most",
            Self::TooFarAhead => "more than 256 ahead",
            Self::PayloadTooLong => "payload longer than the free room",
            Self::OtherLength => "receive buffer of another length",
            Self::NotSound => "state not sound",
        };
        write!(f, "{s} ({})", self.number())
    }
}

impl std::error::Error for Error {}

/// An answer of the C interface.
pub(crate) fn answered(number: u32) -> Result<(), Error> {
    match number {
        0 => Ok(()),
        number => Err(Error::from_number(number).expect("an answer of document 01")),
    }
}

/// An answer whose one refusal, 19, no state of this package gets.
pub(crate) fn sound(number: u32) {
    assert_eq!(number, 0, "the memory of a state was overwritten from outside");
}
