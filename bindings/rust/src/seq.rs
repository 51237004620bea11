/// A range bounded inclusively below and above that supports wrapping arithmetic.
///
/// If `end < start`, then the range contains all values `x` such that `start <= x <= u16::MAX` and
/// `0 <= x <= end`.
#[derive(Copy, Clone, Debug, Eq, PartialEq)]
pub struct CircularRangeInclusive {
    start: u16,
    end: u16,
}

impl CircularRangeInclusive {
    /// Returns a new range.
    pub fn new(start: u16, end: u16) -> Self {
        Self { start, end }
    }

    /// Returns the start of the range (inclusive).
    pub fn start(&self) -> u16 {
        self.start
    }

    /// Returns the end of the range (inclusive).
    pub fn end(&self) -> u16 {
        self.end
    }

    /// Returns `true` if `item` is contained in the range.
    pub fn contains(&self, item: u16) -> bool {
        item.wrapping_sub(self.start) <= self.end.wrapping_sub(self.start)
    }
}
