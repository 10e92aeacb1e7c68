//! Times and margins, in range or not, and their order.
use crate::rule::{Reading, Rule};

pub const NANOS: u64 = 1_000_000_000;
const SECS_END: i64 = 1 << 42;
const MARGIN_END: u64 = 1 << 31;

#[derive(Clone, Copy, Debug, PartialEq, Eq)]
pub struct Time {
    pub secs: i64,
    pub nanos: u64,
}

#[derive(Clone, Copy, Debug, PartialEq, Eq)]
pub struct Margin {
    pub secs: u64,
    pub nanos: u64,
}

/// "nanoseconds below 1,000,000,000"
fn nanos_in_range(nanos: u64, reading: Reading) -> bool {
    nanos < NANOS || reading.breaks(Rule::BillionNanosAccepted) && nanos == NANOS
}

impl Time {
    /// "Seconds lie between -2^42 and 2^42, both allowed, nanoseconds below 1,000,000,000"
    pub fn in_range(self, reading: Reading) -> bool {
        let last = SECS_END - reading.breaks(Rule::LastSecondRefused) as i64;
        let first = -SECS_END + reading.breaks(Rule::FirstSecondRefused) as i64;
        (first..=last).contains(&self.secs) && nanos_in_range(self.nanos, reading)
    }

    /// Seconds decide, then nanoseconds.
    pub fn before(self, other: Time, reading: Reading) -> bool {
        match reading.broken {
            Some(Rule::NanosFirst) => (self.nanos, self.secs) < (other.nanos, other.secs),
            Some(Rule::NanosIgnored) => self.secs < other.secs,
            Some(Rule::SecondsUnsigned) => {
                (self.secs as u64, self.nanos) < (other.secs as u64, other.nanos)
            }
            _ => (self.secs, self.nanos) < (other.secs, other.nanos),
        }
    }

    /// "clock + margin", of a clock and a margin in range.
    pub fn plus(self, margin: Margin, reading: Reading) -> Time {
        let ignored = reading.breaks(Rule::MarginNanosIgnored);
        let nanos = self.nanos + if ignored { 0 } else { margin.nanos };
        let carry = if reading.breaks(Rule::CarryLost) { 0 } else { nanos / NANOS };
        Time { secs: self.secs + margin.secs as i64 + carry as i64, nanos: nanos % NANOS }
    }
}

impl Margin {
    /// "margin seconds from 0 to 2^31"
    pub fn in_range(self, reading: Reading) -> bool {
        let last = MARGIN_END - reading.breaks(Rule::LargestMarginRefused) as u64;
        self.secs <= last && nanos_in_range(self.nanos, reading)
    }
}
