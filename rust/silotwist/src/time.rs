//! Times, margins and windows of time.

/// Seconds from 1970 and nanoseconds. In range: -2^42 to 2^42 s, both allowed, and below 1,000,000,000 ns.
#[derive(Clone, Copy, Debug, Default, PartialEq, Eq, PartialOrd, Ord, Hash)]
pub struct UnixTime {
    /// Seconds from 1970-01-01 00:00:00 UTC.
    pub secs: i64,
    /// Nanoseconds of the second.
    pub nanos: u32,
}

impl UnixTime {
    /// A time, in range or not: calls judge it.
    pub const fn new(secs: i64, nanos: u32) -> UnixTime {
        UnixTime { secs, nanos }
    }
}

/// How long before its release a command must be there. In range: 0 to 2^31 s, and below 1,000,000,000 ns.
#[derive(Clone, Copy, Debug, Default, PartialEq, Eq, PartialOrd, Ord, Hash)]
pub struct Margin {
    /// Seconds.
    pub secs: u64,
    /// Nanoseconds of the second.
    pub nanos: u32,
}

impl Margin {
    /// A margin, in range or not: calls judge it.
    pub const fn new(secs: u64, nanos: u32) -> Margin {
        Margin { secs, nanos }
    }
}

/// A window of time. Both ends belong to it.
#[derive(Clone, Copy, Debug, PartialEq, Eq, Hash)]
pub enum TimeWindow {
    /// All times.
    All,
    /// From the first to the second.
    FromTo(UnixTime, UnixTime),
    /// From a time on.
    From(UnixTime),
    /// Up to a time.
    To(UnixTime),
}

impl TimeWindow {
    /// The ends as the calls take them: whether there is one, and which.
    pub(crate) fn ends(self) -> [(bool, UnixTime); 2] {
        let none = (false, UnixTime::default());
        match self {
            TimeWindow::All => [none, none],
            TimeWindow::FromTo(from, to) => [(true, from), (true, to)],
            TimeWindow::From(from) => [(true, from), none],
            TimeWindow::To(to) => [none, (true, to)],
        }
    }
}
