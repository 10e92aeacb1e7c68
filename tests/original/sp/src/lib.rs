//! Stand-in for the types that `pool.rs` and `scheduler.rs` name: it supplies what they do not hold, the readers
//! of packets and stamps by document 01's rules, and the order and sum of times.
pub mod ecss;
pub mod time;

/// A type whose text is its debug text: display texts are left out.
macro_rules! shown_as_debug {
    ($t:ty) => {
        impl std::fmt::Display for $t {
            fn fmt(&self, f: &mut std::fmt::Formatter<'_>) -> std::fmt::Result {
                write!(f, "{self:?}")
            }
        }
        impl std::error::Error for $t {}
    };
}
pub(crate) use shown_as_debug;

#[derive(Debug, Copy, Clone, PartialEq, Eq)]
pub enum ByteConversionError {
    ToSliceTooSmall { found: usize, expected: usize },
}

shown_as_debug!(ByteConversionError);

pub trait CcsdsPacket {
    fn apid(&self) -> u16;
    fn seq_count(&self) -> u16;
}
