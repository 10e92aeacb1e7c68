//! Times, and the reader of stamps with a 16-bit day (document 01, module 3).
use crate::{shown_as_debug, ByteConversionError};
use std::ops::Add;
use std::time::Duration;

#[derive(Debug, Copy, Clone, PartialEq, Eq, PartialOrd, Ord)]
pub struct UnixTime {
    pub secs: i64,
    pub nanos: u32,
}

impl UnixTime {
    pub fn now() -> Result<Self, std::time::SystemTimeError> {
        unimplemented!("the system clock is left out")
    }
}

impl Add<Duration> for UnixTime {
    type Output = Self;

    fn add(self, margin: Duration) -> Self {
        let nanos = self.nanos + margin.subsec_nanos();
        let carry = nanos / 1_000_000_000;
        UnixTime {
            secs: self.secs + margin.as_secs() as i64 + carry as i64,
            nanos: nanos % 1_000_000_000,
        }
    }
}

#[derive(Debug, Clone, PartialEq, Eq)]
pub enum TimestampError {
    Refused,
    ByteConversion(ByteConversionError),
}
shown_as_debug!(TimestampError);

pub trait CcsdsTimeProvider {
    fn len_as_bytes(&self) -> usize;
    fn unix_time(&self) -> UnixTime;
}

pub trait TimeReader: Sized {
    fn from_bytes(bytes: &[u8]) -> Result<Self, TimestampError>;
}

pub trait TimeWriter {
    fn len_written(&self) -> usize;
    fn write_to_bytes(&self, bytes: &mut [u8]) -> Result<usize, TimestampError>;

    fn to_vec(&self) -> Result<Vec<u8>, TimestampError> {
        let mut vec = vec![0; self.len_written()];
        self.write_to_bytes(&mut vec)?;
        Ok(vec)
    }
}

pub mod cds {
    //! CDS stamps. The original names the width of the day as a type and reads the 16-bit one alone.
    use super::{CcsdsTimeProvider, TimeReader, TimestampError, UnixTime};
    use std::marker::PhantomData;

    #[derive(Debug, Clone, Copy)]
    pub struct DaysLen16Bits;
    #[derive(Debug, Clone, Copy)]
    pub struct DaysLen24Bits;

    #[derive(Debug, Clone, Copy)]
    pub struct CdsTime<W = DaysLen16Bits> {
        time: UnixTime,
        width: PhantomData<W>,
    }

    impl<W> CcsdsTimeProvider for CdsTime<W> {
        fn len_as_bytes(&self) -> usize {
            7
        }
        fn unix_time(&self) -> UnixTime {
            self.time
        }
    }

    impl TimeReader for CdsTime<DaysLen16Bits> {
        fn from_bytes(b: &[u8]) -> Result<Self, TimestampError> {
            if b.len() < 7 || b[0] != 0x40 {
                return Err(TimestampError::Refused);
            }
            let day = u16::from_be_bytes([b[1], b[2]]) as i64;
            let ms = u32::from_be_bytes([b[3], b[4], b[5], b[6]]);
            if ms > 86_399_999 {
                return Err(TimestampError::Refused);
            }
            let time = UnixTime {
                secs: (day - 4383) * 86400 + (ms / 1000) as i64,
                nanos: ms % 1000 * 1_000_000,
            };
            Ok(CdsTime { time, width: PhantomData })
        }
    }
}
