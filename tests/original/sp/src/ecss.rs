//! Packets, and the reader of telecommands (document 01, module 2).
use crate::{shown_as_debug, CcsdsPacket};

#[derive(Debug, Copy, Clone, PartialEq, Eq)]
pub enum PusError {
    Unreadable,
}
shown_as_debug!(PusError);

pub trait PusPacket: CcsdsPacket {
    fn service(&self) -> u8;
    fn subservice(&self) -> u8;
    fn user_data(&self) -> &[u8];
}

pub trait WritablePusPacket {
    fn len_written(&self) -> usize;
    fn write_to_bytes(&self, bytes: &mut [u8]) -> Result<usize, PusError>;
    fn to_vec(&self) -> Result<Vec<u8>, PusError>;
}

pub mod scheduling {
    //! The kinds of a time window.
    #[derive(Debug, Copy, Clone, PartialEq, Eq)]
    pub enum TimeWindowType {
        SelectAll,
        TimeTagToTimeTag,
        FromTimeTag,
        ToTimeTag,
    }
}

pub mod tc {
    //! The reader of telecommands.
    use super::{CcsdsPacket, PusError, PusPacket};

    pub trait GenericPusTcSecondaryHeader {
        fn source_id(&self) -> u16;
    }

    pub trait IsPusTelecommand {}

    pub struct PusTcReader<'a> {
        bytes: &'a [u8],
        total: usize,
    }

    /// What eight shifts make of a code.
    const fn shifted(mut code: u16) -> u16 {
        let mut n = 0;
        while n < 8 {
            code = if code & 0x8000 != 0 { code << 1 ^ 0x1021 } else { code << 1 };
            n += 1;
        }
        code
    }

    #[cfg(not(feature = "table"))]
    pub fn crc16(bytes: &[u8]) -> u16 {
        bytes.iter().fold(0xFFFF, |code, &byte| shifted(code ^ (byte as u16) << 8))
    }

    #[cfg(feature = "table")]
    pub fn crc16(bytes: &[u8]) -> u16 {
        static TABLE: [u16; 256] = {
            let mut table = [0; 256];
            let mut k = 0;
            while k < 256 {
                table[k] = shifted((k as u16) << 8);
                k += 1;
            }
            table
        };
        let step = |code: u16, &byte: &u8| code << 8 ^ TABLE[(code >> 8 ^ byte as u16) as usize];
        bytes.iter().fold(0xFFFF, step)
    }

    impl<'a> PusTcReader<'a> {
        pub fn new(b: &'a [u8]) -> Result<(Self, usize), PusError> {
            if b.len() < 13 || b[0] >> 3 != 0b00011 {
                return Err(PusError::Unreadable);
            }
            let total = u16::from_be_bytes([b[4], b[5]]) as usize + 7;
            if total < 13 || total > b.len() || b[6] >> 4 != 2 {
                return Err(PusError::Unreadable);
            }
            if crc16(&b[..total - 2]) != u16::from_be_bytes([b[total - 2], b[total - 1]]) {
                return Err(PusError::Unreadable);
            }
            Ok((Self { bytes: b, total }, total))
        }
    }

    impl CcsdsPacket for PusTcReader<'_> {
        fn apid(&self) -> u16 {
            u16::from_be_bytes([self.bytes[0], self.bytes[1]]) & 0x7ff
        }
        fn seq_count(&self) -> u16 {
            u16::from_be_bytes([self.bytes[2], self.bytes[3]]) & 0x3fff
        }
    }

    impl PusPacket for PusTcReader<'_> {
        fn service(&self) -> u8 {
            self.bytes[7]
        }
        fn subservice(&self) -> u8 {
            self.bytes[8]
        }
        fn user_data(&self) -> &[u8] {
            &self.bytes[11..self.total - 2]
        }
    }

    impl GenericPusTcSecondaryHeader for PusTcReader<'_> {
        fn source_id(&self) -> u16 {
            u16::from_be_bytes([self.bytes[9], self.bytes[10]])
        }
    }

    impl IsPusTelecommand for PusTcReader<'_> {}
}
