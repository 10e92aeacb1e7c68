//! Module 2: the packet reader.
use crate::check_code::check_code;
use crate::rule::{Reading, Rule};

/// The shortest packet: "at least 13 bytes"
pub const SHORTEST: usize = 13;

#[derive(Clone, Copy, Debug, PartialEq, Eq)]
pub struct Packet<'a> {
    pub apid: u64,
    pub sequence_count: u64,
    pub service: u8,
    pub subservice: u8,
    pub source_id: u64,
    pub user_data: &'a [u8],
}

fn word(bytes: &[u8], at: usize) -> u64 {
    bytes[at] as u64 * 256 + bytes[at + 1] as u64
}

/// "packet version 0, type 1, secondary header flag 1"
fn header_bits(first: u8, reading: Reading) -> bool {
    let version = reading.breaks(Rule::PacketVersionIgnored) || first >> 5 == 0;
    let kind = reading.breaks(Rule::PacketTypeIgnored) || first >> 4 & 1 == 1;
    let flag = reading.breaks(Rule::SecondaryFlagIgnored) || first >> 3 & 1 == 1;
    version && kind && flag
}

/// "total = length field + 7, between 13 and the bytes given"
fn total(bytes: &[u8], reading: Reading) -> Option<usize> {
    let total = word(bytes, 4) as usize + 7;
    let shortest = SHORTEST + reading.breaks(Rule::ShortestPacketRefused) as usize;
    (shortest <= total && total <= bytes.len()).then_some(total)
}

/// "PUS version nibble (high half of byte 6) is 2"
fn pus_version(byte: u8, reading: Reading) -> bool {
    byte >> 4 == 2 || reading.breaks(Rule::PusVersionIgnored)
}

/// "the last two bytes of the total are the check code of those before"
fn checked(bytes: &[u8], total: usize, reading: Reading) -> bool {
    let end = if reading.breaks(Rule::CheckCodeAtTheVeryEnd) { bytes.len() } else { total };
    reading.breaks(Rule::CheckCodeIgnored)
        || word(bytes, end - 2) == check_code(&bytes[..end - 2]) as u64
}

impl<'a> Packet<'a> {
    /// "Readable exactly if", and then its fields.
    pub fn read(bytes: &'a [u8], reading: Reading) -> Option<Packet<'a>> {
        if bytes.len() < SHORTEST || !header_bits(bytes[0], reading) {
            return None;
        }
        let total = total(bytes, reading)?;
        if !pus_version(bytes[6], reading) || !checked(bytes, total, reading) {
            return None;
        }
        let apid_bits = if reading.breaks(Rule::ApidTwelveBits) { 0xFFF } else { 0x7FF };
        let count_bits = if reading.breaks(Rule::SequenceFlagsKept) { 0xFFFF } else { 0x3FFF };
        let source_at = if reading.breaks(Rule::SourceIdFromService) { 8 } else { 9 };
        let end = if reading.breaks(Rule::UserDataToTheVeryEnd) { bytes.len() } else { total };
        Some(Packet {
            apid: word(bytes, 0) & apid_bits,
            sequence_count: word(bytes, 2) & count_bits,
            service: bytes[7],
            subservice: bytes[8],
            source_id: word(bytes, source_at),
            user_data: &bytes[11..end - 2],
        })
    }

    /// The request ID `as_u64`: source ID x 2^32 + APID x 2^16 + sequence count.
    pub fn request_id(&self) -> u64 {
        self.source_id << 32 | self.apid << 16 | self.sequence_count
    }
}
