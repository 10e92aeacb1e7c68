//! Packets and stamps as a ground system builds them.
use plain::check_code;

/// The fields of a telecommand; `trailing` bytes follow its total.
#[derive(Clone, Debug)]
pub struct Fields {
    pub apid: u16,
    pub sequence: u16,
    /// The two bits before the sequence count.
    pub flags: u8,
    pub acks: u8,
    pub service: u8,
    pub subservice: u8,
    pub source: u16,
    pub data: Vec<u8>,
    pub trailing: Vec<u8>,
}

/// Writes the check code of all but the last two bytes into those.
pub fn seal(packet: &mut [u8]) {
    let end = packet.len() - 2;
    let code = check_code(&packet[..end]);
    packet[end..].copy_from_slice(&code.to_be_bytes());
}

pub fn packet(f: &Fields) -> Vec<u8> {
    let mut p = Vec::new();
    p.extend((0x1800 | f.apid & 0x7FF).to_be_bytes());
    p.extend(((f.flags as u16 & 3) << 14 | f.sequence & 0x3FFF).to_be_bytes());
    p.extend(((13 + f.data.len() - 7) as u16).to_be_bytes());
    p.extend([0x20 | f.acks & 0xF, f.service, f.subservice]);
    p.extend(f.source.to_be_bytes());
    p.extend(&f.data);
    p.extend([0, 0]);
    seal(&mut p);
    p.extend(&f.trailing);
    p
}

/// A small packet of service 17, subservice 1.
pub fn ping(apid: u16, sequence: u16) -> Vec<u8> {
    packet(&Fields {
        apid,
        sequence,
        flags: 3,
        acks: 15,
        service: 17,
        subservice: 1,
        source: 0,
        data: vec![],
        trailing: vec![],
    })
}

/// A stamp with a 16-bit day.
pub fn short_stamp(day: u16, ms: u32) -> Vec<u8> {
    [&[0x40], &day.to_be_bytes()[..], &ms.to_be_bytes()[..]].concat()
}

/// A stamp with a 24-bit day.
pub fn long_stamp(day: u32, ms: u32) -> Vec<u8> {
    [&[0x44], &day.to_be_bytes()[1..], &ms.to_be_bytes()[..]].concat()
}

/// An insertion request around a stamp and a packet.
pub fn wrap(stamp: &[u8], inner: &[u8]) -> Vec<u8> {
    packet(&Fields {
        apid: 2,
        sequence: 5,
        flags: 3,
        acks: 15,
        service: 11,
        subservice: 4,
        source: 1,
        data: [stamp, inner].concat(),
        trailing: vec![],
    })
}
