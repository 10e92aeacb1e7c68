//! Module 1: the check code, bit by bit.

/// "CRC-16, polynomial 0x1021, start 0xFFFF, no reflection, no final exclusive-or"
pub fn check_code(bytes: &[u8]) -> u16 {
    let mut code: u16 = 0xFFFF;
    for &byte in bytes {
        code ^= (byte as u16) << 8;
        for _ in 0..8 {
            let carry = code & 0x8000 != 0;
            code <<= 1;
            if carry {
                code ^= 0x1021;
            }
        }
    }
    code
}
