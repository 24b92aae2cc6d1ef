//! Numbers in bytes. Tables and block 0 have the least significant byte first, requests the most significant.

pub fn little16(bytes: &[u8]) -> u16 {
    u16::from_le_bytes([bytes[0], bytes[1]])
}

pub fn little32(bytes: &[u8]) -> u32 {
    u32::from_le_bytes([bytes[0], bytes[1], bytes[2], bytes[3]])
}

/// A number of as many bytes as there are, most significant byte first.
pub fn big(bytes: &[u8]) -> u32 {
    bytes.iter().fold(0, |number, byte| number * 256 + u32::from(*byte))
}

/// The byte that makes the sum of data and check 0 modulo 256.
pub fn check_of(data: &[u8]) -> u8 {
    let sum = data.iter().fold(0u8, |sum, byte| sum.wrapping_add(*byte));
    sum.wrapping_neg()
}

/// Puts new bytes over the old ones, from a place on.
pub fn patch(old: &mut [u8], place: usize, new: &[u8]) {
    old[place..place + new.len()].copy_from_slice(new);
}
