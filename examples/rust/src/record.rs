//! A record written by hand, and an old medium that holds it.

/// The record of ID 1 with header 9 and one byte of data, hex AB. Integers are big-endian; the
/// CRC-32 is zlib's, of the 68 bytes before it.
#[rustfmt::skip]
pub const RECORD: [u8; 72] = [
    0, 0, 0, 0, 0, 0, 0, 1,     // ID
    0, 0, 0, 0,                 // client
    0, 0, 0, 0,                 // generation
    0, 0, 0, 0,                 // partition
    0, 0, 0, 0, 0, 0, 0, 0,     // sequence
    0, 0, 0, 9,                 // header
    0, 0, 0, 1,                 // data length
    0xAB, 0, 0, 0, 0, 0, 0,     // data, and zeros up to 28 bytes
    0, 0, 0, 0, 0, 0, 0,
    0, 0, 0, 0, 0, 0, 0,
    0, 0, 0, 0, 0, 0, 0,
    0, 0, 0, 0,                 // zeros
    0xFD, 0xCC, 0x9F, 0x71,     // CRC-32
];

/// An old medium of one place, which holds that record; the slots' numbers are 0. What is not named
/// is 0, too.
pub fn old_medium() -> [u8; 128] {
    let mut medium = [0; 128];
    medium[28..32].copy_from_slice(&[0x80, 0x70, 0x77, 0xE9]); // the first slot's CRC-32
    medium[60..64].copy_from_slice(&[0x80, 0x70, 0x77, 0xE9]); // the second slot's
    medium[71] = 1; // ID
    medium[91] = 9; // header
    medium[95] = 1; // data length
    medium[96] = 0xAB; // data
    medium[124..].copy_from_slice(&[0xA0, 0xEA, 0x33, 0xA8]); // CRC-32 of the place's 60 bytes before
    medium
}
