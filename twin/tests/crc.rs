//! CRC-32: published values, and the fast form against the bit by bit one.

use twin::crc::{bitwise, crc32};
use twin::random::Random;
use twin::vectors::PUBLISHED;

#[test]
fn published_values() {
    for (bytes, check) in PUBLISHED {
        assert_eq!(bitwise(bytes), check, "{bytes:?}");
        assert_eq!(crc32(bytes), check, "{bytes:?}");
    }
}

#[test]
fn eight_bytes_a_step_is_bit_by_bit() {
    let mut random = Random::new(1);
    for length in (0..200).chain([1_000, 4_096, 65_536, 65_543]) {
        let bytes = random.bytes(length);
        assert_eq!(crc32(&bytes), bitwise(&bytes), "length {length}");
    }
}
