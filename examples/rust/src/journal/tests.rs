//! The calls against values that are not theirs: document 01's, zlib's, and arithmetic in 128 bits.

use std::panic::catch_unwind;

use super::{
    convert, converted, lock_places, medium_bytes, place_check, table_place, yes_or_no,
    NotConvertible, PLACE_BYTES, SLOTS_BYTES,
};
use crate::record::{old_medium, RECORD};

/// A record of ID 7 with every field and all 28 bytes of data in use; its CRC-32 is zlib's.
const FULL: &str = "00000000000000070102030400000005000000060708090A0B0C0D0EFFFFFFFF0000001C\
                    0102030405060708090A0B0C0D0E0F101112131415161718191A1B1C000000009DA477D9";

fn bytes(digits: &str) -> Vec<u8> {
    let pair = |at| u8::from_str_radix(&digits[at..at + 2], 16).expect("two digits");
    (0..digits.len()).step_by(2).map(pair).collect()
}

/// CRC-32 of IEEE 802.3, bit by bit.
fn crc32(bytes: &[u8]) -> u32 {
    let step = |rest: u32, _| rest >> 1 ^ if rest & 1 == 1 { 0xEDB8_8320 } else { 0 };
    !bytes.iter().fold(!0, |rest, &byte| (0..8).fold(rest ^ u32::from(byte), step))
}

/// Makes the check of a slot or place, its last four bytes, agree.
fn seal(bytes: &mut [u8]) {
    let (checked, check) = bytes.split_at_mut(bytes.len() - 4);
    check.copy_from_slice(&crc32(checked).to_be_bytes());
}

/// `RECORD` with another ID.
fn with_id(id: u64) -> [u8; PLACE_BYTES] {
    let mut place = RECORD;
    place[..8].copy_from_slice(&id.to_be_bytes());
    seal(&mut place);
    place
}

/// An old medium of so many places, each with the record of its number: `old_medium`'s with another
/// ID.
fn old_log(places: usize) -> Vec<u8> {
    let mut medium = old_medium().to_vec();
    let first = medium.split_off(SLOTS_BYTES);
    for id in 1..=places as u64 {
        let mut place = first.clone();
        place[..8].copy_from_slice(&id.to_be_bytes());
        seal(&mut place);
        medium.extend(place);
    }
    medium
}

/// What is made of `old_log(places)` when its log ends at a mark.
fn new_log(places: usize, mark: usize) -> Vec<u8> {
    let mut medium = old_medium()[..SLOTS_BYTES].to_vec();
    medium.extend((1..=mark as u64).flat_map(with_id));
    medium.resize(medium_bytes(places), 0);
    medium
}

/// A slice that `convert` may fill, with bytes of its own.
fn lent(length: usize) -> Vec<u8> {
    vec![0xC3; length]
}

#[test]
fn the_tests_own_crc() {
    assert_eq!(crc32(b"123456789"), 0xCBF4_3926);
    assert_eq!(with_id(1), RECORD);
    assert_eq!(old_log(1), old_medium());
}

#[test]
fn records_written_by_hand() {
    assert!(place_check(&RECORD, 1));
    assert!(place_check(&bytes(FULL), 7));
}

#[test]
fn numbers() {
    for id in [1, 2, 999, 1000] {
        assert!(place_check(&with_id(id), id), "{id}");
    }
    for id in [0, 1001, 1002, u64::MAX] {
        assert!(!place_check(&with_id(id), id), "{id}");
        assert!(!place_check(&RECORD, id), "{id}");
    }
    assert!(!place_check(&RECORD, 2));
}

/// An empty slice's pointer dangles; the call must not follow it.
#[test]
fn lengths() {
    let longer = [RECORD, RECORD].concat();
    for length in (0..=longer.len()).filter(|&length| length != PLACE_BYTES) {
        assert!(!place_check(&longer[..length], 1), "{length}");
    }
    assert!(!place_check(&[], 1));
    assert!(!place_check(&Vec::new(), 1));
    assert!(!place_check(&old_medium()[SLOTS_BYTES..], 1));
}

/// Bytes need no alignment.
#[test]
fn addresses() {
    for before in 0..16 {
        let moved = [&vec![0; before][..], &RECORD].concat();
        assert!(place_check(&moved[before..], 1), "{before}");
    }
}

#[test]
fn one_bit_changed() {
    for bit in 0..8 * PLACE_BYTES {
        let mut place = RECORD;
        place[bit / 8] ^= 1 << (bit % 8);
        assert!(!place_check(&place, 1), "{bit}");
    }
}

/// All 64 bits of a sequence may be used; the four zeros behind the data are zeros, also where the
/// check agrees.
#[test]
fn sequences_and_zeros() {
    for bit in 0..64 {
        let mut place = RECORD;
        place[20 + bit / 8] ^= 1 << (bit % 8);
        seal(&mut place);
        assert!(place_check(&place, 1), "{bit}");
    }
    for bit in 0..32 {
        let mut place = RECORD;
        place[64 + bit / 8] ^= 1 << (bit % 8);
        seal(&mut place);
        assert!(!place_check(&place, 1), "{bit}");
    }
}

#[test]
fn a_wiped_place() {
    assert!((0..=1001).all(|number| !place_check(&[0; PLACE_BYTES], number)));
}

#[test]
fn document_01s_locks() {
    assert_eq!(lock_places(1), [632, 765, 595]);
    assert_eq!(lock_places(0), [0, 0, 0]);
}

/// Document 01's formula as it stands, in numbers that hold the whole product.
#[test]
fn the_formula() {
    let factors = [0x9E37_79B9_7F4A_7C15_u128, 0xBF58_476D_1CE4_E5B9, 0x94D0_49BB_1331_11EB];
    let powers = (0..64).flat_map(|bit| [1 << bit, (1 << bit) - 1, !(1 << bit)]);
    for lock in powers.chain(0..2000) {
        let place = |factor| (u128::from(lock) * factor % (1 << 64) / (1 << 54)) as usize;
        assert_eq!(lock_places(lock), factors.map(place), "{lock}");
    }
}

#[test]
fn full_logs() {
    for places in [1, 2, 3, 20, 999, 1000] {
        let mut new = lent(medium_bytes(places));
        assert_eq!(convert(&old_log(places), &mut new), Ok(()), "{places}");
        assert!(new == new_log(places, places), "{places}");
    }
}

/// A changed bit ends the log, and valid places behind are not kept.
#[test]
fn logs_that_end() {
    for ended in 1..=5 {
        let mut old = old_log(5);
        old[SLOTS_BYTES + 64 * ended - 1] ^= 1;
        let mut new = lent(medium_bytes(5));
        assert_eq!(convert(&old, &mut new), Ok(()), "{ended}");
        assert!(new == new_log(5, ended - 1), "{ended}");
    }
}

/// One slot is enough, and an invalid one is kept, too; without any the medium is declined.
#[test]
fn slots() {
    let expected = new_log(1, 1);
    for (first, second) in [(0, 1), (1, 0), (1, 1)] {
        let mut old = old_medium();
        old[0] ^= first;
        old[32] ^= second;
        let mut new = lent(medium_bytes(1));
        if (first, second) == (1, 1) {
            assert_eq!(convert(&old, &mut new), Err(NotConvertible));
            assert!(new == lent(medium_bytes(1)));
        } else {
            assert_eq!(convert(&old, &mut new), Ok(()));
            assert!(new[..SLOTS_BYTES] == old[..SLOTS_BYTES]);
            assert!(new[SLOTS_BYTES..] == expected[SLOTS_BYTES..]);
        }
    }
}

/// Lengths that are not those of one number of places, empty slices among them.
#[test]
fn lengths_that_do_not_fit() {
    let old = old_log(1001);
    let declined = |old_length: usize, new_length: usize| {
        let mut new = lent(new_length);
        let answer = convert(&old[..old_length], &mut new);
        assert_eq!(answer, Err(NotConvertible), "{old_length} {new_length}");
        assert!(new == lent(new_length), "{old_length} {new_length}");
    };
    for length in (0..=medium_bytes(3)).filter(|&length| length != medium_bytes(2)) {
        declined(192, length);
    }
    for length in (0..=256).filter(|&length| length != 192) {
        declined(length, medium_bytes(2));
    }
    declined(0, 0);
    declined(64, medium_bytes(0));
    declined(64 + 64 * 1001, medium_bytes(1001));
    assert_eq!(convert(&[], &mut []), Err(NotConvertible));
    assert_eq!(NotConvertible.to_string(), "27 not convertible");
}

/// Answers that no journal gives end the program, and all others pass.
#[test]
fn answers_of_another_library() {
    assert!(!yes_or_no(0) && yes_or_no(1));
    for answer in [2, 256, 1 << 32, u64::MAX] {
        assert!(catch_unwind(|| yes_or_no(answer)).is_err(), "{answer}");
    }
    assert!((0..1024).all(|place| table_place(place) == place as usize));
    for answer in [1024, 1 << 32, u64::MAX] {
        assert!(catch_unwind(|| table_place(answer)).is_err(), "{answer}");
    }
    assert!(converted(0) == Ok(()) && converted(27) == Err(NotConvertible));
    for answer in [1, 26, 28, 27 << 32, u64::MAX] {
        assert!(catch_unwind(|| converted(answer)).is_err(), "{answer}");
    }
}
