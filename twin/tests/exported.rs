//! The two calls that a C host may make directly.

use twin::exported::{lock_place, place_check};
use twin::medium::{is_place, Record, PLACE_BYTES};
use twin::random::Random;

fn record(id: u64) -> [u8; PLACE_BYTES] {
    let (client, generation, partition, sequence, header) = (1, 2, 3, 1 << 32, 5);
    Record { id, client, generation, partition, sequence, header, data: b"data" }.encode()
}

#[test]
fn place_check_needs_72_bytes_and_a_number_from_1_to_1000() {
    for id in [1, 2, 999, 1000] {
        assert_eq!(place_check(&record(id), id), 1);
        assert_eq!(place_check(&record(id), id + 1), 0);
        assert_eq!(place_check(&record(id)[..71], id), 0);
        assert_eq!(place_check(&[&record(id)[..], &[0]].concat(), id), 0);
    }
    assert_eq!(place_check(&[], 1), 0);
    for id in [0, 1001, u64::MAX] {
        assert!(is_place(id, &record(id)));
        assert_eq!(place_check(&record(id), id), 0);
    }
}

/// (k × c mod 2^64) divided by 2^54, computed with 128 bits.
#[test]
fn lock_places_by_wide_products() {
    let factors: [u128; 3] = [0x9E3779B97F4A7C15, 0xBF58476D1CE4E5B9, 0x94D049BB133111EB];
    let mut random = Random::new(10);
    let drawn: Vec<u64> = (0..1_000).map(|_| random.number()).collect();
    for lock in drawn.into_iter().chain([0, 1, 2, 1 << 63, u64::MAX]) {
        for (index, factor) in (0..).zip(factors) {
            let wide = u128::from(lock) * factor % (1 << 64) / (1 << 54);
            assert_eq!(u128::from(lock_place(lock, index)), wide);
        }
    }
}
