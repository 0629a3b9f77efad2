//! Both scans find the same mark: the one that goes on from place to place, and the benchmark's own,
//! which finds each place by a product.

use twin::jobs::scan::mark_by_products;
use twin::medium::{
    fresh, mark, place_at, put, seal, Record, DATA_AT, LENGTH_AT, PLACE_BYTES, PLACE_CHECK_AT,
    WIPED,
};

fn record(id: u64, data: &[u8]) -> [u8; PLACE_BYTES] {
    Record { id, client: 1, generation: 0, partition: 2, sequence: 3, header: 4, data }.encode()
}

/// Every place holds a record, and their data are of every length.
fn full(places: u64) -> Vec<u8> {
    let mut medium = fresh(places as usize);
    for id in 1..=places {
        let data: Vec<u8> = (0..id % 29).map(|byte| (id + byte) as u8).collect();
        put(&mut medium, place_at(id), &record(id, &data));
    }
    medium
}

#[track_caller]
fn assert_mark(medium: &[u8], expected: u64) {
    assert_eq!((mark(medium), mark_by_products(medium)), (expected, expected));
}

/// N, and the places that are damaged or cut at.
fn shapes() -> impl Iterator<Item = (u64, Vec<u64>)> {
    let small = (1..=9).map(|places| (places, (1..=places).collect()));
    small.chain([(1000, vec![1, 2, 255, 256, 257, 500, 999, 1000])])
}

/// What a place of this number may hold instead of a record of its own.
fn damaged(number: u64) -> Vec<[u8; PLACE_BYTES]> {
    let whole = record(number, b"abc");
    let changed = |at: usize, sealed: bool| {
        let mut bytes = whole;
        bytes[at] ^= 0x80;
        if sealed {
            seal(&mut bytes);
        }
        bytes
    };
    let one_byte = (0..PLACE_BYTES).map(|at| changed(at, false));
    // These have the right check: too long, or not all zeros behind the data.
    let sealed = [LENGTH_AT, LENGTH_AT + 3, DATA_AT + 3, PLACE_CHECK_AT - 1];
    let sealed = sealed.map(|at| changed(at, true));
    let misnumbered = [number - 1, number + 1].map(|id| record(id, b"abc"));
    one_byte.chain(sealed).chain(misnumbered).chain([WIPED]).collect()
}

#[test]
fn full_and_empty() {
    for (places, _) in shapes() {
        assert_mark(&full(places), places);
        assert_mark(&fresh(places as usize), 0);
    }
    assert_mark(&fresh(0), 0);
}

#[test]
fn wiped_from_a_place_on() {
    for (places, numbers) in shapes() {
        for number in numbers {
            let mut medium = full(places);
            medium[place_at(number)..].fill(0);
            assert_mark(&medium, number - 1);
        }
    }
}

#[test]
fn ending_within_a_place() {
    for (places, numbers) in shapes() {
        for number in numbers {
            let medium = full(places);
            for bytes in [0, 1, PLACE_BYTES - 1] {
                assert_mark(&medium[..place_at(number) + bytes], number - 1);
            }
        }
    }
}

#[test]
fn a_damaged_place_with_valid_ones_behind_it() {
    for (places, numbers) in shapes() {
        for number in numbers {
            let mut medium = full(places);
            for bytes in damaged(number) {
                put(&mut medium, place_at(number), &bytes);
                assert_mark(&medium, number - 1);
            }
        }
    }
}
