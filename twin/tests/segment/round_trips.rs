//! Importing an export restores its places, and what an imported pair left is written out as that pair.

use crate::words::draw_whole;
use twin::medium::{self, mark, medium_bytes, place_at, put, DATA_LIMIT, SLOTS_BYTES};
use twin::random::Random;
use twin::segment::{import, lengths, written, Stamp};
use twin::tries::exports::draw_stamp;
use twin::tries::records::draw_record;

/// A medium of so many places with this mark, any data and any fields; behind the mark any bytes.
fn draw_medium(random: &mut Random, places: u64, mark: u64) -> Vec<u8> {
    let mut medium = medium::fresh(places as usize);
    for id in 1..=mark {
        let length = random.below(DATA_LIMIT as u64 + 1) as usize;
        let data = random.bytes(length);
        put(&mut medium, place_at(id), &draw_record(random, id, &data).encode());
    }
    let behind = place_at(mark + 1);
    let rest = random.bytes(medium.len() - behind);
    put(&mut medium, behind, &rest);
    medium
}

/// The log up to the mark, imported into a medium of any other N that has room for it.
fn assert_restored(random: &mut Random, log: &[u8], upto: u64, places: u64, stamp: Stamp) {
    let pair = written(log, upto, stamp);
    assert_eq!(pair.lengths(), lengths(log, upto));
    let mut medium = random.bytes(medium_bytes(places as usize));
    medium[SLOTS_BYTES..].fill(0);
    let slots = medium[..SLOTS_BYTES].to_vec();
    assert_eq!(import(places, &mut medium, stamp, &pair.data, &pair.index), Ok(()));
    let end = place_at(upto + 1);
    assert_eq!(medium[..SLOTS_BYTES], slots);
    assert_eq!(medium[SLOTS_BYTES..end], log[SLOTS_BYTES..end]);
    assert!(medium[end..].iter().all(|&byte| byte == 0));
    assert_eq!(mark(&medium), upto);
    assert_eq!(written(&medium, upto, stamp), pair);
}

#[test]
fn an_export_imported() {
    let mut random = Random::new(18);
    for _ in 0..300 {
        let places = 1 + random.below(8);
        let mark = random.below(places + 1);
        let log = draw_medium(&mut random, places, mark);
        assert_eq!(medium::mark(&log), mark);
        for upto in 0..=mark {
            let room = upto.max(1) + random.below(4);
            let stamp = draw_stamp(&mut random);
            assert_restored(&mut random, &log, upto, room, stamp);
        }
    }
}

#[test]
fn a_thousand_places() {
    let mut random = Random::new(19);
    let log = draw_medium(&mut random, 1000, 1000);
    let stamp = draw_stamp(&mut random);
    assert_restored(&mut random, &log, 1000, 1000, stamp);
    assert_restored(&mut random, &log, 999, 1000, stamp);
    let mut small = vec![0; medium_bytes(999)];
    let pair = written(&log, 1000, stamp);
    let reply = import(999, &mut small, stamp, &pair.data, &pair.index);
    assert_eq!(reply.map_err(|unfit| unfit.number()), Err(24));
}

/// The places of an imported pair, written out up to their mark.
#[test]
fn an_import_written_out() {
    let mut random = Random::new(20);
    for _ in 0..2_000 {
        let mut import = draw_whole(&mut random);
        assert_eq!(import.apply(), Ok(()));
        let mark = mark(&import.medium);
        assert_eq!(import.pair.index.len() as u64, 128 + 8 * mark);
        assert_eq!(written(&import.medium, mark, import.stamp), import.pair);
    }
}
