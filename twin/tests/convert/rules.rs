//! What holds of a new medium, rule by rule: "every slot and every record of the log is kept, and all
//! other places come out wiped", and "a valid old log must read the same through the new layout".

use crate::draw::{damage, draw_whole, Conversion};
use twin::medium::{self, is_place, place, Record, Slot, WIPED};
use twin::old;
use twin::random::Random;
use twin::tries::old_media::{draw_old_record, old_media};

/// Old media that are converted, each with what it becomes.
fn for_each_converted(test: impl Fn(&[u8], &[u8])) {
    let mut random = Random::new(29);
    let mut count = 0;
    for medium in old_media() {
        if let Ok(new) = twin::convert::converted(&medium.bytes) {
            test(&medium.bytes, &new);
        }
    }
    for _ in 0..5_000 {
        let mut conversion = draw_whole(&mut random);
        if random.chance(2) {
            damage(&mut random, &mut conversion);
        }
        if conversion.apply().is_none() {
            count += 1;
            test(&conversion.old, &conversion.new);
        }
    }
    assert!(count > 2_000, "{count}");
}

/// The log of an old medium, place by place.
fn old_log(old: &[u8]) -> Vec<Record<'_>> {
    let places = (1..).zip(old[64..].chunks(64));
    places.map_while(|(number, bytes)| old::decode(number, bytes)).collect()
}

#[test]
fn both_slots_are_kept_and_the_same_one_is_current() {
    for_each_converted(|old, new| {
        assert_eq!(old[..64], new[..64]);
        assert_eq!(medium::current(old), medium::current(new));
        assert!(medium::current(new).is_some());
    });
}

#[test]
fn the_mark_is_the_same() {
    for_each_converted(|old, new| assert_eq!(medium::mark(new), old_log(old).len() as u64));
}

/// The sequence as a number, and every other field and the data as they are.
#[test]
fn each_record_reads_the_same() {
    for_each_converted(|old, new| {
        for (number, record) in (1..).zip(old_log(old)) {
            assert_eq!(Record::decode(number, &place(new, number)), Some(record));
            assert!(u32::try_from(record.sequence).is_ok());
        }
    });
}

#[test]
fn all_other_places_are_wiped() {
    for_each_converted(|old, new| {
        let places = (new.len() - 64) as u64 / 72;
        for number in old_log(old).len() as u64 + 1..=places {
            assert_eq!(place(new, number), WIPED);
            assert!(!is_place(number, &place(new, number)));
        }
    });
}

/// Whatever the second slice held, and however often it is done.
#[test]
fn what_the_second_slice_held_does_not_count() {
    let mut random = Random::new(30);
    for _ in 0..300 {
        let whole = draw_whole(&mut random);
        let convert = |new: Vec<u8>| {
            let mut conversion = Conversion { old: whole.old.clone(), new };
            conversion.apply().is_none().then_some(conversion.new)
        };
        let length = whole.new.len();
        let Some(once) = convert(vec![0; length]) else {
            continue;
        };
        assert_eq!(convert(once.clone()), Some(once.clone()));
        assert_eq!(convert(random.bytes(length)), Some(once));
    }
}

/// A new medium put into the old layout, place by place, is converted to itself.
#[test]
fn there_and_back() {
    let mut random = Random::new(31);
    for _ in 0..300 {
        let (places, mark) = (1 + random.below(9) as usize, random.below(10));
        let mut new = medium::fresh(places);
        let mut old = medium::fresh(0);
        for id in 1..=places as u64 {
            let data = random.bytes(id as usize);
            let record = draw_old_record(&mut random, id, &data);
            if id <= mark {
                medium::put(&mut new, medium::place_at(id), &record.encode());
                old.extend(old::encode(&record));
            } else {
                old.extend([0; 64]);
            }
        }
        let slot = Slot { promise: random.number(), low: 1, local: 2 }.encode();
        for medium in [&mut new, &mut old] {
            medium::put(medium, 32, &slot);
        }
        assert_eq!(twin::convert::converted(&old), Ok(new));
    }
}
