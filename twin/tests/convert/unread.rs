//! Old media are not read as they are: by their lengths, and where these fit by chance, by their places.

use twin::cluster::{Cluster, Refusal, Shape};
use twin::exported::place_check;
use twin::fate::Fate;
use twin::medium::{self, is_place, passes, place, PLACE_BYTES};
use twin::old;
use twin::random::Random;
use twin::segment::Unfit;
use twin::tries::imports::{Import, STAMP};
use twin::tries::old_media::{Draw, FIRST};
use twin::tries::unfit::{old_places, unfit_places, zeros_not_zero};
use twin::tries::version_1;

/// A full old medium.
fn full(places: usize) -> Vec<u8> {
    let slots = medium::fresh(0);
    let slot: [u8; 32] = slots[..32].try_into().expect("a slot");
    Draw { random: Random::new(32) }.medium([slot, slot], &"v".repeat(places))
}

/// Each call meets 1 on old media of whichever N.
#[test]
fn old_lengths_meet_1() {
    for (replicas, places) in [(1, 1), (3, 4), (5, 7), (7, 14), (3, 1000)] {
        let mut cluster = Cluster::fresh(Shape::whole(replicas, places)).expect("an allowed shape");
        cluster.media = full(places as usize).repeat(replicas as usize);
        assert_eq!(cluster.take(0, Fate::Answered), Err(Refusal::OutsideShape));
    }
}

/// 64 + 64 × 9 is 64 + 72 × 8: the mark is 0, whatever the old log held.
#[test]
fn old_places_are_none() {
    for (old_places, places) in [(9, 8), (18, 16), (900, 800)] {
        let old = full(old_places);
        assert_eq!(old.len(), medium::medium_bytes(places));
        assert_eq!(old::log(&old).count(), old_places);
        assert_eq!(medium::mark(&old), 0);
        for number in 1..=places as u64 {
            assert!(!is_place(number, &place(&old, number)), "place {number}");
        }
    }
}

/// An old place with anything behind it, alone or in a medium.
#[test]
fn an_old_place_is_none_whatever_stands_behind_it() {
    let mut random = Random::new(33);
    for number in [1, 2, 999, 1000] {
        let bytes = old::encode(&twin::medium::Record { id: number, ..FIRST });
        assert_eq!(place_check(&bytes, number), 0);
        for _ in 0..1_000 {
            let padded = [&bytes[..], &random.bytes(8)].concat();
            assert_eq!(place_check(&padded, number), 0);
        }
    }
    for bytes in old_places(7) {
        assert!(!passes(&bytes, 1000));
    }
}

/// "other bytes there make the place invalid even with a fitting check": every value of each of the four,
/// and whatever else is near a valid place.
#[test]
fn the_four_zeros_are_judged() {
    let whole = FIRST.encode();
    assert!(is_place(1, &whole) && passes(&whole, 1));
    for at in 64..68 {
        for byte in 1..=255 {
            let mut bytes = whole;
            bytes[at] = byte;
            medium::seal(&mut bytes);
            assert!(!is_place(1, &bytes) && !passes(&bytes, 1000), "{byte} at {at}");
        }
    }
    for bytes in unfit_places(1).into_iter().chain(zeros_not_zero(whole)) {
        assert!(!is_place(1, &bytes) && !passes(&bytes, 1000), "{bytes:?}");
        assert_eq!(place_check(&bytes, 1), 0);
    }
    assert_eq!(PLACE_BYTES, 72);
}

/// "only version 2 is read": a pair as the release before wrote it, of any records.
#[test]
fn pairs_of_version_1_meet_24() {
    let second = twin::medium::Record { id: 2, data: &[], ..FIRST };
    for records in [&[][..], &[FIRST], &[FIRST, second]] {
        let mut import = Import::whole(2, STAMP, records);
        let version_2 = import.pair.clone();
        import.pair = version_1::pair(STAMP, records);
        assert_eq!(import.pair.data.len() + 4 * records.len(), version_2.data.len());
        let before = import.clone();
        assert_eq!(import.apply(), Err(Unfit::Unready));
        assert!(import == before);
        assert_eq!(Unfit::Unready.number(), 24);
    }
}

/// The pair of document 02's third request, to the byte.
#[test]
fn the_pair_of_version_1() {
    let pair = version_1::pair(STAMP, &[FIRST]);
    let record = "0000000000000001 00000102 00000000 00000005 0000004d 00000009 00000004 db1720a5 41424344 81e5c446";
    let record = twin::hex::decode(record.replace(' ', "").as_bytes()).expect("pairs of digits");
    assert_eq!(pair.data[128..], record);
    assert_eq!(pair.lengths(), [172, 136]);
    assert_eq!((pair.data[3], pair.index[3]), (1, 1));
}
