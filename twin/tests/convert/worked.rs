//! One old medium worked out byte for byte.

use twin::convert::{convert, Declined};
use twin::hex;
use twin::medium::{current, mark, Slot};
use twin::old;
use twin::tries::old_media::{example, FIRST};

const OLD_PLACE: &str =
    "0000000000000001 00000102 00000000 00000005 0000004d 00000009 00000004 41424344";
const NEW_PLACE: &str =
    "0000000000000001 00000102 00000000 00000005 000000000000004d 00000009 00000004 41424344";

fn bytes(digits: &str) -> Vec<u8> {
    hex::decode(digits.replace(' ', "").as_bytes()).expect("pairs of digits")
}

/// The second slice after the call, if it is not declined.
fn converted(old: &[u8], length: usize) -> Result<Vec<u8>, Declined> {
    let mut new = vec![0xCC; length];
    let reply = convert(old, &mut new);
    if reply.is_err() {
        assert_eq!(new, vec![0xCC; length], "declined, it leaves the second slice as it was");
    }
    reply.map(|()| new)
}

#[test]
fn the_old_place() {
    let place = [bytes(OLD_PLACE), vec![0; 24], bytes("cc0131fb")].concat();
    assert_eq!(old::encode(&FIRST).to_vec(), place);
    assert_eq!(old::decode(1, &place), Some(FIRST));
}

/// N = 3: a valid slot, 32 bytes AA, a place, 64 bytes BB, a valid place 3.
#[test]
fn the_new_medium() {
    let old = example();
    assert_eq!(old[32..64], [0xAA; 32]);
    assert_eq!(old[128..192], [0xBB; 64]);
    assert!(old::decode(3, &old[192..]).is_some());
    let new = converted(&old, 64 + 72 * 3).expect("one N, one valid slot");
    let place = [bytes(NEW_PLACE), vec![0; 28], bytes("c60e944b")].concat();
    assert_eq!(new, [old[..64].to_vec(), place, vec![0; 144]].concat());
    assert_eq!(current(&new), Some((0, Slot { promise: 2, low: 0, local: 0 })));
    assert_eq!(mark(&new), 1);
}

/// "Second slice 64 + 72 × 2, or both slots invalid, or the old one a byte short: 27."
#[test]
fn declined() {
    let old = example();
    assert_eq!(converted(&old, 64 + 72 * 2), Err(Declined));
    assert_eq!(converted(&old[..old.len() - 1], 64 + 72 * 3), Err(Declined));
    let mut no_slot = old.clone();
    no_slot[7] ^= 1;
    assert_eq!(converted(&no_slot, 64 + 72 * 3), Err(Declined));
    assert_eq!(converted(&old[..64], 64), Err(Declined));
    assert_eq!(Declined.number(), 27);
}

/// Of the most places and one more; of none.
#[test]
fn the_ends_of_n() {
    let medium = |places: usize| [&example()[..64], &vec![0; 64 * places]].concat();
    for (places, fits) in [(0, false), (1, true), (999, true), (1000, true), (1001, false)] {
        let reply = converted(&medium(places), 64 + 72 * places);
        assert_eq!(reply.is_ok(), fits, "{places}");
    }
}
