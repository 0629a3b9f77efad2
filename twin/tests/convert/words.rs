//! The converter restated from the sentences of document 02 on its own, byte by byte, and held to that on
//! random old media.

use crate::draw::{damage, draw_whole, Conversion};
use twin::crc::bitwise;
use twin::random::Random;
use twin::tries::old_media::old_media;

/// What the second slice becomes; `None` for 27.
pub fn by_the_words(old: &[u8], new: &[u8]) -> Option<Vec<u8>> {
    let places = (1..=1000).find(|places| old.len() == 64 + 64 * places)?;
    let slots = [&old[..32], &old[32..64]];
    if new.len() != 64 + 72 * places || !slots.into_iter().any(is_slot) {
        return None;
    }
    let mut made = slots.concat();
    let mut in_log = true;
    for number in 1..=places {
        let place = &old[64 * number..64 * number + 64];
        in_log = in_log && is_old_place(number as u64, place);
        made.extend(if in_log { with_long_sequence(place) } else { vec![0; 72] });
    }
    Some(made)
}

/// "A slot is valid if its zeros are zero and its check agrees."
fn is_slot(slot: &[u8]) -> bool {
    slot[24..28] == [0; 4] && slot[28..] == bitwise(&slot[..28]).to_be_bytes()
}

/// "A place is valid if its ID is its number, its length and zeros fit and its check agrees."
fn is_old_place(number: u64, place: &[u8]) -> bool {
    let length = place[28..32].iter().fold(0, |sum, &byte| sum << 8 | usize::from(byte));
    place[..8] == number.to_be_bytes()
        && length <= 28
        && place[32 + length..60].iter().all(|&byte| byte == 0)
        && place[60..] == bitwise(&place[..60]).to_be_bytes()
}

/// ID, client, generation, partition; the sequence with four bytes more above it, header, length, data;
/// four zeros and the check of the 68 bytes before.
fn with_long_sequence(place: &[u8]) -> Vec<u8> {
    let mut made = [&place[..20], &[0; 4], &place[20..60], &[0; 4]].concat();
    made.extend(bitwise(&made).to_be_bytes());
    made
}

/// The second slice after the call is what the words say, to the byte; declined it is what it was.
#[track_caller]
fn assert_by_the_words(conversion: &Conversion) -> bool {
    let expected = by_the_words(&conversion.old, &conversion.new);
    let mut after = conversion.clone();
    let number = after.apply();
    assert_eq!(number, if expected.is_some() { None } else { Some(27) }, "{conversion:?}");
    assert!(after.old == conversion.old);
    assert!(after.new == expected.unwrap_or(conversion.new.clone()), "{conversion:?}");
    number.is_none()
}

#[test]
fn every_old_medium_becomes_what_the_words_say() {
    for medium in old_media() {
        let old = medium.bytes;
        let places = old.len().saturating_sub(64) / 64;
        for length in [64 + 72 * places, 64 + 72 * places + 72, 64 + 64 * places] {
            let fill = places as u8 ^ 0xA5;
            assert_by_the_words(&Conversion { old: old.clone(), new: vec![fill; length] });
        }
    }
}

#[test]
fn random_old_media_become_what_the_words_say() {
    let mut random = Random::new(27);
    let mut met = [0; 2];
    for _ in 0..40_000 {
        let mut conversion = draw_whole(&mut random);
        let changes = random.below(4) * random.below(2);
        (0..changes).for_each(|_| damage(&mut random, &mut conversion));
        met[usize::from(assert_by_the_words(&conversion))] += 1;
    }
    println!("{met:?}");
    assert!(met.iter().all(|&count| count > 5_000), "{met:?}");
}

/// Each byte of a full medium, changed so and so.
#[test]
fn each_byte_of_a_medium() {
    let mut random = Random::new(28);
    let whole = old_media().into_iter().find(|medium| medium.name == "n3-mark3").expect("it").bytes;
    for at in 0..whole.len() {
        for byte in [0, 0xFF, whole[at] ^ 1, whole[at] ^ 0x80] {
            let mut old = whole.clone();
            old[at] = byte;
            assert_by_the_words(&Conversion { old, new: random.bytes(64 + 72 * 3) });
        }
    }
}

/// Each pair of lengths up to those of four places.
#[test]
fn each_pair_of_lengths() {
    let whole =
        old_media().into_iter().find(|medium| medium.name == "n14-mark14").expect("it").bytes;
    let mut fitting = Vec::new();
    for old in 0..=64 + 64 * 4 + 1 {
        for new in 0..=64 + 72 * 4 + 1 {
            let conversion = Conversion { old: whole[..old].to_vec(), new: vec![0xAA; new] };
            if assert_by_the_words(&conversion) {
                fitting.push((old, new));
            }
        }
    }
    assert_eq!(fitting, [(128, 136), (192, 208), (256, 280), (320, 352)]);
}
