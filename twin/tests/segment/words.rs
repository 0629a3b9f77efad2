//! What import answers, restated from the sentence of document 02 on its own, and held to it on pairs
//! and media with random damage.

use std::collections::BTreeMap;

use twin::crc::bitwise;
use twin::medium::{seal, Record};
use twin::random::Random;
use twin::segment::{Pair, Stamp};
use twin::tries::exports::draw_stamp;
use twin::tries::import_rows::rows;
use twin::tries::imports::Import;
use twin::tries::records::draw_record;

/// The number that the sentence gives.
pub fn by_the_words(import: &Import) -> Option<u64> {
    if is_of_other_length(import) {
        Some(1)
    } else if starts_otherwise(import) {
        Some(24)
    } else if has_wrong_offset(&import.pair.data, &offsets(import)) {
        Some(25)
    } else if has_wrong_record(&import.pair.data[128..], offsets(import).len()) {
        Some(26)
    } else {
        None
    }
}

/// "Slices of other than the exact lengths (an import's index: 128 + 8 an offset; its data: any)", and N
/// from 1 to 1,000.
fn is_of_other_length(import: &Import) -> bool {
    let Import { places, medium, pair, .. } = import;
    let exact = (1..=1000).contains(places) && medium.len() as u64 == 64 + 72 * places;
    let indexes = (0..=pair.index.len()).map(|offsets| 128 + 8 * offsets);
    !exact || !indexes.into_iter().any(|length| length == pair.index.len())
}

/// "a header other than export would write, a place not wiped or more offsets than N".
fn starts_otherwise(import: &Import) -> bool {
    let Import { places, medium, stamp, pair } = import;
    let header = header(*stamp);
    let differs = |file: &[u8]| file.get(..128) != Some(header.as_slice());
    differs(&pair.data)
        || differs(&pair.index)
        || medium[64..].iter().any(|&byte| byte != 0)
        || offsets(import).len() as u64 > *places
}

/// "version 2", "partition 0, first ID 1, time and cluster key handed in, and the rest zero", in 004's
/// widths.
fn header(stamp: Stamp) -> Vec<u8> {
    let [version, partition] = [2u32, 0].map(u32::to_be_bytes);
    let [time, first] = [stamp.time, 1].map(u64::to_be_bytes);
    let mut header = [&version[..], &time, &stamp.key, &partition, &first].concat();
    header.extend([0; 88]);
    header
}

fn offsets(import: &Import) -> Vec<u64> {
    let offset = |bytes: &[u8]| bytes.iter().fold(0, |sum, &byte| sum << 8 | u64::from(byte));
    import.pair.index[128..].chunks(8).map(offset).collect()
}

/// "a first offset that isn't 128 or a later one that isn't the one before plus that record's size (until
/// a length field is above 28 or not wholly in the slice)". Lengths are read where the offsets say.
fn has_wrong_offset(data: &[u8], offsets: &[u64]) -> bool {
    let length = |offset: u64| {
        let at = usize::try_from(offset).ok()?.checked_add(32)?;
        let field = data.get(at..at.checked_add(4)?)?;
        Some(word(field)).filter(|&length| length <= 28)
    };
    let read = offsets.iter().map_while(|&offset| Some(length(offset)? + 44 + offset));
    let later = offsets.iter().skip(1);
    offsets.first().is_some_and(|&first| first != 128)
        || read.zip(later).any(|(next, &offset)| next != offset)
}

/// "a record cut short, misnumbered, too long or failing a check, or bytes after the last".
fn has_wrong_record(mut rest: &[u8], count: usize) -> bool {
    for number in 1..=count as u64 {
        let Some(length) = rest.get(32..36).map(|field| word(field) as usize) else {
            return true;
        };
        if length > 28 || rest.len() < 44 + length {
            return true;
        }
        let (record, behind) = rest.split_at(44 + length);
        let data = &record[40..40 + length];
        let fields = [number.to_be_bytes().to_vec(), bitwise(data).to_be_bytes().to_vec()];
        let check = bitwise(&record[..40 + length]).to_be_bytes();
        if record[..8] != fields[0] || record[36..40] != fields[1] || record[40 + length..] != check
        {
            return true;
        }
        rest = behind;
    }
    !rest.is_empty()
}

fn word(bytes: &[u8]) -> u64 {
    u64::from(u32::from_be_bytes(bytes.try_into().expect("four bytes")))
}

#[test]
fn every_row_gives_what_the_words_say() {
    for row in rows() {
        assert_eq!(by_the_words(&row.import), row.number, "{}", row.name);
    }
}

/// A whole pair, and a wiped medium between slots of any bytes.
pub fn draw_whole(random: &mut Random) -> Import {
    let places = 1 + random.below(5);
    let count = random.below(places + 1);
    let data: Vec<Vec<u8>> = (0..count)
        .map(|_| {
            let length = random.below(29) as usize;
            random.bytes(length)
        })
        .collect();
    let records: Vec<Record> =
        (1..).zip(&data).map(|(id, data)| draw_record(random, id, data)).collect();
    let mut import = Import::whole(places, draw_stamp(random), &records);
    import.medium[..64].copy_from_slice(&random.bytes(64));
    import
}

/// Changes one thing or none.
fn damage(random: &mut Random, import: &mut Import) {
    let Import { places, medium, stamp, pair: Pair { data, index } } = import;
    match random.below(16) {
        0 => *places = *random.pick(&[0, 1, places.wrapping_add(1), 1000, 1001, u64::MAX]),
        1 => stamp.time ^= 1 << random.below(64),
        2 => stamp.key[random.below(16) as usize] ^= 1,
        3 => resize(random, medium),
        4 => flip(random, medium, 0),
        5 | 6 => resize(random, index),
        7 => flip(random, index, 0),
        8 => flip(random, index, 128),
        9 => resize(random, data),
        10 => flip(random, data, 0),
        11..=14 => flip(random, data, 128),
        _ => change_last(random, data),
    }
}

/// A file or medium that is longer or shorter, mostly by a little.
fn resize(random: &mut Random, bytes: &mut Vec<u8>) {
    let by = *random.pick(&[1, 1, 8, 8, 40, 100]);
    let length = if random.chance(2) { bytes.len() + by } else { bytes.len().saturating_sub(by) };
    bytes.resize(length, 0);
}

/// One bit, from this byte on.
fn flip(random: &mut Random, bytes: &mut [u8], from: usize) {
    let tail = bytes.get_mut(from..).unwrap_or_default();
    if !tail.is_empty() {
        tail[random.below(tail.len() as u64) as usize] ^= 1 << random.below(8);
    }
}

/// A bit of the last record, whichever its beginning, and a record check that agrees.
fn change_last(random: &mut Random, data: &mut [u8]) {
    let size = *random.pick(&[44, 45, 54, 72]);
    if let Some(start) = data.len().checked_sub(size).filter(|&start| start >= 128) {
        flip(random, &mut data[start..], 0);
        seal(&mut data[start..]);
    }
}

#[test]
fn import_answers_what_the_words_say() {
    let mut random = Random::new(17);
    let mut met: BTreeMap<Option<u64>, u64> = BTreeMap::new();
    for _ in 0..60_000 {
        let mut import = draw_whole(&mut random);
        let changes = random.below(4) * random.below(2);
        (0..changes).for_each(|_| damage(&mut random, &mut import));
        let expected = by_the_words(&import);
        let before = import.clone();
        let reply = import.apply().err().map(|unfit| unfit.number());
        assert_eq!(reply, expected, "{before:?}");
        if reply.is_some() {
            assert!(import == before, "declined, it leaves the medium as it was");
        }
        *met.entry(reply).or_default() += 1;
    }
    println!("{met:?}");
    let all = [None, Some(1), Some(24), Some(25), Some(26)];
    assert!(met.keys().copied().eq(all) && met.values().all(|&count| count > 1_000), "{met:?}");
}
