//! The storage layer's promises: records read back, and what a cut at any write leaves.

use twin::fate::{perform, Fate, Left};
use twin::medium::{
    current, fresh, is_place, mark, mark_above, place, put, seal, Record, Slot, DATA_LIMIT,
    PLACE_BYTES, SLOTS_BYTES, SLOT_BYTES, WIPED,
};
use twin::random::Random;
use twin::replica::{Closing, Found, Operation};
use twin::tries::records::draw_record;

const PLACES: usize = 6;

fn record(random: &mut Random, id: u64) -> [u8; PLACE_BYTES] {
    let data = random.bytes(id as usize % (DATA_LIMIT + 1));
    draw_record(random, id, &data).encode()
}

/// A medium with this mark and nothing valid above it, one of its slots current at random.
fn medium_with(random: &mut Random, mark: u64) -> Vec<u8> {
    let mut medium = fresh(PLACES);
    for number in 1..=mark {
        let bytes = record(random, number);
        put(&mut medium, SLOTS_BYTES + (number as usize - 1) * PLACE_BYTES, &bytes);
    }
    for slot in 0..2 {
        let bytes = Slot { promise: random.below(5), low: random.below(3), local: 0 }.encode();
        put(&mut medium, slot * SLOT_BYTES, &bytes);
    }
    medium
}

/// Every fate of an operation with this many writes, cuts behind the last write included.
fn all_fates(writes: u64) -> Vec<Fate> {
    let cuts = (1..=writes + 2)
        .flat_map(|write| [Left::Old, Left::New, Left::Torn].map(|left| Fate::Cut(write, left)));
    [Fate::Answered, Fate::Lost, Fate::AnswerLost].into_iter().chain(cuts).collect()
}

/// Whether write number `write` leaves its bytes, is torn (`None`), or leaves what was there.
fn done(fate: Fate, write: u64) -> Option<bool> {
    match fate {
        Fate::Lost => Some(false),
        Fate::Answered | Fate::AnswerLost => Some(true),
        Fate::Cut(at, Left::Torn) if at == write => None,
        Fate::Cut(at, left) => Some(write < at || write == at && left == Left::New),
    }
}

/// The medium before and after an operation under a fate, with torn bytes that pass as nothing.
fn run(medium: &[u8], operation: Operation, fate: Fate) -> Vec<u8> {
    let found = Found::on(medium).expect("a valid slot");
    let mut after = medium.to_vec();
    perform(&mut after, operation.writes(found), fate, &[0xA5; PLACE_BYTES]);
    after
}

fn writes(medium: &[u8], operation: Operation) -> u64 {
    operation.writes(Found::on(medium).expect("a valid slot")).count() as u64
}

fn assert_nothing_valid_above_mark(medium: &[u8]) {
    for number in mark(medium) + 1..=PLACES as u64 {
        assert!(!is_place(number, &place(medium, number)), "place {number}");
    }
}

/// The places up to `upto` are those of `before`.
fn assert_same_log(before: &[u8], after: &[u8], upto: u64) {
    let end = SLOTS_BYTES + upto as usize * PLACE_BYTES;
    assert_eq!(before[SLOTS_BYTES..end], after[SLOTS_BYTES..end]);
}

/// Every mark, a few media each.
fn for_each_medium(test: impl Fn(u64, Vec<u8>, &mut Random)) {
    let mut random = Random::new(3);
    for mark in 0..=PLACES as u64 {
        for _ in 0..10 {
            let medium = medium_with(&mut random, mark);
            test(mark, medium, &mut random);
        }
    }
}

#[test]
fn records_read_back() {
    let mut random = Random::new(4);
    for length in 0..=DATA_LIMIT {
        for _ in 0..50 {
            let (id, data) = (1 + random.below(1000), random.bytes(length));
            let record = draw_record(&mut random, id, &data);
            assert_eq!(Record::decode(id, &record.encode()), Some(record));
            assert_eq!(Record::decode(id + 1, &record.encode()), None);
        }
    }
}

#[test]
fn only_written_records_are_read() {
    let mut random = Random::new(5);
    for _ in 0..20_000 {
        let id = 1 + random.below(3);
        let mut bytes = record(&mut random, id);
        for _ in 0..random.below(3) {
            bytes[random.below(PLACE_BYTES as u64) as usize] = random.below(40) as u8;
        }
        if random.chance(2) {
            seal(&mut bytes);
        }
        if let Some(record) = Record::decode(2, &bytes) {
            assert_eq!(record.encode(), bytes);
        }
    }
}

#[test]
fn damage_of_one_bit_is_seen() {
    let mut random = Random::new(6);
    let whole = record(&mut random, 5);
    let slot = Slot { promise: 1, low: 2, local: 3 }.encode();
    for bit in 0..PLACE_BYTES * 8 {
        let mut bytes = whole;
        bytes[bit / 8] ^= 1 << (bit % 8);
        assert!(!is_place(5, &bytes), "bit {bit}");
    }
    for bit in 0..SLOT_BYTES * 8 {
        let mut bytes = slot;
        bytes[bit / 8] ^= 1 << (bit % 8);
        assert_eq!(Slot::decode(&bytes), None, "bit {bit}");
    }
}

#[test]
fn mark_counts_on_from_places_known_to_be_valid() {
    for_each_medium(|mark_held, mut medium, random| {
        let damaged = random.below(PLACES as u64) as usize;
        medium[SLOTS_BYTES + damaged * PLACE_BYTES] ^= 1;
        let mark = mark(&medium);
        assert_eq!(mark, mark_held.min(damaged as u64));
        for held in 0..=mark {
            assert_eq!(mark_above(&medium, held), mark);
        }
    });
}

#[test]
fn append_cut_anywhere() {
    for_each_medium(|before, medium, random| {
        if before == PLACES as u64 {
            return;
        }
        let bytes = record(random, before + 1);
        for fate in all_fates(1) {
            let after = run(&medium, Operation::Append(bytes), fate);
            let written = done(fate, 1) == Some(true);
            assert_eq!(mark(&after), before + u64::from(written));
            assert_same_log(&medium, &after, before);
            assert_eq!(medium[..SLOTS_BYTES], after[..SLOTS_BYTES]);
            assert_eq!(written, place(&after, before + 1) == bytes);
            assert_nothing_valid_above_mark(&after);
        }
    });
}

/// The log is a prefix of the old one that ends at the lowest place wiped or torn.
fn assert_truncated(medium: &[u8], after: &[u8], kept: u64, first: u64, fate: Fate) {
    let before = mark(medium);
    // Write `first` wipes the place at the mark, the next one the place below it.
    let gone = (kept + 1..=before)
        .rev()
        .zip(first..)
        .filter(|&(_, write)| done(fate, write) != Some(false));
    let lowest = gone.map(|(number, _)| number).last().unwrap_or(before + 1);
    assert_eq!(mark(after), lowest - 1);
    assert!(mark(after) >= kept.min(before));
    assert_same_log(medium, after, lowest - 1);
    for number in lowest..=before {
        let torn = done(fate, first + before - number).is_none();
        assert_eq!(place(after, number) == WIPED, !torn, "place {number}");
    }
    assert_nothing_valid_above_mark(after);
}

#[test]
fn truncation_cut_anywhere() {
    for_each_medium(|before, medium, _| {
        for to in 0..=before + 1 {
            let operation = Operation::Truncate(to);
            let count = writes(&medium, operation);
            assert_eq!(count, before.saturating_sub(to));
            for fate in all_fates(count) {
                let after = run(&medium, operation, fate);
                assert_truncated(&medium, &after, to, 1, fate);
                assert_eq!(medium[..SLOTS_BYTES], after[..SLOTS_BYTES]);
            }
        }
    });
}

#[test]
fn prepare_cut_anywhere() {
    for_each_medium(|before, medium, random| {
        let (_, slot) = current(&medium).expect("a valid slot");
        let session = slot.promise + random.below(3);
        let marks = (0..=before + 1).map(Closing::Mark);
        for closing in marks.chain([Closing::Unresolved, Closing::Restored]) {
            let operation = Operation::Prepare { session, closing };
            let promises = u64::from(slot.promise != session);
            let kept = match closing {
                Closing::Unresolved => before,
                Closing::Mark(mark) => mark,
                Closing::Restored => slot.low,
            };
            let count = writes(&medium, operation);
            assert_eq!(count, promises + before.saturating_sub(kept));
            for fate in all_fates(count) {
                let after = run(&medium, operation, fate);
                let promised = promises == 1 && done(fate, 1) == Some(true);
                let promise = if promised { session } else { slot.promise };
                let expected = Slot { promise, ..slot };
                assert_eq!(current(&after).map(|(_, slot)| slot), Some(expected), "{fate:?}");
                assert_truncated(&medium, &after, kept, 1 + promises, fate);
            }
        }
    });
}

/// Whatever the cut, the promise stays and one of the slots is untouched.
#[test]
fn note_cut_anywhere() {
    for_each_medium(|before, medium, random| {
        let (index, slot) = current(&medium).expect("a valid slot");
        let (low, local) = (random.below(4), before);
        for fate in all_fates(1) {
            let after = run(&medium, Operation::Note { low, local }, fate);
            let kept = index * SLOT_BYTES..(index + 1) * SLOT_BYTES;
            assert_eq!(medium[kept.clone()], after[kept]);
            assert_eq!(medium[SLOTS_BYTES..], after[SLOTS_BYTES..]);
            let (_, now) = current(&after).expect("a valid slot");
            assert_eq!(now.promise, slot.promise);
            if done(fate, 1) == Some(true) {
                let other = &after[(1 - index) * SLOT_BYTES..][..SLOT_BYTES];
                assert_eq!(Slot::decode(other), Some(Slot { promise: slot.promise, low, local }));
            } else {
                assert_eq!(now, slot);
            }
        }
    });
}
