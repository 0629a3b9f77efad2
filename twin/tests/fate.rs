//! A fate as one number.

use twin::cluster::{Cluster, Message};
use twin::fate::{Fate, Left};
use twin::random::Random;
use twin::tries::recovery_rows::cluster;

const LEFT: [Left; 3] = [Left::Old, Left::New, Left::Torn];

/// 3 + 3 × w + l.
#[test]
fn codes_are_those_of_the_words() {
    let first = [Fate::Answered, Fate::Lost, Fate::AnswerLost];
    let cuts = (0..100).flat_map(|write| LEFT.map(|left| Fate::Cut(write, left)));
    for (code, fate) in (0..).zip(first.into_iter().chain(cuts)) {
        assert_eq!((fate.code(), Fate::of_code(code)), (code, fate));
    }
    assert_eq!(Fate::of_code(3), Fate::Cut(0, Left::Old));
    assert_eq!(Fate::of_code(3 + 3 * 7 + 2), Fate::Cut(7, Left::Torn));
}

#[test]
fn every_number_is_a_fate() {
    let mut random = Random::new(3);
    let edges = (0..1_000).chain(u64::MAX - 1_000..=u64::MAX);
    let some: Vec<u64> = (0..10_000).map(|_| random.number()).collect();
    for code in edges.chain(some) {
        assert_eq!(Fate::of_code(code).code(), code);
    }
    assert_eq!(Fate::of_code(u64::MAX), Fate::Cut((u64::MAX - 3) / 3, Left::Old));
}

/// The writes that no code has are given the greatest, which does as they do: all writes are made.
#[test]
fn greater_writes_do_the_same() {
    let greatest = (u64::MAX - 3) / 3;
    for (left, most) in LEFT.into_iter().zip([greatest, greatest - 1, greatest - 1]) {
        for write in [most, most + 1, u64::MAX] {
            let fate = Fate::Cut(write, left);
            let coded = Fate::of_code(fate.code());
            assert_eq!(coded, Fate::Cut(most, left));
            assert!(prepared(fate) == prepared(coded));
        }
    }
}

/// A prepare with this fate that writes a slot.
fn prepared(fate: Fate) -> Cluster {
    let mut cluster = cluster();
    cluster.take(1, Fate::Answered).expect("an idle server");
    cluster.prepare(1, 0, &Message::new(fate)).expect("a replica");
    cluster
}
