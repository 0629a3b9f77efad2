//! Recoveries with lists of every length, in several orders, of 1, 3, 5 and 7 replicas.

use super::recorder::Recorder;
use super::recoveries::{recover, rewind};
use crate::cluster::Shape;
use crate::random::Random;
use crate::votes::quorum;

/// The marks of the first R replicas. Of three or more, two have the highest, and not the same records: the
/// list says which of them is the source.
const MARKS: [u64; 7] = [3, 1, 3, 0, 2, 3, 0];

const PLACES: u64 = 4;

pub fn replay(recorder: &mut Recorder, random: &mut Random) {
    for replicas in [1, 3, 5, 7] {
        recorder.fresh(Shape::whole(replicas, PLACES));
        for listed in lists(random, replicas) {
            rewind(recorder, &MARKS[..replicas as usize]);
            let end = recover(recorder, 1, &listed, &[]);
            let opens = listed.len() >= quorum(replicas as usize);
            assert_eq!(end.starts_with("ok"), opens, "{listed:?}: {end}");
            assert!(opens || end.starts_with("no 8"), "{listed:?}: {end}");
        }
    }
}

/// For each length the first replicas or the last from the top down, and some drawn; of three, all there are.
fn lists(random: &mut Random, replicas: u64) -> Vec<Vec<u64>> {
    if replicas == 3 {
        return every_list(3);
    }
    let mut lists = Vec::new();
    for count in 1..=replicas {
        lists.push(match count % 2 {
            0 => (0..count).collect(),
            _ => (replicas - count..replicas).rev().collect(),
        });
        let mut left: Vec<u64> = (0..replicas).collect();
        let drawn = (0..count).map(|_| left.swap_remove(random.below(left.len() as u64) as usize));
        lists.push(drawn.collect());
    }
    lists
}

/// Every list that names at least one and none twice.
fn every_list(replicas: u64) -> Vec<Vec<u64>> {
    let mut lists: Vec<Vec<u64>> = (0..replicas).map(|replica| vec![replica]).collect();
    let mut at = 0;
    while at < lists.len() {
        let list = lists[at].clone();
        let more = (0..replicas).filter(|replica| !list.contains(replica));
        lists.extend(more.map(|replica| [list.as_slice(), &[replica]].concat()));
        at += 1;
    }
    lists
}
