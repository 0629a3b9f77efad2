//! The counting rule against every way of filling in the absent replicas' marks.

use twin::votes::decided;

/// The highest mark that a majority of all replicas holds, straight from the words.
fn held_by_majority(marks: &[u64]) -> u64 {
    let holders = |mark: u64| marks.iter().filter(|&&held| held >= mark).count();
    let highest = marks.iter().copied().filter(|&mark| 2 * holders(mark) > marks.len()).max();
    highest.expect("a majority holds the least of the marks")
}

/// Every list of this length over these values.
fn all_lists<T: Clone>(values: &[T], length: usize) -> Vec<Vec<T>> {
    (0..length).fold(vec![Vec::new()], |lists, _| {
        let longer = |list: &Vec<T>| -> Vec<Vec<T>> {
            values
                .iter()
                .map(|value| [list.as_slice(), std::slice::from_ref(value)].concat())
                .collect()
        };
        lists.iter().flat_map(longer).collect()
    })
}

/// The mark that all fillings from 0 to `places` agree on, if they do.
fn by_filling(known: &[Option<u64>], places: u64) -> Option<u64> {
    let absent = known.iter().filter(|mark| mark.is_none()).count();
    let values: Vec<u64> = (0..=places).collect();
    let results = all_lists(&values, absent).into_iter().map(|filling| {
        let mut filling = filling.into_iter();
        let filled: Vec<u64> =
            known.iter().map(|mark| mark.or_else(|| filling.next()).expect("a mark")).collect();
        held_by_majority(&filled)
    });
    let mut results: Vec<u64> = results.collect();
    results.dedup();
    match results.as_slice() {
        [only] => Some(*only),
        _ => None,
    }
}

#[test]
fn decided_exactly_when_all_fillings_agree() {
    let sizes =
        [(1, 1), (1, 2), (1, 5), (3, 1), (3, 2), (3, 4), (5, 1), (5, 2), (5, 3), (7, 1), (7, 2)];
    for (replicas, places) in sizes {
        let values: Vec<Option<u64>> = (0..=places).map(Some).chain([None]).collect();
        let votes = all_lists(&values, replicas);
        assert_eq!(votes.len(), values.len().pow(replicas as u32));
        for known in votes {
            assert_eq!(decided(&known), by_filling(&known, places), "{known:?} up to {places}");
        }
    }
}
