//! The decision rule: which mark an opening server may start from.

/// The most replicas that a cluster has.
pub const MOST_REPLICAS: usize = 7;

/// Q: how many of `replicas` are a majority.
pub fn quorum(replicas: usize) -> usize {
    replicas.div_ceil(2)
}

/// The highest mark that `count` of the marks reach; `None` if there are fewer marks than that.
pub fn highest_reached(count: usize, marks: impl Iterator<Item = u64>) -> Option<u64> {
    let mut sorted = [0; MOST_REPLICAS];
    let mut held = 0;
    for (place, mark) in sorted.iter_mut().zip(marks) {
        *place = mark;
        held += 1;
    }
    let sorted = &mut sorted[..held];
    sorted.sort_unstable();
    // `count` marks reach the one that has `count` - 1 behind it.
    held.checked_sub(count).map(|at| sorted[at])
}

/// The majority mark of one mark per replica, `None` for those that are not known, if it is
/// decided: no replica that is not known could lift a higher mark to a majority.
pub fn decided(marks: &[Option<u64>]) -> Option<u64> {
    let known = || marks.iter().copied().flatten();
    let majority = highest_reached(quorum(marks.len()), known())?;
    let above = known().filter(|&mark| mark > majority).count();
    let absent = marks.len() - known().count();
    (above + absent < quorum(marks.len())).then_some(majority)
}
