//! The lock table: a lock's three places, its estimate, and what a granted request writes.

/// Marks in one server's table.
pub const TABLE_MARKS: usize = 1024;

/// What a lock is multiplied with for each of its places.
const FACTORS: [u64; 3] = [0x9E37_79B9_7F4A_7C15, 0xBF58_476D_1CE4_E5B9, 0x94D0_49BB_1331_11EB];

/// The top bits of a 64-bit product that make a place.
const PLACE_SHIFT: u32 = 54;

/// The three places of a lock.
pub fn lock_places(lock: u64) -> [usize; 3] {
    FACTORS.map(|factor| (lock.wrapping_mul(factor) >> PLACE_SHIFT) as usize)
}

/// The last ID that may have written the lock: the least of its three entries.
pub fn estimate(table: &[u64], lock: u64) -> u64 {
    let [first, second, third] = lock_places(lock).map(|place| table[place]);
    first.min(second).min(third)
}

/// The first lock whose estimate is above the client's mark, and that estimate. A client whose mark is
/// the estimate has read the last ID that may have written the lock, and that suffices (document 02,
/// No. 2).
pub fn first_conflict(table: &[u64], locks: &[u64], client_mark: u64) -> Option<(u64, u64)> {
    let estimates = locks.iter().map(|&lock| (lock, estimate(table, lock)));
    estimates.into_iter().find(|&(_, estimate)| estimate > client_mark)
}

/// Writes the ID in the three places of each lock.
pub fn write_locks(table: &mut [u64], locks: &[u64], id: u64) {
    for &lock in locks {
        for place in lock_places(lock) {
            table[place] = id;
        }
    }
}
