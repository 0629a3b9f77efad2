//! Media from a backup (document 02, No. 10): what is handed to a restore, and when.

use crate::cluster::{Closing, Cluster};
use crate::medium::{medium_bytes, SLOT_BYTES};
use crate::random::Random;
use crate::votes::quorum;

/// The most places of a medium that a stored run hands in.
pub const MOST_BACKUP_PLACES: u64 = 15;

/// The most bytes that a line of a stored run lends as a backup.
pub const MOST_BACKUP: usize = medium_bytes(MOST_BACKUP_PLACES as usize);

/// The bytes of some medium as it is now, often damaged: without one of its slots or both, at any byte, or
/// of another length.
pub fn draw_backup(random: &mut Random, cluster: &Cluster) -> Vec<u8> {
    let mut backup = draw_medium(random, cluster);
    let length = backup.len();
    match random.below(12) {
        0 | 1 => backup[SLOT_BYTES * random.below(2) as usize] ^= 1,
        2 => [0, SLOT_BYTES].into_iter().for_each(|at| backup[at] ^= 1),
        3 => backup[random.below(length as u64) as usize] ^= 1 << random.below(8),
        4 => backup.truncate(length - 1),
        _ => {}
    }
    backup
}

/// Of any replica; zeros if the media are not such as R and N ask for.
fn draw_medium(random: &mut Random, cluster: &Cluster) -> Vec<u8> {
    if !cluster.shape.is_allowed() || !cluster.has_exact_lengths() {
        return vec![0; medium_bytes(cluster.shape.places.min(MOST_BACKUP_PLACES) as usize)];
    }
    cluster.medium(random.below(cluster.shape.replicas) as usize).to_vec()
}

/// A replica to restore such that the others, as far as they are not restored, are still a majority; `None` if
/// there is none such. "As soon as Q replicas are restored at once nothing is decided any more."
pub fn draw_restorable(random: &mut Random, cluster: &Cluster) -> Option<u64> {
    let replicas = cluster.shape.replicas;
    let entries = &cluster.records.register.entries[..replicas as usize];
    let restored = |replica: u64| entries[replica as usize].closing == Closing::Restored;
    let all = (0..replicas).filter(|&replica| restored(replica)).count();
    let spare = replicas as usize - quorum(replicas as usize);
    let fit: Vec<u64> = (0..replicas).filter(|&it| restored(it) || all < spare).collect();
    (!fit.is_empty()).then(|| *random.pick(&fit))
}
