//! What is exported in a list: records that the server's session has acknowledged, as its log has them.

use crate::history::History;
use crate::Met;
use twin::cluster::{Answer, Call, Cluster, Reply, Server, Standing};
use twin::medium::{medium_bytes, place, PlaceBytes};
use twin::segment::{import, Pair, Stamp, HEADER_BYTES, OFFSET_BYTES};

/// Before the history has the call: `lent` is it with its files as they were. No reply but ok changes
/// them.
pub fn check(
    history: &History,
    before: &Cluster,
    [lent, call]: [&Call; 2],
    reply: &Reply,
    met: &mut Met,
) {
    let Call::Export { server, replica, stamp, files, .. } = call else {
        return;
    };
    if *reply != Ok(Answer::Nothing) {
        assert!(lent == call, "no reply but ok changes the files");
        met.dropped += u64::from(*reply == Ok(Answer::Silent));
        return;
    }
    let Server { marks, acknowledged, standings, .. } = before.records.servers[*server as usize];
    assert_eq!(standings[*replica as usize], Standing::In);
    let mark = marks[*replica as usize].min(acknowledged) as usize;
    assert_eq!(files.index.len(), HEADER_BYTES + OFFSET_BYTES * mark);
    let log = history.acknowledged_bytes(*server);
    assert!(log.starts_with(&imported(before.shape.places, *stamp, files, mark)));
    met.exports += 1;
    met.exported += u64::from(mark > 0);
}

/// What the pair's places are.
fn imported(places: u64, stamp: Stamp, files: &Pair, count: usize) -> Vec<PlaceBytes> {
    let mut medium = vec![0; medium_bytes(places as usize)];
    assert_eq!(import(places, &mut medium, stamp, &files.data, &files.index), Ok(()));
    (1..=count as u64).map(|number| place(&medium, number)).collect()
}
