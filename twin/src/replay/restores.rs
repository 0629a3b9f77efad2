//! Media from a backup (document 02, No. 10): worked examples and other lists call by call, and lines that fit
//! no form.

use super::calls::{look, number, prepare, take};
use super::recorder::Recorder;
use crate::cluster::{Call, Cluster, Message, Reply, Shape};
use crate::fate::{Fate, Left};
use crate::hex;
use crate::medium::{place, PLACE_BYTES};
use crate::tries::recoveries::Recovery;
use crate::tries::restore_rows::{diverged, examples, play, Stage, EXAMPLE_1, EXAMPLE_2};
use crate::tries::restores::MOST_BACKUP;

impl Stage for Recorder {
    fn fresh(&mut self, shape: Shape) {
        Recorder::fresh(self, shape);
    }

    fn cluster(&self) -> &Cluster {
        Recorder::cluster(self)
    }

    fn call(&mut self, call: &Call) -> Reply {
        Recorder::call(self, call)
    }

    fn recover(&mut self, recovery: &Recovery) -> (Reply, u64) {
        Recorder::recover(self, recovery)
    }

    fn keep(&mut self, replica: u64) {
        Recorder::keep(self, replica);
    }
}

/// Lists call by call.
pub fn list(recorder: &mut Recorder) {
    examples().iter().for_each(|example| play(recorder, example));
    again(recorder);
    nothing_decided(recorder);
    old_servers(recorder);
    handed_over(recorder);
    more_replicas(recorder);
    cuts(recorder);
}

/// Restored again, before and after a session that it is clean in; then what its places hold is read and
/// exported as any member's.
fn again(recorder: &mut Recorder) {
    let steps = "entry 1 4 unresolved; restore 1 → ok 5; restore 1 → ok 6; slots 1 6,0,0 6,0,0
        entry 1 4 restored; drive 3 [1,0,2] [] → ok 1, 6; entry 1 7 unresolved
        keep 2; restore 2 → ok 8; place 2 1 AA; drive 0 [] [] → no 5, 0; stop 0 → ok
        drive 0 [2,1,0] [1] → silent, 1; drive 0 [2,1,0] [] → ok 1, 6; place 2 1 AA";
    play(recorder, &format!("{EXAMPLE_2}\n{steps}"));
    let record = place(recorder.cluster().medium(2), 1);
    look(recorder, 0, 2, &[record]);
}

/// "As soon as Q replicas are restored at once nothing is decided any more": for R = 1 that is one restore.
fn nothing_decided(recorder: &mut Recorder) {
    play(
        recorder,
        "cluster 1 4
        drive 0 [0] [] → ok 0, 3; issue 0 0 0 9 AA → ok 1; send 0 0 0 → ok 1; note 0 0 0 → ok 1
        keep 0; restore 0 → ok 2; send 0 0 0 → no 16; note 0 0 0 → no 19; restore 1 → no 4
        take 1 0 → ok 3; prep 1 0 0 → ok 0; trim 1 0 0 → no 8; open 1 0 → no 8
        restore 0 → ok 4; drive 2 [0] [] → no 8, 3; drive 3 [0] [0,1] → no 8, 3",
    );
    let steps = "keep 0; restore 0 → ok 4; keep 2; restore 2 → ok 5
        drive 2 [0,1,2] [] → no 8, 7; keep 1; restore 1 → ok 7; drive 3 [0,1,2] [] → no 8, 5
        take 0 0 → no 5; stop 0 → ok; drive 0 [1,2] [] → no 8, 4";
    play(recorder, &format!("{EXAMPLE_1}\n{steps}"));
}

/// Servers of before: an open one goes on counting the replica, which declines it; an opening one meets 22.
fn old_servers(recorder: &mut Recorder) {
    play(
        recorder,
        "cluster 3 4
        drive 0 [0,1,2] [] → ok 0, 5; keep 1; issue 0 0 0 9 01 → ok 1; issue 0 0 0 9 02 → ok 2
        send 0 0 0 → ok 0; send 0 1 0 → ok 1; restore 1 → ok 2; entry 1 1 restored
        send 0 1 0 → no 19; note 0 1 0 → no 19; read 0 1 1 0 → no 19; copy 0 1 2 0 → no 17
        copy 0 0 1 0 → no 16; send 0 0 0 → ok 1; copy 0 0 1 0 → no 19; send 0 2 0 → ok 1
        send 0 2 0 → ok 2",
    );
    let rest = "send 0 1 1 → silent; send 0 1 0 → no 7; issue 0 2 0 9 03 → ok 3; send 0 0 0 → ok 2
        send 0 2 0 → ok 3
        take 1 0 → ok 3; prep 1 2 0 → ok 3; keep 0; restore 0 → ok 4; prep 1 0 0 → no 19
        prep 1 1 0 → ok 0; open 1 0 → no 8; copy 1 2 1 0 → ok 1; trim 1 2 0 → no 8
        drive 2 [2,1,0] [] → no 8, 11";
    play(recorder, rest);
}

/// By the entry that take handed over, and not the register's of now; once a member, it is one like any other.
fn handed_over(recorder: &mut Recorder) {
    play(
        recorder,
        "cluster 3 4
        drive 0 [0,1,2] [] → ok 0, 5; keep 1
        issue 0 0 0 9 01 → ok 1; issue 0 0 0 9 02 → ok 2
        send 0 0 0 → ok 0; send 0 0 0 → ok 0; send 0 1 0 → ok 1; send 0 2 0 → ok 1
        take 1 0 → ok 2; prep 1 0 0 → ok 2; prep 1 1 0 → ok 1; prep 1 2 0 → ok 1
        restore 1 → ok 3; trim 1 0 0 → ok 1; copy 1 0 1 0 → no 16; open 1 0 → no 22; open 1 2 → silent
        take 2 0 → ok 4; prep 2 1 0 → ok 0; prep 2 0 0 → ok 1; prep 2 2 0 → ok 1
        copy 2 2 1 2 → silent; copy 2 2 1 0 → no 7; prep 2 1 0 → ok 0; copy 2 2 1 0 → ok 1
        open 2 0 → ok 1; issue 2 1 0 9 03 → ok 2; send 2 1 0 → ok 1; copy 2 1 0 0 → ok 2
        note 2 1 0 → ok 2; slots 1 4,1,2 4,0,0; read 2 1 2 0 → bytes",
    );
    // A member that was restored is copied from, though the entry that was handed over still says so.
    let steps = "keep 2; restore 2 → ok 3; take 2 0 → ok 4; prep 2 2 0 → ok 0; prep 2 0 0 → ok 1
        prep 2 1 0 → ok 1; copy 2 0 2 0 → ok 1; copy 2 2 1 0 → no 16; open 2 0 → ok 1
        issue 2 1 0 9 CC → ok 2; send 2 0 0 → ok 1; send 2 2 0 → ok 2; place 2 2 CC
        copy 2 2 1 0 → ok 2; place 1 2 CC";
    play(recorder, &diverged(steps));
}

/// Of five and of seven: among the Q, one and more restored, and some that are left restored.
fn more_replicas(recorder: &mut Recorder) {
    play(
        recorder,
        "cluster 5 4
        drive 0 [0,1,2,3,4] [] → ok 0, 7; keep 3; issue 0 0 0 9 01 → ok 1
        send 0 3 0 → ok 0; send 0 4 0 → ok 0; send 0 0 0 → ok 1; restore 3 → ok 2
        keep 4; restore 4 → ok 3
        drive 1 [4,3,2,1] [] → no 8, 6; drive 2 [4,3,1,0] [] → no 8, 9
        drive 3 [4,3,2,1,0] [] → ok 1, 10; entry 4 6 unresolved; entry 3 6 unresolved; entry 0 6 unresolved",
    );
    play(
        recorder,
        "cluster 7 3
        drive 0 [0,1,2,3,4,5,6] [] → ok 0, 9; keep 5; restore 5 → ok 2; restore 6 → ok 3
        drive 1 [0,1,2,5,6] [] → no 8, 7; drive 2 [0,1,2,3,4] [] → ok 0, 7; entry 5 1 restored
        issue 2 0 0 9 01 → ok 1; send 2 4 0 → ok 0; send 2 3 0 → ok 0; send 2 2 0 → ok 0
        send 2 1 0 → ok 1; keep 3; restore 3 → ok 6; entry 3 5 restored; stop 0 → ok
        drive 0 [5,6,3,0,1,2,4] [0,0,1] → ok 1, 12; entry 5 7 unresolved; entry 6 1 restored
        entry 3 7 unresolved; entry 0 7 unresolved",
    );
}

/// Three records below which replica 0 has noted 1 as low-water mark and 3 as local one; each fate of the
/// prepare that follows a restore, and of the one that finds its promise written already.
fn cuts(recorder: &mut Recorder) {
    play(
        recorder,
        "cluster 3 4
        drive 0 [0,1,2] [] → ok 0, 5; issue 0 0 0 9 01 → ok 1; send 0 0 0 → ok 0; send 0 1 0 → ok 1
        drive 1 [0,1,2] [] → ok 1, 6; issue 1 1 0 9 02 → ok 2; issue 1 1 0 9 03 → ok 3
        send 1 0 0 → ok 1; send 1 0 0 → ok 1; note 1 0 0 → ok 3; keep 0; kept 2,0,0 2,1,3",
    );
    let backup = recorder.cluster().medium(0).to_vec();
    let cuts = (1..=4)
        .flat_map(|write| [Left::Old, Left::New, Left::Torn].map(|left| Fate::Cut(write, left)));
    let fates = [Fate::Answered, Fate::Lost, Fate::AnswerLost].into_iter().chain(cuts);
    for (fate, promised) in fates.flat_map(|fate| [(fate, false), (fate, true)]) {
        let restore = Call::Restore { replica: 0, backup: backup.clone() };
        let session = number(recorder, &restore).expect("a backup");
        assert_eq!(number(recorder, &take(3)), Ok(session + 1));
        if promised {
            let message = Message::new(Fate::Cut(1, Left::New));
            let _ = recorder.call(&Call::Prepare { server: 3, replica: 0, message });
        }
        let message = Message { fate, given: [0x5A; PLACE_BYTES] };
        let _ = recorder.call(&Call::Prepare { server: 3, replica: 0, message });
        assert_eq!(number(recorder, &prepare(3, 0)), Ok(1));
        recorder.call(&Call::Stop { server: 3 }).expect("a server");
    }
}

/// Too many or too few fields, numbers that are too great, bytes that are none or lie behind the end.
pub fn bad_lines(recorder: &mut Recorder) {
    let (end, byte) = (MOST_BACKUP, hex::encode(&[1]));
    for line in [
        "backup".to_string(),
        "backup\t64".to_string(),
        "backup\t64\t0".to_string(),
        format!("backup\t64\t0\t{byte}\t"),
        format!("backup\t64\t0\t{byte}\t0"),
        format!("backup\t\t0\t{byte}"),
        format!("backup\t64\t\t{byte}"),
        format!("backup\t{}\t0\t{byte}", end + 1),
        format!("backup\t{}\t0\t", u64::MAX),
        format!("backup\t18446744073709551616\t0\t{byte}"),
        format!("backup\t64\t{end}\t{byte}"),
        format!("backup\t64\t{}\t{byte}{byte}", end - 1),
        format!("backup\t64\t{}\t", end + 1),
        format!("backup\t64\t{}\t{byte}", u64::MAX),
        format!("backup\t64\t18446744073709551616\t{byte}"),
        format!("backup\t64\t0\t{byte}0"),
        "backup\t64\t0\t0G".to_string(),
        "keep".to_string(),
        "keep\t".to_string(),
        "keep\t7".to_string(),
        "keep\t0\t0".to_string(),
        format!("keep\t{}", u64::MAX),
        "keep\t18446744073709551616".to_string(),
        "restore".to_string(),
        "restore\t".to_string(),
        "restore\t0\t0".to_string(),
        "restore\t0\t0\t0\t0".to_string(),
        "restore\t18446744073709551616".to_string(),
        "Restore\t0".to_string(),
        "entry\t0\t1\t3\t0".to_string(),
        format!("entry\t0\t1\t{}\t0", u64::MAX),
        "handed\t0\t0\t1\t3\t0".to_string(),
        "entry\t0\t1\t2".to_string(),
    ] {
        recorder.bad(&line);
    }
    recorder.call(&Call::Restore { replica: 0, backup: Vec::new() }).expect_err("no shape yet");
}
