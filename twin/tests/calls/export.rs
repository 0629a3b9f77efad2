//! export (document 02, No. 3): "with read's fate and checks but 16", and files that change with ok
//! alone.

use twin::cluster::{Answer, Call, Cluster, Message, Refusal, Reply, Server, Standing};
use twin::fate::{Fate, Left};
use twin::medium::{self, place_at, put, WIPED};
use twin::random::Random;
use twin::segment::{lengths, written, Pair};
use twin::tries::exports::exact_lengths;
use twin::tries::imports::STAMP;
use twin::tries::scene::{all_scenes, Kind, Scene, EXACT, EXPORTED, REPLICA, SERVER, UNWRITTEN};
use twin::tries::states::Draw;

const SERVER_NUMBER: u64 = SERVER as u64;
const REPLICA_NUMBER: u64 = REPLICA as u64;

fn scene() -> Scene {
    all_scenes().into_iter().find(|scene| scene.kind == Kind::Export).expect("export's scene")
}

/// The reply, and the files after it.
fn export(cluster: &mut Cluster, lengths: [usize; 2], fate: Fate) -> (Reply, Pair) {
    let mut files = Pair::filled(lengths, UNWRITTEN);
    let message = Message::new(fate);
    let reply = cluster.export(SERVER_NUMBER, REPLICA_NUMBER, STAMP, &mut files, &message);
    (reply, files)
}

/// The replica holds so much, and so much is acknowledged.
fn with_marks(mark: u64, acknowledged: u64) -> Cluster {
    let mut cluster = scene().cluster;
    for number in mark + 1..=cluster.shape.places {
        put(cluster.medium_mut(REPLICA), place_at(number), &WIPED);
    }
    let server = &mut cluster.records.servers[SERVER];
    (server.marks[REPLICA], server.acknowledged) = (mark, acknowledged);
    cluster
}

/// Each mark beside each acknowledged mark: the log up to the lesser, and nothing else changes.
#[test]
fn the_log_is_written_up_to_the_lesser_mark() {
    for mark in 0..=EXPORTED as u64 {
        for acknowledged in 0..=10 {
            let mut cluster = with_marks(mark, acknowledged);
            let before = cluster.clone();
            let upto = mark.min(acknowledged);
            let expected = written(cluster.medium(REPLICA), upto, STAMP);
            let (reply, files) = export(&mut cluster, expected.lengths(), Fate::Answered);
            assert_eq!(reply, Ok(Answer::Nothing), "{mark}, {acknowledged}");
            assert_eq!(files, expected, "{mark}, {acknowledged}");
            assert!(cluster == before);
        }
    }
}

/// Each length of each file beside the exact one of the other.
#[test]
fn any_other_length_is_declined_and_changes_nothing() {
    let [data, index] = EXACT;
    let others = |exact: usize| (0..=exact + 70).filter(move |&length| length != exact);
    let pairs = others(data).map(|other| [other, index]).chain(others(index).map(|it| [data, it]));
    for lengths in pairs.chain([[index, data], [0, 0], [data + 1, index - 1]]) {
        let mut cluster = scene().cluster;
        let (reply, files) = export(&mut cluster, lengths, Fate::Answered);
        assert_eq!(reply, Err(Refusal::OtherFiles), "{lengths:?}");
        assert_eq!(files, Pair::filled(lengths, UNWRITTEN));
        assert!(cluster == scene().cluster);
    }
}

/// Whatever the lengths: silent, the files untouched, and the member is dropped.
#[test]
fn a_silent_export_drops_the_member() {
    let [data, index] = EXACT;
    let cuts = [1, 2, u64::MAX].map(|write| Fate::Cut(write, Left::Torn));
    for fate in [Fate::Lost, Fate::AnswerLost].into_iter().chain(cuts) {
        for lengths in [[data, index], [data - 1, index], [data, index + 1], [0, 0]] {
            let mut cluster = scene().cluster;
            let mut expected = cluster.clone();
            expected.records.servers[SERVER].standings[REPLICA] = Standing::Dropped;
            let (reply, files) = export(&mut cluster, lengths, fate);
            assert_eq!(reply, Ok(Answer::Silent), "{fate:?}, {lengths:?}");
            assert_eq!(files, Pair::filled(lengths, UNWRITTEN));
            assert!(cluster == expected);
            let (reply, _) = export(&mut cluster, EXACT, Fate::Answered);
            assert_eq!(reply, Err(Refusal::ReplicaOut));
        }
    }
}

/// A cut is judged though nothing is written.
#[test]
fn a_cut_is_judged() {
    let mut cluster = scene().cluster;
    let (reply, _) = export(&mut cluster, EXACT, Fate::Cut(0, Left::New));
    assert_eq!(reply, Err(Refusal::UnfitFate));
    assert!(cluster == scene().cluster);
}

/// A message of a random state, as a read of this ID and as an export with files of the exact lengths.
fn read_and_export(random: &mut Random, cluster: &Cluster, id: u64) -> [(Reply, Cluster); 2] {
    let mut draw = Draw { random, places: cluster.shape.places.clamp(1, 4) };
    let (server, replica, message) = draw_read(&mut draw, cluster);
    let mut files = Pair::filled(exact_lengths(cluster, server, replica), UNWRITTEN);
    let [mut reading, mut exporting] = [cluster.clone(), cluster.clone()];
    let read = reading.read(server, replica, id, &message);
    let export = exporting.export(server, replica, STAMP, &mut files, &message);
    let untouched = files == Pair::filled(files.lengths(), UNWRITTEN);
    assert_eq!(untouched, export != Ok(Answer::Nothing));
    [(read, reading), (export, exporting)]
}

fn draw_read(draw: &mut Draw, cluster: &Cluster) -> (u64, u64, Message) {
    loop {
        if let Call::Read { server, replica, message, .. } = draw.call(cluster) {
            return (server, replica, message);
        }
    }
}

/// On random states: what a read is declined by, but 16, an export is declined by; otherwise both are
/// answered or both are silent, and they leave the same. Where a read is declined by 16, only what comes
/// behind it can decline an export.
#[test]
fn it_is_read_but_for_16() {
    let mut random = Random::new(21);
    let mut met = [0; 4];
    for _ in 0..60_000 {
        let places = 1 + random.below(4);
        let cluster = Draw { random: &mut random, places }.cluster();
        let [read, export] = read_and_export(&mut random, &cluster, 1);
        let kind = match (read.0, export.0) {
            (Err(Refusal::NothingToDo), export) => {
                let declined = [Refusal::NoSlot, Refusal::OtherPromise, Refusal::OtherMark];
                assert!(export.is_ok() || declined.map(Err).contains(&export), "{export:?}");
                0
            }
            (Err(read), export) => {
                assert_eq!(export, Err(read));
                1
            }
            (Ok(Answer::Silent), export) => {
                assert_eq!(export, Ok(Answer::Silent));
                2
            }
            (Ok(_), export) => {
                assert_eq!(export, Ok(Answer::Nothing));
                3
            }
        };
        if kind != 0 {
            assert!(read.1 == export.1, "they leave the same");
        }
        met[kind] += 1;
    }
    assert!(met.iter().all(|&count| count > 100), "{met:?}");
}

/// A read of 16 stands for an empty segment; the checks behind 16 are still made.
#[test]
fn an_empty_log_is_exported() {
    for acknowledged in [0, 4] {
        let mut cluster = with_marks(if acknowledged == 0 { 4 } else { 0 }, acknowledged);
        let read = cluster.read(SERVER_NUMBER, REPLICA_NUMBER, 1, &Message::new(Fate::Answered));
        assert_eq!(read, Err(Refusal::NothingToDo));
        let (reply, files) = export(&mut cluster, [128, 128], Fate::Answered);
        assert_eq!(reply, Ok(Answer::Nothing));
        assert_eq!(files.data, files.index);
        assert_eq!(files.data, STAMP.header());
        put(cluster.medium_mut(REPLICA), 0, &[0; 64]);
        let (reply, _) = export(&mut cluster, [128, 128], Fate::Answered);
        assert_eq!(reply, Err(Refusal::NoSlot));
    }
}

/// Records behind the recorded mark make it differ from the stored one; with the lesser mark it is the
/// stored log that is written.
#[test]
fn the_recorded_mark_must_be_the_stored_one() {
    let cluster = scene().cluster;
    let stored = medium::mark(cluster.medium(REPLICA));
    for recorded in 0..=cluster.shape.places {
        let mut cluster = cluster.clone();
        let server: &mut Server = &mut cluster.records.servers[SERVER];
        (server.marks[REPLICA], server.acknowledged) = (recorded, 2);
        let exact = lengths(cluster.medium(REPLICA), recorded.min(2));
        let (reply, _) = export(&mut cluster, exact, Fate::Answered);
        let expected =
            if recorded == stored { Ok(Answer::Nothing) } else { Err(Refusal::OtherMark) };
        assert_eq!(reply, expected, "{recorded}");
    }
}
