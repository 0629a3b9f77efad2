//! The checkpoint interval K (document 02, No. 1).

use crate::answered::{answered, Answered};
use twin::cluster::{Answer, Call, Cluster, Phase, Refusal, Reply, Shape};
use twin::medium::MOST_PLACES;
use twin::random::Random;
use twin::tries::caller::Caller;
use twin::tries::checkpoint::{self, Checkpoint};
use twin::tries::scene::{all_scenes, Scene, PLACES};
use twin::tries::states::Draw;

/// The scene's call on the same state with another N and K.
fn with_shape(mut scene: Scene, places: u64, interval: u64) -> Scene {
    (scene.cluster.shape.places, scene.cluster.shape.interval) = (places, interval);
    scene
}

/// stop and reassign too.
#[test]
fn every_call_declines_an_interval_outside_1_to_n() {
    for scene in all_scenes() {
        for interval in [0, PLACES + 1, PLACES + 2, MOST_PLACES, MOST_PLACES + 1, u64::MAX] {
            let before = with_shape(scene.clone(), PLACES, interval);
            let mut scene = before.clone();
            let reply = scene.apply();
            assert_eq!(reply, Err(Refusal::OutsideShape), "{:?}, K = {interval}", scene.kind);
            assert!(scene == before);
        }
    }
}

#[test]
fn no_call_finds_an_interval_from_1_to_n_outside() {
    for scene in all_scenes() {
        for interval in 1..=PLACES {
            let reply = with_shape(scene.clone(), PLACES, interval).apply();
            assert_ne!(reply, Err(Refusal::OutsideShape), "{:?}, K = {interval}", scene.kind);
        }
    }
}

/// A K that fits does not make up for an N that does not.
#[test]
fn places_outside_their_values_fit_no_interval() {
    let outside = [(0, 0), (0, 1), (MOST_PLACES + 1, 1), (MOST_PLACES + 1, MOST_PLACES + 1)];
    for scene in all_scenes() {
        for (places, interval) in outside.into_iter().chain([(u64::MAX, 1), (u64::MAX, u64::MAX)]) {
            let reply = with_shape(scene.clone(), places, interval).apply();
            assert_eq!(reply, Err(Refusal::OutsideShape), "{:?}", scene.kind);
        }
    }
}

#[test]
fn a_cluster_is_fresh_with_an_interval_from_1_to_n() {
    for interval in (0..=6).chain([u64::MAX]) {
        let cluster = Cluster::fresh(Shape { replicas: 3, places: 4, interval });
        assert_eq!(cluster.is_some(), matches!(interval, 1..=4), "K = {interval}");
    }
}

fn reply(interval: u64, starting: u64, issued: u64) -> Reply {
    Checkpoint { interval, starting, issued }.scene().apply()
}

/// N is 4; each row is K, the starting mark, issued = acknowledged, and the reply.
#[test]
fn edges() {
    let granted = |id| Ok(Answer::Number(id));
    let (due, full) = (Err(Refusal::CheckpointDue), Err(Refusal::Full));
    let rows = [
        // Issued below the starting mark: a difference that wraps around would be above any K.
        (1, 3, 2, granted(3)),
        (1, 4, 0, granted(1)),
        (3, 4, 3, granted(4)),
        // The difference is K - 1.
        (1, 3, 3, granted(4)),
        (2, 1, 2, granted(3)),
        (3, 1, 3, granted(4)),
        // It is K, or more.
        (1, 2, 3, due),
        (2, 1, 3, due),
        (3, 0, 3, due),
        (1, 0, 3, due),
        // A full log is seen first.
        (1, 3, 4, full),
        (1, 0, 4, full),
        // K = N.
        (4, 0, 3, granted(4)),
        (4, 0, 4, full),
    ];
    for (interval, starting, issued, expected) in rows {
        let names = format!("K = {interval}, starting mark {starting}, issued {issued}");
        assert_eq!(reply(interval, starting, issued), expected, "{names}");
    }
}

#[test]
fn issue_declines_exactly_if_the_true_difference_is_k_or_more() {
    let mut due = 0;
    for Checkpoint { interval, starting, issued } in Checkpoint::all() {
        let difference = i128::from(issued) - i128::from(starting);
        let expected = if issued == checkpoint::PLACES {
            Err(Refusal::Full)
        } else if difference >= i128::from(interval) {
            due += 1;
            Err(Refusal::CheckpointDue)
        } else {
            Ok(Answer::Number(issued + 1))
        };
        assert_eq!(reply(interval, starting, issued), expected);
    }
    // Issued 3: three starting marks for K = 1, two for 2, one for 3; issued 2 and 1 likewise.
    assert_eq!(due, (3 + 2 + 1) + (2 + 1) + 1);
}

/// The reply to a call with this K, and what it leaves, as if K were N.
fn with_interval(cluster: &Cluster, call: &Call, interval: u64) -> (Reply, Cluster, Call) {
    let (mut cluster, mut call) = (cluster.clone(), call.clone());
    cluster.shape.interval = interval;
    let reply = cluster.apply(&mut call);
    cluster.shape.interval = cluster.shape.places;
    (reply, cluster, call)
}

/// On random states: whatever K is, a call does what it does with K = N; only issue may come to 23,
/// and only where otherwise it is granted or comes to 15.
#[test]
fn within_1_to_n_only_issue_looks_at_the_interval() {
    let mut random = Random::new(12);
    let mut due = 0;
    for _ in 0..100_000 {
        let places = 1 + random.below(4);
        let mut draw = Draw { random: &mut random, places };
        let cluster = draw.cluster();
        let call = draw.call(&cluster);
        let whole = with_interval(&cluster, &call, places);
        for interval in 1..places {
            let other = with_interval(&cluster, &call, interval);
            if other.0 != Err(Refusal::CheckpointDue) {
                assert!(other == whole, "{call:?}");
                continue;
            }
            due += 1;
            assert!(matches!(call, Call::Issue { .. }));
            assert!(matches!(whole.0, Ok(_) | Err(Refusal::Locked { .. })), "{:?}", whole.0);
        }
    }
    assert!(due > 50, "{due}");
}

/// On random states and in lists from fresh clusters.
#[test]
fn with_an_interval_of_n_nothing_is_ever_due() {
    let mut random = Random::new(13);
    for _ in 0..20_000 {
        let places = 1 + random.below(4);
        let mut draw = Draw { random: &mut random, places };
        let cluster = draw.cluster();
        let call = draw.call(&cluster);
        let (reply, ..) = with_interval(&cluster, &call, places);
        assert_ne!(reply, Err(Refusal::CheckpointDue));
    }
    let mut full = 0;
    for _ in 0..300 {
        let shape = Shape::whole(*random.pick(&[1, 3, 5, 7]), 1 + random.below(6));
        full += u64::from(list_fills_log(&mut random, shape));
    }
    assert!(full > 30, "{full}");
}

/// Whether a random list comes to a full log; nothing is due in it.
fn list_fills_log(random: &mut Random, shape: Shape) -> bool {
    let mut cluster = Cluster::fresh(shape).expect("an allowed shape");
    let caller = Caller::new(random);
    let mut full = false;
    for _ in 0..300 {
        let reply = cluster.apply(&mut caller.next_call(random, &cluster));
        assert_ne!(reply, Err(Refusal::CheckpointDue));
        full |= reply == Err(Refusal::Full);
    }
    full
}

/// Three replicas, four places, K = 2: two records a session. What was booked before the forced
/// change is found after it.
#[test]
fn a_forced_change_call_by_call() {
    let mut cluster = Answered::fresh(3, 4, 2);
    cluster.recover(0, 1, 0);
    assert_eq!(cluster.issue(0, 0, 0xAA), Ok(1));
    assert_eq!(cluster.send(0), [Ok(0), Ok(1)]);
    assert_eq!(cluster.issue(0, 1, 0xBB), Ok(2));
    assert_eq!(cluster.send(0), [Ok(1), Ok(2)]);
    assert_eq!(cluster.issue(0, 2, 0xCC), Err(23));
    cluster.recover(1, 2, 2);
    assert_eq!(cluster.issue(1, 2, 0xCC), Ok(3));
    assert_eq!(cluster.send(1), [Ok(2), Ok(3)]);
    assert_eq!(cluster.issue(1, 3, 0xDD), Ok(4));
    assert_eq!(cluster.send(1), [Ok(3), Ok(4)]);
    assert_eq!(cluster.issue(1, 4, 0xEE), Err(14));
    for replica in 0..2 {
        let log = [1, 2, 3, 4].map(|id| cluster.read(1, replica, id));
        assert_eq!(log, [0xAA, 0xBB, 0xCC, 0xDD]);
    }
}

/// Nothing happens by itself: the server stays open and does all else, again and again declining to
/// issue, until a session is opened; by the same server, if it is stopped.
#[test]
fn a_server_that_is_due_goes_on_but_for_issue() {
    let mut cluster = Answered::fresh(3, 4, 1);
    assert_eq!(cluster.take(0), Ok(1));
    assert_eq!([0, 1, 2].map(|replica| cluster.prepare(0, replica)), [Ok(0); 3]);
    assert_eq!(cluster.open(0), Ok(0));
    assert_eq!(cluster.issue(0, 0, 0xAA), Ok(1));
    assert_eq!(cluster.issue(0, 0, 0xBB), Err(23));
    assert_eq!(cluster.send(0), [Ok(0), Ok(1)]);
    let before = cluster.0.clone();
    assert_eq!([0, 1].map(|mark| cluster.issue(0, mark, 0xBB)), [Err(23); 2]);
    assert!(cluster.0 == before);
    let (server, message) = (0, answered());
    assert_eq!(cluster.call(Call::Copy { server, from: 1, to: 2, message }), Ok(1));
    assert_eq!(cluster.call(Call::Note { server, replica: 2, message }), Ok(1));
    assert_eq!(cluster.read(0, 2, 1), 0xAA);
    assert_eq!(cluster.issue(0, 1, 0xBB), Err(23));
    assert_eq!(cluster.0.records.servers[0].phase, Phase::Open);
    assert_eq!(cluster.0.stop(0), Ok(Answer::Nothing));
    cluster.recover(0, 2, 1);
    assert_eq!(cluster.issue(0, 1, 0xBB), Ok(2));
}
