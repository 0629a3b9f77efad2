//! Locks and the client's mark (document 02, No. 2): a client whose mark is a lock's estimate has read
//! its last writer and gets it; one whose mark is less is declined with 15.

use crate::answered::Answered;
use twin::cluster::{Answer, Cluster, Phase, Refusal, Reply, Request, Server, Shape, SERVERS};
use twin::locks::lock_places;
use twin::random::Random;
use twin::script;
use twin::tries::caller::Caller;
use twin::tries::clients::{Client, GRANTED, LOCK};
use twin::tries::scene::{all_scenes, Kind, Scene, CLIENT_MARK, SERVER};
use twin::tries::useful;

fn granted(id: u64) -> Reply {
    Ok(Answer::Number(id))
}

fn locked(lock: u64, estimate: u64) -> Reply {
    Err(Refusal::Locked { lock, estimate })
}

/// Three replicas, four places: the lock can be had on the empty log; its next client must have read
/// ID 1.
#[test]
fn one_lock_call_by_call() {
    let mut cluster = Answered::fresh(3, 4, 4);
    cluster.recover(0, 1, 0);
    assert_eq!(cluster.ask(0, 0, 0xAA, &[1]), granted(1));
    assert_eq!(cluster.send(0), [Ok(0), Ok(1)]);
    let before = cluster.0.clone();
    assert_eq!(cluster.ask(0, 0, 0xBB, &[1]), locked(1, 1));
    assert!(cluster.0 == before);
    assert_eq!(cluster.ask(0, 1, 0xBB, &[1]), granted(2));
}

/// The same as lines; 15 prints its number alone.
#[test]
fn one_lock_line_by_line() {
    let run = [
        ("cluster 3 4", "ok"),
        ("take 0 0", "ok 1"),
        ("prep 0 0 0", "ok 0"),
        ("prep 0 1 0", "ok 0"),
        ("open 0 0", "ok 0"),
        ("issue 0 0 0 9 AA 1", "ok 1"),
        ("send 0 0 0", "ok 0"),
        ("send 0 1 0", "ok 1"),
        ("issue 0 0 0 9 BB 1", "no 15"),
        ("issue 0 1 0 9 BB 1", "ok 2"),
    ];
    let lines = |text: fn(&(&str, &str)) -> String| run.iter().map(text).collect::<String>();
    let input = lines(|(line, _)| line.replace(' ', "\t") + "\n");
    let expected = lines(|(_, reply)| reply.replace(' ', "\t") + "\n");
    assert_eq!(String::from_utf8(script::run(input.as_bytes())), Ok(expected));
}

#[test]
fn issue_declines_exactly_if_the_estimate_is_above_the_clients_mark() {
    let mut met = [0; 2];
    for Client { mark, estimate } in Client::all() {
        let above = estimate > mark;
        let expected = if above { locked(LOCK, estimate) } else { granted(GRANTED) };
        let reply = Client { mark, estimate }.scene().apply();
        assert_eq!(reply, expected, "mark {mark}, estimate {estimate}");
        met[usize::from(above)] += 1;
    }
    // Marks 0 to 3 with estimates 0 to 4 and one more.
    assert_eq!(met, [1 + 2 + 3 + 4, 5 + 4 + 3 + 2]);
}

/// N of the clusters below.
const PLACES: u64 = 6;

/// Server 1 has just opened session 2 at this mark; session 1 wrote the same lock with each ID.
fn opened_at(mark: u64) -> Answered {
    let mut cluster = Answered::fresh(3, PLACES, PLACES);
    cluster.recover(0, 1, 0);
    for read in 0..mark {
        assert_eq!(cluster.ask(0, read, 0xAA, &[1]), granted(read + 1));
        assert_eq!(cluster.send(0), [Ok(read), Ok(read + 1)]);
    }
    cluster.recover(1, 2, mark);
    cluster
}

/// One to four, often one that was written, now and then one twice.
fn draw_locks(random: &mut Random) -> Vec<u64> {
    let any = random.number();
    (0..1 + random.below(4)).map(|_| *random.pick(&[0, 1, 7, any])).collect()
}

/// Whichever the locks are: a new session knows no more of them than where it starts.
#[test]
fn a_new_session_gives_locks_from_its_starting_mark_on() {
    let mut random = Random::new(14);
    for mark in 0..PLACES {
        let cluster = opened_at(mark);
        for _ in 0..100 {
            let locks = draw_locks(&mut random);
            assert_eq!(cluster.clone().ask(1, mark, 0xBB, &locks), granted(mark + 1), "{locks:?}");
            for below in 0..mark {
                let reply = cluster.clone().ask(1, below, 0xBB, &locks);
                assert_eq!(reply, locked(locks[0], mark), "{locks:?}, mark {below}");
            }
        }
    }
}

/// K = 1: each session issues one record, and it may have locks.
#[test]
fn every_session_may_give_a_lock_if_it_issues_one_record() {
    let mut cluster = Answered::fresh(3, 4, 1);
    for (server, mark) in (0..4).zip(0..) {
        cluster.recover(server, mark + 1, mark);
        if mark > 0 {
            assert_eq!(cluster.ask(server, mark - 1, 0xAA, &[1]), locked(1, mark));
        }
        assert_eq!(cluster.ask(server, mark, 0xAA, &[1]), granted(mark + 1));
        assert_eq!(cluster.send(server), [Ok(mark), Ok(mark + 1)]);
        let declined = if mark < 3 { Refusal::CheckpointDue } else { Refusal::Full };
        assert_eq!(cluster.ask(server, mark + 1, 0xAA, &[1]), Err(declined));
    }
}

/// In lists from fresh clusters: whoever has read all that is acknowledged gets any locks from a
/// server that may issue.
#[test]
fn a_client_that_has_read_everything_gets_every_lock() {
    let mut random = Random::new(15);
    let mut count = 0;
    for list in 0..200 {
        let replicas = *random.pick(&[1, 3, 3, 5, 7]);
        let places = 1 + random.below(12);
        let interval = 1 + random.below(places);
        let shape = Shape { replicas, places, interval };
        let mut cluster = Cluster::fresh(shape).expect("an allowed shape");
        let caller = Caller::new(&mut random);
        for _ in 0..150 {
            let mut call = match list % 2 {
                0 => caller.next_call(&mut random, &cluster),
                _ => useful::next_call(&mut random, &caller, &cluster),
            };
            let _ = cluster.apply(&mut call);
            count += granted_with_all_read(&mut random, &cluster);
        }
    }
    assert!(count > 2_000, "{count}");
}

/// How many servers grant a request by such a client; those that do not have another reason than its
/// locks.
fn granted_with_all_read(random: &mut Random, cluster: &Cluster) -> u64 {
    let mut granted = 0;
    for server in 0..SERVERS {
        let Server { phase, issued, acknowledged, generation, .. } =
            cluster.records.servers[server];
        if phase != Phase::Open || acknowledged != issued {
            continue;
        }
        let (client, client_mark, locks) = (100, acknowledged, draw_locks(random));
        let request = Request { client_mark, client, generation, locks, ..Request::default() };
        let reply = cluster.clone().issue(server as u64, &request);
        let declined = [Err(Refusal::Full), Err(Refusal::CheckpointDue)];
        assert!(reply.is_ok() || declined.contains(&reply), "{request:?}: {reply:?}");
        granted += u64::from(reply.is_ok());
    }
    granted
}

/// issue's scene with these locks; they stand at the client's mark.
fn asking(locks: &[u64]) -> Scene {
    let mut scene = all_scenes()
        .into_iter()
        .find(|scene| scene.kind == Kind::BookingIssue)
        .expect("issue's scene");
    scene.request().locks = locks.to_vec();
    scene
}

fn raise(scene: &mut Scene, lock: u64, mark: u64) {
    let table = scene.cluster.table_mut(SERVER);
    lock_places(lock).into_iter().for_each(|place| table[place] = mark);
}

/// Not the one with the greatest estimate, nor the least lock; and one that is named twice counts
/// where it is named first.
#[test]
fn the_first_lock_above_the_clients_mark_is_given() {
    let [low, high] = [CLIENT_MARK + 1, CLIENT_MARK + 2];
    let rows: [(&[u64], u64, u64); 6] = [
        (&[20, 30], 20, low),
        (&[30, 20], 30, high),
        (&[10, 30, 10, 20], 30, high),
        (&[10, 10, 20, 20], 20, low),
        (&[20, 30, 30, 20], 20, low),
        (&[10, 10, 10, 30], 30, high),
    ];
    for (locks, lock, estimate) in rows {
        let mut scene = asking(locks);
        raise(&mut scene, 20, low);
        raise(&mut scene, 30, high);
        let before = scene.clone();
        assert_eq!(scene.apply(), locked(lock, estimate), "{locks:?}");
        assert!(scene == before);
    }
}

/// What a request writes at its first lock does not stand in the way of its others: not even where
/// all four are one.
#[test]
fn locks_are_judged_before_any_is_written() {
    for locks in [&[10, 10][..], &[10, 10, 10, 10], &[10, 20, 10, 20], &[0, 0]] {
        let mut scene = asking(locks);
        let before = scene.cluster.clone();
        assert_eq!(scene.apply(), granted(6), "{locks:?}");
        assert_writes(&before, locks, 6, &scene.cluster);
    }
}

/// The ID stands at the locks' places of the server's table, and nothing else of the tables changed.
fn assert_writes(before: &Cluster, locks: &[u64], id: u64, after: &Cluster) {
    let mut expected = before.clone();
    let table = expected.table_mut(SERVER);
    locks.iter().flat_map(|&lock| lock_places(lock)).for_each(|place| table[place] = id);
    assert!(after.locks == expected.locks, "{locks:?}");
}

/// The first lock of which the least of three entries is above the client's mark, and that entry.
fn by_the_words(table: &[u64], request: &Request) -> Option<(u64, u64)> {
    let least = |lock: u64| lock_places(lock).map(|place| table[place]).into_iter().min();
    let estimates = request.locks.iter().map(|&lock| (lock, least(lock).expect("three entries")));
    estimates.into_iter().find(|&(_, estimate)| request.client_mark < estimate)
}

/// On tables whose entries are all drawn.
#[test]
fn on_any_table_the_words_hold() {
    let mut random = Random::new(16);
    let mut met = [0; 2];
    for _ in 0..3_000 {
        let count = 1 + random.below(4);
        let locks: Vec<u64> = (0..count).map(|_| random.below(6)).collect();
        let mut scene = asking(&locks);
        scene.request().client_mark = random.below(6);
        let most = 1 + random.below(7);
        scene.cluster.locks.iter_mut().for_each(|entry| *entry = random.below(most));
        let before = scene.cluster.clone();
        let conflict = by_the_words(before.table(SERVER), scene.request());
        let reply = scene.apply();
        if let Some((lock, estimate)) = conflict {
            assert_eq!(reply, locked(lock, estimate));
            assert!(scene.cluster == before);
        } else {
            assert_eq!(reply, granted(6));
            assert_writes(&before, &locks, 6, &scene.cluster);
        }
        met[usize::from(conflict.is_some())] += 1;
    }
    assert!(met.iter().all(|&count| count > 500), "{met:?}");
}
