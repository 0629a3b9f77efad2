//! Document 01's marked examples a to j, each row as it stands there; but i is granted (document 02,
//! No. 2).

use twin::cluster::{Answer, Call, Cluster, Phase, Refusal, Request, Shape, Standing};
use twin::exported::lock_place;
use twin::locks::lock_places;
use twin::votes::decided;

#[test]
fn a_to_f_votes() {
    let rows: [(&[Option<u64>], Option<u64>); 6] = [
        (&[Some(7), Some(9), Some(5)], Some(7)),
        (&[Some(7), None, Some(5)], None),
        (&[Some(7), None, Some(7)], Some(7)),
        (&[Some(0)], Some(0)),
        (&[Some(4), Some(4), None, None, None], None),
        (&[Some(4), Some(4), Some(4), None, None], Some(4)),
    ];
    for (marks, mark) in rows {
        assert_eq!(decided(marks), mark, "{marks:?}");
    }
}

#[test]
fn g_and_h_lock_places() {
    for (lock, places) in [(1, [632, 765, 595]), (0, [0, 0, 0])] {
        assert_eq!(lock_places(lock), places);
        for (index, place) in (0..).zip(places) {
            assert_eq!(lock_place(lock, index), place as u64);
        }
        for beyond in [3, 4, u64::MAX] {
            assert_eq!(lock_place(lock, beyond), 1024);
        }
    }
}

/// An open server whose lock entries are all `entry`, asked for one lock by a client at
/// `client_mark`.
fn ask(entry: u64, client_mark: u64) -> Result<Answer, Refusal> {
    let mut cluster = Cluster::fresh(Shape::whole(1, 10)).expect("a shape");
    cluster.locks.fill(entry);
    let server = &mut cluster.records.servers[0];
    server.phase = Phase::Open;
    server.standings[0] = Standing::In;
    (server.starting, server.issued, server.acknowledged) = (6, 6, 6);
    let request = Request { client_mark, locks: vec![1], ..Request::default() };
    cluster.apply(&mut Call::Issue { server: 0, request })
}

#[test]
fn i_and_j_locks() {
    assert_eq!(ask(0, 0), Ok(Answer::Number(7)));
    assert_eq!(ask(5, 6), Ok(Answer::Number(7)));
}

/// A mark equal to the estimate suffices, one less does not.
#[test]
fn edges_of_i_and_j() {
    for estimate in 1..=6 {
        let declined = Refusal::Locked { lock: 1, estimate };
        assert_eq!(ask(estimate, estimate - 1), Err(declined));
        assert_eq!(ask(estimate, estimate), Ok(Answer::Number(7)));
    }
    assert_eq!(ask(7, 6), Err(Refusal::Locked { lock: 1, estimate: 7 }));
    assert_eq!(ask(u64::MAX, 6), Err(Refusal::Locked { lock: 1, estimate: u64::MAX }));
}
