//! The third conclusion is not kept by chance: with a cluster that lets an estimate of one more than the
//! client's mark pass, it is broken at once.

use crate::history::History;
use crate::{run_list, Apply, Met};
use twin::cluster::{Answer, Call, Cluster, Message, Reply, Request, Shape};
use twin::fate::Fate;
use twin::random::Random;

/// Such a cluster does for a client what ours does for one whose mark is one more; but 11 goes by the
/// client's own.
fn lenient(cluster: &mut Cluster, call: &mut Call) -> Reply {
    let Call::Issue { server, request } = call else {
        return cluster.apply(call);
    };
    let mut request = request.clone();
    let acknowledged = cluster.records.servers[*server as usize].acknowledged;
    request.client_mark += u64::from(request.client_mark < acknowledged);
    cluster.issue(*server, &request)
}

/// Calls that are all answered, and what they bring about.
struct List {
    apply: Apply,
    cluster: Cluster,
    history: History,
}

impl List {
    /// Three replicas, four places.
    fn new(apply: Apply) -> List {
        let cluster = Cluster::fresh(Shape::whole(3, 4)).expect("an allowed shape");
        let history = History::new(&cluster);
        List { apply, cluster, history }
    }

    fn call(&mut self, call: Call) -> Result<u64, u64> {
        let before = self.cluster.clone();
        let reply = (self.apply)(&mut self.cluster, &mut call.clone());
        self.history.add(&before, &call, &reply, &self.cluster);
        match reply {
            Ok(Answer::Number(value)) => Ok(value),
            Ok(other) => panic!("{other:?}"),
            Err(refusal) => Err(refusal.number()),
        }
    }

    /// The server opens the next session with replicas 0 and 1.
    fn open(&mut self, server: u64) -> Result<u64, u64> {
        let (fate, message) = (Fate::Answered, Message::new(Fate::Answered));
        self.call(Call::Take { server, fate })?;
        for replica in 0..2 {
            self.call(Call::Prepare { server, replica, message })?;
        }
        self.call(Call::Open { server, fate })
    }

    /// A client at this mark asks for lock 1; the record is sent to replicas 0 and 1.
    fn book(&mut self, server: u64, client_mark: u64) -> Result<u64, u64> {
        let request = Request { client_mark, locks: vec![1], ..Request::default() };
        let id = self.call(Call::Issue { server, request })?;
        for replica in 0..2 {
            self.call(Call::Send { server, replica, message: Message::new(Fate::Answered) })?;
        }
        Ok(id)
    }
}

#[test]
fn the_first_client_that_has_not_read_the_writer_breaks_it() {
    let mut list = List::new(lenient);
    assert_eq!(list.open(0), Ok(0));
    assert_eq!(list.book(0, 0), Ok(1));
    assert_eq!(list.history.unaware(), None);
    assert_eq!(list.book(0, 0), Ok(2));
    assert_eq!(list.history.unaware(), Some([1, 2]));
}

#[test]
fn so_does_one_that_has_not_read_up_to_the_starting_mark() {
    let mut list = List::new(lenient);
    assert_eq!(list.open(0), Ok(0));
    assert_eq!(list.book(0, 0), Ok(1));
    assert_eq!(list.open(1), Ok(1));
    assert_eq!(list.history.unaware(), None);
    assert_eq!(list.book(1, 0), Ok(2));
    assert_eq!(list.history.unaware(), Some([1, 2]));
}

#[test]
#[should_panic(expected = "IDs 1 and 2 share a lock")]
fn the_check_says_so() {
    let mut list = List::new(lenient);
    assert_eq!(list.open(0), Ok(0));
    assert_eq!([0, 0].map(|mark| list.book(0, mark)), [Ok(1), Ok(2)]);
    list.history.check();
}

/// The same calls on our cluster: those are declined, and clients that have read the writer are not.
#[test]
fn ours_keeps_it() {
    let mut list = List::new(Cluster::apply);
    assert_eq!(list.open(0), Ok(0));
    assert_eq!([0, 0, 1].map(|mark| list.book(0, mark)), [Ok(1), Err(15), Ok(2)]);
    assert_eq!(list.open(1), Ok(2));
    assert_eq!([0, 1, 2].map(|mark| list.book(1, mark)), [Err(15), Err(15), Ok(3)]);
    list.history.check();
}

/// The lists that hold our cluster to the guarantee come to it too.
#[test]
fn random_lists_break_it() {
    let broken = |seed: u64| {
        let (_, history) = run_list(&mut Random::new(seed), lenient, &mut Met::default());
        history.unaware().is_some()
    };
    let count = (0..100).filter(|&seed| broken(seed)).count();
    assert!(count > 10, "{count}");
}
