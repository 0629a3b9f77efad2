//! The guarantee between sessions, on long random lists of calls from fresh clusters: every fate, a
//! cut at any write, old servers that go on talking, sessions that the interval ends, servers stopped
//! or overtaken with records in flight, gates and booking clients, exports; on lists whose media were
//! converted on the way, and that store what the release before took, header 0 among it; on lists with
//! recoveries, and with media from backups.

mod conversions;
mod exports;
mod header_zero;
mod history;
mod in_flight;
mod lenient;
mod limits;
mod recoveries;
mod restores;

use std::collections::{BTreeMap, BTreeSet};

use header_zero::Zeros;
use history::History;
use in_flight::InFlight;
use limits::Clients;
use twin::cluster::{first_row, Call, Cluster, Refusal, Reply, Shape, FILES_ROW, ORDER};
use twin::random::Random;
use twin::tries::caller::{self, Caller};
use twin::tries::useful;

const LISTS: u64 = 3_000;
const CALLS: usize = 300;

/// What the lists met, so that the test is seen not to be empty.
#[derive(Debug, Default)]
struct Met {
    /// Lists in which at least two sessions were opened.
    changes: u64,
    acknowledged: u64,
    locked: u64,
    /// Requests granted to a client whose mark is the very ID that wrote one of their locks last.
    at_writer: u64,
    /// Those where an earlier session issued that ID: its locks are not in the table, which was filled
    /// with the starting mark.
    at_start: u64,
    cuts: u64,
    /// By row of the list.
    refusals: BTreeMap<usize, u64>,
    /// Segments written, those with a record among them, and members dropped by an export.
    exports: u64,
    exported: u64,
    dropped: u64,
    /// Sessions that were declined with 23 while they were the newest.
    due: u64,
    /// Those after which another was opened, and where that one acknowledged more.
    forced: u64,
    resumed: u64,
    /// Refusal 16 of a send.
    unheld: u64,
    in_flight: InFlight,
    clients: Clients,
    zeros: Zeros,
}

impl Met {
    fn count_call(&mut self, call: &Call, reply: &Reply, changed: bool) {
        self.unheld +=
            u64::from(matches!(call, Call::Send { .. }) && *reply == Err(Refusal::NothingToDo));
        match (call, reply) {
            (_, Err(refusal)) => *self.refusals.entry(refusal.row()).or_default() += 1,
            (Call::Issue { request, .. }, _) => self.locked += u64::from(!request.locks.is_empty()),
            _ => self.cuts += u64::from(changed && caller::is_cut(call)),
        }
    }

    fn refused(&self, number: u64) -> u64 {
        self.refusals[&first_row(number)]
    }

    /// Before the history has the call.
    fn count_writer(&mut self, history: &History, before: &Cluster, call: &Call, reply: &Reply) {
        let (Call::Issue { server, request }, Ok(_)) = (call, reply) else {
            return;
        };
        let mark = request.client_mark;
        let writes = |&lock: &u64| history.last_writer(*server, lock) == Some(mark);
        if request.locks.iter().any(writes) {
            self.at_writer += 1;
            self.at_start += u64::from(mark <= before.records.servers[*server as usize].starting);
        }
    }

    fn count_list(&mut self, history: &History, due: &BTreeSet<u64>) {
        let opened = history.opened();
        self.changes += u64::from(opened.len() >= 2);
        self.acknowledged += opened.values().map(|session| session.acknowledged).sum::<u64>();
        self.due += due.len() as u64;
        let next = |session: &u64| opened.range(session + 1..).next();
        for (_, session) in due.iter().filter_map(next) {
            self.forced += 1;
            self.resumed += u64::from(session.acknowledged > session.starting);
        }
    }
}

/// K is often far below N, and now and then N, so that eight may be in flight.
fn draw_shape(random: &mut Random) -> Shape {
    let replicas = *random.pick(&[1, 3, 3, 3, 5, 7]);
    let most_places = *random.pick(&[3, 16, 40]);
    let places = 1 + random.below(most_places);
    let few = 1 + random.below(places.min(3));
    let any = 1 + random.below(places);
    Shape { replicas, places, interval: *random.pick(&[few, few, any, places, places]) }
}

/// The session whose issue was declined with 23, if it is the newest that was opened.
fn due_session(history: &History, cluster: &Cluster, call: &Call, reply: &Reply) -> Option<u64> {
    let (Call::Issue { server, .. }, Err(Refusal::CheckpointDue)) = (call, reply) else {
        return None;
    };
    let session = cluster.records.servers[*server as usize].session;
    let newest = history.opened().keys().next_back();
    (newest == Some(&session)).then_some(session)
}

/// A session issues the IDs above its starting mark, and K of them at most.
fn assert_within_interval(history: &History, interval: u64) {
    for (session, id) in history.issued() {
        let starting = history.opened()[&session].starting;
        assert!((starting + 1..=starting + interval).contains(&id), "session {session}, ID {id}");
    }
}

/// Makes a call.
type Apply = fn(&mut Cluster, &mut Call) -> Reply;

/// A list of calls from a fresh cluster, and what it has brought about so far.
struct List {
    shape: Shape,
    cluster: Cluster,
    history: History,
    /// Sessions that were declined with 23 while they were the newest.
    due: BTreeSet<u64>,
    caller: Caller,
    /// Calls of one list in two are drawn; those of the others bring the cluster on.
    drawn: bool,
}

impl List {
    fn new(random: &mut Random) -> List {
        let shape = draw_shape(random);
        let cluster = Cluster::fresh(shape).expect("an allowed shape");
        let history = History::new(&cluster);
        let caller = Caller::new(random);
        let drawn = random.chance(2);
        List { shape, cluster, history, due: BTreeSet::new(), caller, drawn }
    }

    fn next_call(&self, random: &mut Random) -> Call {
        if self.drawn {
            self.caller.next_call(random, &self.cluster)
        } else {
            useful::next_call(random, &self.caller, &self.cluster)
        }
    }

    /// Makes a call, which may be declined.
    fn call(&mut self, call: Call, apply: Apply, met: &mut Met) {
        let _ = self.reply_to(call, apply, met);
    }

    fn reply_to(&mut self, mut call: Call, apply: Apply, met: &mut Met) -> Reply {
        let List { cluster, history, due, .. } = self;
        let (before, lent) = (cluster.clone(), call.clone());
        let reply = apply(cluster, &mut call);
        if reply.is_err() {
            assert!(*cluster == before, "a declined call changes nothing: {call:?}");
        }
        exports::check(history, &before, [&lent, &call], &reply, met);
        met.count_call(&call, &reply, cluster.media != before.media);
        met.count_writer(history, &before, &call, &reply);
        due.extend(due_session(history, &before, &call, &reply));
        met.in_flight.count_call(&before, &call, &reply);
        met.clients.check(&before, &call, &reply, cluster);
        met.zeros.count_call(&before, &call, &reply);
        let newest = history.opened().keys().next_back().copied();
        history.add(&before, &call, &reply, cluster);
        met.in_flight.count_open(history, newest);
        reply
    }
}

/// A whole list.
fn run_list(random: &mut Random, apply: Apply, met: &mut Met) -> (Shape, History) {
    let mut list = List::new(random);
    for _ in 0..CALLS {
        let call = list.next_call(random);
        list.call(call, apply, met);
    }
    met.count_list(&list.history, &list.due);
    (list.shape, list.history)
}

#[test]
fn later_sessions_keep_what_earlier_ones_acknowledged() {
    let mut met = Met::default();
    for seed in 0..LISTS {
        let (shape, history) = run_list(&mut Random::new(seed), Cluster::apply, &mut met);
        history.check();
        assert_within_interval(&history, shape.interval);
    }
    println!("{met:?}");
    assert!(met.changes > LISTS / 2);
    assert!(met.acknowledged > 5 * LISTS);
    assert!(met.locked > 2 * LISTS);
    assert!(met.at_writer > LISTS / 2);
    assert!(met.at_start > LISTS / 4);
    assert!(met.refused(15) > LISTS);
    assert!(met.cuts > LISTS);
    assert!(met.refused(23) > LISTS);
    assert!(met.forced > LISTS / 3);
    assert!(met.resumed > LISTS / 6);
    assert!(met.exports > 3 * LISTS);
    assert!(met.exported > 2 * LISTS);
    assert!(met.dropped > LISTS / 4);
    assert!(met.refusals[&FILES_ROW] > LISTS / 4);
    assert!(met.refused(28) > LISTS / 4);
    assert!(met.refused(13) > LISTS / 4);
    assert!(met.unheld > LISTS);
    met.in_flight.assert_met(LISTS);
    met.clients.assert_met(LISTS);
    // These cannot be met from a fresh cluster within reach, 1 only for export's files, by no call (29), or only by
    // restores (30).
    let unmet = (0..ORDER.len()).filter(|row| !met.refusals.contains_key(row));
    assert_eq!(unmet.map(|row| ORDER[row]).collect::<Vec<_>>(), [1, 2, 29, 18, 20, 21, 30]);
}
