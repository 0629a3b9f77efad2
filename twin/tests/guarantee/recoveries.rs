//! Recoveries (document 02, No. 9): "A cut or a loss during it must leave a cluster that later sessions can still
//! trust: a list of demand 3 may hold it, as the calls it makes." The three conclusions hold over such lists, and
//! drivers that are wrong in one thing break them.

use crate::history::History;
use crate::{assert_within_interval, List, Met, CALLS};
use twin::cluster::{
    Answer, Call, Cluster, Message, Phase, Reply, Request, Server, Shape, Standing,
};
use twin::fate::Fate;
use twin::random::Random;
use twin::tries::recoveries::{draw_recovery, Recovery};
use twin::tries::recovery_rows::outcome;

const LISTS: u64 = 1_500;

/// What the lists met.
#[derive(Debug, Default)]
pub struct Recoveries {
    declined: u64,
    opened: u64,
    /// Those that ended otherwise, and those that left a write cut or an answer unheard on the way.
    ended: u64,
    troubled: u64,
    /// Sessions that were opened with records copied that the one before had not acknowledged.
    lifted: u64,
    /// Sessions opened while the server of one before was still open, and by hand after a recovery.
    overtaken: u64,
    by_hand: u64,
}

impl Recoveries {
    pub fn assert_met(&self, lists: u64) {
        assert!(self.declined > lists / 20, "{self:?}");
        assert!(self.opened > 2 * lists && self.ended > lists / 2, "{self:?}");
        assert!(self.troubled > lists && self.lifted > lists / 20, "{self:?}");
        assert!(self.overtaken > lists / 2 && self.by_hand > lists, "{self:?}");
    }
}

/// The highest ID that any session has acknowledged.
fn acknowledged(history: &History) -> u64 {
    history.opened().values().map(|session| session.acknowledged).max().unwrap_or(0)
}

/// Makes a recovery in the list, as its calls: each is added to the history. The driver leaves the same.
fn recover(list: &mut List, recovery: &Recovery, met: &mut Met, recoveries: &mut Recoveries) {
    let mut after = list.cluster.clone();
    let (reply, count) = recovery.apply(&mut after);
    if count == 0 {
        assert!(after == list.cluster, "a declined recovery changes nothing");
        recoveries.declined += 1;
        return;
    }
    let known = acknowledged(&list.history);
    let busy = list.cluster.records.servers.iter().any(|it| it.phase == Phase::Open);
    let mut troubled = false;
    let register = list.cluster.records.register;
    let end = recovery.by_hand(&register, |call| {
        let reply = list.reply_to(call, Cluster::apply, met);
        troubled |= matches!(reply, Ok(Answer::Silent));
        reply
    });
    assert!(end == (reply, count) && list.cluster == after, "{recovery:?}");
    recoveries.troubled += u64::from(troubled);
    match reply {
        Ok(Answer::Number(mark)) => {
            recoveries.opened += 1;
            let prepared = 2 + recovery.listed.len() as u64;
            recoveries.lifted += u64::from(mark > known && count > prepared);
            recoveries.overtaken += u64::from(busy);
        }
        _ => recoveries.ended += 1,
    }
}

/// Half of the takes are recoveries'.
pub fn next(list: &mut List, random: &mut Random, met: &mut Met, recoveries: &mut Recoveries) {
    match list.next_call(random) {
        Call::Take { server, .. } if random.chance(2) => {
            let recovery = draw_recovery(random, &list.caller, &list.cluster, server);
            recover(list, &recovery, met, recoveries);
        }
        call => {
            let opens = matches!(call, Call::Open { .. });
            let reply = list.reply_to(call, Cluster::apply, met);
            let opened = opens && matches!(reply, Ok(Answer::Number(_)));
            recoveries.by_hand += u64::from(opened && recoveries.opened > 0);
        }
    }
}

#[test]
fn lists_with_recoveries_keep_the_guarantee() {
    let (mut met, mut recoveries) = (Met::default(), Recoveries::default());
    for seed in 0..LISTS {
        let random = &mut Random::new(5_000_000 + seed);
        let mut list = List::new(random);
        for _ in 0..CALLS {
            next(&mut list, random, &mut met, &mut recoveries);
        }
        list.history.check();
        assert_within_interval(&list.history, list.shape.interval);
    }
    println!("{recoveries:?}");
    recoveries.assert_met(LISTS);
}

/// A driver's way to make a call.
type Make = fn(&mut Cluster, Call) -> Reply;

/// Three replicas and four places.
struct Short {
    cluster: Cluster,
    history: History,
}

impl Short {
    /// Session 1 has all three as members, and replicas 0 and 1 hold one record, which is acknowledged.
    fn new() -> Short {
        let cluster = Cluster::fresh(Shape::whole(3, 4)).expect("an allowed shape");
        let history = History::new(&cluster);
        let mut list = Short { cluster, history };
        let ours: Make = |cluster, mut call| cluster.apply(&mut call);
        assert_eq!(list.recover(&Recovery::new(0, &[0, 1, 2], &[]), ours), "ok 0, 5");
        let request = Request { data: vec![1], ..Request::default() };
        list.call(Call::Issue { server: 0, request }, ours).expect("an open server");
        for replica in 0..2 {
            let message = Message::new(Fate::Answered);
            list.call(Call::Send { server: 0, replica, message }, ours).expect("a member");
        }
        list
    }

    fn call(&mut self, call: Call, make: Make) -> Reply {
        let before = self.cluster.clone();
        let reply = make(&mut self.cluster, call.clone());
        self.history.add(&before, &call, &reply, &self.cluster);
        reply
    }

    /// The driver's calls, made in this way.
    fn recover(&mut self, recovery: &Recovery, make: Make) -> String {
        let register = self.cluster.records.register;
        outcome(recovery.by_hand(&register, |call| self.call(call, make)))
    }
}

/// Takes silence for an answer: a replica whose copy was lost counts as one that has the record.
fn deaf(cluster: &mut Cluster, mut call: Call) -> Reply {
    let before = cluster.records;
    let reply = cluster.apply(&mut call);
    let Call::Copy { server, to, .. } = call else {
        return reply;
    };
    if reply != Ok(Answer::Silent) {
        return reply;
    }
    let mark = before.servers[server as usize].marks[to as usize] + 1;
    let record = &mut cluster.records.servers[server as usize];
    (record.standings[to as usize], record.marks[to as usize]) = (Standing::In, mark);
    Ok(Answer::Number(mark))
}

/// Goes on with the session that the register has when its take is lost.
fn resuming(cluster: &mut Cluster, mut call: Call) -> Reply {
    let reply = cluster.apply(&mut call);
    let Call::Take { server, fate: Fate::Lost } = call else {
        return reply;
    };
    let register = cluster.records.register;
    let (session, entries) = (register.session, register.entries);
    let phase = Phase::Opening;
    cluster.records.servers[server as usize] =
        Server { phase, session, entries, ..Server::default() };
    Ok(Answer::Number(session))
}

/// Copying the one record to replica 2 is lost.
fn copy_lost() -> Recovery {
    let answered = Fate::Answered;
    Recovery::new(1, &[1, 2], &[answered, answered, answered, Fate::Lost])
}

#[test]
#[should_panic(expected = "sessions 1 and 2: no bytes under ID 1")]
fn a_driver_that_takes_silence_for_an_answer_breaks_it() {
    let mut list = Short::new();
    assert_eq!(list.recover(&copy_lost(), deaf), "ok 1, 5");
    list.history.check();
}

#[test]
#[should_panic(expected = "opened twice")]
fn so_does_one_that_goes_on_without_a_session_of_its_own() {
    let mut list = Short::new();
    list.recover(&Recovery::new(1, &[0, 1], &[Fate::Lost]), resuming);
}

/// The same recoveries by our driver: the one ends without opening, and the other with its take. A later one
/// finds the record.
#[test]
fn ours_keeps_it() {
    let mut list = Short::new();
    let ours: Make = |cluster, mut call| cluster.apply(&mut call);
    assert_eq!(list.recover(&copy_lost(), ours), "no 8, 5");
    assert_eq!(list.recover(&Recovery::new(2, &[0, 1], &[Fate::Lost]), ours), "silent, 1");
    assert_eq!(list.recover(&Recovery::new(2, &[2, 0], &[]), ours), "ok 1, 5");
    list.history.check();
    assert_eq!(list.history.opened().keys().copied().collect::<Vec<_>>(), [1, 3]);
}
