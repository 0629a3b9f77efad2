//! Media from a backup (document 02, No. 10): "Whoever booked before the restore must still find the booking, for
//! lists that include this call with such bytes". The three conclusions hold over lists with restores from any
//! earlier moment, recoveries among them; and clusters that are wrong in one thing break them.

use crate::history::History;
use crate::recoveries::{self, Recoveries};
use crate::{assert_within_interval, Apply, List, Met, CALLS};
use twin::cluster::{Answer, Call, Closing, Cluster, Refusal, Reply, Shape, SERVERS};
use twin::medium::{current, mark, place, put, Slot, SLOT_BYTES};
use twin::random::Random;
use twin::tries::recoveries::Recovery;
use twin::tries::restore_rows::{diverged, examples, play, Stage, EXAMPLE_2};
use twin::tries::restores::draw_restorable;
use twin::votes::quorum;

const LISTS: u64 = 1_200;

/// What the lists met.
#[derive(Debug, Default)]
struct Restores {
    made: u64,
    /// Those that took records away from the log, that brought others back, and from a fresh cluster's medium.
    shortened: u64,
    changed: u64,
    emptied: u64,
    /// Those after which the same bytes had stood more than once.
    repeated: u64,
    /// Prepares that cut a restored replica, those that had its promise already, and copies that it declined
    /// to be read for.
    truncated: u64,
    promised: u64,
    unread: u64,
    /// Sessions opened after a restore, with the replica clean again, and with it left restored.
    opened: u64,
    clean: u64,
    left: u64,
    /// Lists that went on to where a majority was restored.
    stuck: u64,
}

impl Restores {
    fn assert_met(&self, lists: u64) {
        assert!(self.made > 3 * lists && self.shortened > lists / 2, "{self:?}");
        assert!(self.changed > lists / 8 && self.emptied > lists / 8, "{self:?}");
        assert!(self.repeated > lists / 20, "{self:?}");
        assert!(self.truncated > lists / 8 && self.promised > lists / 100, "{self:?}");
        assert!(self.unread > lists / 60, "{self:?}");
        assert!(self.opened > lists && self.stuck > lists / 60, "{self:?}");
        assert!(self.clean > lists / 2 && self.left > lists / 10, "{self:?}");
    }

    /// Of a call that is no restore.
    fn count(&mut self, before: &Cluster, call: &Call, reply: &Reply, after: &Cluster) {
        let restored = |server: &u64, it: &u64| {
            before.records.servers[*server as usize].is_restored(*it as usize)
        };
        match (call, reply) {
            (Call::Prepare { server, replica, .. }, Ok(_)) if restored(server, replica) => {
                let session = before.records.servers[*server as usize].session;
                let [old, new] = [before, after].map(|it| it.medium(*replica as usize));
                let wiped = old[2 * SLOT_BYTES..] != new[2 * SLOT_BYTES..];
                let promised = current(old).is_some_and(|(_, slot)| slot.promise == session);
                self.truncated += u64::from(wiped);
                self.promised += u64::from(wiped && promised);
            }
            (Call::Copy { server, from, .. }, Err(Refusal::UnfitSource)) => {
                self.unread += u64::from(restored(server, from));
            }
            (Call::Open { .. }, Ok(Answer::Number(_))) => {
                let entries =
                    before.records.register.entries.iter().zip(after.records.register.entries);
                let restored = entries.filter(|(old, _)| old.closing == Closing::Restored);
                let [clean, left] = [Closing::Unresolved, Closing::Restored].map(|closing| {
                    restored.clone().filter(|(_, new)| new.closing == closing).count()
                });
                self.opened += u64::from(clean + left > 0);
                (self.clean, self.left) = (self.clean + clean as u64, self.left + left as u64);
            }
            _ => {}
        }
    }
}

/// How many replicas are restored by the register.
fn restored(cluster: &Cluster) -> usize {
    let entries = &cluster.records.register.entries[..cluster.shape.replicas as usize];
    entries.iter().filter(|entry| entry.closing == Closing::Restored).count()
}

/// Mostly such that a majority is left, with the bytes of any earlier moment; often a late one.
fn draw_restore(random: &mut Random, list: &List) -> Option<(u64, usize)> {
    let any = random.below(list.shape.replicas);
    let replica = match draw_restorable(random, &list.cluster) {
        _ if random.chance(40) => any,
        fit => fit?,
    };
    let moments = list.history.moments(replica).len() as u64;
    let late = moments.saturating_sub(1 + random.below(4));
    let moment = if random.chance(2) { late } else { random.below(moments) };
    Some((replica, moment as usize))
}

/// Restores the replica with its bytes of that moment.
fn restore(list: &mut List, replica: u64, moment: usize, restores: &mut Restores) {
    let moments = list.history.moments(replica);
    let backup = moments[moment].medium().to_vec();
    restores.made += 1;
    restores.emptied += u64::from(moment == 0);
    restores.repeated += u64::from(moments.iter().filter(|it| it.medium() == backup).count() > 1);
    let now = list.cluster.medium(replica as usize).to_vec();
    let [old, new] = [&now, &backup].map(|medium| mark(medium));
    restores.shortened += u64::from(new < old);
    let kept = (1..=new.min(old)).all(|id| place(&now, id) == place(&backup, id));
    restores.changed += u64::from(new > old || !kept);
    let before = list.cluster.clone();
    let reply = list.cluster.restore(replica, &backup);
    assert!(reply.is_ok(), "{reply:?}");
    list.history.restore(replica, moment, &list.cluster);
    assert_eq!(list.cluster.records.servers, before.records.servers);
}

/// A call, or a restore. After one, a server that is idle takes over sooner, since older ones can open no more.
fn next(list: &mut List, random: &mut Random, met: &mut Met, restores: &mut Restores) {
    if random.chance(60) {
        if let Some((replica, moment)) = draw_restore(random, list) {
            return restore(list, replica, moment, restores);
        }
    }
    let call = list.next_call(random);
    let before = list.cluster.clone();
    let reply = list.reply_to(call.clone(), Cluster::apply, met);
    restores.count(&before, &call, &reply, &list.cluster);
}

/// Why truncating to a low-water mark loses nothing: at any moment it is at most the log's mark, and 0 or where
/// an opened session started.
fn assert_low(list: &List) {
    let starts = |low: u64| list.history.opened().values().any(|it| it.starting == low);
    for replica in 0..list.shape.replicas as usize {
        let medium = list.cluster.medium(replica);
        let (_, slot) = current(medium).expect("a slot is left");
        assert!(slot.low <= mark(medium) && (slot.low == 0 || starts(slot.low)), "{slot:?}");
    }
}

#[test]
fn lists_with_restores_keep_the_guarantee() {
    let (mut met, mut restores) = (Met::default(), Restores::default());
    for seed in 0..LISTS {
        let random = &mut Random::new(10_000_000 + seed);
        let mut list = List::new(random);
        for _ in 0..CALLS {
            next(&mut list, random, &mut met, &mut restores);
            assert_low(&list);
        }
        list.history.check();
        assert_within_interval(&list.history, list.shape.interval);
        let replicas = list.shape.replicas as usize;
        restores.stuck += u64::from(restored(&list.cluster) >= quorum(replicas));
    }
    println!("{restores:?}");
    restores.assert_met(LISTS);
}

/// The bytes may be those of a moment between a driver's calls.
#[test]
fn so_do_lists_with_recoveries_and_restores() {
    let (mut met, mut restores) = (Met::default(), Restores::default());
    let mut driven = Recoveries::default();
    for seed in 0..LISTS / 2 {
        let random = &mut Random::new(20_000_000 + seed);
        let mut list = List::new(random);
        for _ in 0..CALLS {
            match draw_restore(random, &list).filter(|_| random.chance(60)) {
                Some((replica, moment)) => restore(&mut list, replica, moment, &mut restores),
                None => recoveries::next(&mut list, random, &mut met, &mut driven),
            }
        }
        list.history.check();
        assert_within_interval(&list.history, list.shape.interval);
    }
    println!("{restores:?} {driven:?}");
    assert!(restores.made > LISTS && restores.shortened > LISTS / 8, "{restores:?}");
    driven.assert_met(LISTS / 2);
}

/// A list of steps on a cluster that may be wrong.
struct Wrong {
    apply: Apply,
    cluster: Cluster,
    history: History,
    /// The moment that was kept.
    moment: usize,
}

impl Wrong {
    fn new(apply: Apply) -> Wrong {
        let cluster = Cluster::fresh(Shape::whole(3, 4)).expect("an allowed shape");
        let history = History::new(&cluster);
        Wrong { apply, cluster, history, moment: 0 }
    }
}

impl Stage for Wrong {
    fn fresh(&mut self, shape: Shape) {
        self.cluster = Cluster::fresh(shape).expect("an allowed shape");
        self.history = History::new(&self.cluster);
    }

    fn cluster(&self) -> &Cluster {
        &self.cluster
    }

    fn call(&mut self, call: &Call) -> Reply {
        let before = self.cluster.clone();
        let reply = (self.apply)(&mut self.cluster, &mut call.clone());
        match *call {
            Call::Restore { replica, .. } => {
                self.history.restore(replica, self.moment, &self.cluster)
            }
            _ => self.history.add(&before, call, &reply, &self.cluster),
        }
        reply
    }

    fn recover(&mut self, recovery: &Recovery) -> (Reply, u64) {
        let register = self.cluster.records.register;
        recovery.by_hand(&register, |call| self.call(&call))
    }

    fn keep(&mut self, replica: u64) {
        self.moment = self.history.moments(replica).len() - 1;
    }
}

/// What the steps break on such a cluster.
fn breach(apply: Apply, steps: &str) -> Option<String> {
    let mut list = Wrong::new(apply);
    play(&mut list, steps);
    list.history.breach()
}

/// Writes both slots of the replica's medium.
fn set_slots(cluster: &mut Cluster, replica: u64, slot: Slot) {
    let medium = cluster.medium_mut(replica as usize);
    [0, SLOT_BYTES].into_iter().for_each(|at| put(medium, at, &slot.encode()));
}

fn slot_of(cluster: &Cluster, replica: u64) -> Slot {
    current(cluster.medium(replica as usize)).expect("a slot").1
}

/// Makes the call; behind a restore that is not declined, `change` spoils what it left. It gets the cluster as
/// it was.
fn after_restore(
    cluster: &mut Cluster,
    call: &mut Call,
    change: fn(&mut Cluster, u64, &[u8], &Cluster),
) -> Reply {
    let before = cluster.clone();
    let reply = cluster.apply(call);
    if let (Call::Restore { replica, backup }, Ok(_)) = (call, &reply) {
        change(cluster, *replica, backup, &before);
    }
    reply
}

/// Makes the call as if each entry that was handed over as restored were what `entry` says, which gets the
/// replica's slot, for the calls that `such` names.
fn as_if(
    cluster: &mut Cluster,
    call: &mut Call,
    such: fn(&Call) -> bool,
    entry: fn(Slot, u64) -> Closing,
) -> Reply {
    if !such(call) {
        return cluster.apply(call);
    }
    let before = cluster.clone();
    for server in 0..SERVERS {
        for replica in 0..cluster.shape.replicas {
            let record = &mut cluster.records.servers[server];
            if record.is_restored(replica as usize) {
                let slot = slot_of(&before, replica);
                record.entries[replica as usize].closing = entry(slot, record.session);
            }
        }
    }
    let reply = cluster.apply(call);
    for (server, old) in cluster.records.servers.iter_mut().zip(before.records.servers) {
        server.entries = old.entries;
    }
    reply
}

fn is_prepare(call: &Call) -> bool {
    matches!(call, Call::Prepare { .. })
}

fn is_vote(call: &Call) -> bool {
    matches!(call, Call::Trim { .. } | Call::Open { .. })
}

/// The promise is the entry's session.
fn entrys_session(cluster: &mut Cluster, call: &mut Call) -> Reply {
    after_restore(cluster, call, |cluster, replica, _, _| {
        let promise = cluster.records.register.entries[replica as usize].session;
        let slot = slot_of(cluster, replica);
        set_slots(cluster, replica, Slot { promise, ..slot })
    })
}

/// The promise is that of the bytes.
fn own_promise(cluster: &mut Cluster, call: &mut Call) -> Reply {
    after_restore(cluster, call, |cluster, replica, backup, _| {
        let (_, slot) = current(backup).expect("a slot");
        set_slots(cluster, replica, slot)
    })
}

/// The low-water marks are those of the medium that is replaced.
fn replaced_marks(cluster: &mut Cluster, call: &mut Call) -> Reply {
    after_restore(cluster, call, |cluster, replica, _, before| {
        let promise = cluster.records.register.session;
        let slot = slot_of(before, replica);
        set_slots(cluster, replica, Slot { promise, ..slot })
    })
}

/// The register's session is not raised; the promise is what it is.
fn not_raised(cluster: &mut Cluster, call: &mut Call) -> Reply {
    after_restore(cluster, call, |cluster, replica, _, before| {
        let promise = before.records.register.session;
        cluster.records.register.session = promise;
        let slot = slot_of(cluster, replica);
        set_slots(cluster, replica, Slot { promise, ..slot })
    })
}

/// The entry is not marked.
fn not_marked(cluster: &mut Cluster, call: &mut Call) -> Reply {
    after_restore(cluster, call, |cluster, _, _, before| {
        cluster.records.register.entries = before.records.register.entries
    })
}

/// A prepare that finds its promise does not truncate.
fn skips_equal(cluster: &mut Cluster, call: &mut Call) -> Reply {
    as_if(cluster, call, is_prepare, |slot, session| match slot.promise == session {
        true => Closing::Unresolved,
        false => Closing::Restored,
    })
}

fn no_truncation(cluster: &mut Cluster, call: &mut Call) -> Reply {
    as_if(cluster, call, is_prepare, |_, _| Closing::Unresolved)
}

fn to_the_local_mark(cluster: &mut Cluster, call: &mut Call) -> Reply {
    as_if(cluster, call, is_prepare, |slot, _| Closing::Mark(slot.local))
}

fn votes(cluster: &mut Cluster, call: &mut Call) -> Reply {
    as_if(cluster, call, is_vote, |_, _| Closing::Unresolved)
}

/// At trim and open, restored replicas that are known, and so many others, count as if they held nothing.
fn with_nothing(cluster: &mut Cluster, call: &mut Call, least_others: usize) -> Reply {
    let (Call::Trim { server, .. } | Call::Open { server, .. }) = *call else {
        return cluster.apply(call);
    };
    let before = cluster.records.servers[server as usize];
    let others = (0..cluster.shape.replicas as usize).filter_map(|it| before.vote(it)).count();
    if others < least_others {
        return cluster.apply(call);
    }
    let record = &mut cluster.records.servers[server as usize];
    for replica in (0..cluster.shape.replicas as usize).filter(|&it| before.is_restored(it)) {
        record.entries[replica].closing = Closing::Unresolved;
        record.marks[replica] = 0;
    }
    let reply = cluster.apply(call);
    let record = &mut cluster.records.servers[server as usize];
    record.entries = before.entries;
    if reply.is_err() {
        record.marks = before.marks;
    }
    reply
}

fn holds_nothing(cluster: &mut Cluster, call: &mut Call) -> Reply {
    with_nothing(cluster, call, 0)
}

/// It is none of those that are absent, but its mark is not looked at: only if a majority of others is known.
fn known_without_mark(cluster: &mut Cluster, call: &mut Call) -> Reply {
    let majority = quorum(cluster.shape.replicas as usize);
    with_nothing(cluster, call, majority)
}

/// An open gives a restored entry that is not clean a closing mark.
fn closed_by_open(cluster: &mut Cluster, call: &mut Call) -> Reply {
    let reply = cluster.apply(call);
    if let (Call::Open { .. }, Ok(Answer::Number(mark))) = (call, &reply) {
        for entry in &mut cluster.records.register.entries {
            if entry.closing == Closing::Restored {
                entry.closing = Closing::Mark(*mark);
            }
        }
    }
    reply
}

/// Session 1 is open with replicas 0 and 1, which hold its one record; kept are replica 1's bytes of before.
const BOOKED: &str = "cluster 3 4
    take 0 0 → ok 1; prep 0 0 0 → ok 0; prep 0 1 0 → ok 0; keep 1; open 0 0 → ok 0
    issue 0 0 0 9 AA → ok 1; send 0 0 0 → ok 0; send 0 1 0 → ok 1";

const LOST: &str = "an acknowledged ID is lost";
const DIFFER: &str = "other bytes under ID 1";

/// On the steps behind `before`, where ours comes to the one reply, such a cluster comes to the other and breaks
/// a conclusion.
fn assert_breaks(apply: Apply, before: &str, wrong: &str, ours: &str, conclusion: &str) {
    let broken = breach(apply, &format!("{before}\n{wrong}")).expect("a breach");
    assert!(broken.ends_with(conclusion), "{broken}");
    assert_eq!(breach(Cluster::apply, &format!("{before}\n{ours}")), None);
}

/// Server 1 took before the restore, and is heard: by its entry the emptied replica votes.
#[test]
fn another_promise_breaks_it() {
    let wrong = "take 1 0 → ok 2; restore 1 → ok 3
        prep 1 1 0 → ok 0; prep 1 2 0 → ok 0; prep 1 0 0 → ok 1; trim 1 0 0 → ok 0; open 1 0 → no 22
        drive 2 [0,2] [] → ok 0, 4";
    let ours = EXAMPLE_2.split_once("take 1 0").expect("the take").1;
    for apply in [entrys_session, own_promise] {
        assert_breaks(apply, BOOKED, wrong, &format!("take 1 0{ours}"), LOST);
    }
}

/// Likewise, and its open is not declined.
#[test]
fn a_session_that_is_not_raised_breaks_it() {
    let wrong = "take 1 0 → ok 2; restore 1 → ok 3
        prep 1 1 0 → ok 0; prep 1 2 0 → ok 0; open 1 0 → ok 0";
    let ours = "take 1 0 → ok 2; restore 1 → ok 3
        prep 1 1 0 → no 19; prep 1 2 0 → ok 0; open 1 0 → no 8";
    assert_breaks(not_raised, BOOKED, wrong, ours, LOST);
}

/// The emptied replica and one that never had the record are a majority.
#[test]
fn a_vote_of_a_restored_replica_breaks_it() {
    let steps = "restore 1 → ok 2; take 1 0 → ok 3; prep 1 1 0 → ok 0; prep 1 2 0 → ok 0";
    let [wrong, ours] = ["ok 0", "no 8"].map(|end| format!("{steps}; open 1 0 → {end}"));
    let all: [Apply; 3] = [not_marked, votes, holds_nothing];
    all.into_iter().for_each(|apply| assert_breaks(apply, BOOKED, &wrong, &ours, LOST));
    // With a majority of others known, and one of them behind.
    let more = format!("{steps}; prep 1 0 0 → ok 1");
    let wrong = format!("{more}; open 1 0 → ok 0");
    let ours = format!("{more}; open 1 0 → no 8; copy 1 0 2 0 → ok 1; open 1 0 → ok 1");
    let all: [Apply; 2] = [holds_nothing, known_without_mark];
    all.into_iter().for_each(|apply| assert_breaks(apply, BOOKED, &wrong, &ours, LOST));
}

/// Replica 2 keeps ID 1 of session 1, and is clean beside those that hold ID 1 of session 2.
#[test]
fn other_low_water_marks_break_it() {
    let steps = |mark: u64, rest: &str| {
        diverged(&format!(
            "take 2 0 → ok 3; prep 2 0 0 → ok 1; prep 2 1 0 → ok 1; prep 2 2 0 → ok 0
        copy 2 0 2 0 → ok 1; open 2 0 → ok 1; note 2 2 0 → ok 1; restore 2 → ok 4; take 3 0 → ok 5
        prep 3 2 0 → ok {mark}; prep 3 0 0 → ok 1; prep 3 1 0 → ok 1; open 3 0 → ok 1; {rest}"
        ))
    };
    let [wrong, ours] = [steps(1, "entry 2 5 unresolved"), steps(0, "entry 2 3 restored")];
    let [(before, wrong), (_, ours)] =
        [&wrong, &ours].map(|steps| steps.split_once('\n').expect("the cluster"));
    assert_breaks(replaced_marks, before, wrong, ours, DIFFER);
}

/// So it does if it is not truncated, or not the second time, or to the mark that it had when it was noted.
#[test]
fn another_truncation_breaks_it() {
    let steps = |before: &str, first: &str, mark: u64| {
        format!(
            "{before}; restore 2 → ok 3; take 2 0 → ok 4; {first}
        prep 2 2 0 → ok {mark}; prep 2 0 0 → ok 1; prep 2 1 0 → ok 1; open 2 0 → ok 1"
        )
    };
    let cut = "prep 2 2 c 1 new → silent";
    let whole = "entry 2 1 restored";
    let behind = diverged("entry 2 1 0");
    let noted = "cluster 3 4
        drive 0 [0,1,2] [] → ok 0, 5; issue 0 0 0 9 AA → ok 1; send 0 2 0 → ok 0
        note 0 2 0 → ok 1; keep 2; kept 1,0,1 1,0,0
        drive 1 [0,1] [] → ok 0, 4; issue 1 0 0 9 BB → ok 1; send 1 0 0 → ok 0; send 1 1 0 → ok 1";
    let all: [(Apply, &str, &str); 3] = [
        (no_truncation, &behind, whole),
        (skips_equal, &behind, cut),
        (to_the_local_mark, noted, whole),
    ];
    for (apply, before, first) in all {
        let broken = breach(apply, &steps(before, first, 1)).expect("a breach");
        assert!(broken.ends_with(DIFFER), "{broken}");
        assert_eq!(breach(Cluster::apply, &steps(before, first, 0)), None);
    }
}

/// With a closing mark the next session takes it for one that was truncated to what it holds of its own.
#[test]
fn a_closing_mark_for_a_restored_replica_breaks_it() {
    let steps = |entry: &str, mark: u64| {
        diverged(&format!("restore 2 → ok 3; drive 2 [0,1] [] → ok 1, 4; entry 2 1 {entry}
        take 3 0 → ok 5; prep 3 2 0 → ok {mark}; prep 3 0 0 → ok 1; prep 3 1 0 → ok 1; open 3 0 → ok 1"))
    };
    let broken = breach(closed_by_open, &steps("1", 1)).expect("a breach");
    assert!(broken.ends_with(DIFFER), "{broken}");
    assert_eq!(breach(Cluster::apply, &steps("restored", 0)), None);
}

/// The worked examples keep it.
#[test]
fn ours_keeps_it() {
    for example in examples() {
        assert_eq!(breach(Cluster::apply, &example), None);
    }
}
