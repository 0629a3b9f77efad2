//! "it opens" (document 02, No. 9): on any state that meets the conditions, handed-in ones too; and without one
//! of them it need not.

use twin::cluster::{Answer, Closing, Cluster, Phase, Refusal, Reply, Standing};
use twin::fate::Fate;
use twin::medium::{current, is_place, mark, place, place_at, put, SLOTS_BYTES, WIPED};
use twin::random::Random;
use twin::tries::headers::{draw_header, with_headers};
use twin::tries::recoveries::Recovery;
use twin::tries::recovery_rows::{cluster, outcome};
use twin::tries::scene::{record_bytes, set_place, set_promise};
use twin::tries::states::Draw;
use twin::votes::quorum;

/// Wipes or spoils what is valid above the replica's mark.
fn clear_above(random: &mut Random, cluster: &mut Cluster, replica: usize) {
    let places = cluster.shape.places;
    let medium = cluster.medium_mut(replica);
    for number in mark(medium) + 1..=places {
        let other = record_bytes(number + 1);
        let bytes = *random.pick(&[WIPED, other, [0xA5; 72]]);
        if is_place(number, &place(medium, number)) || random.chance(3) {
            put(medium, place_at(number), &bytes);
        }
    }
}

/// A drawn state, whose records all differ, and a list, such that nothing declines the driver, no number is at
/// its top and no valid place lies above a mark of the list. Slots and promises are as they are drawn.
fn draw(random: &mut Random) -> (Cluster, Recovery) {
    loop {
        let places = 1 + random.below(6);
        let mut draw = Draw { random, places };
        let mut cluster = draw.cluster();
        let mut recovery = draw.recovery(&cluster);
        recovery = Recovery::new(recovery.server % 4, &recovery.listed, &[]);
        cluster.records.servers[recovery.server as usize].phase = Phase::Idle;
        let any = random.below(9);
        let session = &mut cluster.records.register.session;
        *session = *random.pick(&[*session, 0, any, u64::MAX - 1]);
        let top = *session == u64::MAX;
        if top || recovery.apply(&mut cluster.clone()).1 == 0 {
            continue;
        }
        for &replica in &recovery.listed {
            clear_above(random, &mut cluster, replica as usize);
        }
        return (with_headers(&cluster, |_| draw_header(random, 5)), recovery);
    }
}

/// A replica of the list with a valid slot and a promise not above the new session.
struct Able {
    replica: u64,
    /// The mark that prepare leaves it.
    kept: u64,
    restored: bool,
}

fn able(cluster: &Cluster, recovery: &Recovery) -> Vec<Able> {
    let register = &cluster.records.register;
    let able = recovery.listed.iter().filter_map(|&replica| {
        let medium = cluster.medium(replica as usize);
        let (_, slot) = current(medium)?;
        let (kept, restored) = match register.entries[replica as usize].closing {
            Closing::Unresolved => (mark(medium), false),
            Closing::Mark(closing) => (closing.min(mark(medium)), false),
            Closing::Restored => (slot.low.min(mark(medium)), true),
        };
        (slot.promise <= register.session + 1).then_some(Able { replica, kept, restored })
    });
    able.collect()
}

/// Those that are not restored: the driver "takes its highest mark from the others, copies from none such".
fn others(able: &[Able]) -> impl Iterator<Item = &Able> {
    able.iter().filter(|it| !it.restored)
}

/// The session is open at the highest mark with all that are able, which hold what the first of them at that
/// mark held. A restored one above that mark is left there: it is no member.
fn check_opened(before: &Cluster, able: &[Able], recovery: &Recovery, after: &Cluster) {
    let highest = others(able).map(|it| it.kept).max().expect("a quorum");
    let source = others(able).find(|it| it.kept == highest).expect("the highest");
    let record = &after.records.servers[recovery.server as usize];
    assert_eq!((record.phase, record.starting), (Phase::Open, highest));
    assert_eq!(record.session, before.records.register.session + 1);
    for replica in 0..before.shape.replicas {
        let is_able = able.iter().any(|it| it.replica == replica && it.kept <= highest);
        assert_eq!(record.standings[replica as usize] == Standing::In, is_able);
    }
    for &Able { replica, kept, .. } in able {
        let medium = after.medium(replica as usize);
        assert_eq!(mark(medium), highest.max(kept));
        for number in 1..=highest {
            let from = if number <= kept { replica } else { source.replica };
            let bytes = place(before.medium(from as usize), number);
            assert!(place(medium, number) == bytes, "replica {replica}, place {number}");
        }
    }
}

/// "Its count then is 2 + listed replicas + the sum over known ones of what each lacked of the highest mark
/// after prepare." With fewer than Q that are able it ends with 8; restored ones are none of the Q: it "is sure to
/// open only with Q others".
#[test]
fn it_arrives() {
    let mut random = Random::new(99);
    let (mut opened, mut copied, mut few) = (0, 0, 0);
    for _ in 0..20_000 {
        let (before, mut recovery) = draw(&mut random);
        recovery.fates = vec![Fate::Answered; random.below(9) as usize];
        recovery.length = 72 * recovery.fates.len();
        let able = able(&before, &recovery);
        let mut after = before.clone();
        let (reply, count) = recovery.apply(&mut after);
        let highest = others(&able).map(|it| it.kept).max().unwrap_or(0);
        let lacked: u64 = able.iter().map(|it| highest.saturating_sub(it.kept)).sum();
        assert_eq!(count, 2 + recovery.listed.len() as u64 + lacked, "{recovery:?}");
        if others(&able).count() < quorum(before.shape.replicas as usize) {
            assert_eq!(reply, Err(Refusal::Undecided));
            few += 1;
            continue;
        }
        assert_eq!(reply, Ok(Answer::Number(highest)), "{recovery:?}");
        check_opened(&before, &able, &recovery, &after);
        (opened, copied) = (opened + 1, copied + lacked);
    }
    println!("{opened} {copied} {few}");
    assert!(opened > 5_000 && copied > 10_000 && few > 1_000, "{opened} {copied} {few}");
}

/// The state that the rows start from, changed; all are listed and everything is answered.
fn changed(change: impl Fn(&mut Cluster)) -> (Reply, u64) {
    let mut cluster = cluster();
    change(&mut cluster);
    cluster.recover(1, &[2, 0, 1], &[], &[])
}

/// Each condition for itself: without it the recovery ends with 21, 8 or 9.
#[test]
fn without_one_of_the_conditions_it_need_not() {
    let top = changed(|cluster| cluster.records.register.session = u64::MAX);
    assert_eq!(outcome(top), "no 21, 1");
    // Replica 0 gets ID 3 and goes on to 5, and replica 2 gets ID 2 and goes on to 4.
    let joined = changed(|cluster| {
        [4, 5].into_iter().for_each(|id| set_place(cluster.medium_mut(0), id));
        [3, 4].into_iter().for_each(|id| set_place(cluster.medium_mut(2), id));
    });
    assert_eq!(outcome(joined), "no 9, 7");
    let slots = changed(|cluster| {
        [0, 2].into_iter().for_each(|it| cluster.medium_mut(it)[..SLOTS_BYTES].fill(0xFF))
    });
    assert_eq!(outcome(slots), "no 8, 5");
    let promises = changed(|cluster| {
        [1, 2].into_iter().for_each(|replica| set_promise(cluster.medium_mut(replica), 3))
    });
    assert_eq!(outcome(promises), "no 8, 5");
    // Just the new session is not above it; and one replica may be unable.
    let one = changed(|cluster| {
        [0, 1].into_iter().for_each(|replica| set_promise(cluster.medium_mut(replica), 2));
        cluster.medium_mut(2)[..SLOTS_BYTES].fill(0xFF);
    });
    assert_eq!(outcome(one), "ok 3, 6");
}

/// One replica above the highest mark is left there and is no member: the other two are enough.
#[test]
fn a_mark_that_jumps_above_the_highest_is_done() {
    let mut cluster = cluster();
    set_place(cluster.medium_mut(0), 4);
    let (reply, count) = cluster.recover(1, &[0, 2, 1], &[], &[]);
    assert_eq!(outcome((reply, count)), "ok 3, 8");
    let record = &cluster.records.servers[1];
    assert_eq!(record.standings[..3], [Standing::Out, Standing::In, Standing::In]);
    assert_eq!(mark(cluster.medium(0)), 4);
    assert_eq!(cluster.records.register.entries[0].closing, Closing::Mark(3));
}
