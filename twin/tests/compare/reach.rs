//! What the scripts of the first 200 seeds reach.

use std::collections::{BTreeMap, BTreeSet};

use twin::cluster::{Cluster, Server, HELD, SERVERS};
use twin::compare::counts::{Counts, Kind};
use twin::compare::scripts::{script, Script};
use twin::compare::{malformed, pieces, unusual};
use twin::script::{run, Program};
use twin::tries::clients::needed_mark;

fn scripts() -> impl Iterator<Item = Script> {
    (1..=200).map(script)
}

/// The refusals that lines of the script program can meet. Not 2: no mark is above N in a fresh
/// cluster, and no call makes one so. Not 6: a line has no fate that cuts. Not 18: a slot write
/// that is not cut leaves a valid slot. Not 20: a replica that still promises this session was
/// written by it alone since its prepare, each answer sets the recorded mark to the stored one,
/// and after silence 7 comes first. Not 21: that takes 2^64 - 1 takes, and reassign has no form. Not
/// 23: the script's K is N, so that much is issued beyond a starting mark only if issued = N, and
/// 14 comes first.
const MET: [u64; 18] = [1, 3, 4, 5, 7, 8, 9, 10, 11, 12, 28, 13, 14, 15, 16, 17, 19, 22];

#[test]
fn every_kind_of_reply() {
    let mut counts = Counts::default();
    for script in scripts() {
        counts.add_script(&script.input);
        counts.add_replies(&run(&script.input));
    }
    let expected = MET.into_iter().map(Kind::No).chain([Kind::Ok, Kind::Silent, Kind::Bad]);
    let met: BTreeSet<Kind> = counts.replies.keys().copied().collect();
    assert_eq!(met, expected.collect());
    let fitting = counts.lines - counts.replies[&Kind::Bad];
    assert!(counts.replies[&Kind::Ok] * 3 > fitting, "few calls get somewhere: {counts}");
    assert!(counts.replies[&Kind::No(28)] > 100, "{counts}");
}

#[test]
fn every_kind_of_line() {
    let (mut spoilt, mut odd) = (BTreeSet::new(), BTreeSet::new());
    for mut script in scripts() {
        spoilt.append(&mut script.malformed);
        odd.append(&mut script.unusual);
    }
    assert_eq!(spoilt, malformed::ALL.iter().copied().collect::<BTreeSet<_>>());
    assert_eq!(odd, unusual::ALL.iter().copied().collect::<BTreeSet<_>>());
}

fn met(fits: impl Fn(&Script) -> bool) -> bool {
    scripts().any(|script| fits(&script))
}

fn newlines(script: &Script) -> usize {
    script.input.iter().filter(|&&byte| byte == b'\n').count()
}

fn is_long(script: &Script) -> bool {
    script.input.len() > pieces::LONGEST
}

#[test]
fn every_kind_of_input() {
    let input = |script: &Script| script.input.clone();
    assert!(met(|it| input(it).is_empty()), "nothing");
    assert!(met(|it| newlines(it) > 1 && newlines(it) == input(it).len()), "newlines alone");
    assert!(met(|it| !input(it).is_empty() && !input(it).ends_with(b"\n")), "no last newline");
    assert!(met(|it| input(it).starts_with(b"take\t")), "a call before any cluster");
    assert!(met(|it| input(it).len() > 1 << 20), "a line of a megabyte");
    assert!(met(|it| is_long(it) && newlines(it) > 1_000), "many lines");
    assert!(met(|it| is_long(it) && !it.by_piece), "more than a pipe holds");
    let full = |script: &Script| script.by_piece && script.pieces.contains(&pieces::LONGEST);
    assert!(met(full), "a read that fills its room");
}

/// Sessions that find records of earlier ones: an open line answered with a mark above 0.
#[test]
fn recoveries() {
    let mut found = 0;
    for script in scripts() {
        let output = run(&script.input);
        let replies = output.split(|&byte| byte == b'\n');
        let lines = script.input.split(|&byte| byte == b'\n');
        let recovers = |(line, reply): &(&[u8], &[u8])| {
            line.starts_with(b"open\t") && reply.starts_with(b"ok\t") && *reply != b"ok\t0"
        };
        found += lines.zip(replies).filter(recovers).count();
    }
    assert!(found > 200, "{found}");
}

/// How far the greatest estimate of an issue line's locks lies above the client's mark.
fn estimate_above_mark(cluster: &Cluster, line: &[u8]) -> Option<i128> {
    let text = std::str::from_utf8(line).ok()?;
    let fields: Vec<&str> = text.trim_end().split('\t').collect();
    let ["issue", server, mark, _, _, _, locks @ ..] = fields.as_slice() else { return None };
    let server: usize = server.parse().ok().filter(|&server| server < SERVERS)?;
    let locks: Vec<u64> = locks.iter().map(|lock| lock.parse().ok()).collect::<Option<_>>()?;
    let needed = needed_mark(cluster.table(server), &locks)?;
    Some(i128::from(needed) - i128::from(mark.parse::<u64>().ok()?))
}

/// Requests that locks alone decide about: just declined, just granted, and granted with one more.
#[test]
fn clients_around_the_mark_that_locks_ask_for() {
    let mut met = BTreeMap::new();
    for script in scripts() {
        let mut program = Program::default();
        for line in script.input.split_inclusive(|&byte| byte == b'\n') {
            let above = program.cluster().and_then(|cluster| estimate_above_mark(cluster, line));
            let mut reply = Vec::new();
            program.feed(line, &mut reply);
            let declined = reply == b"no\t15\n";
            if let Some(above) = above.filter(|_| declined || reply.starts_with(b"ok\t")) {
                assert_eq!(declined, above > 0);
                *met.entry(above).or_insert(0) += 1;
            }
        }
    }
    println!("{met:?}");
    assert!((-1..=1).all(|above| met[&above] > 300), "{met:?}");
}

/// What the scripts meet of records in flight (document 02, No. 5).
#[derive(Debug, Default)]
struct InFlight {
    /// Requests granted, by how many records are in flight before.
    issued: [u64; HELD],
    /// Sends that are answered, by the index of the record.
    sent: [u64; HELD],
    /// Sends and copies to a member that is more than eight behind: 16, and answered.
    outrun: u64,
    lifted: u64,
}

impl InFlight {
    fn count(&mut self, cluster: &Cluster, line: &str, reply: &[u8]) -> Option<()> {
        let fields: Vec<&str> = line.trim_end().split('\t').collect();
        let server = cluster.records.servers.get(fields.get(1)?.parse::<usize>().ok()?)?;
        let behind = |server: &Server, replica: &str| {
            let mark = server.marks.get(replica.parse::<usize>().ok()?)?;
            Some(server.issued.checked_sub(*mark)? as usize)
        };
        let ok = reply.starts_with(b"ok\t");
        match (fields.as_slice(), ok) {
            (["issue", ..], true) => self.issued[server.unacknowledged() as usize] += 1,
            (["send", _, replica, _], true) => self.sent[HELD - behind(server, replica)?] += 1,
            (["send", _, replica, _], false) => {
                self.outrun += u64::from(reply == b"no\t16\n" && behind(server, replica)? > HELD);
            }
            (["copy", _, _, to, _], true) => self.lifted += u64::from(behind(server, to)? > HELD),
            _ => {}
        }
        Some(())
    }
}

/// Each number in flight, each index of what is held, and members that are outrun.
#[test]
fn records_in_flight() {
    let mut met = InFlight::default();
    for script in scripts() {
        let mut program = Program::default();
        for line in script.input.split_inclusive(|&byte| byte == b'\n') {
            let before = program.cluster().cloned();
            let mut reply = Vec::new();
            program.feed(line, &mut reply);
            if let (Some(cluster), Ok(line)) = (before, std::str::from_utf8(line)) {
                met.count(&cluster, line, &reply);
            }
        }
    }
    println!("{met:?}");
    assert!(met.issued.iter().chain(&met.sent).all(|&count| count > 100), "{met:?}");
    assert!(met.outrun > 10 && met.lifted > 10, "{met:?}");
}

#[test]
fn pieces_make_up_the_input() {
    for script in scripts() {
        assert_eq!(script.pieces.iter().sum::<usize>(), script.input.len());
        assert!(script.pieces.iter().all(|piece| (1..=pieces::LONGEST).contains(piece)));
    }
}

#[test]
fn one_reply_a_line() {
    for script in scripts() {
        let lines = script.input.split_inclusive(|&byte| byte == b'\n').count();
        let output = run(&script.input);
        assert_eq!(output.iter().filter(|&&byte| byte == b'\n').count(), lines);
    }
}
