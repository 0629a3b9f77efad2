//! What a list of calls has brought about, in the words of demand 3, and the three conclusions.

use std::collections::{BTreeMap, BTreeSet, HashMap};

use twin::cluster::{Answer, Call, Cluster, Reply, Request, SERVERS};
use twin::fate::Fate;
use twin::medium::{is_place, place, PlaceBytes, Record};

/// An issue call that was answered: two with equal bytes are two transactions.
struct Transaction {
    bytes: PlaceBytes,
    locks: Vec<u64>,
    client_mark: u64,
}

/// What a log holds under an ID.
#[derive(Clone, Copy)]
struct Held {
    bytes: PlaceBytes,
    transaction: usize,
}

type Log = BTreeMap<u64, Held>;

/// A session that was opened.
pub struct Session {
    /// One log for each replica that its starting part may be read from.
    logs: Vec<Log>,
    pub starting: u64,
    pub acknowledged: u64,
}

/// A replica between two calls.
pub struct Moment {
    medium: Vec<u8>,
    standing: Vec<Option<usize>>,
}

impl Moment {
    pub fn medium(&self) -> &[u8] {
        &self.medium
    }
}

pub struct History {
    transactions: Vec<Transaction>,
    /// The transaction that a session's issue answered with this ID.
    issued: HashMap<(u64, u64), usize>,
    /// The transaction in each replica's place; index 0 is place 1.
    standing: Vec<Vec<Option<usize>>>,
    /// The replicas that each transaction ever stood on.
    reached: Vec<BTreeSet<u64>>,
    /// The session of each server's calls: what its last take answered.
    sessions: [u64; SERVERS],
    opened: BTreeMap<u64, Session>,
    /// What each replica was, from the fresh cluster on; moments at which it is as before are left out.
    moments: Vec<Vec<Moment>>,
}

impl History {
    /// Of a fresh cluster.
    pub fn new(cluster: &Cluster) -> History {
        let [replicas, places] =
            [cluster.shape.replicas, cluster.shape.places].map(|it| it as usize);
        let moment = |replica| Moment {
            medium: cluster.medium(replica).to_vec(),
            standing: vec![None; places],
        };
        History {
            transactions: Vec::new(),
            issued: HashMap::new(),
            standing: vec![vec![None; places]; replicas],
            reached: Vec::new(),
            sessions: [0; SERVERS],
            opened: BTreeMap::new(),
            moments: (0..replicas).map(|replica| vec![moment(replica)]).collect(),
        }
    }

    /// What the replica was at the moments so far.
    pub fn moments(&self, replica: u64) -> &[Moment] {
        &self.moments[replica as usize]
    }

    /// Adds a restore with the replica's bytes of this moment: "each place then holds again the transaction that
    /// it held at that earlier moment".
    pub fn restore(&mut self, replica: u64, moment: usize, after: &Cluster) {
        let replica = replica as usize;
        self.standing[replica] = self.moments[replica][moment].standing.clone();
        self.add_moments(after);
    }

    fn add_moments(&mut self, cluster: &Cluster) {
        for (replica, moments) in self.moments.iter_mut().enumerate() {
            let (medium, standing) = (cluster.medium(replica), &self.standing[replica]);
            let same = |it: &Moment| it.medium == medium && it.standing == *standing;
            if !moments.last().is_some_and(same) {
                moments.push(Moment { medium: medium.to_vec(), standing: standing.clone() });
            }
        }
    }

    pub fn opened(&self) -> &BTreeMap<u64, Session> {
        &self.opened
    }

    /// What was issued: the session and the ID.
    pub fn issued(&self) -> impl Iterator<Item = (u64, u64)> + '_ {
        self.issued.keys().copied()
    }

    /// Adds one call; a declined one leaves no trace.
    pub fn add(&mut self, before: &Cluster, call: &Call, reply: &Reply, after: &Cluster) {
        let Ok(answer) = reply else {
            return;
        };
        match (call, answer) {
            (Call::Take { server, .. }, Answer::Number(session)) => {
                self.sessions[*server as usize] = *session;
            }
            (Call::Open { server, .. }, answer) => self.open(*server, answer, before, after),
            (Call::Issue { server, request }, Answer::Number(id)) => {
                self.issue(*server, request, *id, after);
            }
            (Call::Send { server, replica, .. }, answer) => {
                let number = before.records.servers[*server as usize].marks[*replica as usize] + 1;
                let sent = self.issued.get(&(self.session(*server), number)).copied();
                self.stand(*replica, number, sent, before, after);
                self.acknowledge(*server, answer);
            }
            (Call::Copy { server, from, to, .. }, answer) => {
                let number = before.records.servers[*server as usize].marks[*to as usize] + 1;
                let copied = self.standing[*from as usize][number as usize - 1];
                self.stand(*to, number, copied, before, after);
                self.acknowledge(*server, answer);
            }
            _ => {}
        }
        self.forget_invalid(after);
        self.add_moments(after);
    }

    fn session(&self, server: u64) -> u64 {
        self.sessions[server as usize]
    }

    /// A session is opened when an open call of it changes the register, even if the answer is
    /// lost.
    fn open(&mut self, server: u64, answer: &Answer, before: &Cluster, after: &Cluster) {
        if before.records.register == after.records.register {
            return;
        }
        let session = self.session(server);
        let answered = match answer {
            Answer::Silent => before.clone().open(server, Fate::Answered),
            heard => Ok(*heard),
        };
        let Ok(Answer::Number(starting)) = answered else {
            panic!("an open that changes the register is answered with a mark");
        };
        let entries = after.records.register.entries.iter().enumerate();
        let set = entries.filter(|(_, entry)| entry.session == session);
        let logs = set.map(|(replica, _)| self.standing_log(replica, starting, after)).collect();
        let opening = Session { logs, starting, acknowledged: starting };
        assert!(self.opened.insert(session, opening).is_none(), "opened twice");
    }

    /// What stands on a replica up to the mark.
    fn standing_log(&self, replica: usize, mark: u64, cluster: &Cluster) -> Log {
        let held = (1..=mark).filter_map(|number| {
            let transaction = self.standing[replica][number as usize - 1]?;
            Some((number, Held { bytes: place(cluster.medium(replica), number), transaction }))
        });
        held.collect()
    }

    fn issue(&mut self, server: u64, request: &Request, id: u64, after: &Cluster) {
        let bytes = record_bytes(request, id);
        let [.., newest] = after.records.servers[server as usize].held;
        assert!(newest == bytes, "ID {id} is not held as it was issued");
        let transaction = self.transactions.len();
        self.transactions.push(Transaction {
            bytes,
            locks: request.locks.clone(),
            client_mark: request.client_mark,
        });
        self.reached.push(BTreeSet::new());
        let session = self.session(server);
        self.issued.insert((session, id), transaction);
        for log in &mut self.opened.get_mut(&session).expect("issued by an open server").logs {
            log.insert(id, Held { bytes, transaction });
        }
    }

    /// A send or copy that makes the place valid puts the transaction there.
    fn stand(
        &mut self,
        replica: u64,
        number: u64,
        transaction: Option<usize>,
        before: &Cluster,
        after: &Cluster,
    ) {
        let index = replica as usize;
        let valid = |cluster: &Cluster| is_place(number, &place(cluster.medium(index), number));
        if !valid(before) && valid(after) {
            let made = transaction.expect("a place is made valid by a transaction");
            self.standing[index][number as usize - 1] = transaction;
            self.reached[made].insert(replica);
        }
    }

    /// What sends, and copies once opened, answer; before that a copy answers another mark.
    fn acknowledge(&mut self, server: u64, answer: &Answer) {
        let session = self.session(server);
        if let (Answer::Number(mark), Some(opened)) = (answer, self.opened.get_mut(&session)) {
            opened.acknowledged = opened.acknowledged.max(*mark);
        }
    }

    /// In a place that is no longer valid nothing stands.
    pub fn forget_invalid(&mut self, cluster: &Cluster) {
        for (replica, places) in self.standing.iter_mut().enumerate() {
            for (number, transaction) in (1..).zip(places) {
                if !is_place(number, &place(cluster.medium(replica), number)) {
                    *transaction = None;
                }
            }
        }
    }

    /// The three conclusions.
    pub fn check(&self) {
        if let Some(breach) = self.breach() {
            panic!("{breach}");
        }
    }

    /// How one of the three conclusions is broken, if any is.
    pub fn breach(&self) -> Option<String> {
        for (later_number, later) in &self.opened {
            for (earlier_number, earlier) in self.opened.range(..later_number) {
                let breach = match earlier.acknowledged > later.starting {
                    true => Some("an acknowledged ID is lost".to_string()),
                    false => self.differing(earlier, later),
                };
                if let Some(breach) = breach {
                    return Some(format!("sessions {earlier_number} and {later_number}: {breach}"));
                }
            }
        }
        let [earlier, later] = self.unaware()?;
        Some(format!("IDs {earlier} and {later} share a lock"))
    }

    /// Both hold bytes, and the same bytes, under each ID that both acknowledge.
    fn differing(&self, earlier: &Session, later: &Session) -> Option<String> {
        for id in 1..=earlier.acknowledged.min(later.acknowledged) {
            for (first, second) in pairs(&earlier.logs, &later.logs) {
                let (Some(first), Some(second)) = (first.get(&id), second.get(&id)) else {
                    return Some(format!("no bytes under ID {id}"));
                };
                if first.bytes != second.bytes {
                    return Some(format!("other bytes under ID {id}"));
                }
                if first.bytes != self.transactions[first.transaction].bytes {
                    return Some(format!("not the bytes issued under ID {id}"));
                }
            }
        }
        None
    }

    /// Two IDs of an opened session's log that break the third conclusion, if there are any.
    pub fn unaware(&self) -> Option<[u64; 2]> {
        let logs = self.opened.values().flat_map(|session| &session.logs);
        logs.into_iter().find_map(|log| self.unaware_in(log))
    }

    /// No transaction shares a lock with one above its client's mark and below its own ID; otherwise
    /// the two.
    fn unaware_in(&self, log: &Log) -> Option<[u64; 2]> {
        log.iter().find_map(|(&id, held)| {
            let transaction = &self.transactions[held.transaction];
            let unread =
                log.range(transaction.client_mark + 1..).take_while(|(&other, _)| other < id);
            let shares = |held: &Held| {
                let other = &self.transactions[held.transaction];
                transaction.locks.iter().any(|lock| other.locks.contains(lock))
            };
            unread.into_iter().find(|(_, held)| shares(held)).map(|(&other, _)| [other, id])
        })
    }

    /// The bytes of the log of the server's session that it has acknowledged.
    pub fn acknowledged_bytes(&self, server: u64) -> Vec<PlaceBytes> {
        let session = &self.opened[&self.session(server)];
        let log = session.logs.first().expect("a replica to read");
        log.range(..=session.acknowledged).map(|(_, held)| held.bytes).collect()
    }

    /// What the session has issued and not acknowledged, by ID: the replicas that each reached.
    pub fn in_flight(&self, session: u64) -> BTreeMap<u64, &BTreeSet<u64>> {
        let acknowledged = self.opened[&session].acknowledged;
        let issued =
            self.issued.iter().filter(|((by, id), _)| *by == session && *id > acknowledged);
        issued.map(|((_, id), &transaction)| (*id, &self.reached[transaction])).collect()
    }

    /// The last ID of the log of the server's session that names the lock.
    pub fn last_writer(&self, server: u64, lock: u64) -> Option<u64> {
        let log = self.opened.get(&self.session(server))?.logs.first()?;
        let names = |held: &Held| self.transactions[held.transaction].locks.contains(&lock);
        log.iter().rfind(|(_, held)| names(held)).map(|(&id, _)| id)
    }
}

/// The record that a request becomes under this ID.
fn record_bytes(request: &Request, id: u64) -> PlaceBytes {
    let Request { client, generation, partition, sequence, header, ref data, .. } = *request;
    Record { id, client, generation, partition, sequence, header, data }.encode()
}

fn pairs<'a, T>(first: &'a [T], second: &'a [T]) -> impl Iterator<Item = (&'a T, &'a T)> {
    first.iter().flat_map(move |one| second.iter().map(move |other| (one, other)))
}
