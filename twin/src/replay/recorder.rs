//! Writes the lines of a run and what they print, and makes its calls.

use super::state_lines::{backup_lines, media_lines, record_lines, shape_line, table_lines};
use super::sums::{file_sums, sums};
use super::texts::{call_line, line, recovery_line, reply_text};
use super::{Counts, Run};
use crate::cluster::{Call, Cluster, Message, Records, Reply, Shape};
use crate::fate::{Fate, Left};
use crate::hex;
use crate::medium::{medium_bytes, put, PlaceBytes, WIPED};
use crate::segment::Pair;
use crate::tries::recoveries::Recovery;
use crate::tries::restores::{MOST_BACKUP, MOST_BACKUP_PLACES};
use crate::tries::scene::UNWRITTEN;
use crate::votes::MOST_REPLICAS;

/// What the program holds of media and lock tables, which is more than it lends.
const MEDIA: usize = 8008;
const TABLES: usize = 4100;

/// What it holds for a backup, which is more than it lends too.
const BACKUP: usize = MOST_BACKUP;

/// What it holds for each file of an export.
const FILES: [usize; 2] = [1200, 300];

pub struct Recorder {
    /// What the next call gets.
    cluster: Cluster,
    /// What the program holds of media and lock tables; the cluster has the start of it.
    media: Vec<u8>,
    tables: Vec<u64>,
    /// What lies beside a call, as last handed in.
    given: PlaceBytes,
    data: Vec<u8>,
    locks: Vec<u64>,
    /// What the program holds of a backup, and at which length it is lent.
    backup: Vec<u8>,
    backup_length: usize,
    run: Run,
}

impl Recorder {
    pub fn new() -> Recorder {
        let shape = Shape { replicas: 0, places: 0, interval: 0 };
        let records = Records::default();
        Recorder {
            cluster: Cluster { shape, records, media: Vec::new(), locks: Vec::new() },
            media: vec![0; MEDIA],
            tables: vec![0; TABLES],
            given: WIPED,
            data: Vec::new(),
            locks: Vec::new(),
            backup: vec![0; BACKUP],
            backup_length: 0,
            run: Run { input: String::new(), output: String::new(), counts: Counts::default() },
        }
    }

    pub fn finish(self) -> Run {
        self.run
    }

    pub fn cluster(&self) -> &Cluster {
        &self.cluster
    }

    fn line(&mut self, line: &str) {
        assert!(line.len() <= 2000);
        self.run.input += line;
        self.run.input += "\n";
    }

    /// A line that fits no form.
    pub fn bad(&mut self, line: &str) {
        self.line(line);
        self.run.output += "bad\n";
    }

    /// A line that hands in what is there already.
    pub fn same(&mut self, line: &str) {
        self.line(line);
    }

    /// A fresh cluster with any K: it is the calls that judge it.
    pub fn fresh(&mut self, shape: Shape) {
        self.line(&shape_line("fresh", shape));
        let whole = Shape::whole(shape.replicas, shape.places);
        let cluster = Cluster::fresh(whole).expect("R and N fit");
        self.cluster = Cluster { shape, ..cluster };
        self.keep_slices();
        self.run.counts.add_state();
    }

    /// Hands in a state, as far as it differs from the one held.
    pub fn hand_in(&mut self, wanted: Cluster) {
        let held = &self.cluster;
        let mut lines = record_lines(&held.records, &wanted.records);
        if held.shape != wanted.shape {
            lines.push(shape_line("shape", wanted.shape));
        }
        let lengths = |cluster: &Cluster| [cluster.media.len() as u64, cluster.locks.len() as u64];
        if lengths(held) != lengths(&wanted) {
            lines.push(line("lend", &lengths(&wanted)));
        }
        lines.extend(media_lines(&self.media, &wanted.media));
        lines.extend(table_lines(&self.tables, &wanted.locks));
        lines.iter().for_each(|line| self.line(line));
        self.cluster = wanted;
        self.keep_slices();
        self.run.counts.add_state();
    }

    /// Makes a call.
    pub fn call(&mut self, call: &Call) -> Reply {
        let mut call = self.with_beside(call.clone());
        self.line(&call_line(&call));
        let before = self.cluster.clone();
        let reply = self.cluster.apply(&mut call);
        self.keep_slices();
        let [records, media, tables] = sums(&self.cluster);
        let (text, files) = (reply_text(&reply), file_sums(&call));
        self.run.output += &format!("{text}\t{records:08X}\t{media:08X}\t{tables:08X}{files}\n");
        self.run.counts.add(&before, &call, &reply);
        reply
    }

    /// Makes a recovery.
    pub fn recover(&mut self, recovery: &Recovery) -> (Reply, u64) {
        let mut recovery = recovery.clone();
        recovery.bytes = self.hand_in_given(recovery.has_torn_bytes(), recovery.bytes);
        self.line(&recovery_line(&recovery));
        let before = self.cluster.clone();
        let (reply, count) = recovery.apply(&mut self.cluster);
        self.keep_slices();
        let [records, media, tables] = sums(&self.cluster);
        let text = reply_text(&reply);
        self.run.output += &format!("{text}\t{count}\t{records:08X}\t{media:08X}\t{tables:08X}\n");
        self.run.counts.add_recovery(&before, &recovery, (reply, count), &self.cluster);
        (reply, count)
    }

    fn keep_slices(&mut self) {
        self.media[..self.cluster.media.len()].copy_from_slice(&self.cluster.media);
        self.tables[..self.cluster.locks.len()].copy_from_slice(&self.cluster.locks);
    }

    /// Hands in what lies beside the call.
    fn with_beside(&mut self, mut call: Call) -> Call {
        match &mut call {
            Call::Prepare { message, .. }
            | Call::Copy { message, .. }
            | Call::Trim { message, .. }
            | Call::Send { message, .. }
            | Call::Note { message, .. }
            | Call::Read { message, .. } => message.given = self.hand_in_message(message),
            Call::Export { files, message, .. } => {
                message.given = self.hand_in_message(message);
                *files = lent(files.lengths());
            }
            Call::Issue { request, .. } => self.hand_in_request(&request.data, &request.locks),
            Call::Restore { backup, .. } => self.hand_in_backup(backup),
            _ => {}
        }
        call
    }

    fn hand_in_message(&mut self, message: &Message) -> PlaceBytes {
        self.hand_in_given(matches!(message.fate, Fate::Cut(_, Left::Torn)), message.given)
    }

    /// Given bytes are handed in only if a write is torn: with other fates a call has those of an earlier one,
    /// which are not read.
    fn hand_in_given(&mut self, torn: bool, given: PlaceBytes) -> PlaceBytes {
        if torn && given != self.given {
            self.given = given;
            self.line(&format!("given\t{}", hex::encode(&given)));
        }
        self.given
    }

    /// Makes the backup what the replica's medium holds now.
    pub fn keep(&mut self, replica: u64) {
        self.line(&line("keep", &[replica]));
        let kept = self.kept(replica);
        self.backup_length = kept.len();
        put(&mut self.backup, 0, &kept);
    }

    /// A restore with what the program holds of a backup, at a medium's length.
    pub fn restore_held(&mut self, replica: u64) -> Reply {
        let length = medium_bytes(self.cluster.shape.places as usize);
        let backup = self.backup[..length].to_vec();
        self.call(&Call::Restore { replica, backup })
    }

    /// The bytes of the replica's medium, also where they lie behind what is lent.
    fn kept(&self, replica: u64) -> Vec<u8> {
        let places = self.cluster.shape.places.min(MOST_BACKUP_PLACES);
        let length = medium_bytes(places as usize);
        self.media[replica as usize * length..][..length].to_vec()
    }

    /// Hands in the backup as far as it differs from the one held; where that is shorter, a medium is kept
    /// first.
    fn hand_in_backup(&mut self, wanted: &[u8]) {
        let cost = |lines: &[String]| lines.iter().map(|line| line.len() + 1).sum::<usize>();
        let lines = backup_lines(&self.backup, self.backup_length, wanted);
        let from_medium = |replica: u64| {
            let kept = self.kept(replica);
            let held = [&kept, &self.backup[kept.len()..]].concat();
            cost(&backup_lines(&held, kept.len(), wanted)) + "keep\t0\n".len()
        };
        let nearest = (0..MOST_REPLICAS as u64).min_by_key(|&replica| from_medium(replica));
        match nearest.filter(|&replica| from_medium(replica) < cost(&lines)) {
            Some(replica) => {
                self.keep(replica);
                self.hand_in_backup(wanted);
            }
            None => {
                lines.iter().for_each(|line| self.line(line));
                self.backup_length = wanted.len();
                put(&mut self.backup, 0, wanted);
            }
        }
    }

    fn hand_in_request(&mut self, data: &[u8], locks: &[u64]) {
        if self.data != data {
            self.data = data.to_vec();
            self.line(&format!("data\t{}", hex::encode(data)));
        }
        if self.locks != locks {
            self.locks = locks.to_vec();
            self.line(&line("locks", locks));
        }
    }
}

/// The files that an export line lends.
fn lent(lengths: [usize; 2]) -> Pair {
    assert!(lengths[0] <= FILES[0] && lengths[1] <= FILES[1], "{lengths:?}");
    Pair::filled(lengths, UNWRITTEN)
}
