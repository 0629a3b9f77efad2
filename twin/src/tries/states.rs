//! Random states, handed in whole, and calls and recoveries on them.

use super::clients::draw_mark;
use super::exports::draw_export;
use super::headers::draw_header;
use super::limits::{draw_client, draw_count, draw_data};
use super::records::draw_sequence;
use super::recoveries::{draw_idle, draw_listed, of_messages, Recovery};
use super::restores::draw_backup;
use super::scene::record_bytes;
use crate::cluster::{
    Call, Closing, Cluster, Entry, Message, Phase, Request, Server, Shape, Standing, HELD, SERVERS,
};
use crate::fate::{Fate, Left};
use crate::locks::{lock_places, TABLE_MARKS};
use crate::medium::{
    medium_bytes, place_at, put, PlaceBytes, Slot, PLACE_BYTES, SLOT_BYTES, WIPED,
};
use crate::random::Random;

/// The lock whose three entries may differ.
const LOCK: u64 = 0xFEDC_BA98_7654_3210;

/// Draws states in which most things fit and some do not.
pub struct Draw<'a> {
    pub random: &'a mut Random,
    pub places: u64,
}

impl Draw<'_> {
    pub fn cluster(&mut self) -> Cluster {
        let replicas = *self.random.pick(&[1, 3, 3, 3, 5, 7]);
        let interval = 1 + self.random.below(self.places);
        let shape = Shape { replicas, places: self.places, interval };
        let media = (0..replicas).flat_map(|_| self.medium()).collect();
        let locks = self.tables();
        let mut cluster = Cluster { shape, records: Default::default(), media, locks };
        let register = &mut cluster.records.register;
        register.session = self.session();
        register.generation = if self.random.chance(9) { u32::MAX } else { 0 };
        register.entries = [(); 7].map(|_| self.entry());
        cluster.records.servers = [(); SERVERS].map(|_| self.server());
        match self.random.below(40) {
            0 => cluster.shape.replicas = 2,
            1 => cluster.shape.places = 0,
            2 => cluster.media.push(0),
            3 => cluster.shape.interval = 0,
            4 => cluster.shape.interval = self.places + 1,
            _ => {}
        }
        cluster
    }

    /// One mark throughout, but at the three places of one lock, in the table of one server.
    fn tables(&mut self) -> Vec<u64> {
        let mut tables = vec![self.random.below(3); SERVERS * TABLE_MARKS];
        let server = self.random.below(SERVERS as u64) as usize;
        for place in lock_places(LOCK) {
            tables[server * TABLE_MARKS + place] = self.mark();
        }
        tables
    }

    fn medium(&mut self) -> Vec<u8> {
        let mut medium = vec![0; medium_bytes(self.places as usize)];
        for index in 0..2 {
            let local = self.random.below(3);
            let slot = Slot { promise: self.session(), low: self.low(), local };
            put(&mut medium, index * SLOT_BYTES, &slot.encode());
            if self.random.chance(8) {
                medium[index * SLOT_BYTES] ^= 1;
            }
        }
        let run = self.random.below(self.places + 1);
        for number in 1..=self.places {
            if number <= run || self.random.chance(5) {
                put(&mut medium, place_at(number), &record_bytes(number));
            }
        }
        medium
    }

    fn server(&mut self) -> Server {
        let phase = *self.random.pick(&[Phase::Idle, Phase::Opening, Phase::Open]);
        let acknowledged = self.mark();
        let unacknowledged = *self.random.pick(&[0, 0, 0, 1, 1, 2, 7, 8, 9]);
        let issued = (acknowledged + unacknowledged).min(self.places);
        Server {
            phase,
            session: self.session(),
            generation: 0,
            entries: [(); 7].map(|_| self.entry()),
            standings: [(); 7].map(|_| {
                *self.random.pick(&[Standing::In, Standing::In, Standing::Out, Standing::Dropped])
            }),
            marks: [(); 7].map(|_| self.mark()),
            starting: self.mark(),
            issued,
            acknowledged,
            held: self.held(issued),
        }
    }

    /// Often zeros; otherwise mostly the records of the IDs that lie there, and some zeros and some
    /// records of any ID.
    fn held(&mut self, issued: u64) -> [PlaceBytes; HELD] {
        if !self.random.chance(3) {
            return [WIPED; HELD];
        }
        std::array::from_fn(|index| {
            let id = (issued + 1 + index as u64).saturating_sub(HELD as u64);
            match self.random.below(8) {
                0 => WIPED,
                1 => record_bytes(1 + self.random.below(self.places)),
                _ if id == 0 => WIPED,
                _ => record_bytes(id),
            }
        })
    }

    fn entry(&mut self) -> Entry {
        let closing = match self.random.below(8) {
            0..=2 => Closing::Mark(self.mark()),
            3 => Closing::Restored,
            _ => Closing::Unresolved,
        };
        Entry { session: self.session(), closing }
    }

    /// Few values, so that sessions and promises often agree.
    fn session(&mut self) -> u64 {
        *self.random.pick(&[1, 1, 1, 1, 2, u64::MAX])
    }

    /// Mostly a low-water mark that a log may have, now and then one far above.
    fn low(&mut self) -> u64 {
        let near = self.random.below(3);
        *self.random.pick(&[near, near, near, near, near, self.places, u64::MAX])
    }

    fn mark(&mut self) -> u64 {
        self.random.below(self.places + 1) + u64::from(self.random.chance(2_000))
    }

    fn message(&mut self) -> Message {
        let cut =
            Fate::Cut(self.random.below(4), *self.random.pick(&[Left::Old, Left::New, Left::Torn]));
        let fates = [Fate::Answered, Fate::Answered, Fate::Lost, Fate::AnswerLost, cut];
        let given = match self.random.below(4) {
            0 => record_bytes(1 + self.random.below(self.places + 1)),
            _ => [0x5A; PLACE_BYTES],
        };
        Message { fate: *self.random.pick(&fates), given }
    }

    pub fn call(&mut self, cluster: &Cluster) -> Call {
        let server = self.random.below(33) % 5;
        let replica = self.random.below(cluster.shape.replicas + 1);
        let from = self.random.below(cluster.shape.replicas + 1);
        let message = self.message();
        let fate = message.fate;
        match self.random.below(13) {
            0 => Call::Take { server, fate },
            1 => Call::Prepare { server, replica, message },
            2 => Call::Copy { server, from, to: replica, message },
            3 => Call::Trim { server, replica, message },
            4 => Call::Open { server, fate },
            5 => Call::Issue { server, request: self.request(cluster, server) },
            6 => Call::Send { server, replica, message },
            7 => Call::Note { server, replica, message },
            8 => Call::Read { server, replica, id: self.mark(), message },
            9 => draw_export(self.random, cluster, server, replica, message),
            10 => Call::Stop { server },
            11 => Call::Reassign,
            _ => Call::Restore { replica, backup: draw_backup(self.random, cluster) },
        }
    }

    /// Mostly by an idle server, with few fates.
    pub fn recovery(&mut self, cluster: &Cluster) -> Recovery {
        let server = draw_idle(self.random, cluster);
        let listed = draw_listed(self.random, cluster.shape.replicas);
        let count = *self.random.pick(&[0, 0, 1, 3, 9]);
        let mut messages: Vec<Message> = (0..count).map(|_| self.message()).collect();
        if let Some(first) = messages.first_mut().filter(|_| !self.random.chance(4)) {
            first.fate = Fate::Answered;
        }
        of_messages(server, &listed, &messages)
    }

    fn request(&mut self, cluster: &Cluster, server: u64) -> Request {
        let client = draw_client(self.random);
        let data = if self.random.chance(3) { draw_data(self.random, client) } else { vec![0; 3] };
        let wanted = self.random.below(6) as usize;
        let count = draw_count(self.random, client, wanted);
        let locks: Vec<u64> = (0..count).map(|_| self.lock()).collect();
        let around = draw_mark(self.random, cluster, server % SERVERS as u64, &locks);
        Request {
            client_mark: if self.random.chance(3) { self.mark() } else { around },
            client,
            generation: u32::from(self.random.chance(9)),
            sequence: draw_sequence(self.random),
            header: draw_header(self.random, 9),
            data,
            locks,
            ..Request::default()
        }
    }

    fn lock(&mut self) -> u64 {
        if self.random.chance(2) {
            LOCK
        } else {
            self.random.number()
        }
    }
}
