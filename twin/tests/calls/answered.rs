//! A cluster whose messages are all answered.

use twin::cluster::{Answer, Call, Cluster, Message, Reply, Request, Shape};
use twin::fate::Fate;
use twin::medium::DATA_AT;

/// Its replies are the value or the number.
#[derive(Clone)]
pub struct Answered(pub Cluster);

impl Answered {
    pub fn fresh(replicas: u64, places: u64, interval: u64) -> Answered {
        let shape = Shape { replicas, places, interval };
        Answered(Cluster::fresh(shape).expect("an allowed shape"))
    }

    /// Three replicas, server 0 open at 0 with all of them.
    pub fn opened(places: u64) -> Answered {
        let mut cluster = Answered::fresh(3, places, places);
        assert_eq!(cluster.take(0), Ok(1));
        assert_eq!([0, 1, 2].map(|replica| cluster.prepare(0, replica)), [Ok(0); 3]);
        assert_eq!(cluster.open(0), Ok(0));
        cluster
    }

    pub fn call(&mut self, mut call: Call) -> Result<u64, u64> {
        numbers(self.0.apply(&mut call))
    }

    pub fn take(&mut self, server: u64) -> Result<u64, u64> {
        self.call(Call::Take { server, fate: Fate::Answered })
    }

    pub fn prepare(&mut self, server: u64, replica: u64) -> Result<u64, u64> {
        self.call(Call::Prepare { server, replica, message: answered() })
    }

    pub fn open(&mut self, server: u64) -> Result<u64, u64> {
        self.call(Call::Open { server, fate: Fate::Answered })
    }

    /// A request with one byte of data by a client at this mark.
    pub fn issue(&mut self, server: u64, client_mark: u64, byte: u8) -> Result<u64, u64> {
        numbers(self.ask(server, client_mark, byte, &[]))
    }

    /// The same with locks, up to the 4 of a booking client, and the reply as it is.
    pub fn ask(&mut self, server: u64, client_mark: u64, byte: u8, locks: &[u64]) -> Reply {
        let (client, header, data, locks) = (100, 9, vec![byte], locks.to_vec());
        let request = Request { client_mark, client, header, data, locks, ..Request::default() };
        self.0.issue(server, &request)
    }

    /// To replicas 0 and 1.
    pub fn send(&mut self, server: u64) -> [Result<u64, u64>; 2] {
        [0, 1].map(|replica| self.send_to(server, replica))
    }

    pub fn send_to(&mut self, server: u64, replica: u64) -> Result<u64, u64> {
        self.call(Call::Send { server, replica, message: answered() })
    }

    pub fn copy(&mut self, server: u64, from: u64, to: u64) -> Result<u64, u64> {
        self.call(Call::Copy { server, from, to, message: answered() })
    }

    /// The byte of data under an ID.
    pub fn read(&mut self, server: u64, replica: u64, id: u64) -> u8 {
        match self.0.read(server, replica, id, &answered()) {
            Ok(Answer::Bytes(bytes)) => bytes[DATA_AT],
            other => panic!("{other:?}"),
        }
    }

    /// A server opens the next session with replicas 0 and 1, which both stand at this mark.
    pub fn recover(&mut self, server: u64, session: u64, mark: u64) {
        assert_eq!(self.take(server), Ok(session));
        assert_eq!(self.prepare(server, 0), Ok(mark));
        assert_eq!(self.prepare(server, 1), Ok(mark));
        assert_eq!(self.open(server), Ok(mark));
    }
}

fn numbers(reply: Reply) -> Result<u64, u64> {
    match reply {
        Ok(Answer::Number(value)) => Ok(value),
        Ok(other) => panic!("{other:?}"),
        Err(refusal) => Err(refusal.number()),
    }
}

pub fn answered() -> Message {
    Message::new(Fate::Answered)
}
