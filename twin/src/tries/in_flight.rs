//! send and issue around what is held: any marks on a log that is longer than the records held.

use super::scene::{
    held_up_to, set_place, set_promise, Kind, Scene, GENERATION, REPLICA, SERVER, SESSION,
};
use crate::cluster::{Call, Cluster, Message, Phase, Request, Shape, Standing};
use crate::fate::Fate;

/// N = K.
pub const PLACES: u64 = 20;

/// What refusal 13, and 16 of a send, look at.
#[derive(Clone, Copy, Debug)]
pub struct InFlight {
    pub starting: u64,
    pub issued: u64,
    pub acknowledged: u64,
    /// The recorded mark of the replica that a send goes to, which holds as much.
    pub mark: u64,
}

impl InFlight {
    /// An open server with three members; the other two hold all that is issued, and nothing. It holds
    /// eight records that all differ.
    pub fn cluster(self) -> Cluster {
        let InFlight { starting, issued, acknowledged, mark } = self;
        let mut cluster = Cluster::fresh(Shape::whole(3, PLACES)).expect("an allowed shape");
        cluster.records.register.session = SESSION;
        let medium = cluster.medium_mut(REPLICA);
        set_promise(medium, SESSION);
        (1..=mark).for_each(|id| set_place(medium, id));
        let server = &mut cluster.records.servers[SERVER];
        (server.phase, server.session, server.generation) = (Phase::Open, SESSION, GENERATION);
        (server.starting, server.issued, server.acknowledged) = (starting, issued, acknowledged);
        server.standings[..3].fill(Standing::In);
        server.marks[..3].copy_from_slice(&[mark, issued, 0]);
        server.held = held_up_to(issued);
        cluster
    }

    pub fn send(self) -> Scene {
        let (server, replica) = (SERVER as u64, REPLICA as u64);
        let call = Call::Send { server, replica, message: Message::new(Fate::Answered) };
        Scene { kind: Kind::Send, cluster: self.cluster(), call }
    }

    /// By a client that has read nothing, and asks for no lock.
    pub fn issue(self) -> Scene {
        let request = Request { generation: GENERATION, data: vec![0xF1], ..Request::default() };
        let call = Call::Issue { server: SERVER as u64, request };
        Scene { kind: Kind::GateIssue, cluster: self.cluster(), call }
    }
}
