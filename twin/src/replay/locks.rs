//! Locks around the client's mark: up to it they are given, above it 15 is.

use super::recorder::Recorder;
use super::scenes::try_scene;
use crate::cluster::{Call, Message, Request, Shape};
use crate::fate::Fate;
use crate::locks::lock_places;
use crate::random::Random;
use crate::tries::clients::Client;
use crate::tries::scene::{set_tables, Scene, CLIENT_MARK, SERVER};

/// Any two.
const ONE: u64 = 0x0123_4567_89AB_CDEF;
const OTHER: u64 = 77;

/// Scenes with entries that are drawn.
const DRAWN: u64 = 24;

/// A lock can be had on an empty log; then a client that has not read its writer is declined by 15,
/// and one that has is given it. So are any locks by the next session, to a client that has read up to
/// where it starts.
pub fn list(recorder: &mut Recorder) {
    recorder.fresh(Shape::whole(3, 4));
    open(recorder, 0);
    recorder.call(&ask(0, 0, 0xAA, &[1])).expect("nobody wrote the lock");
    store(recorder, 0);
    recorder.call(&ask(0, 0, 0xBB, &[1])).expect_err("the client has not read ID 1");
    recorder.call(&ask(0, 1, 0xBB, &[1])).expect("it has");
    store(recorder, 0);
    open(recorder, 1);
    recorder.call(&ask(1, 1, 0xCC, &[7])).expect_err("ID 2 may have written the lock");
    recorder.call(&ask(1, 2, 0xCC, &[7, 1])).expect("the client has read ID 2");
}

/// The server opens the next session with replicas 0 and 1.
fn open(recorder: &mut Recorder, server: u64) {
    let (fate, message) = (Fate::Answered, Message::new(Fate::Answered));
    let prepare = |replica| Call::Prepare { server, replica, message };
    for call in [Call::Take { server, fate }, prepare(0), prepare(1), Call::Open { server, fate }] {
        recorder.call(&call).expect("nothing stands in the way");
    }
}

/// The record just issued is sent to replicas 0 and 1.
fn store(recorder: &mut Recorder, server: u64) {
    for replica in 0..2 {
        let send = Call::Send { server, replica, message: Message::new(Fate::Answered) };
        recorder.call(&send).expect("the replica lacks it");
    }
}

/// One byte of data; a client that may ask for several locks.
fn ask(server: u64, client_mark: u64, byte: u8, locks: &[u64]) -> Call {
    let (data, locks) = (vec![byte], locks.to_vec());
    let (client, header) = (100, 9);
    let request = Request { client_mark, client, header, data, locks, ..Request::default() };
    Call::Issue { server, request }
}

/// issue's scene with other entries and other locks.
pub fn replay(recorder: &mut Recorder, random: &mut Random, scene: &Scene) {
    Client::all().for_each(|client| try_scene(recorder, client.scene()));
    estimates(recorder, scene);
    in_order(recorder, scene);
    (0..DRAWN).for_each(|_| drawn(recorder, random, scene));
}

/// Each of a lock's three places alone at the client's mark, and none; locks named twice; of two
/// locks only the second held.
fn estimates(recorder: &mut Recorder, scene: &Scene) {
    let first = lock_places(ONE);
    for place in first {
        with_low(recorder, scene, &[place], &[ONE]);
    }
    with_low(recorder, scene, &[], &[ONE, ONE]);
    with_low(recorder, scene, &first, &[ONE, OTHER]);
    with_low(recorder, scene, &first, &[ONE, ONE]);
}

/// A request with the client's mark at these places of the server's lock table and one more at the
/// others.
fn with_low(recorder: &mut Recorder, scene: &Scene, low: &[usize], locks: &[u64]) {
    let mut scene = scene.clone();
    set_tables(&mut scene.cluster, CLIENT_MARK + 1, CLIENT_MARK);
    let table = scene.cluster.table_mut(SERVER);
    low.iter().for_each(|&place| table[place] = CLIENT_MARK);
    scene.request().locks = locks.to_vec();
    try_scene(recorder, scene);
}

/// Two locks above the client's mark: the first of the request is given, be its estimate the greater
/// one or the less.
fn in_order(recorder: &mut Recorder, scene: &Scene) {
    for locks in [[ONE, OTHER], [OTHER, ONE]] {
        let mut scene = scene.clone();
        set_entries(&mut scene, ONE, [CLIENT_MARK + 1; 3]);
        set_entries(&mut scene, OTHER, [CLIENT_MARK + 2; 3]);
        scene.request().locks = locks.to_vec();
        try_scene(recorder, scene);
    }
}

/// Few locks, often one of them twice, each of whose entries is one below the client's mark, at it or
/// one above it.
fn drawn(recorder: &mut Recorder, random: &mut Random, scene: &Scene) {
    let mut scene = scene.clone();
    let choices = [random.number(), random.number()];
    let count = 1 + random.below(4);
    let locks: Vec<u64> = (0..count).map(|_| *random.pick(&choices)).collect();
    for &lock in &locks {
        let around = [CLIENT_MARK - 1, CLIENT_MARK, CLIENT_MARK + 1, CLIENT_MARK + 1];
        set_entries(&mut scene, lock, [(); 3].map(|_| *random.pick(&around)));
    }
    scene.request().locks = locks;
    try_scene(recorder, scene);
}

/// What stands at the lock's three places of the server's table.
fn set_entries(scene: &mut Scene, lock: u64, entries: [u64; 3]) {
    let table = scene.cluster.table_mut(SERVER);
    lock_places(lock).into_iter().zip(entries).for_each(|(place, entry)| table[place] = entry);
}
