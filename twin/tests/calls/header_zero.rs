//! Header zero (document 02, No. 8): "New requests with header 0 are no longer taken." Number 28 "is given by
//! issue, just after 12, when the header is 0", to gates and to the booking system alike.

use crate::answered::Answered;
use twin::cluster::{first_row, Answer, Call, Cluster, Refusal, Reply, Request, HELD};
use twin::medium::Record;
use twin::random::Random;
use twin::tries::faults::{faults_of, with_faults};
use twin::tries::headers::{with_header, TAKEN};
use twin::tries::scene::{all_scenes, Kind, Scene, SERVER};
use twin::tries::states::Draw;

fn numbers(reply: Reply) -> Result<u64, u64> {
    match reply {
        Ok(Answer::Number(id)) => Ok(id),
        Ok(other) => panic!("{other:?}"),
        Err(refusal) => Err(refusal.number()),
    }
}

#[test]
fn header_0_call_by_call() {
    let mut cluster = Answered::opened(4);
    let before = cluster.0.clone();
    let gate = Request { client: 99, header: 0, data: vec![0x5A], ..Request::default() };
    let mut ask = |request: &Request| numbers(cluster.0.issue(0, request));
    assert_eq!(ask(&Request { data: vec![0x5A; 13], ..gate.clone() }), Err(12));
    assert_eq!(ask(&gate), Err(28));
    assert_eq!(ask(&Request { generation: 1, ..gate.clone() }), Err(10));
    assert_eq!(ask(&Request { client_mark: 1, ..gate.clone() }), Err(11));
    assert!(cluster.0 == before);
    let other = Request { header: 1, ..gate };
    assert_eq!(numbers(cluster.0.issue(0, &other)), Ok(1));
}

/// The scene of issue of either kind of client.
fn issues() -> impl Iterator<Item = Scene> {
    let issues = |scene: &Scene| matches!(scene.kind, Kind::GateIssue | Kind::BookingIssue);
    all_scenes().into_iter().filter(issues)
}

/// The number that declines the call, which then changes nothing.
fn declined(scene: &Scene) -> Option<u64> {
    let mut after = scene.clone();
    let refusal = after.apply().err()?;
    assert!(after == *scene, "{:?} changes something", scene.kind);
    Some(refusal.number())
}

/// What issue looks at before 28 and behind it.
const BEFORE: [u64; 7] = [1, 2, 3, 5, 10, 11, 12];
const BEHIND: [u64; 4] = [13, 14, 23, 15];

/// For either kind of client: whatever comes first in the list is given. With another header the other number
/// is given, and without the other fault 28 is, so that both conditions hold in the scene.
#[test]
fn twenty_eight_stands_in_its_place_for_both() {
    for scene in issues() {
        let faults = faults_of(&scene);
        let (zero, others): (Vec<_>, Vec<_>) =
            faults.iter().partition(|fault| fault.number() == 28);
        assert_eq!(zero.len(), 1);
        assert_eq!(declined(&with_faults(&scene, &[zero[0]])), Some(28));
        let mut met = Vec::new();
        for other in others {
            let mut both = with_faults(&scene, &[zero[0], other]);
            let names = format!("{:?}: header 0 and {}", scene.kind, other.name);
            let number = other.number();
            let first = if BEFORE.contains(&number) { number } else { 28 };
            assert_eq!(declined(&both), Some(first), "{names}");
            both.request().header = 9;
            assert_eq!(declined(&both), Some(number), "{names}");
            met.push(number);
        }
        assert!(met.iter().all(|it| BEFORE.contains(it) || BEHIND.contains(it)), "{met:?}");
        assert!(BEFORE.iter().chain(&BEHIND).all(|number| met.contains(number)), "{met:?}");
    }
}

/// The header of the newest record that the server holds.
fn newest_header(cluster: &Cluster, server: usize) -> u32 {
    Record::of_valid(&cluster.records.servers[server].held[HELD - 1]).header
}

/// 1 and 2^32 - 1 among them, and every single bit; each is stored as it is.
#[test]
fn any_other_header_is_taken() {
    for scene in issues() {
        for header in (0..32).map(|bit| 1 << bit).chain(TAKEN).chain([9, 1_000_000]) {
            let mut scene = scene.clone();
            scene.request().header = header;
            assert_eq!(declined(&scene), None, "{header}");
            scene.apply().expect("granted");
            assert_eq!(newest_header(&scene.cluster, SERVER), header);
        }
    }
}

/// Sets a field of a request to this number, or the length of its data or of its locks.
type Set = fn(&mut Request, u32);

/// Client's mark, client, generation, partition, sequence, data and locks may all be 0 or none; and whatever
/// they are, header 0 is declined.
#[test]
fn no_other_field_is_looked_at() {
    let fields: [Set; 5] = [
        |request, value| request.client = value,
        |request, value| request.partition = value,
        |request, value| request.sequence = u64::from(value),
        |request, value| request.data = vec![0; value.min(12) as usize],
        |request, value| request.locks = vec![0; value.min(1) as usize],
    ];
    for (set, value) in fields.iter().flat_map(|set| [0, 1, 99, u32::MAX].map(|it| (set, it))) {
        let (mut cluster, mut request) = (Answered::opened(4), Request::default());
        set(&mut request, value);
        request.header = 0;
        assert_eq!(numbers(cluster.0.issue(0, &request)), Err(28), "{request:?}");
        request.header = 1;
        assert_eq!(numbers(cluster.0.issue(0, &request)), Ok(1), "{request:?}");
    }
    let mut cluster = Answered::opened(4);
    let request = Request::default();
    assert_eq!((request.client_mark, request.generation, request.header), (0, 0, 1));
    assert_eq!(numbers(cluster.0.issue(0, &request)), Ok(1));
}

/// The reply to an issue with this header, and what it leaves.
fn with_request_header(cluster: &Cluster, call: &Call, header: u32) -> (Reply, Cluster) {
    let (mut cluster, mut call) = (cluster.clone(), call.clone());
    if let Call::Issue { request, .. } = &mut call {
        request.header = header;
    }
    let reply = cluster.apply(&mut call);
    (reply, cluster)
}

/// As `with_request_header`, but a new record has header 0.
fn but_for_header(cluster: &Cluster, call: &Call, header: u32) -> (Reply, Cluster) {
    let (reply, mut after) = with_request_header(cluster, call, header);
    if let (Call::Issue { server, .. }, Ok(_)) = (call, reply) {
        let newest = &mut after.records.servers[*server as usize].held[HELD - 1];
        *newest = with_header(newest, 0);
    }
    (reply, after)
}

/// With header 0 an issue that comes as far is declined by 28, and one that does not by what it is declined by
/// with another header; either way nothing changes.
fn check_zero(cluster: &Cluster, call: &Call, other: Reply) -> bool {
    let (reply, after) = with_request_header(cluster, call, 0);
    assert!(after == *cluster, "{call:?}");
    let before = other.err().filter(|refusal| refusal.row() < first_row(28));
    assert_eq!(reply, Err(before.unwrap_or(Refusal::HeaderZero)), "{call:?}");
    before.is_none()
}

/// On random states: only issue comes to 28, and only with header 0; with any other header a call does what it
/// does with the next.
#[test]
fn only_issue_with_header_0_comes_to_28() {
    let mut random = Random::new(28);
    let (mut zero, mut granted) = (0, 0);
    for _ in 0..25_000 {
        let places = 1 + random.below(4);
        let mut draw = Draw { random: &mut random, places };
        let cluster = draw.cluster();
        let call = draw.call(&cluster);
        let (reply, after) = but_for_header(&cluster, &call, 1);
        assert_ne!(reply, Err(Refusal::HeaderZero), "{call:?}");
        if !matches!(call, Call::Issue { .. }) {
            continue;
        }
        for header in [9, 1 << 31, u32::MAX] {
            assert!(but_for_header(&cluster, &call, header) == (reply, after.clone()), "{call:?}");
        }
        granted += u64::from(reply.is_ok());
        zero += u64::from(check_zero(&cluster, &call, reply));
    }
    assert!(zero > 100 && granted > 30, "{zero} {granted}");
}
