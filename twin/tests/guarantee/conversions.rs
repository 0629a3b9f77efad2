//! Lists whose media were converted on the way (document 02, No. 7): up to then no sequence is above 32
//! bits, and requests with header 0 are taken (No. 8); all servers are stopped, each medium is put as the
//! release before would have held it, converted, and the list goes on from there, with longer sequences too.
//! The three conclusions hold over the whole list. "The converter is in no list": it must not be seen.

use crate::header_zero::{before, next_call_before};
use crate::history::History;
use crate::{assert_within_interval, List, Met, CALLS, LISTS};
use twin::cluster::{Answer, Call, Cluster, Message, SERVERS};
use twin::convert::{convert, Declined};
use twin::fate::{Fate, Left};
use twin::medium::{mark, medium_bytes, place_at, places, Record, PLACE_BYTES, SLOTS_BYTES, WIPED};
use twin::old;
use twin::random::Random;

/// What the lists met.
#[derive(Debug, Default)]
struct Converted {
    /// Lists with a session opened before and one after, and with records acknowledged before.
    both: u64,
    acknowledged: u64,
    /// Media with a log, and with bytes that are no record.
    logs: u64,
    torn: u64,
    /// Media whose log has a record with header 0.
    with_zero: u64,
    /// Servers that were stopped with records in flight.
    in_flight: u64,
    /// Lists that issued a sequence of more than 32 bits afterwards.
    longer: u64,
}

type Converter = fn(&[u8], &mut [u8]) -> Result<(), Declined>;

/// A medium as the release before would have held it: valid places in the old layout, wiped ones wiped,
/// and of any other bytes as many as a place had.
fn as_before(medium: &[u8]) -> Vec<u8> {
    let mut before = medium[..SLOTS_BYTES].to_vec();
    for (number, place) in (1..).zip(places(medium)) {
        match Record::decode(number, place) {
            Some(record) => before.extend(old::encode(&record)),
            None => before.extend(torn(number, &place[..old::PLACE_BYTES])),
        }
    }
    assert_eq!(before.len(), old::medium_bytes(places(medium).count()));
    before
}

/// Bytes that are no valid old place of this number.
fn torn(number: u64, bytes: &[u8]) -> Vec<u8> {
    match old::decode(number, bytes) {
        Some(_) => vec![0xBB; bytes.len()],
        None => bytes.to_vec(),
    }
}

/// Every server's last sends are cut, and what they were to write is torn.
fn tear_all(list: &mut List, met: &mut Met) {
    let message = Message { fate: Fate::Cut(1, Left::Torn), given: [0x5A; PLACE_BYTES] };
    for server in 0..SERVERS as u64 {
        for replica in 0..list.shape.replicas {
            list.call(Call::Send { server, replica, message }, Cluster::apply, met);
        }
    }
}

/// Stops all servers and converts every medium.
fn convert_all(list: &mut List, by: Converter, met: &mut Met, converted: &mut Converted) {
    for server in 0..SERVERS as u64 {
        let record = &list.cluster.records.servers[server as usize];
        converted.in_flight += u64::from(record.unacknowledged() > 0);
        list.call(Call::Stop { server }, Cluster::apply, met);
    }
    for replica in 0..list.shape.replicas as usize {
        let medium = list.cluster.medium_mut(replica);
        let mut new = vec![0xCC; medium_bytes(list.shape.places as usize)];
        by(&as_before(medium), &mut new).expect("a valid slot");
        converted.logs += u64::from(mark(medium) > 0);
        converted.with_zero += u64::from(log(medium).any(|record| record.header == 0));
        let behind = places(medium).skip(mark(medium) as usize);
        converted.torn += u64::from(behind.into_iter().any(|place| place != WIPED));
        medium.copy_from_slice(&new);
    }
    list.history.forget_invalid(&list.cluster);
}

/// What a medium should be after it: all as before, but no bytes behind the log.
fn without_torn(mut medium: Vec<u8>) -> Vec<u8> {
    let behind = place_at(mark(&medium) + 1);
    medium[behind..].fill(0);
    medium
}

/// `met` is what the calls meet after the conversion.
fn run_converted(
    random: &mut Random,
    by: Converter,
    met: &mut Met,
    converted: &mut Converted,
) -> List {
    let mut list = List::new(random);
    let moment = random.below(CALLS as u64) as usize;
    let (mut earlier, mut opened) = (Met::default(), 0);
    for number in 0..CALLS {
        if number == moment {
            if random.chance(2) {
                tear_all(&mut list, &mut earlier);
            }
            opened = list.history.opened().len();
            converted.acknowledged += u64::from(acknowledged(&list.history) > 0);
            convert_all(&mut list, by, &mut earlier, converted);
        }
        if number < moment {
            let call = old_call(&list, random);
            list.call(call, before, &mut earlier);
        } else {
            let call = list.next_call(random);
            list.call(call, Cluster::apply, met);
        }
    }
    converted.both += u64::from(opened > 0 && list.history.opened().len() > opened);
    converted.longer += u64::from(has_longer(&list.cluster));
    list
}

/// A call as it was made before: with a sequence of 32 bits, and often with header 0.
fn old_call(list: &List, random: &mut Random) -> Call {
    let mut call = next_call_before(list, random);
    if let Call::Issue { request, .. } = &mut call {
        request.sequence = u64::from(request.sequence as u32);
    }
    call
}

fn acknowledged(history: &History) -> u64 {
    history.opened().values().map(|session| session.acknowledged).max().unwrap_or(0)
}

/// Whether a replica's log has a sequence of more than 32 bits.
fn has_longer(cluster: &Cluster) -> bool {
    let media = (0..cluster.shape.replicas as usize).map(|replica| cluster.medium(replica));
    media.into_iter().any(|medium| log(medium).any(|it| it.sequence > u64::from(u32::MAX)))
}

/// The records of a medium's log.
fn log(medium: &[u8]) -> impl Iterator<Item = Record<'_>> {
    places(medium).take(mark(medium) as usize).map(Record::of_valid)
}

#[test]
fn later_sessions_keep_what_was_acknowledged_before_the_conversion() {
    let (mut met, mut converted) = (Met::default(), Converted::default());
    for seed in 0..LISTS {
        let random = &mut Random::new(1_000_000 + seed);
        let list = run_converted(random, convert, &mut met, &mut converted);
        list.history.check();
        assert_within_interval(&list.history, list.shape.interval);
    }
    println!("{converted:?} {:?}", met.zeros);
    assert!(converted.both > LISTS / 2, "{converted:?}");
    assert!(converted.acknowledged > LISTS / 2, "{converted:?}");
    assert!(converted.logs > LISTS && converted.torn > LISTS / 20, "{converted:?}");
    assert!(converted.in_flight > LISTS / 4, "{converted:?}");
    assert!(converted.longer > LISTS / 4, "{converted:?}");
    assert!(converted.with_zero > LISTS, "{converted:?}");
    met.zeros.assert_met(LISTS);
    assert_eq!(met.zeros.sent(), 0, "all servers were stopped");
}

/// It leaves every slot and every log as it was, to the byte, and wipes what is behind.
#[test]
fn a_cluster_is_the_same_after_it() {
    let (mut met, mut converted) = (Met::default(), Converted::default());
    for seed in 0..300 {
        let random = &mut Random::new(2_000_000 + seed);
        let mut list = List::new(random);
        for _ in 0..random.below(CALLS as u64) {
            let call = old_call(&list, random);
            list.call(call, before, &mut met);
        }
        tear_all(&mut list, &mut met);
        let mut expected = list.cluster.clone();
        for server in 0..SERVERS as u64 {
            assert_eq!(expected.stop(server), Ok(Answer::Nothing));
        }
        for replica in 0..list.shape.replicas as usize {
            let medium = without_torn(expected.medium(replica).to_vec());
            expected.medium_mut(replica).copy_from_slice(&medium);
        }
        convert_all(&mut list, convert, &mut met, &mut converted);
        assert!(list.cluster == expected);
    }
}

/// The conclusions are not kept by chance: a converter that loses the last record of each log breaks them.
#[test]
#[should_panic(expected = "an acknowledged ID is lost")]
fn a_converter_that_loses_a_record_breaks_it() {
    let lossy: Converter = |old, new| {
        let reply = convert(old, new);
        let last = mark(new);
        if last > 0 {
            new[place_at(last)..].fill(0);
        }
        reply
    };
    for seed in 0..100 {
        let random = &mut Random::new(1_000_000 + seed);
        let (mut met, mut converted) = (Met::default(), Converted::default());
        run_converted(random, lossy, &mut met, &mut converted).history.check();
    }
}
