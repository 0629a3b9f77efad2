//! One pair worked out byte for byte, by hand and by other programs.

use crate::sha256::sha256;
use twin::cluster::{Answer, Call, Cluster, Message, Refusal, Reply, Request, Shape};
use twin::fate::Fate;
use twin::hex;
use twin::medium::{place, Record};
use twin::segment::{written, Pair};
use twin::tries::imports::{example, Import, RECORD, STAMP};

const PLACE: &str =
    "0000000000000001 00000102 00000000 00000005 000000010000004d 00000009 00000004 41424344";
const PLACE_CHECK: &str = "6598bc07";

const HEADER: &str =
    "00000002 0000018bcfe56800 00112233445566778899aabbccddeeff 00000000 0000000000000001";
const ONE: &str = "0000000000000001 00000102 00000000 00000005 000000010000004d 00000009 00000004 db1720a5 41424344 a2e8e7d9";

const DATA_SUM: &str = "a727166556955bdce2f44e3b9ad92df3c26b29d3776945a75753ace7bdddba59";
const INDEX_SUM: &str = "735700ec2727cf76928f160c98bfa4a9efecc8823f4dc80e9dd55e9aede47586";

fn bytes(digits: &str) -> Vec<u8> {
    hex::decode(digits.replace(' ', "").as_bytes()).expect("pairs of digits")
}

/// 40 bytes of fields and 88 zeros.
fn header() -> Vec<u8> {
    [bytes(HEADER), vec![0; 88]].concat()
}

fn expected() -> Pair {
    let data = [header(), bytes(ONE)].concat();
    let index = [header(), bytes("0000000000000080")].concat();
    Pair { data, index }
}

/// Three replicas, four places: session 1 is open with 0 and 1, which hold the record.
fn cluster() -> Cluster {
    let mut cluster = Cluster::fresh(Shape::whole(3, 4)).expect("an allowed shape");
    let (server, fate, message) = (0, Fate::Answered, Message::new(Fate::Answered));
    let Record { client, partition, sequence, header, data, .. } = RECORD;
    let data = data.to_vec();
    let request = Request { client, partition, sequence, header, data, ..Request::default() };
    let calls = [
        Call::Take { server, fate },
        Call::Prepare { server, replica: 0, message },
        Call::Prepare { server, replica: 1, message },
        Call::Open { server, fate },
        Call::Issue { server, request },
        Call::Send { server, replica: 0, message },
        Call::Send { server, replica: 1, message },
    ];
    let values = calls.map(|mut call| match cluster.apply(&mut call) {
        Ok(Answer::Number(value)) => value,
        other => panic!("{other:?}"),
    });
    assert_eq!(values, [1, 0, 0, 0, 1, 0, 1]);
    cluster
}

/// An export of replica 0, and the files after it; before it they are AA throughout.
fn export(cluster: &mut Cluster, lengths: [usize; 2], fate: Fate) -> (Reply, Pair) {
    let mut files = Pair::filled(lengths, 0xAA);
    let reply = cluster.export(0, 0, STAMP, &mut files, &Message::new(fate));
    (reply, files)
}

#[test]
fn the_place() {
    let place_bytes = [bytes(PLACE), vec![0; 28], bytes(PLACE_CHECK)].concat();
    assert_eq!(place(cluster().medium(0), 1).to_vec(), place_bytes);
    assert_eq!(RECORD.encode().to_vec(), place_bytes);
}

#[test]
fn the_pair() {
    let mut cluster = cluster();
    let before = cluster.clone();
    let (reply, files) = export(&mut cluster, [176, 136], Fate::Answered);
    assert_eq!(reply, Ok(Answer::Nothing));
    assert_eq!(files, expected());
    assert_eq!(sha256(&files.data), DATA_SUM);
    assert_eq!(sha256(&files.index), INDEX_SUM);
    assert!(cluster == before, "an answered export changes nothing but the files");
}

/// A data slice of 175: no 1; with fate 2 silent, the slices untouched; then once more with 176: no 7.
#[test]
fn a_byte_short() {
    let mut cluster = cluster();
    let untouched = Pair::filled([175, 136], 0xAA);
    let before = cluster.clone();
    let declined = (Err(Refusal::OtherFiles), untouched.clone());
    assert_eq!(export(&mut cluster, [175, 136], Fate::Answered), declined);
    assert_eq!(Refusal::OtherFiles.number(), 1);
    assert!(cluster == before);
    let silent = (Ok(Answer::Silent), untouched);
    assert_eq!(export(&mut cluster, [175, 136], Fate::AnswerLost), silent);
    let (reply, files) = export(&mut cluster, [176, 136], Fate::Answered);
    assert_eq!(reply, Err(Refusal::ReplicaOut));
    assert_eq!(files, Pair::filled([176, 136], 0xAA));
}

/// Two bare headers; the header names partition 0 and first ID 1 all the same.
#[test]
fn an_empty_log() {
    let mut cluster = Cluster::fresh(Shape::whole(1, 4)).expect("an allowed shape");
    let (server, message) = (0, Message::new(Fate::Answered));
    assert_eq!(cluster.take(server, Fate::Answered), Ok(Answer::Number(1)));
    assert_eq!(cluster.prepare(server, 0, &message), Ok(Answer::Number(0)));
    assert_eq!(cluster.open(server, Fate::Answered), Ok(Answer::Number(0)));
    let (reply, files) = export(&mut cluster, [128, 128], Fate::Answered);
    assert_eq!(reply, Ok(Answer::Nothing));
    assert_eq!(files, Pair { data: header(), index: header() });
}

/// The record and a second one: offsets 128 and 176.
#[test]
fn two_records() {
    let Import { pair, .. } = example();
    assert_eq!(pair.data[..176], expected().data);
    assert_eq!(pair.index[128..], bytes("0000000000000080 00000000000000b0"));
    let second = &pair.data[176..];
    assert_eq!(second.len(), 44);
    let fields = [&2u64.to_be_bytes()[..], &[0; 32]].concat();
    assert_eq!(second[..40], fields);
    assert_eq!(second[40..], twin::crc::bitwise(&fields).to_be_bytes());
}

/// The whole pair restores both places and leaves the slots as they were.
#[test]
fn its_import() {
    let mut import = example();
    import.medium[..64].fill(0xAA);
    assert_eq!(import.apply(), Ok(()));
    assert_eq!(import.medium[..64], [0xAA; 64]);
    assert_eq!(place(&import.medium, 1), RECORD.encode());
    assert_eq!(written(&import.medium, 2, STAMP), import.pair);
}
