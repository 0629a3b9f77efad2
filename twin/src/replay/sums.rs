//! Check sums of all state, and of an export's files.

use crate::cluster::{Call, Closing, Cluster, Entry, Phase, Records, Server, Standing};
use crate::crc::crc32;

/// Of the records, the media and the lock tables.
pub fn sums(cluster: &Cluster) -> [u32; 3] {
    let tables: Vec<u8> = cluster.locks.iter().flat_map(|mark| mark.to_be_bytes()).collect();
    [crc32(&record_bytes(&cluster.records)), crc32(&cluster.media), crc32(&tables)]
}

/// Of the two files of an export, behind a tab each.
pub fn file_sums(call: &Call) -> String {
    match call {
        Call::Export { files, .. } => {
            format!("\t{:08X}\t{:08X}", crc32(&files.data), crc32(&files.index))
        }
        _ => String::new(),
    }
}

/// Register, then servers, as big-endian numbers of eight bytes.
fn record_bytes(records: &Records) -> Vec<u8> {
    let register = &records.register;
    let mut bytes = Vec::new();
    put(&mut bytes, &[register.session, u64::from(register.generation)]);
    register.entries.iter().for_each(|entry| put(&mut bytes, &entry_numbers(entry)));
    records.servers.iter().for_each(|server| put_server(&mut bytes, server));
    bytes
}

/// The bytes of each held record, the oldest first, stand behind the numbers as they are.
fn put_server(bytes: &mut Vec<u8>, server: &Server) {
    put(bytes, &server_numbers(server));
    server.entries.iter().for_each(|entry| put(bytes, &entry_numbers(entry)));
    for (standing, mark) in server.standings.iter().zip(server.marks) {
        put(bytes, &[standing_number(*standing), mark]);
    }
    server.held.iter().for_each(|record| bytes.extend_from_slice(record));
}

fn put(bytes: &mut Vec<u8>, numbers: &[u64]) {
    bytes.extend(numbers.iter().flat_map(|number| number.to_be_bytes()));
}

/// Session; 0 unresolved, 1 closing mark, 2 restored; the closing mark or 0.
pub fn entry_numbers(entry: &Entry) -> [u64; 3] {
    let [kind, mark] = match entry.closing {
        Closing::Unresolved => [0, 0],
        Closing::Mark(mark) => [1, mark],
        Closing::Restored => [2, 0],
    };
    [entry.session, kind, mark]
}

/// Phase, session, generation, starting, issued and acknowledged mark.
pub fn server_numbers(server: &Server) -> [u64; 6] {
    let phase = match server.phase {
        Phase::Idle => 0,
        Phase::Opening => 1,
        Phase::Open => 2,
    };
    let generation = u64::from(server.generation);
    let Server { session, starting, issued, acknowledged, .. } = *server;
    [phase, session, generation, starting, issued, acknowledged]
}

pub fn standing_number(standing: Standing) -> u64 {
    match standing {
        Standing::Out => 0,
        Standing::In => 1,
        Standing::Dropped => 2,
    }
}
