//! What a Rust program does with the journal's three calls: it checks the 72 bytes of a place, finds
//! the three places of a lock, and converts an old medium.

mod journal;
mod record;

use journal::SLOTS_BYTES;
use record::{old_medium, RECORD};

fn main() {
    let mut changed = RECORD;
    changed[36] ^= 1;
    check("the record", &RECORD, 1);
    check("the record", &RECORD, 2);
    check("the record with a byte changed", &changed, 1);
    check("71 bytes of the record", &RECORD[..71], 1);
    print_places(0);
    print_places(1);
    convert("the old medium", &old_medium());
    convert("127 bytes of the old medium", &old_medium()[..127]);
}

fn check(what: &str, bytes: &[u8], number: u64) {
    let valid = if journal::place_check(bytes, number) { "valid" } else { "not valid" };
    println!("{what} as place {number}: {valid}");
}

fn print_places(lock: u64) {
    let [first, second, third] = journal::lock_places(lock);
    println!("lock {lock}: places {first}, {second}, {third}");
}

fn convert(what: &str, old: &[u8]) {
    let mut medium = [0; journal::medium_bytes(1)];
    match journal::convert(old, &mut medium) {
        Ok(()) => {
            let place = if medium[SLOTS_BYTES..] == RECORD { "the record" } else { "another" };
            println!("{what}: converted, and its place 1 is {place}");
        }
        Err(declined) => println!("{what}: {declined}"),
    }
}
