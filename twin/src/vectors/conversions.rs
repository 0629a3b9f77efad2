//! Vectors of the converter (document 02, No. 7).

use crate::hex;
use crate::medium::{medium_bytes, Slot, SlotBytes, SLOTS_BYTES};
use crate::old;
use crate::random::Random;
use crate::tries::old_media::{example, old_media, Draw};

/// The longest second slice of a line.
pub const LENGTH_LIMIT: u64 = 73_000;

/// What the second slice holds before the call, by turns: what is left of it shows.
const FILLS: [u8; 4] = [0xAA, 0x00, 0xFF, 0x5A];

const SEED: u64 = 7_000;

/// Every line.
pub fn lines() -> Vec<String> {
    let mut lines = Vec::new();
    for (medium, fill) in old_media().iter().zip(FILLS.into_iter().cycle()) {
        lines.push(line(&medium.bytes, length_for(&medium.bytes), fill));
    }
    lines.extend(examples());
    lines.extend(damaged_places());
    lines.extend(damaged_slots());
    lines.extend(other_lengths());
    lines.extend(malformed());
    lines
}

pub fn line(old: &[u8], length: usize, fill: u8) -> String {
    format!("convert\t{}\t{length}\t{fill}", hex::encode(old))
}

/// The length that goes with the old medium's, as near as there is one.
fn length_for(old: &[u8]) -> usize {
    medium_bytes(old.len().saturating_sub(SLOTS_BYTES) / old::PLACE_BYTES)
}

fn slots() -> [SlotBytes; 2] {
    let slot = |promise: u64| Slot { promise, low: 1, local: 2 }.encode();
    [slot(8), slot(9)]
}

fn medium(log: &str) -> Vec<u8> {
    Draw { random: Random::new(SEED) }.medium(slots(), log)
}

/// "Second slice 64 + 72 × 2, or both slots invalid, or the old one a byte short: 27."
fn examples() -> [String; 3] {
    let old = example();
    let mut no_slot = old.clone();
    no_slot[7] ^= 1;
    let short = &old[..old.len() - 1];
    [
        line(&old, medium_bytes(2), 0xCC),
        line(&no_slot, medium_bytes(3), 0xCC),
        line(short, medium_bytes(3), 0xCC),
    ]
}

/// One bit of each byte of the first of two valid places: both come out wiped.
fn damaged_places() -> Vec<String> {
    let whole = medium("vv");
    let changed = |at: usize| {
        let mut old = whole.clone();
        old[at] ^= 1 << (at % 8);
        line(&old, medium_bytes(2), FILLS[at % 4])
    };
    (old::place_at(1)..old::place_at(2)).map(changed).collect()
}

/// One bit of each byte of both slots: the other one is still valid, and this one is kept as it is.
fn damaged_slots() -> Vec<String> {
    let whole = medium("v");
    let changed = |at: usize| {
        let mut old = whole.clone();
        old[at] ^= 1 << (at % 8);
        line(&old, medium_bytes(1), FILLS[at % 4])
    };
    (0..SLOTS_BYTES).map(changed).collect()
}

/// Second slices of other lengths; old media of N = 0 and of another N; none.
fn other_lengths() -> Vec<String> {
    let [three, four, nine] = ["vvv", "vv..", "vvvvvvvvv"].map(medium);
    let exact = medium_bytes(3);
    let others = [
        medium_bytes(2),
        medium_bytes(4),
        exact - 1,
        exact + 1,
        old::medium_bytes(3),
        SLOTS_BYTES,
        SLOTS_BYTES - 1,
        0,
        LENGTH_LIMIT as usize,
    ];
    let mut lines: Vec<String> = others
        .into_iter()
        .zip(FILLS.into_iter().cycle())
        .map(|(length, fill)| line(&three, length, fill))
        .collect();
    lines.extend([1, 2, 64].map(|less| line(&three[..three.len() - less], exact, 0xAA)));
    lines.push(line(&four, exact, 0xAA));
    // 64 + 64 × 9 is 64 + 72 × 8: each is the length of a medium, but not of one N.
    lines.push(line(&nine, medium_bytes(8), 0xAA));
    lines.push(line(&three[..SLOTS_BYTES], SLOTS_BYTES, 0xAA));
    lines.push(line(&[], 0, 0));
    lines.push(line(&[], SLOTS_BYTES, 0xAA));
    lines.push(line(&[], exact, 0xAA));
    lines
}

/// Lines that fit no form.
fn malformed() -> Vec<String> {
    let digits = hex::encode(&medium("v"));
    let length = medium_bytes(1);
    vec![
        "convert".to_string(),
        "convert\t".to_string(),
        format!("convert\t{digits}"),
        format!("convert\t{digits}\t{length}"),
        format!("convert\t{digits}\t{length}\t"),
        format!("convert\t{digits}\t\t0"),
        format!("convert\t{digits}\t{length}\t0\t"),
        format!("convert\t{digits}\t{length}\t0\t0"),
        format!("convert\t{digits}\t{length}\t256"),
        format!("convert\t{digits}\t{length}\t18446744073709551616"),
        format!("convert\t{digits}\t{length}\tAA"),
        format!("convert\t{digits}\t{}\t0", LENGTH_LIMIT + 1),
        format!("convert\t{digits}\t18446744073709551752\t0"),
        format!("convert\t{digits}\t-1\t0"),
        format!("convert\t{}\t{length}\t0", &digits[1..]),
        format!("convert\t{}\t{length}\t0", digits.replace('0', "G")),
        format!("convert\t{length}\t{digits}\t0"),
        format!("Convert\t{digits}\t{length}\t0"),
    ]
}
