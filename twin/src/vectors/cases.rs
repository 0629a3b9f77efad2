//! The list of vectors: fixed cases around every rule of the storage layer, filled with bytes from
//! a fixed seed.

use super::texts::{place_line, record_line};
use super::{conversions, gates, header_zero, segments, sequences, LINE_LIMIT, PUBLISHED};
use crate::crc::crc32;
use crate::hex;
use crate::medium::{
    seal, PlaceBytes, Record, Slot, SlotBytes, DATA_AT, DATA_LIMIT, LENGTH_AT, PLACE_BYTES,
    PLACE_CHECK_AT, SLOT_BYTES, SLOT_CHECK_AT, SLOT_ZEROS_AT, WIPED,
};
use crate::random::Random;
use crate::replica::{Closing, Found, Operation};
use crate::tries::imports::plain;
use crate::tries::records::{draw_record, TOPS};

const SEED: u64 = 2004;

/// Every line, each with its newline.
pub fn input() -> String {
    let mut cases = Cases { random: Random::new(SEED), lines: String::new() };
    cases.crcs();
    cases.records();
    cases.places();
    cases.slots();
    cases.media();
    cases.prepares();
    cases.appends();
    cases.truncations();
    cases.notes();
    for line in segments::lines(&mut cases.random) {
        cases.line(line);
    }
    cases.log_ends();
    let groups = [sequences::lines(), conversions::lines(), header_zero::lines(), gates::lines()];
    for lines in groups {
        lines.into_iter().for_each(|line| cases.line(line));
    }
    cases.lines
}

struct Cases {
    random: Random,
    lines: String,
}

impl Cases {
    fn line(&mut self, line: String) {
        assert!(line.len() <= LINE_LIMIT);
        self.lines += &line;
        self.lines += "\n";
    }

    fn crcs(&mut self) {
        for (bytes, _) in PUBLISHED {
            self.crc(bytes);
        }
        for length in 0..=130 {
            let bytes = self.random.bytes(length);
            self.crc(&bytes);
        }
        for bit in 0..64 {
            self.crc(&(1u64 << bit).to_be_bytes());
        }
    }

    fn crc(&mut self, bytes: &[u8]) {
        self.line(format!("crc\t{}", hex::encode(bytes)));
    }
}

/// Records, places and slots, whole and damaged.
impl Cases {
    fn records(&mut self) {
        for length in 0..=DATA_LIMIT {
            let id = self.random.number() >> (length * 2);
            let data = self.random.bytes(length);
            let record = draw_record(&mut self.random, id, &data);
            self.line(record_line(&record));
        }
        self.line(record_line(&plain(0, &[])));
        self.line(record_line(&Record { id: u64::MAX, ..TOPS }));
        self.fields_alone();
        for [promise, low, local] in [[0, 0, 0], [1, 2, 3], [u64::MAX; 3], [u64::MAX, 0, 1 << 63]] {
            self.line(format!("slotof\t{promise}\t{low}\t{local}"));
        }
        for _ in 0..12 {
            let Slot { promise, low, local } = self.some_slot();
            self.line(format!("slotof\t{promise}\t{low}\t{local}"));
        }
    }

    /// Each field near its top, with the others 0.
    fn fields_alone(&mut self) {
        let data = self.random.bytes(4);
        let records = [
            Record { client: u32::MAX, ..plain(1, &[]) },
            Record { generation: u32::MAX - 1, ..plain(1 << 12, &data[..1]) },
            Record { partition: u32::MAX - 2, ..plain(1 << 24, &data[..2]) },
            Record { sequence: u64::MAX - 3, ..plain(1 << 36, &data[..3]) },
            Record { header: u32::MAX - 4, ..plain(1 << 48, &data) },
        ];
        records.iter().for_each(|record| self.line(record_line(record)));
    }

    fn places(&mut self) {
        for length in 0..=DATA_LIMIT {
            let number = 1 + self.random.below(1000);
            let bytes = self.valid_place_of(number, length);
            self.place(number, bytes);
        }
        self.place(1, WIPED);
        self.place(1000, [0xFF; PLACE_BYTES]);
        self.wrong_numbers();
        self.wrong_lengths();
        self.damaged_places();
        self.wrong_place_checks();
    }

    fn place(&mut self, number: u64, bytes: PlaceBytes) {
        self.line(place_line(number, &bytes));
    }

    /// IDs that differ from the place's number, also in their upper bytes alone.
    fn wrong_numbers(&mut self) {
        let bytes = self.valid_place(7);
        for number in [7, 6, 8, 1, 1000] {
            self.place(number, bytes);
        }
        for id in [7 + (1 << 8), 7 + (1 << 32), 7 + (1 << 63), 7 << 32, 7 << 56, 0] {
            let bytes = self.valid_place(id);
            self.place(7, bytes);
        }
    }

    /// Lengths beyond the limit and bytes behind the length, with a check that agrees.
    fn wrong_lengths(&mut self) {
        let full = self.valid_place_of(5, DATA_LIMIT);
        for length in [28, 29, 32, 60, 0x100, 0x11C, 0x1_0000, 0x0100_0000, 0x8000_0000, u32::MAX] {
            self.sealed_place(5, full, |bytes| {
                bytes[LENGTH_AT..DATA_AT].copy_from_slice(&u32::to_be_bytes(length))
            });
        }
        for length in [0, 1, 14, 26, 27] {
            let bytes = self.valid_place_of(5, length);
            for behind in [length, (length + DATA_LIMIT) / 2, DATA_LIMIT - 1] {
                self.sealed_place(5, bytes, |bytes| bytes[DATA_AT + behind] = 1 << (behind % 8));
            }
        }
    }

    fn sealed_place(
        &mut self,
        number: u64,
        mut bytes: PlaceBytes,
        change: impl Fn(&mut PlaceBytes),
    ) {
        change(&mut bytes);
        seal(&mut bytes);
        self.place(number, bytes);
    }

    /// One bit flipped in every byte.
    fn damaged_places(&mut self) {
        for at in 0..PLACE_BYTES {
            let mut bytes = self.valid_place_of(3, DATA_LIMIT);
            bytes[at] ^= 1 << (at % 8);
            self.place(3, bytes);
        }
    }

    /// Checks that are not those of the 68 bytes before, though near them.
    fn wrong_place_checks(&mut self) {
        let bytes = self.valid_place(9);
        for check in near_checks(&bytes) {
            let mut bytes = bytes;
            bytes[PLACE_CHECK_AT..].copy_from_slice(&check);
            self.place(9, bytes);
        }
    }

    fn slots(&mut self) {
        self.slot(Slot::default().encode());
        self.slot([0; SLOT_BYTES]);
        self.slot([0xFF; SLOT_BYTES]);
        for _ in 0..6 {
            let slot = self.some_slot();
            self.slot(slot.encode());
        }
        let bytes = Slot { promise: 258, low: 772, local: 1286 }.encode();
        for at in 0..SLOT_BYTES {
            let mut damaged = bytes;
            damaged[at] ^= 1 << (at % 8);
            self.slot(damaged);
        }
        for at in SLOT_ZEROS_AT..SLOT_CHECK_AT {
            let mut sealed = bytes;
            sealed[at] = 1 << (at % 8);
            seal(&mut sealed);
            self.slot(sealed);
        }
        for check in near_checks(&bytes) {
            let mut bytes = bytes;
            bytes[SLOT_CHECK_AT..].copy_from_slice(&check);
            self.slot(bytes);
        }
    }

    fn slot(&mut self, bytes: SlotBytes) {
        self.line(format!("slot\t{}", hex::encode(&bytes)));
    }
}

/// Whole media.
impl Cases {
    fn media(&mut self) {
        for [first, second] in slot_pairs() {
            self.medium([first, second], "v.");
            self.medium([second, first], "vv");
        }
        let slots = [slot(1, 0, 0), slot(0, 0, 0)];
        let logs = [
            ".", "v", "x", "w", "....", "v...", "vvv.", "vvvv", "v.vv", ".vvv", "vv.v", "vxvv",
            "vvwv", "xvvv", "vr.v", "vvvvvvvv", "vvvvvvv.", "vvvvvvvx", "vvvv.vvv", ".vvvvvvv",
            "rrrrrrrr",
        ];
        for log in logs {
            self.medium(slots, log);
        }
    }

    /// Logs that end at every place of media of several sizes, in four ways by turns, with valid places
    /// behind the end: a scan that takes several places at once may miss one of them.
    fn log_ends(&mut self) {
        let slots = [slot(1, 0, 0), slot(0, 0, 0)];
        for places in [5, 6, 7, 9] {
            for mark in 0..=places {
                let end = [".", "x", "w", "r"][(places + mark) % 4];
                let behind = "v".repeat(places - mark);
                self.medium(slots, &("v".repeat(mark) + &behind.replacen('v', end, 1)));
            }
        }
    }

    fn medium(&mut self, slots: [SlotBytes; 2], log: &str) {
        let medium = self.medium_bytes(slots, log);
        self.line(format!("medium\t{}\t{}", log.len(), hex::encode(&medium)));
    }

    /// A medium with a place for each letter: v valid, . wiped, x valid but for one bit, w valid
    /// under another number, r any bytes.
    fn medium_bytes(&mut self, slots: [SlotBytes; 2], log: &str) -> Vec<u8> {
        let mut medium = slots.concat();
        for (number, letter) in (1..).zip(log.chars()) {
            let mut place = self.valid_place(number + u64::from(letter == 'w'));
            match letter {
                '.' => place = WIPED,
                'x' => place[self.random.below(PLACE_BYTES as u64) as usize] ^= 1,
                'r' => place = self.any_bytes(),
                _ => {}
            }
            medium.extend(place);
        }
        medium
    }
}

/// Operations under each fate.
impl Cases {
    fn prepares(&mut self) {
        let ordered = [slot(4, 2, 1), slot(3, 1, 0)];
        let swapped = [slot(3, 1, 0), slot(4, 2, 1)];
        let equal = [slot(4, 2, 1), slot(4, 2, 3)];
        let first_only = [slot(4, 2, 1), damaged(slot(9, 9, 9))];
        let second_only = [damaged(slot(9, 9, 9)), slot(4, 2, 1)];
        let cases = [
            (5, None, ordered, "vv."),
            (9, Some(0), swapped, "vvv"),
            (4, Some(1), ordered, "vvv"),
            (4, None, swapped, "vvv"),
            (5, Some(8), equal, "vv."),
            (u64::MAX, Some(2), first_only, "vv."),
            (5, Some(1), second_only, "vvv.v"),
            (4, Some(0), second_only, "vv.v"),
            (5, Some(3), swapped, "vvvvvvvv"),
            (5, Some(0), ordered, ".vv"),
        ];
        for (session, closing, slots, log) in cases {
            let closing = closing.map_or(Closing::Unresolved, Closing::Mark);
            self.operation(Operation::Prepare { session, closing }, slots, log);
        }
    }

    fn appends(&mut self) {
        let slots = [slot(4, 2, 1), damaged(slot(3, 0, 0))];
        let cases =
            [(".", 0), ("...", 0), ("vv.", 2), ("vvx.", 2), ("v.v", 1), ("vr", 1), ("vvvvvvv.", 7)];
        for (log, mark) in cases {
            let record = self.valid_place(mark + 1);
            self.operation(Operation::Append(record), slots, log);
        }
        let bytes = self.any_bytes();
        self.operation(Operation::Append(bytes), slots, "v..");
    }

    fn truncations(&mut self) {
        let slots = [slot(3, 0, 0), slot(4, 2, 1)];
        let cases = [
            (0, "vvv"),
            (2, "vvv"),
            (3, "vvv"),
            (u64::MAX, "vv."),
            (1, "vvv.v"),
            (0, "vvx"),
            (0, ".vv"),
            (0, "v"),
            (2, "vvvvvvvv"),
        ];
        for (to, log) in cases {
            self.operation(Operation::Truncate(to), slots, log);
        }
    }

    fn notes(&mut self) {
        let cases = [
            (2, 3, [slot(4, 2, 1), slot(3, 9, 9)]),
            (2, 3, [slot(3, 9, 9), slot(4, 2, 1)]),
            (1, 1, [slot(4, 2, 1), slot(3, 0, 0)]),
            (3, 3, [slot(4, 2, 1), slot(4, 2, 0)]),
            (5, 6, [slot(4, 2, 1), damaged(slot(5, 0, 0))]),
            (5, 6, [damaged(slot(5, 0, 0)), slot(4, 2, 1)]),
            (u64::MAX, 1 << 40, [slot(u64::MAX, 0, 0), slot(0, 0, 0)]),
        ];
        for (low, local, slots) in cases {
            self.operation(Operation::Note { low, local }, slots, "v.");
        }
    }

    /// The operation under every fate, with a cut at each of its writes and behind the last.
    fn operation(&mut self, operation: Operation, slots: [SlotBytes; 2], log: &str) {
        let medium = self.medium_bytes(slots, log);
        let found = Found::on(&medium).expect("a valid slot");
        let writes = operation.writes(found).count() as u64;
        let start = operation_text(operation, log.len());
        let medium = hex::encode(&medium);
        let mut line = |fate: u64, write: u64, left: u64| {
            let given = hex::encode(&self.given());
            self.line(format!("{start}\t{fate}\t{write}\t{left}\t{given}\t{medium}"));
        };
        // Without a cut neither the write nor what it leaves nor the given bytes are read.
        line(0, 1, 2);
        line(1, 0, 0);
        line(2, 1, 2);
        for write in 1..=writes + 1 {
            for left in 0..3 {
                line(3, write, left);
            }
        }
        line(3, u64::MAX, 2);
    }

    /// Bytes that pass as no slot and as no place of a medium of at most 8 places.
    fn given(&mut self) -> PlaceBytes {
        match self.random.below(5) {
            0 => WIPED,
            1 => [0xFF; PLACE_BYTES],
            2 => self.valid_place(9),
            3 => {
                let slot = self.some_slot().encode();
                let mut bytes = [0; PLACE_BYTES];
                bytes[..SLOT_BYTES].copy_from_slice(&damaged(slot));
                bytes
            }
            _ => self.any_bytes(),
        }
    }
}

/// Bytes to build lines from.
impl Cases {
    fn any_bytes(&mut self) -> PlaceBytes {
        self.random.bytes(PLACE_BYTES).try_into().expect("a place")
    }

    fn some_slot(&mut self) -> Slot {
        let shift = self.random.below(64);
        let [promise, low, local] = [(); 3].map(|_| self.random.number() >> shift);
        Slot { promise, low, local }
    }

    fn valid_place(&mut self, id: u64) -> PlaceBytes {
        let length = self.random.below(DATA_LIMIT as u64 + 1) as usize;
        self.valid_place_of(id, length)
    }

    fn valid_place_of(&mut self, id: u64, length: usize) -> PlaceBytes {
        let data = self.random.bytes(length);
        draw_record(&mut self.random, id, &data).encode()
    }
}

/// The command, N and the operation's own fields.
fn operation_text(operation: Operation, places: usize) -> String {
    match operation {
        Operation::Prepare { session, closing } => {
            let closing = closing.mark().map_or(0, |mark| mark + 1);
            format!("prepare\t{places}\t{session}\t{closing}")
        }
        Operation::Append(bytes) => format!("append\t{places}\t{}", hex::encode(&bytes)),
        Operation::Truncate(to) => format!("truncate\t{places}\t{to}"),
        Operation::Note { low, local } => format!("note\t{places}\t{low}\t{local}"),
        Operation::Read => unreachable!("read writes nothing and has no vectors"),
    }
}

/// Pairs of slots around the rule for the current one.
fn slot_pairs() -> [[SlotBytes; 2]; 12] {
    let mut unclean = slot(9, 0, 0);
    unclean[SLOT_ZEROS_AT] = 1;
    seal(&mut unclean);
    [
        [slot(0, 0, 0), slot(0, 0, 0)],
        [slot(4, 0, 0), slot(3, 9, 9)],
        [slot(4, 1, 0), slot(4, 0, 9)],
        [slot(4, 1, 0), slot(4, 1, 9)],
        [slot(1 << 63, 0, 0), slot((1 << 63) - 1, 0, 0)],
        [slot(1 << 32, 0, 0), slot(u64::from(u32::MAX), 7, 7)],
        [slot(5, u64::MAX, 0), slot(5, u64::MAX - 1, 0)],
        [slot(u64::MAX, u64::MAX, u64::MAX), slot(u64::MAX, u64::MAX, 0)],
        [damaged(slot(9, 9, 9)), slot(4, 1, 2)],
        [unclean, slot(4, 1, 2)],
        [damaged(slot(9, 9, 9)), unclean],
        [[0; SLOT_BYTES], [0xFF; SLOT_BYTES]],
    ]
}

fn slot(promise: u64, low: u64, local: u64) -> SlotBytes {
    Slot { promise, low, local }.encode()
}

/// A slot with one bit of its promise flipped.
fn damaged(mut slot: SlotBytes) -> SlotBytes {
    slot[7] ^= 1;
    slot
}

/// Four bytes each that a slip in computing the check of `bytes` would give.
fn near_checks(bytes: &[u8]) -> [[u8; 4]; 6] {
    let (checked, _) = bytes.split_at(bytes.len() - 4);
    let check = crc32(checked);
    [
        check.to_le_bytes(),
        (!check).to_be_bytes(),
        check.reverse_bits().to_be_bytes(),
        crc32(&checked[..checked.len() - 1]).to_be_bytes(),
        crc32(&checked[1..]).to_be_bytes(),
        [0; 4],
    ]
}
