//! Old media to convert (document 02, No. 7), each with a name: whole logs, damaged ones, and bytes that
//! are no old medium.

use super::headers::draw_stored_header;
use super::imports::plain;
use super::records::{draw_sequence, SEQUENCES, TOPS};
use crate::medium::{
    self, put, seal, Record, Slot, SlotBytes, DATA_LIMIT, SLOT_BYTES, SLOT_ZEROS_AT,
};
use crate::old;
use crate::random::Random;

const SEED: u64 = 2_007;

pub struct OldMedium {
    pub name: String,
    pub bytes: Vec<u8>,
}

fn named(name: impl Into<String>, bytes: Vec<u8>) -> OldMedium {
    OldMedium { name: name.into(), bytes }
}

/// All of them. Three are long: two of 1,000 places and one of 1,001.
pub fn old_media() -> Vec<OldMedium> {
    let mut draw = Draw { random: Random::new(SEED) };
    let groups = [
        vec![named("example", example())],
        draw.marks(),
        draw.fields(),
        draw.gaps(),
        draw.damaged(),
        draw.slots(),
        draw.lengths(),
        draw.long(),
    ];
    groups.into_iter().flatten().collect()
}

/// "valid slot (2, 0, 0), 32 bytes AA, the 64-byte place of No. 3, 64 bytes BB, a valid place 3".
pub fn example() -> Vec<u8> {
    let place = |id: u64| old::encode(&Record { id, ..FIRST });
    let slots = [slot(2, 0, 0), [0xAA; SLOT_BYTES]].concat();
    [slots, place(1).to_vec(), vec![0xBB; old::PLACE_BYTES], place(3).to_vec()].concat()
}

/// The record of No. 3, as it was before No. 7.
pub const FIRST: Record = Record { sequence: 77, ..super::imports::RECORD };

fn slot(promise: u64, low: u64, local: u64) -> SlotBytes {
    Slot { promise, low, local }.encode()
}

/// A record with this ID and this data, and any other fields, header 0 often; its sequence has 32 bits.
pub fn draw_old_record<'a>(random: &mut Random, id: u64, data: &'a [u8]) -> Record<'a> {
    let [client, generation, partition] = [(); 3].map(|_| random.word());
    let header = draw_stored_header(random);
    let sequence = u64::from(draw_sequence(random) as u32);
    Record { id, client, generation, partition, sequence, header, data }
}

/// What the media are filled from.
pub struct Draw {
    pub random: Random,
}

impl Draw {
    /// Both slots valid, the second one current, and a place for each letter.
    fn named(&mut self, name: impl Into<String>, log: &str) -> OldMedium {
        named(name, self.medium([slot(3, 1, 1), slot(4, 1, 2)], log))
    }

    /// A place for each letter: v valid, . wiped, x valid but for one bit, w valid under another number,
    /// r any bytes, l with a length field of 29 and a check that agrees, z with a byte behind its data and
    /// a check that agrees, n the first bytes of a place of the new layout.
    pub fn medium(&mut self, slots: [SlotBytes; 2], log: &str) -> Vec<u8> {
        let mut medium = slots.concat();
        for (number, letter) in (1..).zip(log.chars()) {
            medium.extend(self.place(number, letter));
        }
        medium
    }

    fn place(&mut self, number: u64, letter: char) -> old::PlaceBytes {
        let mut place = self.valid(number + u64::from(letter == 'w'));
        match letter {
            '.' => place.fill(0),
            'x' => place[self.random.below(old::PLACE_BYTES as u64) as usize] ^= 1,
            'r' => place.copy_from_slice(&self.random.bytes(old::PLACE_BYTES)),
            'l' => change(&mut place, old::LENGTH_AT + 3, 29),
            'z' => {
                place = old::encode(&Record { id: number, ..FIRST });
                change(&mut place, old::PLACE_CHECK_AT - 1, 1);
            }
            'n' => {
                let new = Record { id: number, ..FIRST }.encode();
                place.copy_from_slice(&new[..old::PLACE_BYTES]);
            }
            _ => {}
        }
        place
    }

    pub fn valid(&mut self, id: u64) -> old::PlaceBytes {
        let length = self.random.below(DATA_LIMIT as u64 + 1) as usize;
        let data = self.random.bytes(length);
        old::encode(&draw_old_record(&mut self.random, id, &data))
    }

    /// Every mark of every N up to 3, and some of N = 14.
    fn marks(&mut self) -> Vec<OldMedium> {
        let small = (1..=3).flat_map(|places| (0..=places).map(move |mark| (places, mark)));
        let shapes = small.chain([(14, 0), (14, 9), (14, 14)]);
        let log = |places: usize, mark: usize| "v".repeat(mark) + &".".repeat(places - mark);
        shapes
            .map(|(places, mark)| self.named(format!("n{places}-mark{mark}"), &log(places, mark)))
            .collect()
    }

    /// Data of every length, every sequence that 32 bits hold, fields at their tops and at 0.
    fn fields(&mut self) -> Vec<OldMedium> {
        let data: Vec<Vec<u8>> = (0..=DATA_LIMIT).map(|length| self.random.bytes(length)).collect();
        let lengths: Vec<Record> = (1..)
            .zip(&data)
            .map(|(id, data)| draw_old_record(&mut self.random, id, data))
            .collect();
        let sequences = SEQUENCES.into_iter().filter(|&sequence| u32::try_from(sequence).is_ok());
        let sequences: Vec<Record> =
            (1..).zip(sequences).map(|(id, sequence)| Record { id, sequence, ..FIRST }).collect();
        let top = u64::from(u32::MAX);
        let ends = [Record { sequence: top, ..TOPS }, plain(2, &[]), plain(3, &[0; DATA_LIMIT])];
        vec![
            named("data-of-every-length", of_records(&lengths)),
            named("sequences", of_records(&sequences)),
            named("fields-at-their-ends", of_records(&ends)),
        ]
    }

    /// A gap at every place, with valid places behind it.
    fn gaps(&mut self) -> Vec<OldMedium> {
        let gap = |places: usize, at: usize| {
            let mut log = "v".repeat(places);
            log.replace_range(at - 1..at, ".");
            log
        };
        let mut media: Vec<OldMedium> =
            (1..=5).map(|at| self.named(format!("gap-at-{at}-of-5"), &gap(5, at))).collect();
        media.push(self.named("two-gaps", "v.v.v"));
        media.push(self.named("last-place-alone", "....v"));
        media
    }

    /// Places that are not valid, each in its own way.
    fn damaged(&mut self) -> Vec<OldMedium> {
        let logs = [
            ("one-bit", "vxv"),
            ("one-bit-of-the-first", "xvv"),
            ("other-number", "vwv"),
            ("numbered-one-up", "ww."),
            ("torn", "vrv"),
            ("torn-behind-the-log", "vv.r"),
            ("torn-throughout", "rrrr"),
            ("length-29", "vlv"),
            ("byte-behind-the-data", "vzv"),
            ("place-of-the-new-layout", "vnv"),
        ];
        logs.into_iter().map(|(name, log)| self.named(name, log)).collect()
    }

    /// Which slot is current, one that is not valid, and none that is.
    fn slots(&mut self) -> Vec<OldMedium> {
        let mut unclean = slot(9, 9, 9);
        unclean[SLOT_ZEROS_AT] = 1;
        seal(&mut unclean);
        let mut spoilt = slot(9, 9, 9);
        spoilt[7] ^= 1;
        let other = slot(4, 2, 1);
        let pairs = [
            ("first-slot-current", [slot(5, 0, 0), other]),
            ("second-slot-current", [other, slot(5, 0, 0)]),
            ("second-slot-by-low-water", [other, slot(4, 3, 0)]),
            ("slots-alike", [other, other]),
            ("slots-at-their-tops", [slot(u64::MAX, u64::MAX, u64::MAX), slot(0, 0, 0)]),
            ("first-slot-alone", [other, spoilt]),
            ("second-slot-alone", [spoilt, other]),
            ("first-slot-wiped", [[0; SLOT_BYTES], other]),
            ("second-slot-wiped", [other, [0; SLOT_BYTES]]),
            ("zeros-of-the-first-slot", [unclean, other]),
            ("both-slots-spoilt", [spoilt, unclean]),
            ("both-slots-wiped", [[0; SLOT_BYTES]; 2]),
            ("both-slots-torn", [[0xFF; SLOT_BYTES], [0xAA; SLOT_BYTES]]),
        ];
        pairs.into_iter().map(|(name, slots)| named(name, self.medium(slots, "vv."))).collect()
    }

    /// Lengths of no N; and a medium of the new layout, whose length is that of an old one.
    fn lengths(&mut self) -> Vec<OldMedium> {
        let whole = self.named("", "vvv").bytes;
        let long = |by: usize| [&whole[..], &vec![0; by]].concat();
        let mut new = medium::fresh(8);
        for id in 1..=8 {
            put(&mut new, medium::place_at(id), &Record { id, ..FIRST }.encode());
        }
        vec![
            named("empty", Vec::new()),
            named("one-byte", whole[..1].to_vec()),
            named("one-slot", whole[..SLOT_BYTES].to_vec()),
            named("63-bytes", whole[..63].to_vec()),
            named("64-bytes", whole[..64].to_vec()),
            named("65-bytes", whole[..65].to_vec()),
            named("a-byte-short", whole[..whole.len() - 1].to_vec()),
            named("a-byte-more", long(1)),
            named("eight-bytes-more", long(8)),
            named("n3-of-the-new-layout", new[..medium::medium_bytes(3)].to_vec()),
            named("n8-of-the-new-layout", new),
        ]
    }

    /// The most places, full and with a gap inside, and one place more.
    fn long(&mut self) -> Vec<OldMedium> {
        let full = "v".repeat(1000);
        let gap = format!("{}.{}", &full[..617], &full[618..]);
        vec![
            self.named("n1000-full", &full),
            self.named("n1000-gap-at-618", &gap),
            self.named("n1001-full", &(full + "v")),
        ]
    }
}

/// Another byte, and a check that agrees.
fn change(place: &mut old::PlaceBytes, at: usize, byte: u8) {
    place[at] = byte;
    seal(place);
}

/// A medium that these records fill.
fn of_records(records: &[Record]) -> Vec<u8> {
    let mut medium = [slot(7, 0, 1), slot(6, 0, 0)].concat();
    records.iter().for_each(|record| medium.extend(old::encode(record)));
    medium
}
