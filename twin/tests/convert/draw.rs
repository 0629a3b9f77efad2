//! Random old media: mostly a log, with damage of every kind; second slices, mostly of the right length.

use twin::medium::{seal, Slot};
use twin::old;
use twin::random::Random;
use twin::tries::old_media::Draw;

/// An old medium, and a second slice with any bytes.
#[derive(Clone, Debug)]
pub struct Conversion {
    pub old: Vec<u8>,
    pub new: Vec<u8>,
}

impl Conversion {
    pub fn apply(&mut self) -> Option<u64> {
        twin::convert::convert(&self.old, &mut self.new).err().map(|declined| declined.number())
    }
}

/// An old medium of up to six places, and a slice of the length that goes with it.
pub fn draw_whole(random: &mut Random) -> Conversion {
    let places = 1 + random.below(6) as usize;
    let slots = [(); 2].map(|_| draw_slot(random));
    let run = random.below(places as u64 + 2) as usize;
    let letters = ['v', 'v', '.', 'x', 'w', 'r', 'l', 'z', 'n'];
    let log: String =
        (0..places).map(|at| if at < run { 'v' } else { *random.pick(&letters) }).collect();
    let old = Draw { random: Random::new(random.number()) }.medium(slots, &log);
    Conversion { old, new: random.bytes(64 + 72 * places) }
}

/// Few values, so that ranks are often equal; now and then a slot that is not valid.
fn draw_slot(random: &mut Random) -> [u8; 32] {
    let [promise, low, local] = [(); 3].map(|_| random.below(3));
    let mut slot = Slot { promise, low, local }.encode();
    match random.below(8) {
        0 => slot[random.below(32) as usize] ^= 1 << random.below(8),
        1 => {
            slot[24 + random.below(4) as usize] = 1;
            seal(&mut slot);
        }
        _ => {}
    }
    slot
}

/// Changes one thing or none.
pub fn damage(random: &mut Random, conversion: &mut Conversion) {
    let Conversion { old, new } = conversion;
    match random.below(10) {
        0 => resize(random, old, 64),
        1 => resize(random, new, 72),
        2..=4 => flip(random, old),
        5..=7 => reseal(random, old),
        8 => resize_both(random, conversion),
        _ => {}
    }
}

/// By a byte, by some, or by a place.
fn resize(random: &mut Random, bytes: &mut Vec<u8>, place: usize) {
    let by = *random.pick(&[1, 1, 4, 8, place, place, 2 * place]);
    let length = if random.chance(2) { bytes.len() + by } else { bytes.len().saturating_sub(by) };
    bytes.resize(length, 0);
}

/// A place more, or less, in both: again of one N, unless that is 0.
fn resize_both(random: &mut Random, Conversion { old, new }: &mut Conversion) {
    if random.chance(2) {
        old.extend([0; 64]);
        new.extend([0xEE; 72]);
    } else {
        old.truncate(old.len().saturating_sub(64));
        new.truncate(new.len().saturating_sub(72));
    }
}

fn flip(random: &mut Random, bytes: &mut [u8]) {
    if !bytes.is_empty() {
        bytes[random.below(bytes.len() as u64) as usize] ^= 1 << random.below(8);
    }
}

/// A bit of a place, and a check that agrees: the place is mostly valid still.
fn reseal(random: &mut Random, old: &mut [u8]) {
    let mut places: Vec<&mut [u8]> =
        old.get_mut(64..).unwrap_or_default().chunks_exact_mut(old::PLACE_BYTES).collect();
    if !places.is_empty() {
        let at = random.below(places.len() as u64) as usize;
        flip(random, &mut places[at][..60]);
        seal(places[at]);
    }
}
