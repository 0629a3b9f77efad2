//! The pieces in which a program gets its input, so that lines cross the ends of its reads.

use crate::random::Random;

/// What a program reads at once at most; a longer piece could be cut short on its way.
pub const LONGEST: usize = 4 * 1024;

/// More pieces than this take long and show nothing new.
const MOST_PIECES: usize = 10_000;

/// Lengths from 1 to `LONGEST` that sum up to `length`.
pub fn draw(random: &mut Random, length: usize) -> Vec<usize> {
    let full = random.chance(3);
    let widest = *random.pick(&[1, 3, 40, 700, 4_000]).max(&(2 * length / MOST_PIECES));
    let mut pieces = Vec::new();
    let mut left = length;
    while left > 0 {
        let piece = if full { LONGEST } else { 1 + random.below(widest as u64) as usize };
        pieces.push(piece.min(left));
        left -= piece.min(left);
    }
    pieces
}
