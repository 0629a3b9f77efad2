//! The comparison of two script programs: what its scripts reach, and that it finds a difference.

mod differences;
mod program;
mod reach;
mod spoilt_lines;
