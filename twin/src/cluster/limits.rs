//! How much a client may ask for at once: a pair of limits, known by the client's number (document 02,
//! No. 6). It is issue alone that knows them: what is stored may have as much data as a place holds,
//! whoever sent it.

use super::Request;

/// "numbers below 100 are gates"; this one and those above belong to the booking system.
pub const FIRST_BOOKING_CLIENT: u32 = 100;

/// The most data bytes and the most locks of a request.
#[derive(Clone, Copy, Debug, PartialEq, Eq)]
pub struct Limits {
    pub data: usize,
    pub locks: usize,
}

/// The gate system's: "at most 12 data bytes and 1 lock".
pub const GATE: Limits = Limits { data: 12, locks: 1 };

/// The booking system keeps document 01's: "Data exceed 28 bytes, or locks exceed 4".
pub const BOOKING: Limits = Limits { data: 28, locks: 4 };

impl Limits {
    /// The pair that belongs to the client.
    pub fn of(client: u32) -> Limits {
        if client < FIRST_BOOKING_CLIENT {
            GATE
        } else {
            BOOKING
        }
    }

    /// Whether the request has more of either than the pair allows.
    pub fn are_exceeded(&self, request: &Request) -> bool {
        request.data.len() > self.data || request.locks.len() > self.locks
    }
}
