//! Answers that a test expects, and what a lent byte holds before a call.

use lumbrisse::Refusal;

/// What a lent byte holds before a call.
pub const MARK: u8 = 0xA5;

pub fn refusal(number: usize, place: usize) -> Refusal {
    Refusal {
        number,
        place,
        count: 0,
    }
}

pub fn need(count: usize) -> Refusal {
    Refusal {
        number: Refusal::TOO_SHORT,
        place: 0,
        count,
    }
}
