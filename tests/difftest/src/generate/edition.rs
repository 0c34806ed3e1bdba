//! Numbers of editions, listed apart from those of the reference.

use crate::numbers::Numbers;

/// RFC 8288's.
pub const NEWER: usize = 0;
/// RFC 5988's.
pub const OLDER: usize = 1;
pub const EDITIONS: [usize; 2] = [NEWER, OLDER];

pub fn is_known(edition: usize) -> bool {
    EDITIONS.contains(&edition)
}

pub fn known(numbers: &mut Numbers) -> usize {
    numbers.of(&EDITIONS)
}

/// A number of no edition: the next one, the largest, any large one, or one that is a known one's in
/// fewer bits.
pub fn unknown(numbers: &mut Numbers) -> usize {
    match numbers.below(4) {
        0 => 2,
        1 => usize::MAX,
        2 => usize::MAX / 2 + numbers.next() as usize / 2,
        _ => (1 << (1 + numbers.below(63))) + numbers.below(2),
    }
}

/// Mostly a known one.
pub fn any(numbers: &mut Numbers) -> usize {
    match numbers.once_in(6) {
        true => unknown(numbers),
        false => known(numbers),
    }
}
