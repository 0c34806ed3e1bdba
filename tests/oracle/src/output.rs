//! Lent output.

use crate::number::{DONE, NO_OUTPUT_ROOM};

/// Puts the octets at the beginning of the output and answers number and
/// length; a refusal, also number 7, leaves the output as it is.
pub fn put(octets: Result<Vec<u8>, usize>, out: &mut [u8]) -> (usize, usize) {
    let octets = match octets {
        Ok(octets) => octets,
        Err(number) => return (number, 0),
    };
    match out.get_mut(..octets.len()) {
        Some(room) => {
            room.copy_from_slice(&octets);
            (DONE, octets.len())
        }
        None => (NO_OUTPUT_ROOM, 0),
    }
}
