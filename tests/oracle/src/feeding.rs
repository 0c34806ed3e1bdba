//! A header that arrives in parts.

use crate::edition::Edition;
use crate::number::{DONE, LIMIT, MALFORMED, NO_OUTPUT_ROOM, TOO_LONG};
use crate::prefix::place;
use crate::read::{read, ReadAnswer};

/// The number of the edition, and all the octets fed that count. Each answer
/// is made anew from the whole of them, as if there had been no cuts.
#[derive(Clone, Debug)]
pub struct Feeding {
    edition: usize,
    octets: Vec<u8>,
}

impl Feeding {
    /// Nothing is refused here: an unknown edition is by the calls that follow.
    pub fn start(edition: usize) -> Feeding {
        Feeding {
            edition,
            octets: vec![],
        }
    }

    /// Takes one part more, and answers number and place. With 0 the octets so
    /// far stand at the buffer's beginning; a refusal leaves it as it is.
    /// Numbers in order: 10, 7, 1, 2. A part refused with 10 or 7 doesn't count.
    pub fn feed(&mut self, part: &[u8], buffer: &mut [u8]) -> (usize, usize) {
        let edition = match Edition::of(self.edition) {
            Ok(edition) => edition,
            Err(number) => return (number, 0),
        };
        if buffer.len() < LIMIT {
            return (NO_OUTPUT_ROOM, 0);
        }
        self.octets.extend(part);
        if self.octets.len() > LIMIT {
            return (TOO_LONG, 0);
        }
        let place = place(edition, &self.octets);
        if place < self.octets.len() {
            return (MALFORMED, place);
        }
        buffer[..place].copy_from_slice(&self.octets);
        (DONE, 0)
    }

    /// Reads the octets that count into the lent slots, which a refusal leaves
    /// as they are. Numbers in order: 10, 7, 1, 2, 3, 4.
    pub fn finish(
        &self,
        buffer: &[u8],
        link_slots: &mut [usize],
        param_slots: &mut [usize],
    ) -> ReadAnswer {
        if Edition::of(self.edition).is_ok() && buffer.len() < LIMIT {
            return ReadAnswer {
                number: NO_OUTPUT_ROOM,
                ..ReadAnswer::default()
            };
        }
        read(self.edition, &self.octets, link_slots, param_slots)
    }
}
