//! Resolving a reference on a base.

use super::equal::equal_rooms;
use super::output::equal_output;
use super::Compared;
use crate::lent::Lent;
use crate::reached::{Entry, RESULT_TOO_LONG};
use crate::run::Run;
use crate::shown;
use capstanbar::ffi;
use oracle::number::{DONE, LIMIT, NO_OUTPUT_ROOM, TOO_LONG};

/// A reference and a base in lent memory, and what they resolve to, which the reference tells once
/// for all rooms.
pub struct Resolving<'t> {
    reference: &'t [u8],
    base: &'t [u8],
    lent: [Lent<u8>; 2],
    expected: Result<Vec<u8>, usize>,
}

impl<'t> Resolving<'t> {
    pub fn new(run: &mut Run, reference: &'t [u8], base: &'t [u8]) -> Resolving<'t> {
        Resolving {
            reference,
            base,
            lent: [reference, base].map(|octets| Lent::holding(octets, run.salt())),
            expected: oracle::resolved(reference, base),
        }
    }

    /// The octets of the result, or the number of the refusal, whatever the room is.
    pub fn expected(&self) -> Result<&[u8], usize> {
        self.expected.as_deref().map_err(|&number| number)
    }

    /// Resolves into that many octets.
    pub fn compare(&self, run: &mut Run, room: usize) -> Compared<()> {
        let asked = || {
            let [reference, base] = [self.reference, self.base].map(shown::octets);
            format!("resolve {reference} on {base} into {room} octets")
        };
        let mut out = Lent::new(room, run.salt());
        let [reference, base] = &self.lent;
        let answer = ffi::resolve(reference.room(), base.room(), out.room_mut());
        let is_long = [self.reference, self.base]
            .iter()
            .any(|octets| octets.len() > LIMIT);
        let told = match answer.number {
            TOO_LONG if !is_long => RESULT_TOO_LONG,
            number => number,
        };
        run.reached.count(Entry::Resolve, told);
        let (expected, octets) = match self.expected() {
            Ok(result) if result.len() > room => ((NO_OUTPUT_ROOM, 0), vec![]),
            Ok(result) => ((DONE, result.len()), result.to_vec()),
            Err(number) => ((number, 0), vec![]),
        };
        equal_output(asked, answer, &out, expected, octets)?;
        equal_rooms(asked, "reference", reference, self.reference)?;
        equal_rooms(asked, "base", base, self.base)
    }
}
