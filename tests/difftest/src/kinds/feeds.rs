//! Headers that arrive in parts.

mod beginnings;
mod both;
mod cuts;
mod limits;
mod octets;
mod parts;
mod starts;
mod strange;

use crate::compare::Compared;
use crate::run::Run;
pub use beginnings::Beginnings;
pub use both::Both;

/// Buffers that are too small to gather a header.
const SMALL: [usize; 3] = [0, 1, 8191];

/// The cases that no seed changes.
pub fn fixed(run: &mut Run, deep: bool) -> Compared<()> {
    starts::compare(run)?;
    cuts::compare(run, deep)?;
    octets::compare(run)?;
    limits::compare(run)
}

/// The cases of a seed.
pub fn seeded(run: &mut Run) -> Compared<()> {
    parts::compare(run)?;
    strange::compare(run)
}
