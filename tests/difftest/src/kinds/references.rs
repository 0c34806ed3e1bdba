//! Targets that are references and targets that aren't.

mod alone;
mod broken;
mod cuts;
mod literals;
mod strings;

use crate::compare::Compared;
use crate::run::Run;

/// The cases that no seed changes.
pub fn fixed(run: &mut Run, deep: bool) -> Compared<()> {
    strings::compare(run, deep)?;
    literals::compare(run)?;
    cuts::compare(run)
}

/// The cases of a seed.
pub fn seeded(run: &mut Run) -> Compared<()> {
    broken::compare(run)
}
