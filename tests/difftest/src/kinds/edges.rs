//! The edges of the lengths, and the order of the numbers where several could be answered.

mod lengths;
mod notes;
mod orders;

use crate::compare::Compared;
use crate::run::Run;

pub fn compare(run: &mut Run) -> Compared<()> {
    run.begin("edges");
    lengths::compare(run)?;
    notes::compare(run)?;
    orders::compare(run)
}
