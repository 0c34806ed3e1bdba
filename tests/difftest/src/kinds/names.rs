//! Names, known ones and others, of which the code is asked.

mod any;
mod changed;
mod long;
mod within;

use crate::compare::{name_code, Compared};
use crate::generate::octets::known;
use crate::run::Run;

/// The cases that no seed changes.
pub fn fixed(run: &mut Run) -> Compared<()> {
    run.begin("names");
    changed::compare(run)?;
    within::compare(run)?;
    long::compare(run)
}

/// The cases of a seed.
pub fn seeded(run: &mut Run) -> Compared<()> {
    any::compare(run)
}

fn ask(run: &mut Run, name: &[u8]) -> Compared<()> {
    run.case();
    name_code(run, name).map(drop)
}
