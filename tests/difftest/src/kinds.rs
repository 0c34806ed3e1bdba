//! The kinds of cases.

mod bad;
mod damaged;
mod edges;
mod feeds;
mod joins;
mod made;
mod names;
mod octets;
pub mod program;
mod references;
mod resolution;
mod rooms;
mod short;
mod stored;
mod texts;
mod titles;
mod valid;
pub mod walks;
mod wild;

use crate::compare::{read, Compared};
use crate::editions::read_in_each;
use crate::generate::edition;
use crate::run::Run;
use crate::tables::Tables;
use oracle::{ReadAnswer, PARAM_SLOTS};

/// The cases that no seed changes.
pub fn fixed(run: &mut Run, deep: bool) -> Compared<()> {
    short::compare(run, deep)?;
    octets::compare(run)?;
    stored::compare(run)?;
    edges::compare(run)?;
    references::fixed(run, deep)?;
    names::fixed(run)?;
    texts::fixed(run)?;
    titles::fixed(run, deep)?;
    resolution::fixed(run, deep)?;
    walks::fixed(run)?;
    feeds::fixed(run, deep)
}

/// The cases of a seed.
pub fn seeded(run: &mut Run) -> Compared<()> {
    valid::compare(run)?;
    damaged::compare(run)?;
    rooms::compare(run)?;
    joins::compare(run)?;
    made::compare(run)?;
    bad::compare(run)?;
    wild::compare(run)?;
    references::seeded(run)?;
    names::seeded(run)?;
    texts::seeded(run)?;
    titles::seeded(run)?;
    resolution::seeded(run)?;
    walks::seeded(run)?;
    feeds::seeded(run)
}

/// Link and parameter slots for whatever a header of this length may hold.
fn ample(length: usize) -> [usize; 2] {
    [4 * ((length + 1) / 3), PARAM_SLOTS * (length / 2)]
}

/// Reads in room for whatever a header of this length may hold.
fn read_amply(run: &mut Run, edition: usize, header: &[u8]) -> Compared<(ReadAnswer, Tables)> {
    let [link_slots, param_slots] = ample(header.len());
    read(run, edition, header, link_slots, param_slots)
}

/// Of so many headers one is read in an unknown edition too.
const UNKNOWN: usize = 8;

/// Reads in ample room in each edition, and asks what was read.
fn read_and_ask(run: &mut Run, header: &[u8]) -> Compared<()> {
    run.case();
    for (answer, tables) in read_in_each(run, header, ample(header.len()))? {
        if answer.number == 0 {
            crate::ask::ask(run, &tables)?;
        }
    }
    if !run.numbers.once_in(UNKNOWN) {
        return Ok(());
    }
    let unknown = edition::unknown(&mut run.numbers);
    let [link_slots, param_slots] = [run.numbers.below(9), run.numbers.below(9)];
    read(run, unknown, header, link_slots, param_slots).map(drop)
}
