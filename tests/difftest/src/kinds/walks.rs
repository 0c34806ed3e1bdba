//! Walks through catalogues of packs.

mod any;
mod graphs;
mod limits;
mod lines;
mod orders;
mod rooms;
mod rows;

use crate::compare::{Compared, Walking};
use crate::run::Run;
use oracle::number::LIMIT;
use oracle::{Room, PARAM_SLOTS};
pub use rows::{sample, STEPS};

/// What the walking program lends.
pub const PROGRAM: Room = Room {
    link_slots: 4 * 256,
    param_slots: PARAM_SLOTS * 1024,
    octets: LIMIT,
};

/// Enough for short values.
const SMALL: Room = Room {
    link_slots: 4 * 12,
    param_slots: PARAM_SLOTS * 24,
    octets: LIMIT,
};

/// The cases that no seed changes.
pub fn fixed(run: &mut Run) -> Compared<()> {
    run.begin("walks");
    rows::compare(run)?;
    graphs::compare(run)?;
    limits::compare(run)?;
    orders::compare(run)?;
    rooms::compare(run)?;
    run.begin("catalogues");
    lines::compare(run)
}

/// The cases of a seed.
pub fn seeded(run: &mut Run) -> Compared<()> {
    run.begin("any walks");
    any::compare(run)
}

/// A line for each URI with its value.
pub fn catalogue(packs: &[(&[u8], &[u8])]) -> Vec<u8> {
    let lines = packs
        .iter()
        .map(|(uri, value)| [uri, &b"\t"[..], value, b"\n"].concat());
    lines.collect::<Vec<_>>().concat()
}

/// A case: walks from the first packs, the last one, and a number that no pack has, none, one and some
/// steps either way. Through a bad catalogue two walks do.
fn ask(run: &mut Run, text: &[u8], room: Room) -> Compared<()> {
    run.case();
    let mut walking = Walking::new(run, text, room);
    let Some(packs) = walking.packs() else {
        walking.walk(run, 0, 0)?;
        return walking.walk(run, 1, -1).map(drop);
    };
    for start in [0, 1, packs.saturating_sub(1), packs] {
        for steps in [0, 1, -1, 2, -3] {
            walking.walk(run, start, steps)?;
        }
    }
    Ok(())
}
