//! Extended values decoded, and the titles of links.

mod any;
mod headers;
mod lengths;
mod made;
mod octets;
mod sequences;
mod strings;

use crate::compare::{decode, Compared};
use crate::run::Run;
use oracle::number::DONE;

/// The cases that no seed changes.
pub fn fixed(run: &mut Run, deep: bool) -> Compared<()> {
    run.begin("extended values");
    strings::compare(run, deep)?;
    octets::compare(run)?;
    sequences::compare(run)?;
    lengths::compare(run)?;
    run.begin("titles");
    headers::compare(run)
}

/// The cases of a seed.
pub fn seeded(run: &mut Run) -> Compared<()> {
    run.begin("any extended values");
    any::compare(run)?;
    run.begin("made titles");
    made::compare(run)
}

/// Decodes in room for the value, in just the room that it takes, in an octet fewer, and in none. Of
/// a wrong one the room is all the same.
fn ask(run: &mut Run, value: &[u8]) -> Compared<()> {
    run.case();
    let (number, octets) = decode(run, value, value.len())?;
    let length = octets.len();
    if number == DONE {
        decode(run, value, length)?;
        decode(run, value, length.saturating_sub(1))?;
    }
    decode(run, value, 0).map(drop)
}

/// Behind a charset and an empty language.
fn behind_quotes(text: &[u8]) -> Vec<u8> {
    [b"UTF-8''", text].concat()
}

/// Each octet as a triple.
fn triples(octets: &[u8]) -> Vec<u8> {
    let triples: String = octets.iter().map(|octet| format!("%{octet:02X}")).collect();
    behind_quotes(triples.as_bytes())
}
