//! Texts that are compared, two and two.

mod any;
mod lengths;
mod long;
mod octets;
mod within;

use crate::compare::{compare_texts, Compared};
use crate::run::Run;

/// In a letter this bit is the case.
const CASE: u8 = 0x20;

/// Letters, octets next to them, and two beyond ASCII that differ as the cases of a letter do.
const OCTETS: &[u8] = b"aZ@Az[bY`By{\xC0mM\xE0*\0\xFF";

/// The cases that no seed changes.
pub fn fixed(run: &mut Run) -> Compared<()> {
    run.begin("texts");
    octets::compare(run)?;
    lengths::compare(run)?;
    long::compare(run)?;
    within::compare(run)
}

/// The cases of a seed.
pub fn seeded(run: &mut Run) -> Compared<()> {
    any::compare(run)
}

fn ask(run: &mut Run, one: &[u8], other: &[u8]) -> Compared<()> {
    run.case();
    compare_texts(run, one, other).map(drop)
}

/// A text of that length; one of another length has other octets in its places.
fn text(length: usize) -> Vec<u8> {
    let octets = OCTETS.iter().cycle().skip(length % OCTETS.len());
    octets.take(length).copied().collect()
}

/// The letters in the other case.
fn other_case(text: &[u8]) -> Vec<u8> {
    let flip = |octet: &u8| match octet.is_ascii_alphabetic() {
        true => octet ^ CASE,
        false => *octet,
    };
    text.iter().map(flip).collect()
}

/// Texts that are first unequal in that place: there alone, and in each place behind it too.
fn unequal(run: &mut Run, one: &[u8], place: usize) -> Compared<()> {
    for bits in [1, CASE, 0x80] {
        let octet = one[place] ^ bits;
        if bits == CASE && octet.is_ascii_alphabetic() {
            continue;
        }
        let mut other = other_case(one);
        other[place] = octet;
        ask(run, one, &other)?;
        for behind in &mut other[place + 1..] {
            *behind = !*behind;
        }
        ask(run, one, &other)?;
    }
    Ok(())
}
