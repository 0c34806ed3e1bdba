//! Names of any octets, and known ones that were changed more than once.

use super::{ask, known};
use crate::compare::Compared;
use crate::generate::case::cased;
use crate::generate::octets::{is_token, LETTERS};
use crate::numbers::Numbers;
use crate::run::Run;

const CASES: usize = 40_000;

/// Octets next to the letters, which a wrong folding may take for letters or for the star.
const MARKS: &[u8] = b"@`[{*\n";

pub fn compare(run: &mut Run) -> Compared<()> {
    run.begin("any names");
    for _ in 0..CASES {
        let name = match run.numbers.once_in(2) {
            true => changed(&mut run.numbers),
            false => made(&mut run.numbers),
        };
        ask(run, &name)?;
    }
    Ok(())
}

/// Mostly a short name; of letters, of a token's octets, or of any.
fn made(numbers: &mut Numbers) -> Vec<u8> {
    let length = match numbers.once_in(200) {
        true => numbers.below(9000),
        false => numbers.below(41),
    };
    let kind = numbers.below(3);
    let mut octet = || loop {
        let octet = match kind {
            0 => numbers.of(LETTERS),
            _ => numbers.octet(),
        };
        if kind == 2 || is_token(octet) {
            return octet;
        }
    };
    (0..length).map(|_| octet()).collect()
}

/// A known name, or two, with some changes or none.
fn changed(numbers: &mut Numbers) -> Vec<u8> {
    let known = known();
    let word = numbers.of(&known);
    let mut name = cased(numbers, word);
    if numbers.once_in(8) {
        name.extend(numbers.of(&known));
    }
    for _ in 0..numbers.below(4) {
        let at = numbers.below(name.len() + 1);
        let octet = match numbers.below(3) {
            0 => numbers.of(MARKS),
            1 => 192 + numbers.octet() % 64,
            _ => numbers.of(LETTERS),
        };
        match numbers.below(4) {
            0 => name.insert(at, octet),
            1 if at < name.len() => drop(name.remove(at)),
            2 if at < name.len() => name[at] = octet,
            _ => name.truncate(at.max(1)),
        }
    }
    name
}
