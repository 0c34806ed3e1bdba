//! Texts of any octets, each beside what became of it in another case and with some changes.

use super::{ask, CASE, OCTETS};
use crate::compare::Compared;
use crate::generate::octets::LETTERS;
use crate::numbers::Numbers;
use crate::run::Run;

const CASES: usize = 40_000;

const LONG: [usize; 3] = [8192, 8193, 70_000];

pub fn compare(run: &mut Run) -> Compared<()> {
    run.begin("any texts");
    for _ in 0..CASES {
        let one = made(&mut run.numbers);
        let mut other = any_case(&mut run.numbers, &one);
        match run.numbers.below(4) {
            0 => {}
            1 => resize(&mut run.numbers, &mut other),
            _ => change(&mut run.numbers, &mut other),
        }
        ask(run, &one, &other)?;
    }
    Ok(())
}

/// Mostly a short text; of letters, of octets that a wrong folding may mix up, or of any.
fn made(numbers: &mut Numbers) -> Vec<u8> {
    let length = match numbers.below(400) {
        0 => numbers.of(&LONG),
        1..4 => numbers.below(9000),
        _ => numbers.below(71),
    };
    let kind = numbers.below(3);
    let octet = |_| match kind {
        0 => numbers.of(LETTERS),
        1 => numbers.of(OCTETS),
        _ => numbers.octet(),
    };
    (0..length).map(octet).collect()
}

fn any_case(numbers: &mut Numbers, text: &[u8]) -> Vec<u8> {
    let flip = |octet: &u8| match octet.is_ascii_alphabetic() && numbers.once_in(2) {
        true => octet ^ CASE,
        false => *octet,
    };
    text.iter().map(flip).collect()
}

/// One octet more or fewer in any place.
fn resize(numbers: &mut Numbers, text: &mut Vec<u8>) {
    let at = numbers.below(text.len() + 1);
    match at < text.len() && numbers.once_in(2) {
        true => drop(text.remove(at)),
        false => text.insert(at, numbers.of(OCTETS)),
    }
}

/// Another octet in one place or in some, of which a few may still be the same letter.
fn change(numbers: &mut Numbers, text: &mut [u8]) {
    if text.is_empty() {
        return;
    }
    for _ in 0..=numbers.small(4) {
        let at = numbers.below(text.len());
        text[at] = match numbers.below(4) {
            0 => text[at] ^ CASE,
            1 => text[at] ^ 0x80,
            2 => numbers.of(OCTETS),
            _ => numbers.octet(),
        };
    }
}
