//! Extended values of any characters, with changes that make most of them wrong, and such ones of
//! any octets.

use super::ask;
use crate::compare::Compared;
use crate::generate::extended::{changed, extended, triples};
use crate::numbers::Numbers;
use crate::run::Run;

const CASES: usize = 150_000;

pub fn compare(run: &mut Run) -> Compared<()> {
    for _ in 0..CASES {
        let value = made(&mut run.numbers);
        ask(run, &value)?;
    }
    Ok(())
}

/// Mostly a short one.
fn made(numbers: &mut Numbers) -> Vec<u8> {
    let most = match numbers.once_in(200) {
        true => 1500,
        false => 12,
    };
    let value = extended(numbers, most);
    match numbers.below(4) {
        0 => value,
        1 => {
            let octets: Vec<u8> = (0..numbers.small(8)).map(|_| numbers.octet()).collect();
            [value, triples(numbers, &octets)].concat()
        }
        _ => changed(numbers, value),
    }
}
