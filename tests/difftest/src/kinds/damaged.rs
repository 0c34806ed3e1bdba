//! Headers that were right before something happened to them.

use super::read_and_ask;
use super::stored;
use crate::compare::Compared;
use crate::generate::header::{derive_any, SHORT};
use crate::numbers::Numbers;
use crate::run::Run;

const CASES: usize = 10000;

pub fn compare(run: &mut Run) -> Compared<()> {
    run.begin("damaged");
    let stored = short_stored();
    for _ in 0..CASES {
        let header = damaged(&mut run.numbers, &stored);
        read_and_ask(run, &header)?;
    }
    Ok(())
}

/// Stored headers that aren't long.
pub fn short_stored() -> Vec<&'static [u8]> {
    stored::headers()
        .filter(|header| header.len() < 100)
        .collect()
}

/// A stored or a derived header with some damage.
pub fn damaged(numbers: &mut Numbers, stored: &[&[u8]]) -> Vec<u8> {
    let mut header = match numbers.once_in(4) {
        true => numbers.of(stored).to_vec(),
        false => derive_any(numbers, SHORT).header,
    };
    for _ in 0..=numbers.small(3) {
        damage(numbers, &mut header);
    }
    header
}

fn damage(numbers: &mut Numbers, header: &mut Vec<u8>) {
    const MARKS: &[u8] = b"<>;,=\"\\ \t%a/:?#[]@1";
    let end = header.len();
    if end == 0 {
        return header.push(numbers.of(MARKS));
    }
    let at = numbers.below(end);
    match numbers.below(8) {
        0 => header[at] ^= 1 << numbers.below(8),
        1 => header[at] = numbers.octet(),
        2 => header[at] = numbers.of(MARKS),
        3 => header.insert(at, numbers.of(MARKS)),
        4 => drop(header.remove(at)),
        5 => header.insert(at, header[at]),
        6 => header.truncate(at),
        _ => header.swap(at, numbers.below(end)),
    }
}
