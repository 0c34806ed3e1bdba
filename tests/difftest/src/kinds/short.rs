//! Every short string of the grammar's delimiters, also behind the beginning of a header.

use super::read_and_ask;
use crate::compare::Compared;
use crate::run::Run;

pub const DELIMITERS: &[u8] = b"<>;,=\"\\ a%";

/// What stands before, and how many octets follow at most.
pub const BEFORE: [(&[u8], usize); 8] = [
    (b"", 5),
    (b"<", 3),
    (b"<%", 3),
    (b"<a>", 4),
    (b"<a>;", 5),
    (b"<a>;rel=", 4),
    (b"<a>;rel=/", 3),
    (b"<a>;rel=\"", 5),
];

/// In a deep run one octet more follows.
pub fn compare(run: &mut Run, deep: bool) -> Compared<()> {
    run.begin("short");
    for (before, most) in BEFORE {
        for length in 0..=most + usize::from(deep) {
            every(run, before, length)?;
        }
    }
    Ok(())
}

/// Every string of the length, by counting in the delimiters.
fn every(run: &mut Run, before: &[u8], length: usize) -> Compared<()> {
    let base = DELIMITERS.len();
    let mut header = [before, &vec![0; length]].concat();
    for mut number in 0..base.pow(length as u32) {
        for octet in &mut header[before.len()..] {
            *octet = DELIMITERS[number % base];
            number /= base;
        }
        read_and_ask(run, &header)?;
    }
    Ok(())
}
