//! What an entry put out.

use super::equal::{equal, equal_rooms};
use super::Compared;
use crate::lent::Lent;
use capstanbar::ffi::LengthAnswer;

/// Compares what was put out, and what was left alone: the number, and the octets.
pub fn equal_output(
    asked: impl Fn() -> String,
    answer: LengthAnswer,
    out: &Lent<u8>,
    expected: (usize, usize),
    mut octets: Vec<u8>,
) -> Compared<(usize, Vec<u8>)> {
    equal(&asked, (answer.number, answer.length), expected)?;
    octets.truncate(answer.length);
    equal_rooms(&asked, "output", out, &octets)?;
    Ok((answer.number, octets))
}
