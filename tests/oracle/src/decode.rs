//! Decoding one extended value.

use crate::extended::extended;
use crate::number::{BAD_EXTENDED, LIMIT, TOO_LONG};
use crate::output::put;

/// Writes the octets that the extended value gives, and answers number and
/// length. Nothing is taken out of it first. Numbers in order: 1, 11, 7.
pub fn decode(value: &[u8], out: &mut [u8]) -> (usize, usize) {
    let octets = match value.len() > LIMIT {
        true => Err(TOO_LONG),
        false => extended(value).ok_or(BAD_EXTENDED),
    };
    put(octets, out)
}
