//! Resolving a reference on a base.

use crate::number::{BAD_BASE, BAD_REFERENCE, LIMIT, TOO_LONG};
use crate::output::put;
use crate::resolution::target;
use crate::targets::{is_reference, is_uri};

/// Writes the octets that the reference resolves to, and answers number and
/// length. Numbers in order: 1, 12, 13, 1 (result), 7.
pub fn resolve(reference: &[u8], base: &[u8], out: &mut [u8]) -> (usize, usize) {
    put(resolved(reference, base), out)
}

/// These octets, or the number of the refusal, whatever the room is.
pub fn resolved(reference: &[u8], base: &[u8]) -> Result<Vec<u8>, usize> {
    if reference.len() > LIMIT || base.len() > LIMIT {
        return Err(TOO_LONG);
    }
    if !is_uri(base) {
        return Err(BAD_BASE);
    }
    if !is_reference(reference) {
        return Err(BAD_REFERENCE);
    }
    let target = target(base, reference);
    match target.len() > LIMIT {
        true => Err(TOO_LONG),
        false => Ok(target),
    }
}
