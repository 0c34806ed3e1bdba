//! The editions of reading.

use crate::number::UNKNOWN_EDITION;

/// By which RFC bare values are judged; all else is the same.
#[derive(Clone, Copy, Debug, PartialEq, Eq)]
pub enum Edition {
    Rfc8288,
    Rfc5988,
}

impl Edition {
    /// The edition of that number, or the number of the refusal.
    pub fn of(number: usize) -> Result<Edition, usize> {
        match number {
            0 => Ok(Edition::Rfc8288),
            1 => Ok(Edition::Rfc5988),
            _ => Err(UNKNOWN_EDITION),
        }
    }
}
