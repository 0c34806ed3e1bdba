//! How inputs and answers are printed where they differ.

use crate::tables::Tables;
use capstanbar::ffi::RawTable;
use oracle::PARAM_SLOTS;
use std::fmt::{self, Display, Formatter};

/// Octets as an escaped string that can be pasted behind a `b`.
pub fn octets(octets: &[u8]) -> String {
    format!("\"{}\"", octets.escape_ascii())
}

/// A table with its edition.
pub fn table(table: &Tables) -> String {
    format!("edition {}, {}", table.edition, raw_table(table.raw()))
}

/// A table with the slots that its counts reach.
pub fn raw_table(table: RawTable) -> String {
    format!(
        "text {}, link slots {}, parameter slots {}, counts {} {}",
        octets(table.text),
        slots(table.links, table.link_count.saturating_mul(4)),
        slots(table.params, table.param_count.saturating_mul(PARAM_SLOTS)),
        table.link_count,
        table.param_count,
    )
}

/// The first slots, and how many there are in all.
fn slots(all: &[usize], used: usize) -> String {
    let used = used.min(all.len());
    format!("{:?} of {}", &all[..used], all.len())
}

/// Two answers to one input that aren't equal.
pub struct Difference {
    /// What was asked, with its input.
    pub asked: String,
    pub library: String,
    pub expected: String,
}

impl Display for Difference {
    fn fmt(&self, f: &mut Formatter) -> fmt::Result {
        let Difference {
            asked,
            library,
            expected,
        } = self;
        write!(f, "{asked}; answered: {library}; expected: {expected}")
    }
}
