//! What a table prints of one line of calls.

use crate::clock::{least, Contender};
use crate::contenders::table_loop;

pub struct Figures {
    /// The ns of one call.
    pub each: f64,
    /// That as times the table loop.
    pub to_table: f64,
    /// What the independent reader takes, as times that.
    pub to_independent: f64,
}

/// Measures the contenders, which make a call for each text, beside the table loop over the texts.
pub fn figures(texts: &[Vec<u8>], this: Contender, independent: Contender) -> Figures {
    let [this, table, independent] = least([this, table_loop(texts), independent]);
    Figures {
        each: this / texts.len() as f64,
        to_table: this / table,
        to_independent: independent / this,
    }
}
