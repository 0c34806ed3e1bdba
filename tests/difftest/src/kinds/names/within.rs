//! Every span of texts that are names in a row: what stands round a name isn't part of it.

use super::known;
use crate::compare::{name_code_of, Compared};
use crate::run::Run;

pub fn compare(run: &mut Run) -> Compared<()> {
    let row = known().concat();
    let mut doubled = known();
    doubled.extend(known().iter().rev());
    for text in [row.to_ascii_uppercase(), row, doubled.concat()] {
        for end in 0..=text.len() {
            for start in 0..=end {
                run.case();
                name_code_of(run, &text[start..end])?;
            }
        }
    }
    Ok(())
}
