//! Texts of each short length: the same, and first unequal in each place. Every two such lengths,
//! where one text begins or ends the other.

use super::{ask, other_case, text, unequal};
use crate::compare::Compared;
use crate::run::Run;

const MOST: usize = 70;

pub fn compare(run: &mut Run) -> Compared<()> {
    for length in 0..=MOST {
        let one = text(length);
        ask(run, &one, &other_case(&one))?;
        for place in 0..length {
            unequal(run, &one, place)?;
            ask(run, &one, &one[..place])?;
            ask(run, &one[place + 1..], &one)?;
        }
    }
    Ok(())
}
