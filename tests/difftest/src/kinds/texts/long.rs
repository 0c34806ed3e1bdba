//! Long texts, also over the limit of headers, as the comparison has none; and lengths that would
//! be equal in 8 or in 16 bits.

use super::{ask, other_case, text, unequal};
use crate::compare::Compared;
use crate::run::Run;

const LENGTHS: [usize; 5] = [256, 257, 8192, 8193, 70_000];

const FEWER: [usize; 4] = [1, 8, 256, 65_536];

pub fn compare(run: &mut Run) -> Compared<()> {
    for length in LENGTHS {
        let one = text(length);
        ask(run, &one, &other_case(&one))?;
        for place in places(length) {
            unequal(run, &one, place)?;
        }
        for fewer in FEWER.into_iter().filter(|&fewer| fewer <= length) {
            ask(run, &one, &one[fewer..])?;
            ask(run, &one[..length - fewer], &one)?;
        }
    }
    Ok(())
}

/// The first place and the last, and ever farther ones from each.
fn places(length: usize) -> impl Iterator<Item = usize> {
    let steps = (0..).map(|bits| 1 << bits);
    let steps = steps.take_while(move |&step| step <= length);
    steps.flat_map(move |step| [step - 1, length - step])
}
