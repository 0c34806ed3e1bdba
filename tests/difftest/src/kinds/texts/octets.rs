//! Every pair of octets, alone and in each place of a text, as octets may be compared many at once.

use super::ask;
use crate::compare::{compare_texts_of, Compared};
use crate::run::Run;

/// One octet more than the widest step that is likely.
const AMONG: [u8; 17] = *b"abcdefgh@[`{IJKLM";

pub fn compare(run: &mut Run) -> Compared<()> {
    for one in 0..=255 {
        for other in 0..=255 {
            ask(run, &[one], &[other])?;
            among(run, one, other)?;
        }
    }
    Ok(())
}

fn among(run: &mut Run, one: u8, other: u8) -> Compared<()> {
    for place in 0..AMONG.len() {
        run.case();
        let (mut first, mut second) = (AMONG, AMONG);
        first[place] = one;
        second[place] = other;
        compare_texts_of(run, &first, &second)?;
    }
    Ok(())
}
