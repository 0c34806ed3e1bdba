//! Every short string of the grammar's delimiters, also behind the beginning of a header, cut
//! everywhere.

use super::beginnings::Beginnings;
use crate::compare::{Compared, Fed};
use crate::generate::edition::EDITIONS;
use crate::kinds::short::{BEFORE, DELIMITERS};
use crate::run::Run;
use oracle::number::LIMIT;

/// Up to this length strings are cut into three parts.
const SHORT: usize = 8;

/// One octet fewer follows than where strings are read whole.
pub fn compare(run: &mut Run, deep: bool) -> Compared<()> {
    run.begin("feed cuts");
    for edition in EDITIONS {
        let mut fed = Fed::new(run, edition, LIMIT);
        for (before, most) in BEFORE {
            let mut header = Beginnings::of(edition, before.to_vec());
            every(run, &mut fed, &mut header, most - 1 + usize::from(deep))?;
        }
    }
    Ok(())
}

/// The string itself, and those that are longer by up to so many octets.
fn every(run: &mut Run, fed: &mut Fed, header: &mut Beginnings, more: usize) -> Compared<()> {
    cut(run, fed, header)?;
    if more > 0 {
        for &octet in DELIMITERS {
            header.push(octet);
            every(run, fed, header, more - 1)?;
            header.pop();
        }
    }
    Ok(())
}

/// Two parts, three parts, which may be empty, and octet by octet.
fn cut(run: &mut Run, fed: &mut Fed, header: &mut Beginnings) -> Compared<()> {
    let end = header.len();
    for second in 0..=end {
        header.feed(run, fed, &[second, end])?;
        if end <= SHORT {
            for first in 0..=second {
                header.feed(run, fed, &[first, second, end])?;
            }
        }
    }
    header.feed(run, fed, &Vec::from_iter(1..=end))
}
