//! RFC 3986's examples, and others read by hand, each reference on each base.

use super::ask;
use crate::compare::{equal, Compared, Resolving};
use crate::run::Run;
use crate::shown;

const LIST: &str = include_str!("../../../../oracle/data/resolution.txt");

/// A base, a reference, and what it resolves to.
pub fn rows() -> impl Iterator<Item = [&'static [u8]; 3]> {
    LIST.lines().map(|line| {
        let columns: Vec<&[u8]> = line.split('\t').map(str::as_bytes).collect();
        columns.try_into().expect("three columns")
    })
}

pub fn compare(run: &mut Run) -> Compared<()> {
    let mut bases: Vec<&[u8]> = rows().map(|[base, _, _]| base).collect();
    bases.dedup();
    for [base, reference, result] in rows() {
        let asked = || {
            let [reference, base] = [reference, base].map(shown::octets);
            format!("the row of {reference} on {base}")
        };
        let told = Resolving::new(run, reference, base);
        equal(asked, told.expected(), Ok(result))?;
        for base in &bases {
            ask(run, reference, base)?;
            ask(run, result, base)?;
            ask(run, base, reference)?;
        }
    }
    Ok(())
}
