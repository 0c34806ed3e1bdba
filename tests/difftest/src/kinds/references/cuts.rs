//! Targets cut at each octet: what is answered is told once the `>` is fed, and not before.

use crate::compare::{Compared, Fed};
use crate::generate::edition::EDITIONS;
use crate::generate::targets::{RIGHT, WRONG};
use crate::kinds::feeds::Beginnings;
use crate::run::Run;
use oracle::number::LIMIT;

/// What stands before a target and behind it. The last is a value, which nobody judges, and in RFC
/// 8288's edition a fault.
const ROUND: [(&[u8], &[u8]); 4] = [
    (b"<", b">"),
    (b"<a>;x=\"<\" ,<", b">;x"),
    (b"<%4f>,<", b"><"),
    (b"<>;x=<", b">,<b>"),
];

/// Behind a target that isn't closed: nothing, and what no target has.
const OPEN: [&[u8]; 4] = [b"", b" >", b"%>", b"<1:a>"];

pub fn compare(run: &mut Run) -> Compared<()> {
    run.begin("target cuts");
    for edition in EDITIONS {
        let mut fed = Fed::new(run, edition, LIMIT);
        for target in [RIGHT, WRONG].concat() {
            for (before, behind) in ROUND {
                let header = Beginnings::of(edition, [before, target, behind].concat());
                every_cut(run, &mut fed, header, before.len())?;
            }
            for behind in OPEN {
                let header = Beginnings::of(edition, [b"<", target, behind].concat());
                every_cut(run, &mut fed, header, 1)?;
            }
        }
    }
    Ok(())
}

/// Two and three parts, cut in the target or at its ends, and octet by octet.
fn every_cut(run: &mut Run, fed: &mut Fed, mut header: Beginnings, start: usize) -> Compared<()> {
    let end = header.len();
    for first in start..=end {
        header.feed(run, fed, &[first, end])?;
        for second in first..end {
            header.feed(run, fed, &[first, second, end])?;
        }
    }
    header.feed(run, fed, &Vec::from_iter(1..=end))
}
