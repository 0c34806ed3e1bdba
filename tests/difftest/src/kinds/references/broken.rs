//! Derived headers of which some targets are no references any more: the first of them gives the
//! place, unless something else is wrong before its end.

use super::super::{ample, read_and_ask};
use crate::compare::{equal, read, Compared};
use crate::generate::edition::EDITIONS;
use crate::generate::header::{derive, Derived, SHORT};
use crate::generate::targets::spoilt;
use crate::kinds::feeds::Both;
use crate::run::Run;
use crate::shown;
use oracle::number::{LIMIT, MALFORMED};

const CASES: usize = 4000;

pub fn compare(run: &mut Run) -> Compared<()> {
    run.begin("broken targets");
    for edition in EDITIONS.into_iter().cycle().take(CASES) {
        let derived = derive(&mut run.numbers, edition, SHORT);
        if !derived.links.is_empty() {
            broken(run, edition, derived)?;
        }
    }
    Ok(())
}

/// Breaks one target or more.
fn broken(run: &mut Run, edition: usize, derived: Derived) -> Compared<()> {
    let Derived {
        mut header, links, ..
    } = derived;
    let first = run.numbers.below(links.len());
    let mut closed = 0;
    for (link, &[start, end, ..]) in links.iter().enumerate().skip(first).rev() {
        if link == first || run.numbers.once_in(3) {
            let target = spoilt(&mut run.numbers, &header[start..end]);
            closed = start + target.len();
            header.splice(start..end, target);
        }
    }
    let place = links[first][0];
    expect(run, edition, &header, place)?;
    // No header has this octet, and what stands before it began one.
    let at = run.numbers.below(header.len() + 1);
    header.insert(at, b'\n');
    expect(run, edition, &header, if at > closed { place } else { at })
}

/// The header is malformed in that place, whole and in parts.
fn expect(run: &mut Run, edition: usize, header: &[u8], place: usize) -> Compared<()> {
    read_and_ask(run, header)?;
    let [link_slots, param_slots] = ample(header.len());
    let (answer, _) = read(run, edition, header, link_slots, param_slots)?;
    let asked = || format!("read {} in edition {edition}", shown::octets(header));
    equal(asked, (answer.number, answer.place), (MALFORMED, place))?;
    let mut both = Both::new(run, edition, LIMIT);
    let mut rest = header;
    while !rest.is_empty() {
        let part;
        (part, rest) = rest.split_at(1 + run.numbers.small(rest.len()));
        both.feed(run, part)?;
    }
    both.finish(run, [0, 0]).map(drop)
}
