//! Derived, stored and damaged headers in any parts, with calls in between that must leave no trace,
//! and with more behind a finish.

use super::both::Both;
use super::SMALL;
use crate::compare::Compared;
use crate::generate::edition;
use crate::generate::header::{derive_any, SHORT};
use crate::kinds::ample;
use crate::kinds::damaged::{damaged, short_stored};
use crate::kinds::rooms::round;
use crate::numbers::Numbers;
use crate::run::Run;
use oracle::number::LIMIT;
use oracle::PARAM_SLOTS;

const CASES: usize = 600;

pub fn compare(run: &mut Run) -> Compared<()> {
    run.begin("feed parts");
    let stored = short_stored();
    for _ in 0..CASES {
        run.case();
        let room = run.numbers.of(&[LIMIT, LIMIT + 1, 20_000]);
        let edition = edition::any(&mut run.numbers);
        let mut both = Both::new(run, edition, room);
        let header = some_header(&mut run.numbers, &stored);
        feed_parts(run, &mut both, &header)?;
        finish_rooms(run, &both, header.len())?;
        feed_on(run, &mut both, header.len())?;
        disturb(run, &mut both)?;
        both.finish(run, ample(64))?;
    }
    Ok(())
}

fn some_header(numbers: &mut Numbers, stored: &[&[u8]]) -> Vec<u8> {
    match numbers.below(4) {
        0 => numbers.of(stored).to_vec(),
        1 => damaged(numbers, stored),
        _ => derive_any(numbers, SHORT).header,
    }
}

/// Feeds all of it; most parts are short.
fn feed_parts(run: &mut Run, both: &mut Both, octets: &[u8]) -> Compared<()> {
    let mut rest = octets;
    while !rest.is_empty() {
        if run.numbers.once_in(2) {
            disturb(run, both)?;
        }
        let part;
        let length = 1 + run.numbers.small(rest.len());
        (part, rest) = rest.split_at(length);
        both.feed(run, part)?;
    }
    Ok(())
}

/// An empty part, a buffer that is too small, or a finish.
fn disturb(run: &mut Run, both: &mut Both) -> Compared<()> {
    let room = run.numbers.of(&SMALL);
    match run.numbers.below(4) {
        0 => both.feed(run, b""),
        1 => {
            let part = vec![run.numbers.octet(); run.numbers.small(9000)];
            both.feed_in(run, &part, room)
        }
        2 => both.finish_in(run, room, [8, 2 * PARAM_SLOTS]).map(drop),
        _ => both.finish(run, [4, PARAM_SLOTS]).map(drop),
    }
}

/// Finishes in ample room, and at, over and under what it takes.
fn finish_rooms(run: &mut Run, both: &Both, length: usize) -> Compared<()> {
    let reading = both.finish(run, ample(length))?;
    let (links, params) = (reading.links.len(), reading.params.len());
    both.finish(run, [links, params])?;
    let link_slots = run.numbers.of(&round(links, 4));
    let param_slots = run.numbers.of(&round(params, PARAM_SLOTS));
    both.finish(run, [link_slots, param_slots]).map(drop)
}

/// Feeds more behind a finish.
fn feed_on(run: &mut Run, both: &mut Both, length: usize) -> Compared<()> {
    let left = LIMIT - length;
    // The reference is slow with long ones that aren't malformed, so they come at once.
    if run.numbers.once_in(4) {
        let past = run.numbers.of(&[0, 1, 2, 3, 4, 5, 65_536, 70_000]);
        return both.feed(run, &vec![b' '; left + past]);
    }
    let numbers = &mut run.numbers;
    let more = match numbers.below(5) {
        0 => b" , <b>;rel=c".to_vec(),
        1 | 2 => vec![numbers.octet(); numbers.below(9)],
        3 => vec![numbers.of(b"\n\x7F"); left + numbers.below(3) - 1],
        _ => [b",", &derive_any(numbers, SHORT).header[..]].concat(),
    };
    feed_parts(run, both, &more)
}
