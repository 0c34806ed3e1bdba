//! The states that feedings start with, and the first calls on those of unknown editions.

use super::both::Both;
use super::SMALL;
use crate::compare::{equal, Compared};
use crate::generate::edition::EDITIONS;
use crate::run::Run;
use capstanbar::ffi::{self, FeedingState};
use oracle::number::LIMIT;
use oracle::PARAM_SLOTS;

/// Some are known ones in 8, 16 or 32 bits.
const UNKNOWN: [usize; 9] = [
    2,
    3,
    256,
    257,
    1 << 16,
    1 << 32,
    (1 << 32) + 1,
    usize::MAX - 1,
    usize::MAX,
];

pub fn compare(run: &mut Run) -> Compared<()> {
    run.begin("feed starts");
    for edition in EDITIONS.into_iter().chain(UNKNOWN) {
        run.case();
        let started = FeedingState {
            edition,
            ..ffi::start(0)
        };
        equal(|| format!("start {edition}"), ffi::start(edition), started)?;
    }
    for edition in UNKNOWN {
        for part in [&b""[..], b"<a>;x", b"x", &[b' '; LIMIT + 1]] {
            refused(run, edition, part)?;
        }
    }
    Ok(())
}

/// Each buffer is refused with 10, and nothing counts of what was fed.
fn refused(run: &mut Run, edition: usize, part: &[u8]) -> Compared<()> {
    run.case();
    let mut both = Both::new(run, edition, LIMIT);
    for room in SMALL.into_iter().chain([LIMIT]) {
        both.feed_in(run, part, room)?;
        for slots in [[0, 0], [4, 0], [4, PARAM_SLOTS]] {
            both.finish_in(run, room, slots)?;
        }
    }
    Ok(())
}
