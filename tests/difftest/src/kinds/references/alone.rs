//! A target by itself: read in each edition, fed octet by octet, and in a table.
//!
//! Nothing is asked of the reference but whether it is one, so that many can be compared; where a
//! target's octets go wrong is told here.

use crate::compare::{equal, Compared};
use crate::generate::edition::EDITIONS;
use crate::generate::targets::first_fault;
use crate::reached::Entry;
use crate::run::Run;
use crate::shown;
use capstanbar::ffi::{self, FeedingState, RawTable};
use oracle::number::LIMIT;

/// What became of a target: read; no reference; with a fault of its octets.
const RIGHT: usize = 0;
const WRONG: usize = 1;
const FAULTY: usize = 2;

/// Number and place.
type Answer = (usize, usize);

/// A state for each edition.
pub type States = [FeedingState; 2];

/// The buffers that gather, one for each edition. What is gathered of a target is gathered anew for
/// those that begin alike, and each state goes on from the octets that it counts.
pub struct Alone {
    buffers: [Vec<u8>; 2],
}

impl Alone {
    pub fn new() -> Alone {
        Alone {
            buffers: EDITIONS.map(|_| vec![0; LIMIT]),
        }
    }

    /// The whole of a target. Whether it is read.
    pub fn compare(&mut self, run: &mut Run, target: &[u8]) -> Compared<bool> {
        run.case();
        let mut states = self.open()?;
        for end in 1..=target.len() {
            states = self.grow(states, &target[..end])?;
        }
        self.close(run, states, target, oracle::is_reference(target))
    }

    /// The states behind `<`.
    pub fn open(&mut self) -> Compared<States> {
        self.feed(EDITIONS.map(ffi::start), b"<", b"", (0, 0))
    }

    /// Feeds the last octet of the target: nothing is told yet of what is no reference.
    pub fn grow(&mut self, states: States, target: &[u8]) -> Compared<States> {
        let expected = match first_fault(target) {
            Some(fault) if fault < target.len() => (2, 1 + fault),
            _ => (0, 0),
        };
        let last = &target[target.len() - 1..];
        self.feed(states, last, target, expected)
    }

    /// Feeds the `>`, and reads and asks the target. Whether it is read.
    pub fn close(
        &mut self,
        run: &mut Run,
        states: States,
        target: &[u8],
        right: bool,
    ) -> Compared<bool> {
        let (became, expected) = match first_fault(target) {
            Some(fault) => (FAULTY, (2, 1 + fault)),
            None if right => (RIGHT, (0, 0)),
            None => (WRONG, (2, 1)),
        };
        run.reached.count(Entry::Target, became);
        self.feed(states, b">", target, expected)?;
        let header = [b"<", target, b">"].concat();
        for edition in EDITIONS {
            read(edition, &header, expected)?;
            search(edition, target, became == RIGHT)?;
        }
        Ok(became == RIGHT)
    }

    /// Feeds a part in each edition: the states behind it.
    fn feed(
        &mut self,
        mut states: States,
        part: &[u8],
        target: &[u8],
        expected: Answer,
    ) -> Compared<States> {
        for (state, buffer) in states.iter_mut().zip(&mut self.buffers) {
            let answer = ffi::feed(*state, part, buffer);
            let asked = || {
                let [part, target] = [part, target].map(shown::octets);
                let edition = state.edition;
                format!("feed {part} of the target {target} octet by octet in edition {edition}")
            };
            equal(asked, (answer.number, answer.place), expected)?;
            *state = answer.next;
        }
        Ok(states)
    }
}

/// Reads in room for one link.
fn read(edition: usize, header: &[u8], expected: Answer) -> Compared<()> {
    const HELD: [usize; 4] = [9999; 4];
    let mut links = HELD;
    let answer = ffi::read(edition, header, &mut links, &mut []);
    let (count, record) = match expected.0 {
        0 => (1, [1, header.len() - 1, 0, 0]),
        _ => (0, HELD),
    };
    let asked = || format!("read {} in edition {edition}", shown::octets(header));
    equal(asked, (answer.number, answer.place), expected)?;
    equal(asked, (answer.links, answer.params), (count, 0))?;
    equal(asked, links, record)
}

/// The target is the text of a table, in which nothing is found if it is good.
fn search(edition: usize, target: &[u8], right: bool) -> Compared<()> {
    let table = RawTable {
        text: target,
        links: &[0, target.len(), 0, 0],
        params: &[],
        link_count: 1,
        param_count: 0,
    };
    let answer = ffi::search(edition, table, b"a");
    let asked = || {
        let target = shown::octets(target);
        format!("search in a table of the target {target} in edition {edition}")
    };
    let number = if right { 9 } else { 5 };
    equal(asked, (answer.number, answer.link), (number, 0))
}
