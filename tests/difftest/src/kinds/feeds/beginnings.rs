//! A header that is cut in many ways. What a feed is answered hangs on the octets so far alone, so
//! the reference, which is slow, judges each beginning once.

use super::SMALL;
use crate::compare::{Compared, Expected, Fed, Reading};
use crate::kinds::ample;
use crate::run::Run;
use oracle::number::LIMIT;
use oracle::{Feeding, PARAM_SLOTS};
use std::collections::BTreeMap;

/// What all calls with a buffer that is too small answer.
const NO_ROOM: Expected = Expected {
    number: 7,
    place: 0,
    gathered: &[],
};

pub struct Beginnings {
    edition: usize,
    octets: Vec<u8>,
    /// What was judged, by how many octets count.
    feeds: BTreeMap<usize, (usize, usize)>,
    finishes: BTreeMap<usize, Reading>,
}

impl Beginnings {
    pub fn of(edition: usize, octets: Vec<u8>) -> Beginnings {
        Beginnings {
            edition,
            octets,
            feeds: BTreeMap::new(),
            finishes: BTreeMap::new(),
        }
    }

    pub fn len(&self) -> usize {
        self.octets.len()
    }

    pub fn push(&mut self, octet: u8) {
        self.octets.push(octet);
    }

    pub fn pop(&mut self) {
        self.feeds.remove(&self.octets.len());
        self.finishes.remove(&self.octets.len());
        self.octets.pop();
    }

    /// Feeds the parts that end at these places, and finishes behind the last.
    pub fn feed(&mut self, run: &mut Run, fed: &mut Fed, ends: &[usize]) -> Compared<()> {
        run.case();
        fed.restart(run, self.edition);
        let mut start = 0;
        for &end in ends {
            self.feed_one(run, fed, start, end)?;
            start = end;
        }
        let slots = ample(start.min(LIMIT));
        let finish = self.finish(start, slots);
        fed.finish(run, LIMIT, slots, finish)
    }

    /// The same, with calls before each part and behind the last for which the buffer is too small.
    pub fn feed_disturbed(&mut self, run: &mut Run, fed: &mut Fed, ends: &[usize]) -> Compared<()> {
        run.case();
        fed.restart(run, self.edition);
        let feeding = Feeding::start(self.edition);
        let refused = Reading::by(|links, params| feeding.finish(&[], links, params), [0; 2]);
        let mut start = 0;
        for (&end, room) in ends.iter().zip(SMALL.into_iter().cycle()) {
            fed.feed(run, &self.octets[start..end], room, NO_ROOM)?;
            fed.feed(run, b"\n", room, NO_ROOM)?;
            fed.finish(run, room, [4, PARAM_SLOTS], &refused)?;
            self.feed_one(run, fed, start, end)?;
            start = end;
        }
        fed.feed(run, b"", SMALL[2], NO_ROOM)?;
        fed.finish(run, SMALL[2], [4, PARAM_SLOTS], &refused)?;
        let slots = ample(start.min(LIMIT));
        fed.finish(run, LIMIT, slots, self.finish(start, slots))
    }

    fn feed_one(&mut self, run: &mut Run, fed: &mut Fed, start: usize, end: usize) -> Compared<()> {
        let (number, place) = self.judged(end);
        let expected = Expected {
            number,
            place,
            gathered: if number == 0 {
                &self.octets[..end]
            } else {
                &[]
            },
        };
        fed.feed(run, &self.octets[start..end], LIMIT, expected)
    }

    /// Number and place of a feed behind which so many octets count.
    pub fn judged(&mut self, end: usize) -> (usize, usize) {
        let so_far = &self.octets[..end];
        let judged = || Feeding::start(self.edition).feed(so_far, &mut [0; LIMIT]);
        *self.feeds.entry(end).or_insert_with(judged)
    }

    /// What a finish behind so many octets answers.
    fn finish(&mut self, end: usize, slots: [usize; 2]) -> &Reading {
        let (edition, so_far) = (self.edition, &self.octets[..end]);
        let read = |links: &mut [usize], params: &mut [usize]| {
            oracle::read(edition, so_far, links, params)
        };
        let read = || Reading::by(read, slots);
        self.finishes.entry(end).or_insert_with(read)
    }
}
