//! The library and the reference, fed alike.

use crate::compare::{Compared, Expected, Fed, Reading};
use crate::generate::edition::NEWER;
use crate::reached::{Entry, In};
use crate::run::Run;
use oracle::Feeding;

pub struct Both {
    library: Fed,
    reference: Feeding,
    /// What the reference gathers, in a buffer that held the same.
    buffer: Vec<u8>,
    edition: In,
    /// Where the edition is unknown: the reference in RFC 8288's, in a buffer of its own.
    newer: (Feeding, Vec<u8>),
}

impl Both {
    pub fn new(run: &mut Run, edition: usize, room: usize) -> Both {
        let library = Fed::new(run, edition, room);
        Both {
            buffer: library.buffer().to_vec(),
            library,
            reference: Feeding::start(edition),
            edition: In::of(edition),
            newer: (Feeding::start(NEWER), vec![0; room]),
        }
    }

    pub fn feed(&mut self, run: &mut Run, part: &[u8]) -> Compared<()> {
        self.feed_in(run, part, self.buffer.len())
    }

    /// Feeds with that many octets of the buffer.
    pub fn feed_in(&mut self, run: &mut Run, part: &[u8], room: usize) -> Compared<()> {
        let (number, place) = self.reference.feed(part, &mut self.buffer[..room]);
        if self.edition == In::Unknown {
            let (newer, buffer) = &mut self.newer;
            let (number, _) = newer.feed(part, &mut buffer[..room]);
            run.reached.count_in(In::Unknown, Entry::Feed, number);
        }
        let expected = Expected {
            number,
            place,
            gathered: &self.buffer,
        };
        self.library.feed(run, part, room, expected)
    }

    pub fn finish(&self, run: &mut Run, slots: [usize; 2]) -> Compared<Reading> {
        self.finish_in(run, self.buffer.len(), slots)
    }

    /// Finishes with that many octets of the buffer.
    pub fn finish_in(&self, run: &mut Run, room: usize, slots: [usize; 2]) -> Compared<Reading> {
        let reference = |links: &mut [usize], params: &mut [usize]| {
            self.reference.finish(&self.buffer[..room], links, params)
        };
        let expected = Reading::by(reference, slots);
        if self.edition == In::Unknown {
            let (newer, buffer) = &self.newer;
            let newer = |links: &mut [usize], params: &mut [usize]| {
                newer.finish(&buffer[..room], links, params)
            };
            let number = Reading::by(newer, slots).answer.number;
            run.reached.count_in(In::Unknown, Entry::Finish, number);
        }
        self.library.finish(run, room, slots, &expected)?;
        Ok(expected)
    }
}
