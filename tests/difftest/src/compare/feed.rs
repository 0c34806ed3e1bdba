//! Feeding and finishing: the state that goes from call to call, and the buffer that gathers.

use super::equal::{equal, equal_rooms};
use super::read::of_library;
use super::{Compared, Reading};
use crate::lent::Lent;
use crate::reached::{Entry, In};
use crate::run::Run;
use crate::shown;
use capstanbar::ffi::{self, FeedingState};
use oracle::number::LIMIT;

/// What a feed should answer, and what the buffer should then begin with.
#[derive(Clone, Copy)]
pub struct Expected<'b> {
    pub number: usize,
    pub place: usize,
    /// Where this ends, the buffer is as it was.
    pub gathered: &'b [u8],
}

/// A header that arrives in parts.
pub struct Fed {
    edition: usize,
    state: FeedingState,
    buffer: Lent<u8>,
    /// How many octets count.
    total: usize,
    /// The parts so far, and how many octets of the buffer were lent for each.
    parts: Vec<(Vec<u8>, usize)>,
}

impl Fed {
    pub fn new(run: &mut Run, edition: usize, room: usize) -> Fed {
        Fed {
            edition,
            state: ffi::start(edition),
            buffer: Lent::new(room, run.salt()),
            total: 0,
            parts: vec![],
        }
    }

    /// Starts anew in the same buffer, with another pattern where octets may have been gathered.
    pub fn restart(&mut self, run: &mut Run, edition: usize) {
        self.buffer.refill(self.total.min(LIMIT), run.salt());
        self.edition = edition;
        self.state = ffi::start(edition);
        self.total = 0;
        self.parts.clear();
    }

    pub fn buffer(&self) -> &[u8] {
        self.buffer.room()
    }

    /// Feeds a part; that many of the buffer's octets are lent.
    pub fn feed(
        &mut self,
        run: &mut Run,
        part: &[u8],
        room: usize,
        expected: Expected,
    ) -> Compared<()> {
        let lent = Lent::holding(part, run.salt());
        let lent_buffer = &mut self.buffer.room_mut()[..room];
        let answer = ffi::feed(self.state, lent.room(), lent_buffer);
        self.count(run, Entry::Feed, answer.number);

        let before = self.state;
        self.state = answer.next;
        self.parts.push((part.to_vec(), room));
        self.buffer.keep(0, expected.gathered);
        if !matches!(expected.number, 7 | 10) {
            self.total += part.len();
        }
        let asked = || format!("feed {}", self.shown());
        let numbers = (answer.number, answer.place);
        equal(asked, numbers, (expected.number, expected.place))?;
        equal(asked, answer.next, self.next(before, expected))?;
        equal_rooms(asked, "buffer", &self.buffer, &[])?;
        equal_rooms(asked, "part", &lent, part)
    }

    /// The state that should follow on the one before; what isn't said of it is as it was answered.
    fn next(&self, before: FeedingState, expected: Expected) -> FeedingState {
        let total = self.total.min(LIMIT + 1);
        match expected.number {
            0 => FeedingState {
                edition: before.edition,
                total,
                place: total,
                ..self.state
            },
            1 => FeedingState {
                total,
                place: self.state.place,
                ..before
            },
            2 => FeedingState {
                total,
                place: expected.place,
                ..before
            },
            _ => before,
        }
    }

    /// Finishes in that many link and parameter slots, twice; that many of the buffer's octets are lent.
    pub fn finish(
        &self,
        run: &mut Run,
        room: usize,
        slots: [usize; 2],
        expected: &Reading,
    ) -> Compared<()> {
        let asked = || {
            let parts = self.shown();
            format!("finish in link and parameter slots {slots:?}, {room} octets of buffer, fed {parts}")
        };
        for _ in 0..2 {
            let [mut links, mut params] = slots.map(|slots| Lent::new(slots, run.salt()));
            let buffer = &self.buffer.room()[..room];
            let answer = ffi::finish(self.state, buffer, links.room_mut(), params.room_mut());
            self.count(run, Entry::Finish, answer.number);
            equal(asked, of_library(answer), expected.answer)?;
            equal_rooms(asked, "links", &links, &expected.links)?;
            equal_rooms(asked, "parameters", &params, &expected.params)?;
            equal_rooms(asked, "buffer", &self.buffer, &[])?;
        }
        Ok(())
    }

    /// Of unknown editions it is counted where the number that RFC 8288's would answer is at hand.
    fn count(&self, run: &mut Run, entry: Entry, number: usize) {
        let edition = In::of(self.edition);
        if edition != In::Unknown {
            run.reached.count_in(edition, entry, number);
        }
    }

    /// The edition, and all parts so far.
    fn shown(&self) -> String {
        let parts = self.parts.iter().map(|(part, room)| {
            let part = shown::octets(part);
            format!("{part} ({room} octets of buffer)")
        });
        let parts = parts.collect::<Vec<_>>().join(", ");
        format!("{parts} in edition {}", self.edition)
    }
}
