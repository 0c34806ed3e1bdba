//! Walks through a catalogue.

use super::equal::{equal, equal_rooms};
use super::Compared;
use crate::lent::{Lent, Pattern};
use crate::reached::Entry;
use crate::run::Run;
use crate::shown;
use capstanbar::ffi;
use oracle::number::DONE;
use oracle::{End, Packs, Room, WalkAnswer};
use std::fmt::Debug;

/// A catalogue in lent memory with what is lent for work, and its packs, which the reference tells once
/// for all walks. What one walk leaves in the room, the next one finds there.
pub struct Walking<'t> {
    text: &'t [u8],
    lent: Lent<u8>,
    links: Lent<usize>,
    params: Lent<usize>,
    work: Lent<u8>,
    room: Room,
    packs: Option<Packs>,
}

impl<'t> Walking<'t> {
    pub fn new(run: &mut Run, text: &'t [u8], room: Room) -> Walking<'t> {
        Walking {
            text,
            lent: Lent::holding(text, run.salt()),
            links: Lent::new(room.link_slots, run.salt()),
            params: Lent::new(room.param_slots, run.salt()),
            work: Lent::new(room.octets, run.salt()),
            room,
            packs: Packs::of(text, room),
        }
    }

    /// How many packs there are, none if the catalogue is bad.
    pub fn packs(&self) -> Option<usize> {
        let packs = self.packs.as_ref()?;
        (0..).find(|&number| packs.uri(number).is_none())
    }

    /// Walks, and looks at all that isn't lent for work.
    pub fn walk(&mut self, run: &mut Run, start: usize, steps: i32) -> Compared<WalkAnswer> {
        let answer = ffi::walk(
            self.lent.room(),
            start,
            steps,
            self.links.room_mut(),
            self.params.room_mut(),
            self.work.room_mut(),
        );
        let answer = WalkAnswer {
            number: answer.number,
            end: answer.end,
            pack: answer.pack,
            steps: answer.steps,
        };
        run.reached.count(Entry::Walk, answer.number);
        if answer.number == DONE {
            run.reached.count(Entry::Ends, answer.end);
        }
        let expected = oracle::walk_through(self.packs.as_ref(), start, steps, self.room.octets);
        let (text, room) = (self.text, self.room);
        let asked = || {
            let text = shown::octets(text);
            format!("walk {steps} steps from {start} in {room:?} through {text}")
        };
        equal(asked, answer, expected)?;
        equal_rooms(asked, "catalogue", &self.lent, text)?;
        only_within(asked, "link slots", &mut self.links, room.link_slots)?;
        only_within(asked, "parameter slots", &mut self.params, room.param_slots)?;
        only_within(asked, "octets for resolving", &mut self.work, room.octets)?;
        Ok(answer)
    }

    /// Where the first walk arrives, one of n steps from there ends as one of both does, with fewer
    /// steps by those of the first; where it doesn't, more steps change nothing.
    pub fn walk_on(&mut self, run: &mut Run, start: usize, m: i32, n: i32) -> Compared<()> {
        let first = self.walk(run, start, m)?;
        let expected = match first {
            _ if first.number != DONE => return Ok(()),
            _ if first.end != End::Arrived as usize => first,
            _ => {
                let rest = self.walk(run, first.pack, n)?;
                run.reached.count(Entry::Onwards, rest.end);
                let steps = rest.steps + m.unsigned_abs() as usize;
                WalkAnswer { steps, ..rest }
            }
        };
        let whole = self.walk(run, start, m + n)?;
        let text = self.text;
        let asked = || {
            let text = shown::octets(text);
            format!("walk {m} steps from {start}, and {n} more, through {text}")
        };
        equal(asked, whole, expected)
    }
}

/// What was lent may hold anything, and what stands round it holds what it held.
fn only_within<T: Pattern + Debug>(
    asked: impl Fn() -> String,
    what: &str,
    lent: &mut Lent<T>,
    room: usize,
) -> Compared<()> {
    lent.keep_first(room);
    equal_rooms(asked, what, lent, &[])
}
