//! A walk through the view of a catalogue, which lends the program's rooms.

use crate::compare::{equal, Compared};
use crate::kinds::walks::PROGRAM;
use crate::shown;
use capstanbar::{Catalogue, Walk};
use oracle::number::DONE;
use oracle::WalkAnswer;

pub fn compare(text: &[u8], start: usize, steps: i32) -> Compared<()> {
    let walk = match Catalogue::new(text).walk(start, steps) {
        Ok(Walk { end, pack, steps }) => WalkAnswer {
            number: DONE,
            end: end.number(),
            pack,
            steps,
        },
        Err(refusal) => WalkAnswer {
            number: refusal.number(),
            ..WalkAnswer::default()
        },
    };
    let asked = || {
        let text = shown::octets(text);
        format!("walk {steps} steps from {start} through the view of {text}")
    };
    equal(asked, walk, oracle::walk(text, start, steps, PROGRAM))
}
