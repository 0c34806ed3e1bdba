//! States of any numbers, and buffers that hold what wasn't fed.

use super::SMALL;
use crate::compare::{feed_any, finish_any, Compared};
use crate::generate::edition;
use crate::generate::header::{derive_any, SHORT};
use crate::lent::Lent;
use crate::numbers::Numbers;
use crate::run::Run;
use crate::state::{self, NUMBERS};
use capstanbar::ffi::{self, FeedingState};
use oracle::number::LIMIT;

/// Of each state so many feeds follow.
const FEEDS: usize = 6;

/// So many states are changed ones of a feeding.
const CHANGED: usize = 3000;

const HUGE: usize = usize::MAX;
const HALF: usize = HUGE / 2;

/// With the limit's octets more this is 0.
const WRAPS: usize = HUGE - 8191;

/// Some more than there are phases.
const PHASES: usize = 16;

/// Some more than what says how far the judging of a target went.
const JUDGED: usize = 700;

const PLACES: [usize; 14] = [
    0, 1, 2, 5, 100, 8190, 8191, 8192, 8193, 8194, 65_536, HALF, WRAPS, HUGE,
];

pub fn compare(run: &mut Run) -> Compared<()> {
    run.begin("feed strange");
    let mut buffer = Lent::new(LIMIT + 8, run.salt());
    for phase in (0..PHASES).chain([255, 256, HALF, HUGE]) {
        for total in PLACES {
            for place in PLACES {
                let state = FeedingState {
                    phase,
                    total,
                    place,
                    ..any_state(&mut run.numbers)
                };
                fill(&mut run.numbers, &mut buffer);
                follow(run, state, &mut buffer)?;
            }
        }
    }
    for _ in 0..CHANGED {
        let state = some_state(run, &mut buffer)?;
        if run.numbers.once_in(2) {
            fill(&mut run.numbers, &mut buffer);
        }
        follow(run, state, &mut buffer)?;
    }
    Ok(())
}

/// Feeds on from the state, with a finish behind each feed.
fn follow(run: &mut Run, mut state: FeedingState, buffer: &mut Lent<u8>) -> Compared<()> {
    run.case();
    for _ in 0..FEEDS {
        let part = some_part(&mut run.numbers, state.total);
        let room = some_room(&mut run.numbers);
        state = feed_any(run, state, &part, buffer, room)?;
        let room = some_room(&mut run.numbers);
        let slots = [run.numbers.below(40), run.numbers.below(40)];
        finish_any(run, state, buffer, room, slots)?;
    }
    Ok(())
}

/// A state of any numbers.
fn any_state(numbers: &mut Numbers) -> FeedingState {
    let start = ffi::start(edition::any(numbers));
    (0..NUMBERS).fold(start, |state, place| {
        let number = any_number(numbers);
        FeedingState {
            edition: state.edition,
            ..state::with(state, place, number)
        }
    })
}

fn any_number(numbers: &mut Numbers) -> usize {
    match numbers.below(3) {
        0 => numbers.below(PHASES),
        1 => numbers.below(JUDGED),
        _ => numbers.of(&PLACES),
    }
}

/// A state that a feed gave, mostly with another number in it.
fn some_state(run: &mut Run, buffer: &mut Lent<u8>) -> Compared<FeedingState> {
    let header = derive_any(&mut run.numbers, SHORT).header;
    let cut = run.numbers.below(header.len() + 1);
    let start = ffi::start(edition::any(&mut run.numbers));
    let mut state = feed_any(run, start, &header[..cut], buffer, LIMIT)?;
    match run.numbers.below(6) {
        0 => state.edition = edition::any(&mut run.numbers),
        1 => state.phase = run.numbers.below(PHASES),
        2 => state.total = run.numbers.of(&PLACES),
        3 => state.place = run.numbers.of(&PLACES),
        4 => {
            let edition = state.edition;
            let number = any_number(&mut run.numbers);
            state = state::with(state, run.numbers.below(NUMBERS), number);
            state.edition = edition;
        }
        _ => {}
    }
    Ok(state)
}

/// Mostly a buffer that is large enough.
fn some_room(numbers: &mut Numbers) -> usize {
    match numbers.below(8) {
        0 => numbers.of(&SMALL),
        1 => LIMIT + 8,
        _ => LIMIT,
    }
}

/// Some octets of a header, any octets, or just as many as the limit leaves, one more or one fewer.
fn some_part(numbers: &mut Numbers, total: usize) -> Vec<u8> {
    let left = LIMIT.saturating_sub(total);
    let length = match numbers.below(8) {
        0 => left,
        1 => left + 1,
        2 => left.saturating_sub(1),
        3 => LIMIT,
        _ => numbers.small(20),
    };
    match numbers.below(3) {
        0 => vec![numbers.of(b"<>;,=\"\\ a%/:[]#"); length],
        1 => vec![numbers.octet(); length],
        _ => derive_any(numbers, SHORT).header,
    }
}

/// Puts other octets into the buffer: the same few over and over, or any.
fn fill(numbers: &mut Numbers, buffer: &mut Lent<u8>) {
    const AGAIN: [&[u8]; 5] = [b"<>,", b"<>;x=\"y\",", b"<>;x=/,", b" ", b"<\\"];
    let any = numbers.once_in(2);
    let again = numbers.of(&AGAIN).iter().cycle();
    for (octet, &again) in buffer.room_mut().iter_mut().zip(again) {
        *octet = if any { numbers.octet() } else { again };
    }
    buffer.keep_first(buffer.room().len());
}
