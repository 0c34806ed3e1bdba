//! What feeding and finishing answer whatever numbers the state has and octets the buffer. A finish is settled; of a feed it is free
//! whether a part that nothing settles is faulty, where, and what the state then says of how far the reading went.

use super::equal::{equal, equal_rooms};
use super::read::of_library;
use super::{Compared, Reading};
use crate::generate::edition;
use crate::lent::Lent;
use crate::run::Run;
use crate::shown::{self, Difference};
use capstanbar::ffi::{self, FeedAnswer, FeedingState};
use oracle::number::LIMIT;
use oracle::ReadAnswer;

/// Feeds a part; that many of the buffer's octets are lent. The state that was answered.
pub fn feed_any(
    run: &mut Run,
    state: FeedingState,
    part: &[u8],
    buffer: &mut Lent<u8>,
    room: usize,
) -> Compared<FeedingState> {
    let asked = || {
        let part = shown::octets(part);
        format!("feed {part} in {room} octets of buffer with {state:?}")
    };
    let lent = Lent::holding(part, run.salt());
    let answer = ffi::feed(state, lent.room(), &mut buffer.room_mut()[..room]);
    match settled(state, part.len(), room) {
        Some(expected) => equal(asked, answer, expected)?,
        None => judged(asked, state, state.total + part.len(), answer)?,
    }
    if answer.number == 0 {
        buffer.keep(state.total, part);
    }
    equal_rooms(asked, "buffer", buffer, &[])?;
    equal_rooms(asked, "part", &lent, part)?;
    Ok(answer.next)
}

/// The answer, unless the part is to be judged.
fn settled(state: FeedingState, length: usize, room: usize) -> Option<FeedAnswer> {
    let refused = |number, place, next| {
        Some(FeedAnswer {
            number,
            place,
            next,
        })
    };
    if !edition::is_known(state.edition) {
        return refused(10, 0, state);
    }
    if room < LIMIT {
        return refused(7, 0, state);
    }
    match state.total.checked_add(length) {
        Some(total) if total <= LIMIT && state.total <= state.place => None,
        Some(total) if total <= LIMIT => refused(2, state.place, FeedingState { total, ..state }),
        _ => refused(
            1,
            0,
            FeedingState {
                total: LIMIT + 1,
                ..state
            },
        ),
    }
}

/// A part that was judged is stored, or it has a fault.
fn judged(
    asked: impl Fn() -> String,
    state: FeedingState,
    total: usize,
    answer: FeedAnswer,
) -> Compared<()> {
    let FeedAnswer {
        number,
        place,
        next,
    } = answer;
    let right = match number {
        0 => {
            let moved = FeedingState {
                edition: state.edition,
                total,
                place: total,
                ..next
            };
            place == 0 && next == moved && next.target <= total
        }
        2 => {
            let moved = FeedingState {
                total,
                place,
                ..state
            };
            let open = (1..=3).contains(&state.phase);
            let told = open && place == state.target.min(state.total);
            place < total && (told || place >= state.total) && next == moved
        }
        _ => false,
    };
    if right {
        return Ok(());
    }
    Err(Difference {
        asked: asked(),
        library: format!("{answer:?}"),
        expected: format!("0 with {total} octets, or 2 with a place in the part or of the open target"),
    })
}

/// Finishes in that many link and parameter slots; that many of the buffer's octets are lent.
pub fn finish_any(
    run: &mut Run,
    state: FeedingState,
    buffer: &Lent<u8>,
    room: usize,
    slots: [usize; 2],
) -> Compared<()> {
    let lent = &buffer.room()[..room];
    let asked = || {
        let octets = shown::octets(&lent[..room.min(state.total)]);
        format!("finish in link and parameter slots {slots:?}, {room} octets of buffer that begin {octets}, with {state:?}")
    };
    let expected = Reading::by(|links, params| finished(state, lent, links, params), slots);
    let [mut links, mut params] = slots.map(|slots| Lent::new(slots, run.salt()));
    let answer = ffi::finish(state, lent, links.room_mut(), params.room_mut());
    equal(asked, of_library(answer), expected.answer)?;
    equal_rooms(asked, "links", &links, &expected.links)?;
    equal_rooms(asked, "parameters", &params, &expected.params)?;
    equal_rooms(asked, "buffer", buffer, &[])
}

/// A refusal that the state settles, or what is read of as many octets as it counts.
fn finished(
    state: FeedingState,
    buffer: &[u8],
    links: &mut [usize],
    params: &mut [usize],
) -> ReadAnswer {
    let refused = |number, place| ReadAnswer {
        number,
        place,
        ..ReadAnswer::default()
    };
    if !edition::is_known(state.edition) {
        return refused(10, 0);
    }
    if buffer.len() < LIMIT {
        return refused(7, 0);
    }
    if state.total > LIMIT {
        return refused(1, 0);
    }
    if state.place < state.total {
        return refused(2, state.place);
    }
    oracle::read(state.edition, &buffer[..state.total], links, params)
}
