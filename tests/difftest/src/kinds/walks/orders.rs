//! Which number is answered where two could be: every two things that can be wrong with a call, each in
//! several ways.

use super::{sample, SMALL, STEPS};
use crate::compare::{equal, Compared, Walking};
use crate::run::Run;
use oracle::number::LIMIT;
use oracle::Room;

/// What can be wrong, in the order of the numbers.
#[derive(Clone, Copy, Debug, PartialEq, Eq)]
enum Wrong {
    Range,
    Catalogue,
    Start,
    Room,
}

const ALL: [Wrong; 4] = [Wrong::Range, Wrong::Catalogue, Wrong::Start, Wrong::Room];

impl Wrong {
    fn number(self) -> usize {
        match self {
            Wrong::Range => 14,
            Wrong::Catalogue => 15,
            Wrong::Start => 8,
            Wrong::Room => 7,
        }
    }
}

pub fn compare(run: &mut Run) -> Compared<()> {
    for (place, &first) in ALL.iter().enumerate() {
        for &second in &ALL[place..] {
            both(run, [first, second])?;
        }
    }
    Ok(())
}

fn both(run: &mut Run, wrong: [Wrong; 2]) -> Compared<()> {
    let has = |one| wrong.contains(&one);
    let steps = match has(Wrong::Range) {
        true => STEPS.to_vec(),
        false => vec![-64, -63, -1, 0, 1, 2, 63, 64],
    };
    let starts = match has(Wrong::Start) {
        true => [5, 6, 255, 256, usize::MAX],
        false => [0, 1, 2, 3, 4],
    };
    let octets = match has(Wrong::Room) {
        true => [0, 1, LIMIT - 1],
        false => [LIMIT, LIMIT + 1, 2 * LIMIT],
    };
    for octets in octets {
        for (text, room) in texts(has(Wrong::Catalogue)) {
            let room = Room { octets, ..room };
            run.case();
            let mut walking = Walking::new(run, &text, room);
            for start in starts {
                for &steps in &steps {
                    let answer = walking.walk(run, start, steps)?;
                    let what = || format!("walk {steps} from {start} in {room:?}, wrong {wrong:?}");
                    equal(what, answer.number, wrong[0].number())?;
                }
            }
        }
    }
    Ok(())
}

/// The sample, or what is wrong with it: its end, a line, a value, its octets, the room.
fn texts(is_wrong: bool) -> Vec<(Vec<u8>, Room)> {
    let right = sample().to_vec();
    if !is_wrong {
        return vec![(right, SMALL)];
    }
    let narrow = Room {
        link_slots: 11,
        ..SMALL
    };
    let more: [&[u8]; 4] = [b"\n", b"a\t\n", b"a:\t<\n", &b"b".repeat(66_000)];
    let mut wrong: Vec<(Vec<u8>, Room)> = more
        .iter()
        .map(|more| ([&right[..], more].concat(), SMALL))
        .collect();
    wrong.push((right[..right.len() - 1].to_vec(), SMALL));
    wrong.push((right, narrow));
    wrong
}
