//! Slots from none to more than the values take, each value by itself; and the program's rooms.

use super::{ask, catalogue, PROGRAM};
use crate::compare::{equal, Compared, Walking};
use crate::run::Run;
use oracle::number::{BAD_CATALOGUE, DONE, LIMIT};
use oracle::{Room, PARAM_SLOTS};

pub fn compare(run: &mut Run) -> Compared<()> {
    each(run)?;
    // One of many packs takes more.
    for (links, params) in [(12, 23), (11, 24), (12, 24)] {
        let value = [&b"<a>,".repeat(11)[..], b"<b>", &b";x".repeat(24)].concat();
        let mut text = vec![];
        for pack in 0..40 {
            let value = if pack == 33 {
                &value[..]
            } else {
                b"<0>;rel=next"
            };
            text.extend(catalogue(&[(format!("a:{pack}").as_bytes(), value)]));
        }
        let room = Room {
            link_slots: 4 * links,
            param_slots: PARAM_SLOTS * params,
            octets: LIMIT,
        };
        ask(run, &text, room)?;
    }
    // The program's rooms, just filled and one over; what is not kept takes no room.
    for links in [255, 256, 257] {
        ask(run, &catalogue(&[(b"a:b", &b"<>,".repeat(links))]), PROGRAM)?;
    }
    for params in [1023, 1024, 1025] {
        let value = [b"<>", &b";x".repeat(params)[..]].concat();
        ask(run, &catalogue(&[(b"a:b", &value)]), PROGRAM)?;
        let value = [b"<>", &b";x".repeat(params - 1)[..], b";rel=next;rel;rel"].concat();
        ask(run, &catalogue(&[(b"a:b", &value)]), PROGRAM)?;
    }
    Ok(())
}

/// Two links with one parameter, and one link with two: all the room is each value's.
fn each(run: &mut Run) -> Compared<()> {
    let text = catalogue(&[
        (b"a:b", b"<c>;rel=next,<d>"),
        (b"a:c", b"<b>;rel=prev;x;rel=y"),
        (b"a:d", b""),
    ]);
    for link_slots in 0..=13 {
        for param_slots in 0..=20 {
            let room = Room {
                link_slots,
                param_slots,
                octets: LIMIT,
            };
            run.case();
            let mut walking = Walking::new(run, &text, room);
            let due = match link_slots < 8 || param_slots < 2 * PARAM_SLOTS {
                true => BAD_CATALOGUE,
                false => DONE,
            };
            for start in 0..3 {
                let answer = walking.walk(run, start, 1)?;
                equal(|| format!("walk in {room:?}"), answer.number, due)?;
                walking.walk(run, start, -2)?;
            }
        }
    }
    Ok(())
}
