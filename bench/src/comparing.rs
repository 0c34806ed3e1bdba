//! What is compared before anything is measured.

use crate::library::{self, Table, EDITION, LIMIT};
use capstanbar::ffi::{self, FeedingState, ReadAnswer};
use capstanbar::{LINK_SLOTS, PARAM_SLOTS};

/// What reading answers, and the slots as it leaves them.
#[derive(PartialEq)]
pub struct Reading {
    pub answer: ReadAnswer,
    pub slots: (Vec<usize>, Vec<usize>),
}

impl Reading {
    fn by(read: impl FnOnce(&mut [usize], &mut [usize]) -> ReadAnswer) -> Reading {
        let mut slots = library::slots();
        let answer = read(&mut slots.0, &mut slots.1);
        Reading { answer, slots }
    }
}

/// A header's reading, which is the independent reader's too.
pub fn reading(name: &str, header: &[u8]) -> Reading {
    reading_in(EDITION, name, header)
}

pub fn reading_in(edition: usize, name: &str, header: &[u8]) -> Reading {
    let this = Reading::by(|links, params| library::read(edition, header, links, params));
    let independent = Reading::by(|links, params| {
        let answer = oracle::read(edition, header, links, params);
        ReadAnswer {
            number: answer.number,
            place: answer.place,
            links: answer.links,
            params: answer.params,
        }
    });
    assert!(this == independent, "{name}: the readings differ");
    this
}

/// A well-formed header, read into tables. They have no slots beyond their records, so that those of many headers lie close.
pub fn table(name: &str, header: &[u8]) -> Table {
    let reading = reading(name, header);
    assert_eq!(reading.answer.number, 0, "{name}");
    let (mut links, mut params) = reading.slots;
    links.truncate(LINK_SLOTS * reading.answer.links);
    params.truncate(PARAM_SLOTS * reading.answer.params);
    Table {
        text: header.to_vec(),
        links,
        params,
        link_count: reading.answer.links,
        param_count: reading.answer.params,
    }
}

/// Feeds the header in parts of each size: each feed answers what the independent reader's place tells of the octets so far, and the
/// finish as reading at once does.
pub fn feeding(name: &str, header: &[u8], sizes: &[usize]) {
    let at_once = reading(name, header);
    let place = match at_once.answer.number {
        2 => at_once.answer.place,
        _ => header.len(),
    };
    for size in sizes {
        let (state, buffer) = fed(name, header.chunks(*size), place);
        let this = Reading::by(|links, params| library::finish(state, &buffer, links, params));
        assert!(this == at_once, "{name}: the finish differs");
    }
}

/// The state and the buffer behind the parts, of which as many octets as the place says begin some well formed header: none of the headers
/// has a closed target that is no reference, whose place would lie before what tells it.
fn fed<'a>(
    name: &str,
    parts: impl Iterator<Item = &'a [u8]>,
    place: usize,
) -> (FeedingState, Vec<u8>) {
    let (mut state, mut buffer) = (ffi::start(EDITION), vec![b'?'; LIMIT]);
    let (mut total, mut gathered) = (0, buffer.clone());
    for part in parts {
        let answer = ffi::feed(state, part, &mut buffer);
        let start = total;
        total += part.len();
        let mut numbers = (2, place);
        if total <= place {
            numbers = (0, 0);
            gathered[start..total].copy_from_slice(part);
        }
        assert_eq!((answer.number, answer.place), numbers, "{name}");
        assert!(buffer == gathered, "{name}: the buffer differs");
        state = answer.next;
    }
    (state, buffer)
}
