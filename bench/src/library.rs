//! The library's entries, by the crate over its C interface, and the table loop.

use capstanbar::ffi::{self, CompareAnswer, FeedingState, RawTable, ReadAnswer};
use capstanbar::Edition;
use std::hint::black_box;

pub const LIMIT: usize = capstanbar::LIMIT;

/// What is measured is read and asked in this edition, but for the table of editions.
pub const EDITION: usize = Edition::Rfc8288.number();

const LINK_SLOTS: usize = capstanbar::LINK_SLOTS * 256;
const PARAM_SLOTS: usize = capstanbar::PARAM_SLOTS * 1024;

/// Slots for links and for parameters, enough for each header here.
pub fn slots() -> (Vec<usize>, Vec<usize>) {
    (vec![0; LINK_SLOTS], vec![0; PARAM_SLOTS])
}

/// A text with its tables.
pub struct Table {
    pub text: Vec<u8>,
    pub links: Vec<usize>,
    pub params: Vec<usize>,
    pub link_count: usize,
    pub param_count: usize,
}

impl Table {
    fn raw(&self) -> RawTable<'_> {
        RawTable {
            text: black_box(&self.text),
            links: &self.links,
            params: &self.params,
            link_count: self.link_count,
            param_count: self.param_count,
        }
    }
}

pub fn read(
    edition: usize,
    header: &[u8],
    links: &mut [usize],
    params: &mut [usize],
) -> ReadAnswer {
    ffi::read(edition, black_box(header), links, params)
}

/// Starts, feeds the header in parts of that many octets, and answers the state behind them.
pub fn feed(header: &[u8], size: usize, buffer: &mut [u8]) -> FeedingState {
    let mut state = ffi::start(EDITION);
    for part in black_box(header).chunks(size) {
        state = ffi::feed(state, part, buffer).next;
    }
    state
}

pub fn finish(
    state: FeedingState,
    buffer: &[u8],
    links: &mut [usize],
    params: &mut [usize],
) -> ReadAnswer {
    ffi::finish(state, black_box(buffer), links, params)
}

/// The number, and the link found.
pub fn search(table: &Table, relation: &[u8]) -> (usize, usize) {
    let answer = ffi::search(EDITION, table.raw(), relation);
    (answer.number, answer.link)
}

/// The number, and the length.
pub fn value(table: &Table, link: usize, place: usize, out: &mut [u8]) -> (usize, usize) {
    let answer = ffi::value(EDITION, table.raw(), link, place, out);
    (answer.number, answer.length)
}

/// The number, and the length.
pub fn title(table: &Table, link: usize, out: &mut [u8]) -> (usize, usize) {
    let answer = ffi::title(EDITION, table.raw(), link, out);
    (answer.number, answer.length)
}

/// The number, and the length.
pub fn decode(value: &[u8], out: &mut [u8]) -> (usize, usize) {
    let answer = ffi::decode(black_box(value), out);
    (answer.number, answer.length)
}

/// The number, and the length.
pub fn resolve(reference: &[u8], base: &[u8], out: &mut [u8]) -> (usize, usize) {
    let answer = ffi::resolve(black_box(reference), black_box(base), out);
    (answer.number, answer.length)
}

/// The number, and the length.
pub fn resolved_context(table: &Table, base: &[u8], link: usize, out: &mut [u8]) -> (usize, usize) {
    let answer = ffi::resolved_context(EDITION, table.raw(), black_box(base), link, out);
    (answer.number, answer.length)
}

/// The number, and the length.
pub fn write(table: &Table, out: &mut [u8]) -> (usize, usize) {
    let answer = ffi::write(EDITION, table.raw(), out);
    (answer.number, answer.length)
}

/// The number, the end, the last pack, and the steps taken.
pub fn walk(
    catalogue: &[u8],
    start: usize,
    steps: i32,
    links: &mut [usize],
    params: &mut [usize],
    work: &mut [u8],
) -> [usize; 4] {
    let answer = ffi::walk(black_box(catalogue), start, steps, links, params, work);
    [answer.number, answer.end, answer.pack, answer.steps]
}

extern "C" {
    fn table_loop(text: *const u8, length: usize) -> usize;
}

pub fn name_code(name: &[u8]) -> usize {
    ffi::name_code(black_box(name))
}

pub fn compare(one: &[u8], other: &[u8]) -> CompareAnswer {
    ffi::compare(black_box(one), black_box(other))
}

pub fn commas(text: &[u8]) -> usize {
    // SAFETY: the loop reads as many octets as it is told, and the slice has them.
    unsafe { table_loop(black_box(text.as_ptr()), text.len()) }
}
