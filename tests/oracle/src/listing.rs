//! What the listing program prints.

use crate::number::DONE;
use crate::read::{read, ReadAnswer};
use crate::record::PARAM_SLOTS;

/// The number of the edition that it reads in.
pub const RFC_8288: usize = 0;
pub const LINK_ROOM: usize = 256;
pub const PARAM_ROOM: usize = 1024;

/// The lines listed for what standard input holds: a field value, and one
/// final LF, if there, that doesn't belong to it.
pub fn listing(input: &[u8]) -> String {
    let header = input.strip_suffix(b"\n").unwrap_or(input);
    let (mut link_slots, mut param_slots) = ([0; LINK_ROOM * 4], [0; PARAM_ROOM * PARAM_SLOTS]);
    let (lines, _) = listed(RFC_8288, header, &mut link_slots, &mut param_slots);
    lines
}

/// Reads the header into the lent slots: the lines listed, and the answer.
pub fn listed(
    edition: usize,
    header: &[u8],
    link_slots: &mut [usize],
    param_slots: &mut [usize],
) -> (String, ReadAnswer) {
    let answer = read(edition, header, link_slots, param_slots);
    if answer.number != DONE {
        return (line("refused", &[answer.number, answer.place]), answer);
    }
    let mut lines = line("links", &[answer.links, answer.params]);
    let mut params = param_slots.as_chunks::<PARAM_SLOTS>().0.iter().enumerate();
    let links = link_slots.as_chunks::<4>().0.iter().enumerate();
    for (link, record) in links.take(answer.links) {
        lines += &line("link", &[&[link], &record[..]].concat());
        let [_, _, _, count] = *record;
        for (param, record) in params.by_ref().take(count) {
            lines += &line("param", &[&[param], &record[..]].concat());
        }
    }
    (lines, answer)
}

/// A word and numbers, tab-parted and LF-ended.
pub fn line(word: &str, numbers: &[usize]) -> String {
    let numbers: String = numbers.iter().map(|number| format!("\t{number}")).collect();
    format!("{word}{numbers}\n")
}
