//! The context of a link.

use crate::comparison::same;
use crate::number::{DONE, NO_SUCH_LINK};
use crate::table::asked_links;

const REFUSED: usize = 0;
pub const TEXT: usize = 1;
const BASE: usize = 2;

/// Answers the number, where to look (1 in the text, 2 in the base, 0 nowhere,
/// since it was refused), and from which place to which. An `anchor` gives the
/// bounds of its raw value, even if nothing is between them; without one all of
/// the base is meant. A refusal is the first of 10, 1, 5 and 8 that applies.
#[expect(clippy::too_many_arguments)]
pub fn context(
    edition: usize,
    text: &[u8],
    base: &[u8],
    link_slots: &[usize],
    param_slots: &[usize],
    link_count: usize,
    param_count: usize,
    link: usize,
) -> (usize, usize, usize, usize) {
    let links = match asked_links(
        edition,
        text,
        link_slots,
        param_slots,
        link_count,
        param_count,
    ) {
        Ok(links) => links,
        Err(number) => return (number, REFUSED, 0, 0),
    };
    let Some(link) = links.get(link) else {
        return (NO_SUCH_LINK, REFUSED, 0, 0);
    };
    let mut params = link.params.iter();
    match params.find(|param| same(param.name.of(text), b"anchor")) {
        Some(anchor) => (DONE, TEXT, anchor.value.start, anchor.value.end),
        None => (DONE, BASE, 0, base.len()),
    }
}
