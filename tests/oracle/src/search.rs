//! Search for a link by relation.

use crate::comparison::same;
use crate::meaning::{links_meanings, LinkMeaning};
use crate::number::{DONE, NOT_FOUND};
use crate::table::asked_links;

/// The number, and the lowest link number that has the relation. An empty
/// query, or one with an SP, is no link's relation. Numbers in order: 10, 1, 5, 9.
pub fn search(
    edition: usize,
    text: &[u8],
    link_slots: &[usize],
    param_slots: &[usize],
    link_count: usize,
    param_count: usize,
    relation: &[u8],
) -> (usize, usize) {
    let links = match asked_links(
        edition,
        text,
        link_slots,
        param_slots,
        link_count,
        param_count,
    ) {
        Ok(links) => links,
        Err(number) => return (number, 0),
    };
    let has = |link: &LinkMeaning| link.relations().iter().any(|one| same(one, relation));
    links_meanings(text, &links)
        .iter()
        .position(has)
        .map_or((NOT_FOUND, 0), |link| (DONE, link))
}
