//! Value copy.

use crate::meaning::links_meanings;
use crate::number::{NOT_FOUND, NO_SUCH_LINK};
use crate::output::put;
use crate::table::asked_links;

/// Writes the meaning of the value of the parameter at that place within the
/// link, and answers number and length. Numbers in order: 10, 1, 5, 8, 9, 7.
#[expect(clippy::too_many_arguments)]
pub fn value(
    edition: usize,
    text: &[u8],
    link_slots: &[usize],
    param_slots: &[usize],
    link_count: usize,
    param_count: usize,
    link: usize,
    place: usize,
    out: &mut [u8],
) -> (usize, usize) {
    let links = asked_links(
        edition,
        text,
        link_slots,
        param_slots,
        link_count,
        param_count,
    );
    let meaning = links.and_then(|links| {
        let meanings = links_meanings(text, &links);
        let link = meanings.get(link).ok_or(NO_SUCH_LINK)?;
        let param = link.params.get(place).ok_or(NOT_FOUND)?;
        Ok(param.value.clone())
    });
    put(meaning, out)
}
