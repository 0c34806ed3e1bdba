//! The title of a link.

use crate::extended::extended;
use crate::meaning::{links_meanings, LinkMeaning};
use crate::number::{NOT_FOUND, NO_SUCH_LINK};
use crate::output::put;
use crate::table::asked_links;

/// Writes the link's title, and answers number and length. Numbers in order:
/// 10, 1, 5, 8, 9, 7.
#[expect(clippy::too_many_arguments)]
pub fn title(
    edition: usize,
    text: &[u8],
    link_slots: &[usize],
    param_slots: &[usize],
    link_count: usize,
    param_count: usize,
    link: usize,
    out: &mut [u8],
) -> (usize, usize) {
    let links = asked_links(
        edition,
        text,
        link_slots,
        param_slots,
        link_count,
        param_count,
    );
    let title = links.and_then(|links| {
        let meanings = links_meanings(text, &links);
        let link = meanings.get(link).ok_or(NO_SUCH_LINK)?;
        link.title().ok_or(NOT_FOUND)
    });
    put(title, out)
}

impl LinkMeaning {
    /// What its `title*` gives, if that is right; else what its `title` means,
    /// be it UTF-8 or not.
    pub fn title(&self) -> Option<Vec<u8>> {
        let value_of = |name: &[u8]| {
            let param = self.params.iter().find(|param| param.name == name);
            param.map(|param| &param.value)
        };
        let extended = value_of(b"title*").and_then(|value| extended(value));
        extended.or_else(|| value_of(b"title").cloned())
    }
}
