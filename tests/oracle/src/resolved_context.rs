//! The context of a link, resolved on a base.

use crate::edition::Edition;
use crate::meaning::{links_meanings, LinkMeaning};
use crate::number::{BAD_BASE, LIMIT, NO_SUCH_LINK, TOO_LONG};
use crate::output::put;
use crate::resolve::resolved;
use crate::table::asked_links;
use crate::targets::is_uri;

/// Writes the link's resolved context, and answers number and length. Numbers
/// in order: 10, 1 (text or base), 5, 8, 12, 13, 1 (result), 7.
#[expect(clippy::too_many_arguments)]
pub fn resolved_context(
    edition: usize,
    text: &[u8],
    base: &[u8],
    link_slots: &[usize],
    param_slots: &[usize],
    link_count: usize,
    param_count: usize,
    link: usize,
    out: &mut [u8],
) -> (usize, usize) {
    let context = || {
        Edition::of(edition)?;
        if base.len() > LIMIT {
            return Err(TOO_LONG);
        }
        let links = asked_links(
            edition,
            text,
            link_slots,
            param_slots,
            link_count,
            param_count,
        )?;
        let meanings = links_meanings(text, &links);
        let link = meanings.get(link).ok_or(NO_SUCH_LINK)?;
        link.resolved_context(base)
    };
    put(context(), out)
}

impl LinkMeaning {
    /// What its `anchor` means, on the base; without one, the base up to its
    /// fragment. Or number 12, 13 or 1.
    pub fn resolved_context(&self, base: &[u8]) -> Result<Vec<u8>, usize> {
        let mut params = self.params.iter();
        if let Some(anchor) = params.find(|param| param.name == b"anchor") {
            return resolved(&anchor.value, base);
        }
        if !is_uri(base) {
            return Err(BAD_BASE);
        }
        let without = base.split(|&octet| octet == b'#').next();
        Ok(without.unwrap_or_default().to_vec())
    }
}
