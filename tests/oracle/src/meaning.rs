//! Meanings of parameters and links.

use crate::record::{Link, Param};
use crate::table::good_links;

/// A folded name, and a value with its backslashes taken out.
#[derive(Clone, Debug, PartialEq, Eq)]
pub struct ParamMeaning {
    pub name: Vec<u8>,
    pub value: Vec<u8>,
}

/// The target octets, and the parameters' meanings in order.
#[derive(Clone, Debug, PartialEq, Eq)]
pub struct LinkMeaning {
    pub target: Vec<u8>,
    pub params: Vec<ParamMeaning>,
}

/// A table's list of link meanings; none if the table isn't good in the edition.
pub fn meanings(
    edition: usize,
    text: &[u8],
    link_slots: &[usize],
    param_slots: &[usize],
    link_count: usize,
    param_count: usize,
) -> Option<Vec<LinkMeaning>> {
    let links = good_links(
        edition,
        text,
        link_slots,
        param_slots,
        link_count,
        param_count,
    )?;
    Some(links_meanings(text, &links))
}

/// The meanings of a good table's links.
pub fn links_meanings(text: &[u8], links: &[Link]) -> Vec<LinkMeaning> {
    links
        .iter()
        .map(|link| LinkMeaning {
            target: link.target.of(text).to_vec(),
            params: link
                .params
                .iter()
                .map(|param| param_meaning(text, param))
                .collect(),
        })
        .collect()
}

fn param_meaning(text: &[u8], param: &Param) -> ParamMeaning {
    ParamMeaning {
        name: folded(param.name.of(text)),
        value: without_backslashes(param.value.of(text)),
    }
}

/// Capital ASCII letters as small ones; every other octet as it is.
fn folded(octets: &[u8]) -> Vec<u8> {
    octets.to_ascii_lowercase()
}

/// Each `\` with the octet after it read as that octet.
fn without_backslashes(octets: &[u8]) -> Vec<u8> {
    let mut rest = octets.iter().copied();
    std::iter::from_fn(|| match rest.next() {
        Some(b'\\') => rest.next(),
        octet => octet,
    })
    .collect()
}

impl LinkMeaning {
    /// The words of its `rel`, in small letters: the value without its
    /// backslashes is split at each space, and empty pieces are dropped.
    pub fn relations(&self) -> Vec<Vec<u8>> {
        let rel = self.params.iter().find(|param| param.name == b"rel");
        rel.map_or(&[][..], |rel| &rel.value)
            .split(|&octet| octet == b' ')
            .filter(|run| !run.is_empty())
            .map(folded)
            .collect()
    }
}
