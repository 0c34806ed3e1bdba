//! The codes of parameters' names.

use crate::comparison::same;

/// The known names, in the order of their codes.
const KNOWN: &[&[u8]] = &[
    b"rel",
    b"anchor",
    b"media",
    b"title",
    b"title*",
    b"type",
    b"hreflang",
    b"rev",
];

/// The codes of known names go from 1 to this one.
pub const LAST_CODE: usize = KNOWN.len();

/// Of the known names up to this code only the first parameter of a link is
/// kept.
pub const LAST_ONCE: usize = 6;

/// The place of the name among the known ones, counted from 1; 0 if it isn't
/// known.
pub fn name_code(name: &[u8]) -> usize {
    let place = KNOWN.iter().position(|known| same(known, name));
    place.map_or(0, |place| place + 1)
}

/// Whether of parameters of this name a link keeps only the first.
pub fn kept_once(name: &[u8]) -> bool {
    (1..=LAST_ONCE).contains(&name_code(name))
}
