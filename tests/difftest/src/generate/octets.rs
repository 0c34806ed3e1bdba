//! The sets of octets, listed apart from those of the reference.

pub const LETTERS: &[u8] = b"abcdefghijklmnopqrstuvwxyzABCDEFGHIJKLMNOPQRSTUVWXYZ";
const TOKEN_MARKS: &[u8] = b"!#$%&'*+-.^_`|~";
pub const FURTHER: &[u8] = b"()<>@:/[]?={}";
const TARGET_MARKS: &[u8] = b"-._~:/?#[]@!$&'()*+,;=";
/// Those that stand for themselves in each part of a reference.
const FREE_MARKS: &[u8] = b"-._~!$&'()*+,;=";
pub const HEX: &[u8] = b"0123456789abcdefABCDEF";

pub fn is_token(octet: u8) -> bool {
    octet.is_ascii_alphanumeric() || TOKEN_MARKS.contains(&octet)
}

/// Whether the older edition allows it in a bare value, where no token has it.
pub fn is_further(octet: u8) -> bool {
    FURTHER.contains(&octet)
}

pub fn is_target(octet: u8) -> bool {
    octet.is_ascii_alphanumeric() || TARGET_MARKS.contains(&octet)
}

/// Whether each part of a reference may have it, but for what stands in brackets, schemes and ports.
pub fn is_free(octet: u8) -> bool {
    octet.is_ascii_alphanumeric() || FREE_MARKS.contains(&octet)
}

pub fn is_hex(octet: u8) -> bool {
    HEX.contains(&octet)
}

pub fn is_escapable(octet: u8) -> bool {
    octet == b'\t' || (octet >= b' ' && octet != 127)
}

pub fn is_plain(octet: u8) -> bool {
    is_escapable(octet) && octet != b'"' && octet != b'\\'
}

/// Names of which only the first in a link is kept.
pub const ONCE: &[&[u8]] = &[b"rel", b"anchor", b"media", b"title", b"title*", b"type"];

/// Known names that are kept each time.
pub const ALWAYS: &[&[u8]] = &[b"hreflang", b"rev"];

/// The known names, in the order of their codes.
pub fn known() -> Vec<&'static [u8]> {
    [ONCE, ALWAYS].concat()
}

/// The code of `rel`.
pub const REL: usize = 1;

/// The place of a name among the known ones in any case, counted from 1; 0 for the others.
pub fn code(name: &[u8]) -> usize {
    let name = name.to_ascii_lowercase();
    let place = known().iter().position(|known| *known == name);
    place.map_or(0, |place| place + 1)
}

/// Other names, most of them nearly a known one.
pub const UNKNOWN: &[&[u8]] = &[
    b"re", b"relx", b"rel*", b"anchors", b"medi", b"title**", b"titl", b"typ", b"revs", b"hreflan",
    b"*", b"x",
];
