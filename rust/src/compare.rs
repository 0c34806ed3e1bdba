use crate::ffi;

/// What comparing two texts tells.
///
/// ```
/// use capstanbar::{compare, Comparison};
///
/// assert_eq!(compare(b"rel", b"REL"), Comparison { same: true, pairs: 3 });
/// assert_eq!(compare(b"rel", b"rev"), Comparison { same: false, pairs: 3 });
/// ```
#[derive(Clone, Copy, Debug, PartialEq, Eq, Hash)]
pub struct Comparison {
    /// Whether the texts are the same, whatever the case of letters.
    pub same: bool,
    /// How many pairs of octets were compared: 0 if the lengths differ; else one more than the place
    /// of the first unequal pair, or the length if there is none.
    pub pairs: usize,
}

/// Compares two texts as names compare: A to Z are taken for a to z, and no other octet for another.
///
/// Lengths are compared first, and then pairs of octets in order, as far as the first unequal one.
/// The texts may be any octets of any length, also over [`LIMIT`](crate::LIMIT); nothing is refused.
///
/// ```
/// use capstanbar::{compare, Comparison};
///
/// assert_eq!(compare(b"HrefLang", b"hreflang"), Comparison { same: true, pairs: 8 });
/// assert_eq!(compare(b"", b""), Comparison { same: true, pairs: 0 });
///
/// // Texts of other lengths aren't looked into, and an unequal pair is the last one looked at.
/// assert_eq!(compare(b"title", b"title*"), Comparison { same: false, pairs: 0 });
/// assert_eq!(compare(b"next", b"NEST"), Comparison { same: false, pairs: 3 });
///
/// // These aren't letters, though they are as far apart as a letter and its capital.
/// assert_eq!(compare(b"[", b"{"), Comparison { same: false, pairs: 1 });
/// assert!(!compare(&[192], &[224]).same);
/// ```
pub fn compare(a: &[u8], b: &[u8]) -> Comparison {
    let answer = ffi::compare(a, b);
    Comparison {
        same: answer.same == 1,
        pairs: answer.pairs,
    }
}
