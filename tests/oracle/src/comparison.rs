//! The folded comparison of two texts.

/// What comparing two texts answers.
#[derive(Clone, Copy, Debug, PartialEq, Eq)]
pub struct Comparison {
    pub same: bool,
    /// How many pairs of octets were compared.
    pub pairs: usize,
}

/// Compares the lengths first, and then pair by pair, up to the first that is
/// unequal when folded or else all.
pub fn compare(one: &[u8], other: &[u8]) -> Comparison {
    if one.len() != other.len() {
        return Comparison {
            same: false,
            pairs: 0,
        };
    }
    let mut pairs = one.iter().zip(other);
    let unequal = pairs.position(|(one, other)| !one.eq_ignore_ascii_case(other));
    Comparison {
        same: same(one, other),
        pairs: unequal.map_or(one.len(), |place| place + 1),
    }
}

/// Whether two names, relations or other texts are the same, A to Z folded to
/// a to z. Inlined, since the benchmark would show a call for each known name.
#[inline]
pub fn same(one: &[u8], other: &[u8]) -> bool {
    one.eq_ignore_ascii_case(other)
}
