//! All texts over a few octets at once.

use crate::places::Places;
use crate::references::URI_REFERENCE;
use crate::sets::{after, Text};
use std::collections::BTreeSet;

/// The texts that begin in one way and go on with at most so many octets of an
/// alphabet. They share the places of what they have alike: a place is a text,
/// and an octet leads to the text that has it more.
pub struct Tree<'a> {
    before: &'a [u8],
    alphabet: &'a [u8],
    /// From here on texts have as many octets as they may.
    full: usize,
}

impl<'a> Tree<'a> {
    pub fn new(before: &'a [u8], alphabet: &'a [u8], most: usize) -> Tree<'a> {
        let mut tree = Tree {
            before,
            alphabet,
            full: before.len(),
        };
        for _ in 0..most {
            tree.full = tree.longer(tree.full, 0);
        }
        tree
    }

    /// The number of the text that all begin with.
    pub fn root(&self) -> usize {
        self.before.len()
    }

    /// The number of a text with one octet more, that of this place in the
    /// alphabet.
    pub fn longer(&self, text: usize, octet: usize) -> usize {
        let root = self.root();
        root + self.alphabet.len() * (text - root) + 1 + octet
    }

    /// The numbers of all texts that are URI-references.
    pub fn references(&self) -> BTreeSet<usize> {
        let references = after(&URI_REFERENCE, self, &Places::one(0));
        references.iter().collect()
    }
}

impl Text for Tree<'_> {
    fn behind(&self, place: usize, class: fn(u8) -> bool) -> impl Iterator<Item = usize> {
        let before = self.before.get(place).filter(|&&octet| class(octet));
        let grows = place >= self.root() && place < self.full;
        let alphabet = if grows { self.alphabet } else { &[] };
        let longer = alphabet.iter().enumerate();
        let longer = longer.filter(move |(_, &octet)| class(octet));
        let longer = longer.map(move |(octet, _)| self.longer(place, octet));
        before.map(|_| place + 1).into_iter().chain(longer)
    }
}
