//! The place of a malformed header, from the grammar.

use crate::edition::Edition;
use crate::grammar::{field, Rule};
use crate::places::Places;
use crate::sets::after;
use crate::targets::first_wrong;

/// Where the first target starts that is closed and is no reference. If there
/// is none: how many octets stand in the longest prefix of the header that
/// begins some header of the edition's grammar, whatever the targets are.
pub fn place(edition: Edition, header: &[u8]) -> usize {
    first_wrong(edition, header)
        .or_else(|| last_cut(field(edition), header, &Places::one(0)))
        .unwrap_or(0)
}

/// A cut `k` can be completed from start `i` if the octets from `i` up to `k`
/// begin some text that the rule derives. This is the last cut that can be
/// completed from one of the starts; none if there are no starts.
///
/// With `k` every cut from `i` up to `k` can be completed too, so the last one
/// tells them all. Since every rule derives something, a cut within the first
/// part of a sequence can be completed by any text of the parts that follow.
fn last_cut(rule: &Rule, text: &[u8], starts: &Places) -> Option<usize> {
    match rule {
        Rule::One(class) => starts
            .iter()
            .map(|start| match text.get(start) {
                Some(&octet) if class(octet) => start + 1,
                _ => start,
            })
            .max(),
        Rule::Seq(parts) => {
            let mut cut = starts.last();
            let mut places = starts.clone();
            for part in *parts {
                cut = cut.max(last_cut(part, text, &places));
                places = after(part, text, &places);
            }
            cut
        }
        Rule::Either(parts) => parts
            .iter()
            .filter_map(|part| last_cut(part, text, starts))
            .max(),
        Rule::Any(part) => last_cut(part, text, &after(rule, text, starts)),
        Rule::Labelled(_, part) => last_cut(part, text, starts),
    }
}
