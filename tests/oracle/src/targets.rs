//! Targets that aren't references.

use crate::edition::Edition;
use crate::grammar::{before_target, TARGET};
use crate::places::Places;
use crate::record::Span;
use crate::references::{ABSOLUTE_URI, URI, URI_REFERENCE};
use crate::sets::{after, derives};

/// Whether the octets are a URI-reference of RFC 3986.
pub fn is_reference(octets: &[u8]) -> bool {
    derives(&URI_REFERENCE, octets)
}

/// Whether the octets are a URI of RFC 3986.
pub fn is_uri(octets: &[u8]) -> bool {
    derives(&URI, octets)
}

/// Whether the octets are an absolute-URI of RFC 3986: a URI without a fragment.
pub fn is_absolute_uri(octets: &[u8]) -> bool {
    derives(&ABSOLUTE_URI, octets)
}

/// Where the first target starts that is closed in the header and is no
/// reference, if there is one.
pub fn first_wrong(edition: Edition, header: &[u8]) -> Option<usize> {
    let mut closed = closed(edition, header).into_iter();
    let wrong = closed.find(|target| !is_reference(target.of(header)));
    wrong.map(|target| target.start)
}

/// The targets that are closed, in order: the octets up to and with the `>`
/// begin some header of the edition's grammar, whatever follows them.
fn closed(edition: Edition, header: &[u8]) -> Vec<Span> {
    let starts = after(before_target(edition), header, &Places::one(0));
    let closed = |start| {
        let ends = after(&TARGET, header, &Places::one(start));
        let end = ends.iter().find(|&end| header.get(end) == Some(&b'>'))?;
        Some(Span { start, end })
    };
    starts.iter().filter_map(closed).collect()
}

#[cfg(test)]
mod tests {
    use super::*;
    use crate::derivation::derivation;
    use crate::grammar::field;
    use crate::reading::links;

    #[test]
    fn the_closed_targets_of_a_header_are_its_links() {
        for header in [
            "",
            " , <>,\t<[> ;x,, <a>",
            "<a>;x=\",<1:a>,\";y = \"\\\"<\" ,<b,<",
            "<a,b>;x=<c>,<%41>;y==<,<>",
            "<a>;x=<b>;y=<c>;z,<d>;u=\"<e>\",<:>",
        ] {
            let header = header.as_bytes();
            for edition in [Edition::Rfc8288, Edition::Rfc5988] {
                let closed = closed(edition, header);
                let rule = field(edition);
                if !derives(rule, header) {
                    continue;
                }
                let nodes = derivation(rule, header, Span::whole(header));
                let links = links(header, &nodes).into_iter();
                let targets: Vec<Span> = links.map(|link| link.target).collect();
                assert_eq!(closed, targets, "{header:?}");
            }
        }
    }

    #[test]
    fn targets_are_closed_as_far_as_the_header_goes() {
        let starts = |edition, header: &str| {
            let closed = closed(edition, header.as_bytes());
            closed.iter().map(|target| target.start).collect::<Vec<_>>()
        };
        for edition in [Edition::Rfc8288, Edition::Rfc5988] {
            assert_eq!(starts(edition, "<1:a"), []);
            assert_eq!(starts(edition, "<1:a b>,<c>"), []);
            assert_eq!(starts(edition, "<a>,<b><c>"), [1, 5]);
            assert_eq!(starts(edition, "<a>;x=\"<b>"), [1]);
            assert_eq!(starts(edition, "x<a>"), []);
        }
        assert_eq!(starts(Edition::Rfc8288, "<a>;x=<b>,<c>"), [1]);
        assert_eq!(starts(Edition::Rfc5988, "<a>;x=<b>,<c>"), [1, 11]);
    }
}
