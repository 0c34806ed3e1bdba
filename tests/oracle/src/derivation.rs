//! A derivation of a text, found between the sets of places.

use crate::grammar::{Label, Rule};
use crate::places::Places;
use crate::record::Span;
use crate::sets::{after, before};

/// A labelled part of a derivation, with the labelled parts within it in order.
#[derive(Clone, Debug, PartialEq, Eq)]
pub struct Node {
    pub label: Label,
    pub span: Span,
    pub parts: Vec<Node>,
}

/// The labelled parts of one derivation of the span, in order. The rule must
/// derive the span.
///
/// A sequence or a repetition is taken apart from its end: each step back goes
/// to a place that the steps before it reach from the span's start.
pub fn derivation(rule: &Rule, text: &[u8], span: Span) -> Vec<Node> {
    let text = &text[..span.end];
    let start = Places::one(span.start);
    match rule {
        Rule::One(_) => vec![],
        Rule::Seq(parts) => {
            let mut reached = vec![start];
            for part in *parts {
                reached.push(after(part, text, &reached[reached.len() - 1]));
            }
            let mut end = span.end;
            let mut steps = vec![];
            for (part, reached) in parts.iter().zip(&reached).rev() {
                let step = last_step(part, text, reached, end);
                end = step.start;
                steps.push(derivation(part, text, step));
            }
            in_order(steps)
        }
        Rule::Either(parts) => parts
            .iter()
            .find(|part| after(part, text, &start).contains(span.end))
            .map(|part| derivation(part, text, span))
            .expect("one of the parts derives the span"),
        Rule::Any(part) => {
            let reached = after(rule, text, &start);
            let mut end = span.end;
            let mut steps = vec![];
            while end > span.start {
                let step = last_step(part, text, &reached, end);
                end = step.start;
                steps.push(derivation(part, text, step));
            }
            in_order(steps)
        }
        Rule::Labelled(label, part) => vec![Node {
            label: *label,
            span,
            parts: derivation(part, text, span),
        }],
    }
}

/// A span that the part derives, from one of the places reached up to the end.
fn last_step(part: &Rule, text: &[u8], reached: &Places, end: usize) -> Span {
    let starts = before(part, text, &Places::one(end));
    let start = starts
        .iter()
        .find(|&start| reached.contains(start))
        .expect("the part derives some span up to the end");
    Span { start, end }
}

/// The nodes of steps that were found from the last to the first.
fn in_order(mut steps: Vec<Vec<Node>>) -> Vec<Node> {
    steps.reverse();
    steps.concat()
}

#[cfg(test)]
mod tests {
    use super::*;
    use crate::edition::Edition;
    use crate::grammar::field;
    use crate::reading::links;
    use crate::sets::derives;

    /// The labelled parts of every derivation from the start, each with its end.
    fn every(rule: &Rule, text: &[u8], start: usize) -> Vec<(usize, Vec<Node>)> {
        match rule {
            Rule::One(class) => match text.get(start) {
                Some(&octet) if class(octet) => vec![(start + 1, vec![])],
                _ => vec![],
            },
            Rule::Seq(parts) => parts.iter().fold(vec![(start, vec![])], |found, part| {
                found
                    .iter()
                    .flat_map(|so_far| extend(so_far, part, text))
                    .collect()
            }),
            Rule::Either(parts) => parts
                .iter()
                .flat_map(|part| every(part, text, start))
                .collect(),
            Rule::Any(part) => {
                let mut found = vec![(start, vec![])];
                let mut next = 0;
                while next < found.len() {
                    found.extend(extend(&found[next], part, text));
                    next += 1;
                }
                found
            }
            Rule::Labelled(label, part) => every(part, text, start)
                .into_iter()
                .map(|(end, parts)| {
                    let span = Span { start, end };
                    let label = *label;
                    (end, vec![Node { label, span, parts }])
                })
                .collect(),
        }
    }

    fn extend(
        (end, nodes): &(usize, Vec<Node>),
        part: &Rule,
        text: &[u8],
    ) -> Vec<(usize, Vec<Node>)> {
        every(part, text, *end)
            .into_iter()
            .map(|(end, more)| (end, [nodes.clone(), more].concat()))
            .collect()
    }

    /// Asserts that in each edition all derivations of the header give one
    /// reading, and that it is the one found; or that the header has none at all.
    fn assert_one_reading(header: &[u8]) {
        for edition in [Edition::Rfc8288, Edition::Rfc5988] {
            assert_one_reading_in(field(edition), header);
        }
    }

    fn assert_one_reading_in(field: &Rule, header: &[u8]) {
        let all: Vec<Vec<Node>> = every(field, header, 0)
            .into_iter()
            .filter(|(end, _)| *end == header.len())
            .map(|(_, nodes)| nodes)
            .collect();
        assert_eq!(derives(field, header), !all.is_empty(), "{header:?}");
        if !all.is_empty() {
            let found = derivation(field, header, Span::whole(header));
            assert!(all.contains(&found));
            for nodes in &all {
                assert_eq!(links(header, nodes), links(header, &found), "{header:?}");
            }
        }
    }

    #[test]
    fn no_header_has_two_readings() {
        for header in [
            "  ,  ,\t,  ",
            " <a> ; x  ; y = z , <b>  , ",
            "<>;rel = \"a\\\"b\" ;\trel=c ;rel",
            "<a,<b>",
            "<a>;t=\"b,c\" ; u,<%41>",
            "<a>;t=\"b\\\\\",<c>;t=\"\"",
            "<a>;x = =<b>=/ , <c>;y=?;z=d:e",
        ] {
            assert_one_reading(header.as_bytes());
        }
        let mut headers = vec![vec![]];
        for _ in 0..5 {
            headers = headers
                .iter()
                .flat_map(|header: &Vec<u8>| {
                    b"<> ;,x=\"\\".map(|octet| [&header[..], &[octet]].concat())
                })
                .collect();
            for header in &headers {
                assert_one_reading(header);
                assert_one_reading(&[b"<>;", &header[..]].concat());
                assert_one_reading(&[b"<>;x=\"", &header[..]].concat());
            }
        }
    }
}
