//! The reading of a header: the records that a derivation of it gives.

use crate::code::name_code;
use crate::derivation::{derivation, Node};
use crate::edition::Edition;
use crate::grammar::{field, Label};
use crate::kept::kept;
use crate::record::{Form, Link, Param, Span};
use crate::sets::derives;
use crate::targets::is_reference;

/// The links of the header with their kept parameters; none if the edition's
/// grammar doesn't derive the header, or a target is no reference.
pub fn reading(edition: Edition, header: &[u8]) -> Option<Vec<Link>> {
    let rule = field(edition);
    if !derives(rule, header) {
        return None;
    }
    let field = derivation(rule, header, Span::whole(header));
    let links = links(header, &field);
    let right = |link: &Link| is_reference(link.target.of(header));
    links.iter().all(right).then_some(links)
}

/// The links that the derivation of a field gives.
pub fn links(header: &[u8], field: &[Node]) -> Vec<Link> {
    labelled(field, Label::Link)
        .map(|link| {
            let params: Vec<Param> = labelled(&link.parts, Label::Parameter)
                .map(|parameter| param(header, parameter))
                .collect();
            Link {
                target: only(&link.parts, Label::Target).expect("a link has a target"),
                params: kept(header, &params),
            }
        })
        .collect()
}

fn param(header: &[u8], parameter: &Node) -> Param {
    let name = only(&parameter.parts, Label::Name).expect("a parameter has a name");
    let (start, end) = (name.end, name.end);
    let (value, form) = [
        (Label::Token, Form::Token),
        (Label::Quoted, Form::Quoted),
        (Label::Further, Form::Further),
    ]
    .into_iter()
    .find_map(|(label, form)| Some((only(&parameter.parts, label)?, form)))
    .unwrap_or((Span { start, end }, Form::NoValue));
    Param {
        name,
        value,
        form,
        code: name_code(name.of(header)),
    }
}

fn labelled(nodes: &[Node], label: Label) -> impl Iterator<Item = &Node> {
    nodes.iter().filter(move |node| node.label == label)
}

fn only(nodes: &[Node], label: Label) -> Option<Span> {
    labelled(nodes, label).next().map(|node| node.span)
}
