//! Good tables.

use crate::code::name_code;
use crate::edition::Edition;
use crate::grammar::{Rule, FURTHER, QUOTED, TOKEN};
use crate::kept::repeats;
use crate::number::{BAD_TABLE, LIMIT, TOO_LONG};
use crate::record::{links_of_slots, Form, Link, Param, Span};
use crate::references::URI_REFERENCE;
use crate::sets::derives;

/// Whether the text with its tables and counts is good in the edition.
pub fn good(
    edition: usize,
    text: &[u8],
    link_slots: &[usize],
    param_slots: &[usize],
    link_count: usize,
    param_count: usize,
) -> bool {
    good_links(
        edition,
        text,
        link_slots,
        param_slots,
        link_count,
        param_count,
    )
    .is_some()
}

/// The links of a table that is good in the edition; none if it isn't, and in
/// an unknown edition.
pub fn good_links(
    edition: usize,
    text: &[u8],
    link_slots: &[usize],
    param_slots: &[usize],
    link_count: usize,
    param_count: usize,
) -> Option<Vec<Link>> {
    let edition = Edition::of(edition).ok()?;
    links_of_slots(link_slots, param_slots, link_count, param_count)
        .filter(|links| links.iter().all(|link| good_link(edition, text, link)))
}

/// The links of a table that something is asked of, or number 10, 1 or 5.
pub fn asked_links(
    edition: usize,
    text: &[u8],
    link_slots: &[usize],
    param_slots: &[usize],
    link_count: usize,
    param_count: usize,
) -> Result<Vec<Link>, usize> {
    Edition::of(edition)?;
    if text.len() > LIMIT {
        return Err(TOO_LONG);
    }
    good_links(
        edition,
        text,
        link_slots,
        param_slots,
        link_count,
        param_count,
    )
    .ok_or(BAD_TABLE)
}

fn good_link(edition: Edition, text: &[u8], link: &Link) -> bool {
    obeys(text, link.target, &URI_REFERENCE)
        && link
            .params
            .iter()
            .all(|param| good_param(edition, text, param))
        && (0..link.params.len()).all(|place| !repeats(text, &link.params, place))
}

fn good_param(edition: Edition, text: &[u8], param: &Param) -> bool {
    let Param {
        name,
        value,
        form,
        code,
    } = *param;
    let good_value = match form {
        Form::NoValue => value.start == name.end && value.end == name.end,
        Form::Token => obeys(text, value, &TOKEN),
        Form::Quoted => obeys(text, value, &QUOTED),
        Form::Further => edition == Edition::Rfc5988 && obeys(text, value, &FURTHER),
    };
    obeys(text, name, &TOKEN) && good_value && code == name_code(name.of(text))
}

/// Whether it is a span of the text whose octets the rule derives.
fn obeys(text: &[u8], span: Span, rule: &Rule) -> bool {
    span.get(text).is_some_and(|octets| derives(rule, octets))
}
