//! References judged in another way: taken apart at their marks, and each part
//! judged by itself.

use std::net::Ipv6Addr;

/// Whether the text is a reference, by its five components.
pub fn is_reference(text: &[u8]) -> bool {
    let Ok(text) = str::from_utf8(text) else {
        return false;
    };
    let (text, fragment) = cut(text, '#');
    let (text, query) = cut(text, '?');
    let (first, _) = text.split_once('/').unwrap_or((text, ""));
    let (hierarchy, right_scheme) = match first.split_once(':') {
        Some((scheme, _)) => (&text[scheme.len() + 1..], is_scheme(scheme)),
        None => (text, true),
    };
    let (path, right_authority) = match hierarchy.strip_prefix("//") {
        Some(rest) => {
            let end = rest.find('/').unwrap_or(rest.len());
            (&rest[end..], is_authority(&rest[..end]))
        }
        None => (hierarchy, true),
    };
    right_scheme
        && right_authority
        && has_only(path, ":@/")
        && has_only(query, ":@/?")
        && has_only(fragment, ":@/?")
}

/// What stands before the mark and what behind it.
fn cut(text: &str, mark: char) -> (&str, &str) {
    text.split_once(mark).unwrap_or((text, ""))
}

fn is_scheme(scheme: &str) -> bool {
    scheme.starts_with(|first: char| first.is_ascii_alphabetic())
        && scheme
            .chars()
            .all(|one| one.is_ascii_alphanumeric() || "+-.".contains(one))
}

fn is_authority(authority: &str) -> bool {
    let (userinfo, at_host) = authority.split_once('@').unwrap_or(("", authority));
    let (right_host, port) = match at_host.strip_prefix('[') {
        Some(literal) => match literal.split_once(']') {
            Some((literal, port)) => (is_literal(literal), port),
            None => return false,
        },
        None => {
            let end = at_host.find(':').unwrap_or(at_host.len());
            (has_only(&at_host[..end], ""), &at_host[end..])
        }
    };
    let digits = port.strip_prefix(':').unwrap_or(port);
    let right_port = port.is_empty() || digits.len() < port.len();
    has_only(userinfo, ":")
        && right_host
        && right_port
        && digits.chars().all(|one| one.is_ascii_digit())
}

/// What may stand in brackets.
fn is_literal(literal: &str) -> bool {
    let Some(future) = literal.strip_prefix(['v', 'V']) else {
        return literal.parse::<Ipv6Addr>().is_ok();
    };
    let (version, address) = cut(future, '.');
    !version.is_empty()
        && version.chars().all(|one| one.is_ascii_hexdigit())
        && !address.is_empty()
        && !address.contains('%')
        && has_only(address, ":")
}

/// Whether there are only octets that every component may have, triples of a
/// percent sign and two hex digits, and these marks.
fn has_only(text: &str, marks: &str) -> bool {
    let mut pieces = text.split('%');
    let free = |piece: &str| {
        piece.chars().all(|one| {
            one.is_ascii_alphanumeric() || "-._~!$&'()*+,;=".contains(one) || marks.contains(one)
        })
    };
    let behind_percent = |piece: &str| {
        let hex = piece.chars().take_while(char::is_ascii_hexdigit);
        hex.count() >= 2 && free(&piece[2..])
    };
    pieces.next().is_some_and(free) && pieces.all(behind_percent)
}
