//! The codes of names, and which names a link keeps once.

use crate::{accepted, Tables};
use oracle::{name_code, PARAM_SLOTS};
use std::collections::BTreeMap;

/// A known name.
pub struct Known {
    pub name: &'static str,
    pub code: usize,
    /// Whether of its parameters a link keeps only the first.
    pub once: bool,
}

const fn row(name: &'static str, code: usize, once: bool) -> Known {
    Known { name, code, once }
}

pub const NAMES: &[Known] = &[
    row("rel", 1, true),
    row("anchor", 2, true),
    row("media", 3, true),
    row("title", 4, true),
    row("title*", 5, true),
    row("type", 6, true),
    row("hreflang", 7, false),
    row("rev", 8, false),
];

/// The name in every mix of capital and small letters.
fn mixes(name: &str) -> Vec<Vec<u8>> {
    let mut mixes = vec![vec![]];
    for octet in name.bytes() {
        let mut cases = vec![octet, octet.to_ascii_uppercase()];
        cases.dedup();
        let longer = |mix: &Vec<u8>| {
            let with = |&case| [&mix[..], &[case]].concat();
            cases.iter().map(with).collect::<Vec<_>>()
        };
        mixes = mixes.iter().flat_map(longer).collect();
    }
    mixes
}

/// Every mix of every name with its code.
pub fn known() -> BTreeMap<Vec<u8>, usize> {
    let of_row = |&Known { name, code, .. }| mixes(name).into_iter().map(move |mix| (mix, code));
    NAMES.iter().flat_map(of_row).collect()
}

/// The octets with one octet fewer, one other and one more, in every place.
fn neighbours(octets: &[u8]) -> Vec<Vec<u8>> {
    let mut all = vec![];
    for place in 0..=octets.len() {
        let (before, from) = octets.split_at(place);
        let behind = from.get(1..);
        all.extend(behind.map(|behind| [before, behind].concat()));
        for octet in 0..=255 {
            all.push([before, &[octet], from].concat());
            all.extend(behind.map(|behind| [before, &[octet], behind].concat()));
        }
    }
    all
}

/// The parameters that are kept of a link with these, as they stand there.
fn kept(params: &[String]) -> Vec<String> {
    let header = format!("<a>;{}", params.join(";"));
    let Tables { param_slots, .. } = accepted(header.as_bytes());
    let records = param_slots.as_chunks::<PARAM_SLOTS>().0.iter();
    records
        .map(|&[start, _, _, end, ..]| header[start..end].to_string())
        .collect()
}

#[test]
fn every_mix_of_case_has_the_code() {
    let letters = |row: &Known| row.name.matches(char::is_alphabetic).count();
    let count: usize = NAMES.iter().map(|row| 1 << letters(row)).sum();
    let known = known();
    assert_eq!(known.len(), count);
    for (name, code) in known {
        assert_eq!(name_code(&name), code, "{}", name.escape_ascii());
    }
}

#[test]
fn a_record_ends_in_the_code_of_its_name_in_any_case() {
    for (name, code) in known() {
        let end = 4 + name.len();
        let header = [b"<a>;", &name[..]].concat();
        assert_eq!(accepted(&header).param_slots, [4, end, end, end, 0, code]);
        let longer = [&header[..], b"x"].concat();
        let end = end + 1;
        assert_eq!(accepted(&longer).param_slots, [4, end, end, end, 0, 0]);
    }
}

#[test]
fn an_octet_fewer_other_or_more_is_another_name() {
    let known = known();
    for mix in known.keys() {
        for name in neighbours(mix) {
            let code = known.get(&name).copied().unwrap_or(0);
            assert_eq!(name_code(&name), code, "{}", name.escape_ascii());
        }
    }
}

#[test]
fn other_names_have_no_code() {
    let (of_8192, of_8193) = (vec![b'a'; 8192], b"rel".repeat(2731));
    for name in [
        &b""[..],
        b"x",
        b" ",
        b"\0",
        b"*",
        b"title**",
        b"*title",
        b"rel rev",
        b"relrel",
        b"crossorigin",
        b"t\xC4\xB1tle",
        b"\xF2\xE5\xEC",
        b"\xFF",
        &of_8192,
        &of_8193,
    ] {
        assert_eq!(name_code(name), 0, "{}", name.escape_ascii());
    }
}

#[test]
fn a_name_again_in_any_case_is_kept_unless_it_is_kept_once() {
    for &Known { name, once, .. } in NAMES {
        let param = |mix: Vec<u8>| format!("{0}={0}", mix.escape_ascii());
        let params: Vec<String> = mixes(name).into_iter().map(param).collect();
        for again in &params {
            let two = [params[0].clone(), again.clone()];
            assert_eq!(kept(&two), two[..if once { 1 } else { 2 }]);
        }
        let count = if once { 1 } else { params.len() };
        assert_eq!(kept(&params), params[..count]);
    }
}

#[test]
fn different_names_are_all_kept() {
    let params: Vec<String> = NAMES.iter().map(|row| row.name.to_string()).collect();
    assert_eq!(kept(&params), params);
}

#[test]
fn kept_by_hand() {
    let params = "rev=1;Rev=2;hreflang=3;HREFLANG=4;Type=5;type=6;Title*=7;title=8;x=9;X=0;TITLE*";
    let params: Vec<String> = params.split(';').map(String::from).collect();
    let those = "rev=1;Rev=2;hreflang=3;HREFLANG=4;Type=5;Title*=7;title=8;x=9;X=0";
    assert_eq!(kept(&params).join(";"), those);
}
