//! Titles of links, which are text or octets by where they come from, and extended values decoded.

use capstanbar::ffi::{self, LengthAnswer, RawTable};
use capstanbar::{decode, Edition, Refusal, Table, Title, LIMIT, LINK_SLOTS, PARAM_SLOTS};

const NOTHING: Title = Title::Octets(b"");

/// Each extended value, and what it gives if it is right.
const VALUES: &[(&str, Option<&str>)] = &[
    ("UTF-8'de'letztes%20Kapitel", Some("letztes Kapitel")),
    (
        "UTF-8'de'n%c3%a4chstes%20Kapitel",
        Some("n\u{e4}chstes Kapitel"),
    ),
    ("utf-8''", Some("")),
    ("uTf-8'x-1'!#$&+-.^_`|~", Some("!#$&+-.^_`|~")),
    ("UTF-8''%00%0A%1b%7f", Some("\0\n\u{1b}\u{7f}")),
    ("UTF-8''%C2%80%df%bF", Some("\u{80}\u{7ff}")),
    ("UTF-8''%e0%a0%80%ED%9F%BF", Some("\u{800}\u{d7ff}")),
    ("UTF-8''%ee%80%80%EF%BF%BF", Some("\u{e000}\u{ffff}")),
    (
        "UTF-8''%F0%90%80%80%F4%8F%BF%BF",
        Some("\u{10000}\u{10ffff}"),
    ),
    ("", None),
    ("a", None),
    ("UTF-8'a", None),
    ("UTF-8'''a", None),
    ("UTF-8'd_e'a", None),
    ("UTF-16''a", None),
    ("ISO-8859-1''a", None),
    ("UTF-8''a*", None),
    ("UTF-8''%", None),
    ("UTF-8''%4", None),
    ("UTF-8''%4g", None),
    ("UTF-8''%80", None),
    ("UTF-8''%c3", None),
    ("UTF-8''%c3a", None),
    ("UTF-8''%c1%bf", None),
    ("UTF-8''%e0%9f%bf", None),
    ("UTF-8''%ed%a0%80", None),
    ("UTF-8''%f0%8f%bf%bf", None),
    ("UTF-8''%f4%90%80%80", None),
    ("UTF-8''%f8%88%80%80%80", None),
];

#[test]
fn extended_values_are_decoded() {
    for &(value, text) in VALUES {
        let mut out = [9; 32];
        let expected = text.ok_or(Refusal::BadExtended);
        assert_eq!(decode(value.as_bytes(), &mut out), expected, "{value}");
        let Some(text) = text else {
            assert_eq!(out, [9; 32], "{value}");
            continue;
        };
        assert!(out[text.len()..].iter().all(|&octet| octet == 9));
        let mut out = [9; 32];
        let exact = decode(value.as_bytes(), &mut out[..text.len()]);
        assert_eq!(exact, Ok(text));
        if let Some(fewer) = text.len().checked_sub(1) {
            let mut out = [9; 32];
            let short = decode(value.as_bytes(), &mut out[..fewer]);
            assert_eq!(short, Err(Refusal::NoOutputRoom));
            assert_eq!(out, [9; 32]);
        }
    }
}

#[test]
fn one_octet_too_long() {
    let mut value = [b'a'; LIMIT + 1];
    value[..7].copy_from_slice(b"UTF-8''");
    let mut out = [9; LIMIT];
    assert_eq!(decode(&value[..LIMIT], &mut out).map(str::len), Ok(8185));
    assert_eq!(decode(&value, &mut out), Err(Refusal::TooLong));
    assert_eq!(decode(&[0; LIMIT + 1], &mut []), Err(Refusal::TooLong));
    assert_eq!(decode(&[0; LIMIT], &mut []), Err(Refusal::BadExtended));
}

/// The title of a link with these parameters, in each edition.
fn assert_title(params: &[u8], expected: Result<Title, Refusal>) {
    let header = [b"<a>;x", params].concat();
    let (mut links, mut slots) = ([0; LINK_SLOTS], [0; 4 * PARAM_SLOTS]);
    for &edition in Edition::ALL {
        let table = Table::read_in(edition, &header, &mut links, &mut slots).unwrap();
        let mut out = [9; 64];
        let link = table.link(0).unwrap();
        let shown = header.escape_ascii();
        assert_eq!(link.title(&mut out), expected, "{shown}");
        let length = expected.map_or(0, |title| title.as_bytes().len());
        assert!(out[length..].iter().all(|&octet| octet == 9), "{shown}");
        if let Some(fewer) = length.checked_sub(1) {
            let short = link.title(&mut out[..fewer]);
            assert_eq!(short, Err(Refusal::NoOutputRoom), "{shown}");
        }
    }
}

/// Behind a backslash each, as some of them may stand in quotes.
fn escaped(value: &str) -> String {
    value.chars().flat_map(|octet| ['\\', octet]).collect()
}

#[test]
fn a_right_title_star_is_text() {
    for (value, text) in VALUES {
        let alone = text.map(Title::Text).ok_or(Refusal::NotFound);
        let beside = |title: &'static [u8]| alone.unwrap_or(Title::Octets(title));
        for written in [format!("\"{value}\""), format!("\"{}\"", escaped(value))] {
            let star = format!(";title*={written}");
            assert_title(star.as_bytes(), alone);
            assert_title(format!("{star};title=b").as_bytes(), Ok(beside(b"b")));
            assert_title(
                format!(";TITLE=\"\\\"\"{star}").as_bytes(),
                Ok(beside(b"\"")),
            );
            assert_title(format!("{star};title").as_bytes(), Ok(beside(b"")));
        }
        if !value.is_empty() {
            let star = format!(";Title*={value}");
            assert_title(star.as_bytes(), alone);
            assert_title(format!("{star};title=b").as_bytes(), Ok(beside(b"b")));
        }
    }
}

#[test]
fn a_title_is_octets() {
    assert_title(b"", Err(Refusal::NotFound));
    assert_title(b";title", Ok(NOTHING));
    assert_title(b";title=\"\";title=b", Ok(NOTHING));
    assert_title(b";title=UTF-8''a", Ok(Title::Octets(b"UTF-8''a")));
    assert_title(b";title=\"\xff\\\xc3\"", Ok(Title::Octets(b"\xff\xc3")));
    assert_title(
        b";title*;title=\"\xc3\xa4\"",
        Ok(Title::Octets(b"\xc3\xa4")),
    );
    assert_title(b";title*;title*=UTF-8''a", Err(Refusal::NotFound));
}

/// Beside a `title`, a link's own `title*` decides; a bare value that is no token can't be right.
#[test]
fn each_link_has_its_own() {
    let header = b"<a>;title=b;title*=UTF-8''c, <d>;title*=UTF-8''e/f;title=g/h, <i>;title=j";
    let (mut links, mut params) = ([0; 3 * LINK_SLOTS], [0; 5 * PARAM_SLOTS]);
    let table = Table::read_in(Edition::Rfc5988, header, &mut links, &mut params).unwrap();
    let mut rooms = [[0; 8]; 3];
    let [a, d, i] = &mut rooms;
    assert_eq!(table.title(0, a), Ok(Title::Text("c")));
    assert_eq!(table.title(1, d), Ok(Title::Octets(b"g/h")));
    assert_eq!(table.title(2, i), Ok(Title::Octets(b"j")));
}

/// As long as a value may be, in quotes and with backslashes before nearly every octet.
#[test]
fn a_long_one() {
    let (start, end) = ("<>;title;title*=\"UTF-8''", "a\"");
    let header = format!(
        "{start}{}{end}",
        "\\a".repeat((LIMIT - start.len() - end.len()) / 2)
    );
    assert_eq!(header.len(), LIMIT);
    let (mut links, mut params) = ([0; LINK_SLOTS], [0; 2 * PARAM_SLOTS]);
    let table = Table::read(header.as_bytes(), &mut links, &mut params).unwrap();
    let mut out = [0; LIMIT];
    let Ok(Title::Text(text)) = table.title(0, &mut out) else {
        panic!("it is right");
    };
    assert!(text.bytes().all(|octet| octet == b'a'));
    assert_eq!(text.len(), (LIMIT - start.len() - end.len()) / 2 + 1);
}

#[test]
fn an_unknown_edition_comes_first() {
    let long = [b'a'; LIMIT + 1];
    for text in [&b"title"[..], &long] {
        let raw = RawTable {
            text,
            links: &[0, 1, 0, 9],
            params: &[],
            link_count: 1,
            param_count: 0,
        };
        let number = |edition| ffi::title(edition, raw, 0, &mut []);
        let refused = |number| LengthAnswer { number, length: 0 };
        let known = if text.len() > LIMIT { 1 } else { 5 };
        assert_eq!([0, 1].map(number), [refused(known); 2]);
        assert_eq!([2, 256, usize::MAX].map(number), [refused(10); 3]);
    }
}
