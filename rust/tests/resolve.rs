//! References, targets and contexts resolved on a base, in every room; what is refused, and in which
//! order.

use capstanbar::ffi::{self, LengthAnswer, RawTable};
use capstanbar::{resolve, Edition, Refusal, Table, LIMIT, LINK_SLOTS, PARAM_SLOTS};

/// A base, a reference, and what it resolves to: RFC 3986's examples, and others read by hand.
fn rows() -> impl Iterator<Item = [&'static str; 3]> {
    let list = include_str!("../../tests/oracle/data/resolution.txt");
    list.lines().map(|line| {
        let columns: Vec<&str> = line.split('\t').collect();
        columns.try_into().expect("three columns")
    })
}

/// No URIs, though some are references.
const BAD_BASES: &[&str] = &[
    "", "a", "/", "//a/b", "?a", "#a", "1:a", ":a", "a:b#c#d", "a:[", "a://[", "a:b c", "a:%4",
];

/// No references.
const BAD_REFERENCES: &[&str] = &[
    "1:a", ":", "#a#b", "[", "//[", "//a:b", "a b", "%4", "\\a", "<a>",
];

const ROOM: usize = 64;

/// Asks in room enough, in just enough and in one octet fewer. What is not the result stays.
fn assert_resolved(
    ask: impl Fn(&mut [u8]) -> Result<Vec<u8>, Refusal>,
    expected: Result<&str, Refusal>,
    shown: &str,
) {
    let length = expected.map_or(0, str::len);
    for room in [ROOM, length, length.saturating_sub(1), 0] {
        let due = match expected {
            Ok(_) if room < length => Err(Refusal::NoOutputRoom),
            due => due.map(|octets| octets.as_bytes().to_vec()),
        };
        let mut out = [9; ROOM];
        assert_eq!(ask(&mut out[..room]), due, "{shown} in {room}");
        let written = due.map_or(0, |octets| octets.len());
        assert!(out[written..].iter().all(|&octet| octet == 9), "{shown}");
    }
}

fn assert_reference(reference: &str, base: &str, expected: Result<&str, Refusal>) {
    let shown = format!("{reference} on {base}");
    let ask = |out: &mut [u8]| {
        let resolved = resolve(reference.as_bytes(), base.as_bytes(), out);
        resolved.map(<[u8]>::to_vec)
    };
    assert_resolved(ask, expected, &shown);
}

#[test]
fn references_are_resolved() {
    for [base, reference, result] in rows() {
        assert_reference(reference, base, Ok(result));
    }
    assert_eq!(rows().count(), 42 + 16);
}

#[test]
fn a_bad_base_comes_before_a_bad_reference() {
    for base in BAD_BASES {
        for reference in ["", "a", "b:c"].iter().chain(BAD_REFERENCES) {
            assert_reference(reference, base, Err(Refusal::BadBase));
        }
    }
    for reference in BAD_REFERENCES {
        assert_reference(reference, "a:b", Err(Refusal::BadReference));
    }
}

/// A link with these parameters behind its target, asked in each edition that reads it.
fn with_link(header: &str, ask: impl Fn(capstanbar::Link)) {
    let (mut links, mut params) = ([0; 2 * LINK_SLOTS], [0; 4 * PARAM_SLOTS]);
    let mut read = 0;
    for &edition in Edition::ALL {
        let table = Table::read_in(edition, header.as_bytes(), &mut links, &mut params);
        if let Ok(table) = table {
            ask(table.links().next_back().expect("it has a link"));
            read += 1;
        }
    }
    assert!(read > 0, "{header}");
}

fn assert_context(params: &str, base: &str, expected: Result<&str, Refusal>) {
    for before in ["", "<b>;anchor=c, "] {
        let header = format!("{before}<a>;x{params}");
        with_link(&header, |link| {
            let ask = |out: &mut [u8]| {
                let context = link.resolved_context(base.as_bytes(), out);
                context.map(<[u8]>::to_vec)
            };
            assert_resolved(ask, expected, &format!("{header} on {base}"));
        });
    }
}

#[test]
fn targets_are_resolved() {
    for [base, reference, result] in rows() {
        with_link(&format!("<{reference}>;anchor=x"), |link| {
            let ask = |out: &mut [u8]| link.resolve(base.as_bytes(), out).map(<[u8]>::to_vec);
            assert_resolved(ask, Ok(result), &format!("<{reference}> on {base}"));
        });
    }
    for base in BAD_BASES {
        with_link("<a>", |link| {
            let ask = |out: &mut [u8]| link.resolve(base.as_bytes(), out).map(<[u8]>::to_vec);
            assert_resolved(ask, Err(Refusal::BadBase), base);
        });
    }
}

/// With a backslash before each octet that is chosen.
fn escaped(value: &str, chosen: impl Fn(usize) -> bool) -> String {
    let octets = value.chars().enumerate();
    octets
        .flat_map(|(at, octet)| chosen(at).then_some('\\').into_iter().chain([octet]))
        .collect()
}

#[test]
fn anchors_are_resolved() {
    for [base, reference, result] in rows() {
        for at in 0..=reference.len() {
            let one = escaped(reference, |place| place == at);
            let all_before = escaped(reference, |place| place < at);
            for written in [one, all_before] {
                assert_context(&format!(";anchor=\"{written}\""), base, Ok(result));
            }
        }
        if !reference.is_empty() && !reference.contains([';', ',']) {
            assert_context(&format!(";anchor={reference}"), base, Ok(result));
        }
    }
    for reference in BAD_REFERENCES {
        let written = escaped(reference, |_| true);
        let bad = Err(Refusal::BadReference);
        assert_context(&format!(";anchor=\"{written}\""), "a:b", bad);
        assert_context(
            &format!(";anchor=\"{written}\""),
            "b",
            Err(Refusal::BadBase),
        );
    }
}

#[test]
fn without_a_reference_it_is_the_base_without_its_fragment() {
    for (base, bare) in [
        ("a:b", "a:b"),
        ("a:b#", "a:b"),
        ("a:b#c/?d", "a:b"),
        ("a:?#", "a:?"),
        ("http://a/../b/./?c#d", "http://a/../b/./?c"),
    ] {
        for params in [
            "",
            ";anchor",
            ";anchor=\"\"",
            ";ANCHOR;anchor=c",
            ";anchors=c",
        ] {
            assert_context(params, base, Ok(bare));
        }
    }
    for base in BAD_BASES {
        for params in ["", ";anchor", ";anchor=b"] {
            assert_context(params, base, Err(Refusal::BadBase));
        }
    }
}

/// Scheme, slash, so many octets.
fn long(before: &str, length: usize) -> String {
    before.to_string() + &"a".repeat(length - before.len())
}

#[test]
fn about_the_limit() {
    let mut out = [9; LIMIT + 1];
    let mut length = |reference: &str, base: &str| {
        let resolved = resolve(reference.as_bytes(), base.as_bytes(), &mut out);
        resolved.map(<[u8]>::len)
    };
    for over in [0, 1] {
        let due = |length| [Ok(length), Err(Refusal::TooLong)][over];
        assert_eq!(
            length(&long("", LIMIT + over), "a://b/c?d"),
            Err(Refusal::TooLong)
        );
        assert_eq!(length(&long("a:", LIMIT + over), "a:b"), due(LIMIT));
        assert_eq!(length("", &long("a:", LIMIT + over)), due(LIMIT));
        assert_eq!(length("/b", &long("a:", LIMIT + over)), due(4));
        // Of a good length each, and the result has one octet more.
        assert_eq!(length("b", &long("a://", LIMIT - 2 + over)), due(LIMIT));
        let (base, reference) = (long("a:/", 4000) + "/b", long("", LIMIT - 4001 + over));
        assert_eq!(length(&reference, &base), due(LIMIT));
    }
    // What is merged is over the limit, what is left of it is short.
    let (base, up) = (
        "a:/".to_string() + &"b/".repeat(2500),
        "../".repeat(2500) + "c",
    );
    assert_eq!(length(&up, &base), Ok("a:/c".len()));
}

#[test]
fn a_text_or_a_base_too_long_comes_before_a_bad_table() {
    let long = [b'a'; LIMIT + 1];
    let mut out = [9; 8];
    for (text, base, number) in [
        (&long[..], &b"a:b"[..], 1),
        (b"anchor", &long, 1),
        (&long, &long, 1),
        (b"anchor", b"a:b", 5),
        (b"anchor", b"", 5),
    ] {
        let raw = RawTable {
            text,
            links: &[0, 1, 0, 9],
            params: &[],
            link_count: 1,
            param_count: 0,
        };
        let mut ask = |edition| ffi::resolved_context(edition, raw, base, 9, &mut out);
        let refused = |number| LengthAnswer { number, length: 0 };
        assert_eq!([0, 1].map(&mut ask), [refused(number); 2]);
        assert_eq!([2, 256, usize::MAX].map(&mut ask), [refused(10); 3]);
    }
    assert_eq!(out, [9; 8]);
}
