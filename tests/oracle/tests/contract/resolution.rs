//! References resolved on a base: read by hand, compared with another way, and
//! what is refused.

use crate::{output, segments, HELD_OCTET};
use oracle::{is_reference, is_uri, resolved};

/// A base, a reference, and what it resolves to.
fn rows() -> Vec<[&'static str; 3]> {
    let list = include_str!("../../data/resolution.txt").lines();
    let row = |line: &'static str| line.split('\t').collect::<Vec<_>>().try_into().unwrap();
    list.map(row).collect()
}

/// Resolves into that many octets.
fn resolve(reference: &[u8], base: &[u8], room: usize) -> Result<Vec<u8>, usize> {
    let mut out = vec![HELD_OCTET; room];
    let answer = oracle::resolve(reference, base, &mut out);
    output(answer, out)
}

fn assert_resolved(reference: &str, base: &str, result: &str) {
    let target = resolved(reference.as_bytes(), base.as_bytes());
    assert_eq!(
        target,
        Ok(result.as_bytes().to_vec()),
        "{reference} on {base}"
    );
}

#[test]
fn the_examples_of_rfc_3986() {
    let rows = rows();
    let (of_rfc, others) = rows.split_at(23 + 19);
    assert!(of_rfc.iter().all(|row| row[0] == "http://a/b/c/d;p?q"));
    assert!(others.iter().all(|row| row[0] != "http://a/b/c/d;p?q"));
    for [base, reference, result] in rows {
        assert_resolved(reference, base, result);
        assert_eq!(segments::resolved(reference, base), result);
    }
}

#[test]
fn strict_a_scheme_of_its_own_takes_nothing_of_the_base() {
    assert_resolved("http:g", "http://a/b?c", "http:g");
    assert_resolved("http:", "http://a/b?c", "http:");
    assert_resolved("http:?y", "http://a/b?c", "http:?y");
    assert_resolved("http:#s", "http://a/b?c", "http:#s");
    assert_resolved("HTTP:/../g", "http://a/b?c", "HTTP:/g");
}

#[test]
fn nothing_is_made_alike() {
    assert_resolved(
        "%2E%2e/%7Eg",
        "HTTP://A/b/%63/",
        "HTTP://A/b/%63/%2E%2e/%7Eg",
    );
    assert_resolved("", "a://H:/%2F?%3f", "a://H:/%2F?%3f");
    assert_resolved("?", "a://[::1]:80/b/../c", "a://[::1]:80/b/../c?");
    assert_resolved("c", "a://u@h:80/b/../", "a://u@h:80/c");
}

/// Bases of every shape.
const BASES: [&str; 16] = [
    "http://a/b/c/d;p?q",
    "a:",
    "a:b",
    "a:b/c",
    "a:/",
    "a:/b/",
    "a:/../x/./y",
    "a:../b",
    "a:./",
    "a:b/..",
    "a://",
    "a://h",
    "a://h/",
    "a://h?q#f",
    "a:?q",
    "a:b#f",
];

/// Every string of at most that many octets of the alphabet.
fn strings(alphabet: &str, most: usize) -> Vec<String> {
    let mut all = vec![String::new()];
    let mut longest = 0..1;
    for _ in 0..most {
        let end = all.len();
        for number in longest {
            let longer: Vec<String> = alphabet
                .chars()
                .map(|octet| format!("{}{octet}", all[number]))
                .collect();
            all.extend(longer);
        }
        longest = end..all.len();
    }
    all
}

#[test]
fn another_way_says_the_same() {
    let paths = strings("/.a", 8);
    assert_eq!(paths.len(), 9841);
    let others = strings("a:/?#.", 5);
    for (at, base) in BASES.iter().enumerate() {
        assert!(is_uri(base.as_bytes()));
        // Each base has all of the others, and a part of the paths.
        for reference in paths.iter().skip(at).step_by(4).chain(&others) {
            if is_reference(reference.as_bytes()) {
                assert_resolved(reference, base, &segments::resolved(reference, base));
            }
        }
    }
}

/// The path of the result has no segment of dots but for those of a base whose
/// path is taken as it is; and what has none resolves to itself.
#[test]
fn no_dots_are_left() {
    let is_dots = |segment: &str| matches!(segment, "." | "..");
    let references = strings("/.a?", 6);
    for reference in references.iter().filter(|text| !text.starts_with("//")) {
        let Ok(result) = resolved(reference.as_bytes(), b"a:/b/c/d") else {
            continue;
        };
        let result = String::from_utf8(result).unwrap();
        let path = result.split('?').next().unwrap();
        assert!(!path["a:".len()..].split('/').any(is_dots), "{reference}");
        assert!(path.starts_with("a:/"), "{reference}");
        if is_reference(result.as_bytes()) {
            assert_resolved(&result, "b://c/d", &result);
        }
    }
}

const WRONG_BASES: [&str; 12] = [
    "", "b", "/", "//h/b", "?q", "#f", "1:b", "a:b#f#", "a:b#[", "a://[", "a:b c", "a:%4g",
];

const WRONG_REFERENCES: [&str; 8] = ["1:b", ":", "b#c#d", "[", "//[::", "//h:p", "b c", "%4"];

#[test]
fn a_base_is_a_uri_and_a_reference_one() {
    for base in WRONG_BASES {
        for reference in ["", "b", "b:c"].iter().chain(&WRONG_REFERENCES) {
            let refused = resolved(reference.as_bytes(), base.as_bytes());
            assert_eq!(refused, Err(12), "{reference} on {base}");
        }
    }
    for base in BASES {
        for reference in WRONG_REFERENCES {
            let refused = resolved(reference.as_bytes(), base.as_bytes());
            assert_eq!(refused, Err(13), "{reference} on {base}");
        }
    }
}

#[test]
fn exact_room_is_enough_and_one_fewer_is_not() {
    assert_eq!(resolve(b"../c", b"a://h/b/", 7).unwrap(), b"a://h/c");
    assert_eq!(resolve(b"../c", b"a://h/b/", 9).unwrap(), b"a://h/c");
    for room in 0..7 {
        assert_eq!(resolve(b"../c", b"a://h/b/", room), Err(7));
        assert_eq!(resolve(b"[", b"a://h/b/", room), Err(13));
        assert_eq!(resolve(b"../c", b"//h/b/", room), Err(12));
    }
}

#[test]
fn lengths() {
    let long = |before: &str, length: usize| {
        let octets = before.to_string() + &"a".repeat(length - before.len());
        octets.into_bytes()
    };
    // Inputs over the limit, whatever else they are, and whatever they would give.
    assert_eq!(resolve(&long("1:", 8193), b"b", 0), Err(1));
    assert_eq!(resolve(b"[", &long("", 8193), 0), Err(1));
    assert_eq!(resolve(&long("1:", 8192), &long("", 8193), 9000), Err(1));
    assert_eq!(resolve(&long("1:", 8192), &long("", 8192), 9000), Err(12));
    assert_eq!(resolve(&long("1:", 8192), b"a:b", 9000), Err(13));
    assert_eq!(resolve(b"/b", &long("a:", 8192), 4).unwrap(), b"a:/b");
    // A result over the limit comes before the room.
    assert_eq!(resolve(&long("/", 8190), b"a:b", 8192).unwrap().len(), 8192);
    assert_eq!(resolve(&long("/", 8191), b"a:b", 9000), Err(1));
    assert_eq!(resolve(&long("/", 8191), b"a:b", 0), Err(1));
    assert_eq!(
        resolve(b"c", &long("a://", 8190), 8192).unwrap().len(),
        8192
    );
    assert_eq!(resolve(b"c", &long("a://", 8191), 8192), Err(1));
    // What is merged may be over it.
    let up = "../".repeat(2700) + "c";
    let base = "a:/".to_string() + &"b/".repeat(4000);
    let result = "a:/".to_string() + &"b/".repeat(1300) + "c";
    assert_resolved(&up, &base, &result);
}
