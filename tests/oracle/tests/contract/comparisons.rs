//! The folded comparison of two texts, and that names and relations compare so.

use crate::accepted;
use crate::codes::{Known, NAMES};
use oracle::{compare, name_code, Comparison};

const SMALL: &[u8] = b"abcdefghijklmnopqrstuvwxyz";
const CAPITAL: &[u8] = b"ABCDEFGHIJKLMNOPQRSTUVWXYZ";

/// Octets next to the letters, and far ones that differ in the bit of the case.
const MARKS: &[u8] = b"@`[{\xC0\xE0\xDA\xFA";

/// Up to this length each place is tried.
const LENGTH: usize = 70;

/// Past the limit of headers too: the comparison has none.
const LONG: [usize; 3] = [8192, 8193, 70_000];

fn answer(same: bool, pairs: usize) -> Comparison {
    Comparison { same, pairs }
}

/// Both ways round.
fn expect(one: &[u8], other: &[u8], expected: Comparison) {
    let shown = || format!("{} {}", one.escape_ascii(), other.escape_ascii());
    assert_eq!(compare(one, other), expected, "{}", shown());
    assert_eq!(compare(other, one), expected, "{}", shown());
}

/// Letters and marks in turn.
fn text(length: usize) -> Vec<u8> {
    let round = [SMALL, MARKS, CAPITAL].concat();
    round.iter().copied().cycle().take(length).collect()
}

/// The letters in the other case.
fn other_case(text: &[u8]) -> Vec<u8> {
    let other = |&octet: &u8| match octet.is_ascii_lowercase() {
        true => octet.to_ascii_uppercase(),
        false => octet.to_ascii_lowercase(),
    };
    text.iter().map(other).collect()
}

#[test]
fn every_pair_of_octets() {
    let letters: Vec<(u8, u8)> = SMALL.iter().copied().zip(CAPITAL.iter().copied()).collect();
    for one in 0..=255 {
        for other in 0..=255 {
            let cases = letters.contains(&(one, other)) || letters.contains(&(other, one));
            expect(&[one], &[other], answer(one == other || cases, 1));
        }
    }
}

#[test]
fn texts_of_no_octets_are_the_same() {
    expect(b"", b"", answer(true, 0));
}

#[test]
fn equal_texts_take_all_pairs() {
    for length in (0..=LENGTH).chain(LONG) {
        let one = text(length);
        expect(&one, &one, answer(true, length));
        expect(&one, &other_case(&one), answer(true, length));
    }
}

#[test]
fn another_length_takes_no_pair() {
    for length in (0..=LENGTH).chain(LONG) {
        let one = text(length + 1);
        expect(&one, &one[..length], answer(false, 0));
        expect(&one, &one[1..], answer(false, 0));
        expect(&one, b"", answer(false, 0));
    }
}

#[test]
fn the_first_unequal_pair_is_the_last_compared() {
    for length in 1..=LENGTH {
        for place in 0..length {
            unequal_at(length, place);
        }
    }
    for length in LONG {
        for place in [0, 1, length / 2, length - 2, length - 1] {
            unequal_at(length, place);
        }
    }
}

/// Unequal in that place: there alone, and in each place behind it too.
fn unequal_at(length: usize, place: usize) {
    let one = text(length);
    let mut other = other_case(&one);
    other[place] = b' ';
    expect(&one, &other, answer(false, place + 1));
    other[place..].fill(b' ');
    expect(&one, &other, answer(false, place + 1));
}

#[test]
fn by_hand() {
    for (one, other, expected) in [
        (&b"rel"[..], &b"REL"[..], answer(true, 3)),
        (b"anchor", b"aNCHOr", answer(true, 6)),
        (b"title", b"title*", answer(false, 0)),
        (b"rel", b"", answer(false, 0)),
        (b"rel", b"sel", answer(false, 1)),
        (b"rel", b"RIL", answer(false, 2)),
        (b"rel", b"rev", answer(false, 3)),
        (b"rel", b"xyz", answer(false, 1)),
        (b"a[", b"A{", answer(false, 2)),
        (b"@b", b"`b", answer(false, 1)),
        (b"a\xC0b", b"a\xE0b", answer(false, 2)),
        (b"\0\xFF", b"\0\xFF", answer(true, 2)),
    ] {
        expect(one, other, expected);
    }
}

#[test]
fn names_compare_so() {
    for &Known { name, code, .. } in NAMES {
        for place in 0..name.len() {
            for octet in 0..=255 {
                let mut near = name.as_bytes().to_vec();
                near[place] = octet;
                let same = compare(name.as_bytes(), &near).same;
                assert_eq!(name_code(&near) == code, same, "{}", near.escape_ascii());
            }
        }
    }
}

#[test]
fn relations_compare_so() {
    let plain = (b'#'..=b'[').chain(b']'..=b'~').chain(128..=255);
    for octet in plain {
        let relation = [b"next", &[octet][..]].concat();
        let tables = accepted(&[b"<a>;rel=\"", &relation[..], b"\""].concat());
        for other in 0..=255 {
            let query = [b"Next", &[other][..]].concat();
            let found = tables.search(&query) == (0, 0);
            assert_eq!(found, compare(&relation, &query).same, "{octet} {other}");
        }
    }
}
