//! The older edition beside the newer one, and numbers of no edition.

use crate::{accepted, accepted_in, read_amply, refusal, written, Tables, EDITIONS};
use oracle::PARAM_SLOTS;

/// What the older edition allows in a bare value beside the octets of a token.
pub const FURTHER: &[u8; 13] = b"()/:<=>?@[]{}";

/// Numbers of no edition.
const UNKNOWN: [usize; 4] = [2, 3, 1 << 32, usize::MAX];

fn token(octet: u8) -> bool {
    octet.is_ascii_graphic() && !b"\"(),/:;<=>?@[\\]{}".contains(&octet)
}

/// The records of the last parameter, read in the older edition.
fn last_param(header: &[u8]) -> [usize; PARAM_SLOTS] {
    *accepted_in(1, header).param_slots.last_chunk().unwrap()
}

fn malformed(edition: usize, header: &[u8]) -> usize {
    let (answer, _) = read_amply(edition, header);
    assert_eq!(
        answer,
        refusal(2, answer.place),
        "{}",
        header.escape_ascii()
    );
    answer.place
}

#[test]
fn a_relation_that_stands_bare() {
    let header = b"<a>;rel=a/b";
    assert_eq!(malformed(0, header), 9);
    let tables = accepted_in(1, header);
    assert_eq!(tables.link_slots, [1, 2, 0, 1]);
    assert_eq!(tables.param_slots, [4, 7, 8, 11, 3, 1]);
    assert_eq!(tables.search("A/B"), (0, 0));
    assert_eq!(tables.search("a"), (9, 0));
    assert_eq!(tables.value(0, 0, 3).unwrap(), b"a/b");
    assert_eq!(tables.value(0, 0, 2), Err(7));
    assert_eq!(written(&tables).unwrap(), "<a>; rel=\"a/b\"");
    assert_eq!(tables.write(13), Err(7));
}

#[test]
fn an_address_for_a_relation_and_one_for_a_context() {
    let header = b"<a>; rel=http://example.net/foo; anchor=/x?y=[z]";
    assert_eq!(malformed(0, header), 13);
    let tables = accepted_in(1, header);
    assert_eq!(
        tables.param_slots,
        [5, 8, 9, 31, 3, 1, 33, 39, 40, 48, 3, 2]
    );
    assert_eq!(tables.search("HTTP://example.net/foo"), (0, 0));
    assert_eq!(tables.context(b"base", 0), (0, 1, 40, 48));
    assert_eq!(
        written(&tables).unwrap(),
        "<a>; rel=\"http://example.net/foo\"; anchor=\"/x?y=[z]\""
    );
}

#[test]
fn each_octet_alone_and_beside_a_token() {
    for octet in 0..=255 {
        for value in [&[octet][..], &[octet, b'x'], &[b'x', octet]] {
            let header = [b"<a>;b=", value, b",<c>"].concat();
            let record = |form| [4, 5, 6, 6 + value.len(), form, 0];
            let place = 6 + usize::from(value[0] == b'x');
            if token(octet) {
                assert_eq!(accepted(&header).param_slots, record(1));
                assert_eq!(last_param(&header), record(1));
            } else if FURTHER.contains(&octet) {
                assert_eq!(malformed(0, &header), place);
                assert_eq!(last_param(&header), record(3));
            } else if !b" \t\",;".contains(&octet) {
                assert_eq!(malformed(0, &header), place);
                assert_eq!(malformed(1, &header), place);
            }
        }
    }
}

#[test]
fn one_octet_outside_a_token_is_enough_wherever_it_stands() {
    for &octet in FURTHER {
        for at in 0..6 {
            let mut header = *b"<a>;b=123456;c";
            header[6 + at] = octet;
            let tables = accepted_in(1, &header);
            let params = [[4, 5, 6, 12, 3, 0], [13, 14, 14, 14, 0, 0]];
            assert_eq!(tables.param_slots, params.concat());
        }
    }
}

#[test]
fn delimiters_stay() {
    assert_eq!(last_param(b"<a>;x=="), [4, 5, 6, 7, 3, 0]);
    assert_eq!(last_param(b"<a>;x=<b>"), [4, 5, 6, 9, 3, 0]);
    assert_eq!(last_param(b"<a> ; x = = ; y"), [14, 15, 15, 15, 0, 0]);
    assert_eq!(last_param(b"<a>;x=/;y=b"), [8, 9, 10, 11, 1, 0]);
    assert_eq!(last_param(b"<a>;rel=(a);rel=b"), [4, 7, 8, 11, 3, 1]);
    assert_eq!(
        accepted_in(1, b"<a>;x=b:c,<d>").link_slots[4..],
        [11, 12, 1, 0]
    );
    assert_eq!(malformed(1, b"<a>;x=<b> <c>"), 10);
    assert_eq!(malformed(1, b"<a>;x=<b c>"), 9);
    assert_eq!(malformed(1, b"<a>;x=a\""), 7);
    assert_eq!(malformed(1, b"<a>;x=/\""), 7);
    assert_eq!(malformed(1, b"<a>;x=/\\"), 7);
    assert_eq!(malformed(1, b"<a>;x=\"/\"/"), 9);
    assert_eq!(malformed(1, b"<a>;x="), 6);
    assert_eq!(malformed(1, b"<a>;x=,<b>"), 6);
    assert_eq!(malformed(1, b"<a>;x=/;"), 8);
}

#[test]
fn names_stay_tokens() {
    for &octet in FURTHER {
        for edition in EDITIONS {
            assert_eq!(malformed(edition, &[b"<a>;", &[octet][..]].concat()), 4);
            if octet != b'=' {
                let header = [b"<a>;x", &[octet][..], b"=y"].concat();
                assert_eq!(malformed(edition, &header), 5);
            }
        }
    }
}

#[test]
fn targets_stay() {
    for edition in EDITIONS {
        assert_eq!(malformed(edition, b"<a{b}>"), 2);
        assert_eq!(malformed(edition, b"<a<b>"), 2);
    }
}

/// A table of one link and one parameter `x`, whose value are these octets.
fn with_value(octets: &[u8], form: usize) -> Tables {
    let text = [b"x ", octets].concat();
    Tables::new(&text, &[[0, 1, 0, 1]], &[[0, 1, 2, text.len(), form, 0]])
}

/// Whether the value is right for that form in each edition.
fn good_values(octets: &[u8], form: usize) -> [bool; 2] {
    EDITIONS.map(|edition| with_value(octets, form).in_edition(edition).good())
}

#[test]
fn form_3_is_for_such_values_alone_and_in_the_older_edition() {
    for value in ["/", "a/b", "(a", "a)", "=<>=", "http://a/?b=[c]@{d}"] {
        assert_eq!(good_values(value.as_bytes(), 3), [false, true], "{value}");
        assert_eq!(good_values(value.as_bytes(), 1), [false, false], "{value}");
        assert_eq!(good_values(value.as_bytes(), 2), [true, true], "{value}");
        assert_eq!(good_values(value.as_bytes(), 4), [false, false], "{value}");
    }
    for value in ["", "a", "next", "!#$%&'*+-.^_`|~"] {
        assert_eq!(good_values(value.as_bytes(), 3), [false, false], "{value}");
        assert_eq!(good_values(value.as_bytes(), 1), [!value.is_empty(); 2]);
    }
    for octet in 0..=255 {
        let further = FURTHER.contains(&octet);
        assert_eq!(good_values(&[octet], 3), [false, further], "{octet}");
        let allowed = further || token(octet);
        assert_eq!(good_values(&[b'/', octet], 3), [false, allowed], "{octet}");
        assert_eq!(good_values(&[octet, b'/'], 3), [false, allowed], "{octet}");
        assert_eq!(good_values(&[octet], 1), [token(octet); 2], "{octet}");
    }
}

#[test]
fn spans_of_form_3_lie_in_the_text() {
    for (start, end) in [(3, 2), (2, 4), (4, 4), (usize::MAX, 3), (2, usize::MAX)] {
        let mut tables = with_value(b"/", 3).in_edition(1);
        assert!(tables.good());
        tables.param_slots[2..4].copy_from_slice(&[start, end]);
        assert!(!tables.good(), "{start} {end}");
    }
}

#[test]
fn what_is_asked_of_a_form_3_value() {
    let text = b"REL a/b =";
    let params = [[0, 3, 4, 7, 3, 1], [5, 6, 8, 9, 3, 0]];
    let bad = Tables::new(b"REL a/b =", &[[4, 7, 0, 1]], &params[..1]);
    assert_eq!(bad.search("a/b"), (5, 0));
    assert_eq!(bad.context(b"base", 0), (5, 0, 0, 0));
    assert_eq!(bad.value(0, 0, 9), Err(5));
    assert_eq!(bad.write(99), Err(5));
    let mut good = Tables::new(text, &[[4, 7, 0, 1]], &params[..1]).in_edition(1);
    assert_eq!(good.search("a/b"), (0, 0));
    assert_eq!(good.context(b"base", 0), (0, 2, 0, 4));
    assert_eq!(good.value(0, 0, 9).unwrap(), b"a/b");
    assert_eq!(written(&good).unwrap(), "<a/b>; rel=\"a/b\"");
    // The second one's name has an octet outside a token, which no form allows.
    good.link_slots[3] = 2;
    good.param_slots = params.concat();
    good.param_count = 2;
    assert_eq!(good.write(99), Err(5));
}

#[test]
fn unknown_editions_are_refused_before_all_else() {
    let good = accepted(b"<a>;rel=b");
    let bad = Tables::new(b"a", &[[9, 0, 9, 9]], &[]);
    let long = Tables::new(&[b'a'; 8193], &[[9, 0, 9, 9]], &[]);
    for edition in UNKNOWN {
        for header in [&b""[..], b"<a>", b"x", &[b' '; 8193]] {
            assert_eq!(read_amply(edition, header).0, refusal(10, 0));
            let answer = oracle::read(edition, header, &mut [], &mut []);
            assert_eq!(answer, refusal(10, 0));
        }
        for tables in [&good, &bad, &long].map(|tables| tables.in_edition(edition)) {
            assert!(!tables.good());
            assert_eq!(tables.meanings(), None);
            assert_eq!(tables.search("b"), (10, 0));
            assert_eq!(tables.context(b"base", 0), (10, 0, 0, 0));
            assert_eq!(tables.context(b"base", 5), (10, 0, 0, 0));
            assert_eq!(tables.value(0, 0, 9), Err(10));
            assert_eq!(tables.value(5, 5, 0), Err(10));
            assert_eq!(tables.write(99), Err(10));
            assert_eq!(tables.write(0), Err(10));
        }
    }
}

#[test]
fn stored_headers_of_the_newer_edition_read_the_same_in_the_older() {
    let stored = include_bytes!("../../data/corpus.txt");
    for header in stored.split(|&octet| octet == b'\n') {
        let (answer, newer) = read_amply(0, header);
        let (older_answer, older) = read_amply(1, header);
        if answer.number == 0 {
            assert_eq!(older_answer, answer);
            assert_eq!(older.link_slots, newer.link_slots);
            assert_eq!(older.param_slots, newer.param_slots);
        } else {
            assert!(older_answer.number == 0 || older_answer.place >= answer.place);
        }
    }
}
