//! The examples of RFC 8288 section 3.5, their folded lines joined by one SP.

use crate::{accepted, written, Tables};

fn read(header: &str) -> Tables {
    accepted(header.as_bytes())
}

#[test]
fn previous_chapter() {
    let tables =
        read("<http://example.com/TheBook/chapter2>; rel=\"previous\"; title=\"previous chapter\"");
    assert_eq!(tables.link_slots, [1, 36, 0, 2]);
    assert_eq!(
        tables.param_slots,
        [39, 42, 44, 52, 2, 1, 55, 60, 62, 78, 2, 4]
    );
    assert_eq!(tables.search("previous"), (0, 0));
    assert_eq!(tables.value(0, 1, 100).unwrap(), b"previous chapter");
    assert_eq!(
        written(&tables).unwrap(),
        "<http://example.com/TheBook/chapter2>; rel=previous; title=\"previous chapter\""
    );
}

#[test]
fn extension_relation() {
    let tables = read("</>; rel=\"http://example.net/foo\"");
    assert_eq!(tables.link_slots, [1, 2, 0, 1]);
    assert_eq!(tables.param_slots, [5, 8, 10, 32, 2, 1]);
    assert_eq!(tables.search("HTTP://EXAMPLE.NET/FOO"), (0, 0));
    assert_eq!(
        written(&tables).unwrap(),
        "</>; rel=\"http://example.net/foo\""
    );
}

#[test]
fn copyright_terms() {
    let tables = read("</terms>; rel=\"copyright\"; anchor=\"#foo\"");
    assert_eq!(tables.search("copyright"), (0, 0));
    assert_eq!(tables.context(b"https://example.org/", 0), (0, 1, 35, 39));
}

#[test]
fn titles_in_german() {
    let tables = read(
        "</TheBook/chapter2>; rel=\"previous\"; title*=UTF-8'de'letztes%20Kapitel, \
         </TheBook/chapter4>; rel=\"next\"; title*=UTF-8'de'n%c3%a4chstes%20Kapitel",
    );
    assert_eq!(tables.link_slots, [1, 18, 0, 2, 73, 90, 2, 2]);
    assert_eq!(
        tables.param_slots,
        [
            21, 24, 26, 34, 2, 1, 37, 43, 44, 70, 1, 5, //
            93, 96, 98, 102, 2, 1, 105, 111, 112, 144, 1, 5
        ]
    );
    assert_eq!(tables.search("next"), (0, 1));
    assert_eq!(
        written(&tables).unwrap(),
        "</TheBook/chapter2>; rel=previous; title*=UTF-8'de'letztes%20Kapitel, \
         </TheBook/chapter4>; rel=next; title*=UTF-8'de'n%c3%a4chstes%20Kapitel"
    );
}

#[test]
fn two_relations() {
    let tables = read("<http://example.org/>; rel=\"start http://example.net/relation/other\"");
    assert_eq!(tables.link_slots, [1, 20, 0, 1]);
    assert_eq!(tables.search("start"), (0, 0));
    assert_eq!(tables.search("http://example.net/relation/other"), (0, 0));
    assert_eq!(
        tables.search("start http://example.net/relation/other"),
        (9, 0)
    );
    let meanings = tables.meanings().unwrap();
    assert_eq!(
        meanings[0].relations(),
        [&b"start"[..], b"http://example.net/relation/other"]
    );
}

#[test]
fn one_field_or_two() {
    let joined =
        read("<https://example.org/>; rel=\"start\", <https://example.org/index>; rel=\"index\"");
    let apart = [
        read("<https://example.org/>; rel=\"start\""),
        read("<https://example.org/index>; rel=\"index\""),
    ];
    assert_eq!(
        joined.meanings().unwrap(),
        apart.map(|tables| tables.meanings().unwrap()).concat()
    );
    assert_eq!(joined.search("index"), (0, 1));
}
