//! Search, context and value copy.

use crate::{accepted, Tables};

#[test]
fn search_gives_the_lowest_link() {
    let tables = accepted(b"<a>,<b>;rel=\"x  Next\",<c>;rel=next,<d>;rel=y");
    assert_eq!(tables.search("next"), (0, 1));
    assert_eq!(tables.search("NEXT"), (0, 1));
    assert_eq!(tables.search("X"), (0, 1));
    assert_eq!(tables.search("y"), (0, 3));
    for absent in ["", " ", "x ", " next", "x  Next", "nex", "next.", "z"] {
        assert_eq!(tables.search(absent), (9, 0), "{absent}");
    }
}

#[test]
fn only_sp_parts_relations() {
    let tables = accepted(b"<a>;rel=\"b\tc \\ d\\ e\"");
    let meanings = tables.meanings().unwrap();
    assert_eq!(meanings[0].relations(), [&b"b\tc"[..], b"d", b"e"]);
    assert_eq!(tables.search("b\tC"), (0, 0));
    assert_eq!(tables.search("b"), (9, 0));
    assert_eq!(tables.search("e"), (0, 0));
}

#[test]
fn only_a_to_z_is_folded() {
    let tables = accepted("<a>;rel=\"É[K\u{212A}\"".as_bytes());
    assert_eq!(tables.search("É[k\u{212A}"), (0, 0));
    assert_eq!(tables.search("é[k\u{212A}"), (9, 0));
    assert_eq!(tables.search("É{k\u{212A}"), (9, 0));
    assert_eq!(tables.search("É[kk"), (9, 0));
}

#[test]
fn only_rel_has_relations() {
    let tables = accepted(b"<a>;rev=next;x=next;rel,<b>;Rel=\"\",<c>;relx=next");
    assert_eq!(tables.search("next"), (9, 0));
    assert_eq!(tables.search(""), (9, 0));
}

#[test]
fn context_is_the_anchor_as_written_or_the_base() {
    let tables = accepted(br#"<a>;Anchor="\#x",<b>,<c>;anchor,<d>;anchor="",<e>;anchor=y"#);
    assert_eq!(tables.context(b"base", 0), (0, 1, 12, 15));
    assert_eq!(tables.context(b"base", 1), (0, 2, 0, 4));
    assert_eq!(tables.context(b"", 1), (0, 2, 0, 0));
    assert_eq!(tables.context(b"base", 2), (0, 1, 31, 31));
    assert_eq!(tables.context(b"base", 3), (0, 1, 44, 44));
    assert_eq!(tables.context(b"base", 4), (0, 1, 57, 58));
    assert_eq!(tables.context(b"base", 5), (8, 0, 0, 0));
    assert_eq!(tables.context(b"base", usize::MAX), (8, 0, 0, 0));
}

#[test]
fn value_copies_the_meaning() {
    let tables = accepted(br#"<a>;x="\"\\\y\\",<b>;y=z;w;v="""#);
    assert_eq!(tables.value(0, 0, 4).unwrap(), br#""\y\"#);
    assert_eq!(tables.value(0, 0, 9).unwrap(), br#""\y\"#);
    assert_eq!(tables.value(1, 0, 1).unwrap(), b"z");
    assert_eq!(tables.value(1, 1, 0).unwrap(), b"");
    assert_eq!(tables.value(1, 2, 0).unwrap(), b"");
}

#[test]
fn value_refusals_in_order() {
    let tables = accepted(br#"<a>;x="\"\\\y\\",<b>;y=z"#);
    assert_eq!(tables.value(0, 0, 3), Err(7));
    assert_eq!(tables.value(0, 1, 0), Err(9));
    assert_eq!(tables.value(0, usize::MAX, 0), Err(9));
    assert_eq!(tables.value(2, 0, 0), Err(8));
    assert_eq!(tables.value(usize::MAX, usize::MAX, 0), Err(8));
    assert_eq!(Tables::new(b"", &[], &[]).value(0, 0, 0), Err(8));
}
