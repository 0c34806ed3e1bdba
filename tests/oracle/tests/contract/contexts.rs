//! The resolved context of a link: what its `anchor` means, on the base.

use crate::{accepted, accepted_in, Tables, EDITIONS};

const BASE: &str = "http://a/b/c/d;p?q#f";

fn assert_context(params: &str, base: &str, context: Result<&str, usize>) {
    let header = format!("<x>;anchor=y,<a>{params}");
    for edition in EDITIONS {
        let tables = accepted_in(edition, header.as_bytes());
        let resolved = tables.resolved_context(base.as_bytes(), 1, 100);
        let expected = context.map(|octets| octets.as_bytes().to_vec());
        assert_eq!(resolved, expected, "{params} on {base}");
    }
}

#[test]
fn without_an_anchor_it_is_the_base_up_to_its_fragment() {
    assert_context("", BASE, Ok("http://a/b/c/d;p?q"));
    assert_context(";rel=next;anchors=b", "a:b", Ok("a:b"));
    assert_context("", "a:b#", Ok("a:b"));
    assert_context("", "a:/../b/./?#/?", Ok("a:/../b/./?"));
}

#[test]
fn an_anchor_without_octets_is_the_empty_reference() {
    for params in [";anchor", ";anchor=\"\"", ";ANCHOR;anchor=x"] {
        assert_context(params, BASE, Ok("http://a/b/c/d;p?q"));
        assert_context(params, "a:/../b#c", Ok("a:/../b"));
    }
}

#[test]
fn an_anchor_is_resolved_with_its_backslashes_out() {
    assert_context(";anchor=g", BASE, Ok("http://a/b/c/g"));
    assert_context(";x;Anchor=\"#s\"", BASE, Ok("http://a/b/c/d;p?q#s"));
    assert_context(";anchor=\"?y\"", BASE, Ok("http://a/b/c/d;p?y"));
    assert_context(r#";anchor="\/\/host""#, BASE, Ok("http://host"));
    assert_context(r#";anchor="\.\.\/g""#, BASE, Ok("http://a/b/g"));
    assert_context(r#";anchor="/\./\..""#, BASE, Ok("http://a/"));
    assert_context(r#";anchor="\%\41""#, BASE, Ok("http://a/b/c/%41"));
    assert_context(";anchor=g;anchor=h", BASE, Ok("http://a/b/c/g"));
}

#[test]
fn a_wrong_base_comes_before_a_wrong_anchor() {
    for wrong in [
        ";anchor=\"1:b\"",
        ";anchor=\"a b\"",
        r#";anchor="\\""#,
        ";anchor=%",
    ] {
        assert_context(wrong, BASE, Err(13));
        for base in ["", "b", "//h", "a:b#c#d"] {
            assert_context(wrong, base, Err(12));
        }
    }
    for params in ["", ";anchor", ";anchor=\"b:c\""] {
        assert_context(params, "b", Err(12));
    }
}

#[test]
fn a_wider_value_is_an_anchor_too() {
    let tables = accepted_in(1, b"<a>;anchor=/g?y,<b>;anchor=//[::1],<c>;anchor={}");
    let context = |link| tables.resolved_context(BASE.as_bytes(), link, 100);
    assert_eq!(context(0).unwrap(), b"http://a/g?y");
    assert_eq!(context(1).unwrap(), b"http://[::1]");
    assert_eq!(context(2), Err(13));
}

#[test]
fn exact_room_is_enough_and_one_fewer_is_not() {
    let tables = accepted(b"<a>;anchor=\"\\g\",<b>");
    for (link, context) in [(0, "http://a/b/c/g"), (1, "http://a/b/c/d;p?q")] {
        let length = context.len();
        for room in [length, length + 1] {
            let resolved = tables.resolved_context(BASE.as_bytes(), link, room);
            assert_eq!(resolved.unwrap(), context.as_bytes());
        }
        for room in [0, length - 1] {
            let resolved = tables.resolved_context(BASE.as_bytes(), link, room);
            assert_eq!(resolved, Err(7));
        }
    }
}

#[test]
fn numbers_in_order() {
    let good = accepted(b"<a>;anchor=\"1:b\",<c>;anchor=d");
    let mut bad = good.clone();
    bad.param_slots[4] = 9;
    let mut long = bad.clone();
    long.text.resize(8193, b'a');
    let long_base = [b'a'; 8193];
    let refused = |tables: &Tables, base: &[u8], number| {
        for (link, room) in [(0, 0), (1, 99), (2, 0), (usize::MAX, 99)] {
            assert_eq!(tables.resolved_context(base, link, room), Err(number));
            let unknown = tables.in_edition(2);
            assert_eq!(unknown.resolved_context(base, link, room), Err(10));
        }
    };
    for base in [&b"a:b"[..], b"", b"1:b"] {
        refused(&bad, base, 5);
        refused(&long, base, 1);
    }
    for tables in [&good, &bad, &long] {
        refused(tables, &long_base, 1);
    }
    for edition in EDITIONS {
        let context = |base, link| good.in_edition(edition).resolved_context(base, link, 0);
        assert_eq!(context(b"1:b", 2), Err(8));
        assert_eq!(context(b"a:b", usize::MAX), Err(8));
        assert_eq!(context(b"1:b", 0), Err(12));
        assert_eq!(context(b"a:b", 0), Err(13));
        assert_eq!(context(b"a:b", 1), Err(7));
        let base = [b"a:/", &[b'a'; 8188][..], b"/"].concat();
        assert_eq!(base.len(), 8192);
        assert_eq!(context(&base, 0), Err(13));
        assert_eq!(context(&base, 1), Err(1));
    }
}
