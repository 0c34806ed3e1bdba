//! The written form.

use crate::{accepted, written, Tables};

fn assert_written(header: &str, form: &str) {
    assert_eq!(written(&accepted(header.as_bytes())).unwrap(), form);
}

#[test]
fn names_are_folded_and_values_bare_or_quoted() {
    assert_written(
        "\t<A> ;REL = Next ; X;Y=\"\";Z=\"b c\", ,<%4F>;rel=\"!#$%&'*+-.^_`|~\"",
        "<A>; rel=Next; x=\"\"; y=\"\"; z=\"b c\", <%4F>; rel=!#$%&'*+-.^_`|~",
    );
}

#[test]
fn only_quotes_and_backslashes_are_escaped() {
    assert_written(
        r#"<a>;rel=x;t="\a\"\\\ \	b/é""#,
        r#"<a>; rel=x; t="a\"\\ 	b/é""#,
    );
}

#[test]
fn every_link_needs_a_relation() {
    for header in [
        "<a>",
        "<a>;rel",
        "<a>;rel=\"\"",
        "<a>;rel=\" \\  \"",
        "<a>;rev=x",
    ] {
        assert_eq!(accepted(header.as_bytes()).write(0), Err(6));
        let second = format!("<b>;rel=c,{header}");
        assert_eq!(accepted(second.as_bytes()).write(0), Err(6));
    }
    assert_written("<a>;rel=\"\t\"", "<a>; rel=\"\t\"");
}

#[test]
fn exact_output_room_is_enough_and_one_fewer_is_not() {
    let tables = accepted(b"<a>;rel=b");
    assert_eq!(tables.write(10).unwrap(), b"<a>; rel=b");
    assert_eq!(tables.write(11).unwrap(), b"<a>; rel=b");
    assert_eq!(tables.write(9), Err(7));
    assert_eq!(tables.write(0), Err(7));
}

/// A table of two links over one target whose form, `<...>; rel=r` and
/// `<...>; rel=r` or `<...>; rel=re` parted by `, `, has that many octets.
fn form_of(length: usize) -> Tables {
    let target = (length - 20) / 2;
    let text = [&vec![b'a'; target][..], b"rel"].concat();
    let param = |value| [target, target + 3, target, target + value, 1, 1];
    Tables::new(
        &text,
        &[[0, target, 0, 1], [0, target, 1, 1]],
        &[param(1), param(1 + length % 2)],
    )
}

#[test]
fn a_form_of_8192_is_written_and_one_of_8193_is_not() {
    assert_eq!(form_of(8191).write(9000).unwrap().len(), 8191);
    assert_eq!(form_of(8192).write(8192).unwrap().len(), 8192);
    assert_eq!(form_of(8192).write(8191), Err(7));
    assert_eq!(form_of(8193).write(9000), Err(1));
    assert_eq!(form_of(8193).write(0), Err(1));
}

#[test]
fn no_relation_comes_before_a_form_too_long() {
    let mut tables = form_of(8193);
    tables.link_slots.extend([0, 0, 2, 0]);
    tables.link_count = 3;
    assert_eq!(tables.write(0), Err(6));
}
