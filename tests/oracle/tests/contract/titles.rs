//! The title of a link: what `title*` gives if it is right, else `title`.

use crate::{accepted, accepted_in, Tables, EDITIONS};

/// Every link's title in each edition, none where it isn't found.
fn assert_titles(header: impl AsRef<[u8]>, titles: &[Option<&[u8]>]) {
    for edition in EDITIONS {
        let tables = accepted_in(edition, header.as_ref());
        assert_eq!(tables.link_count, titles.len());
        for (link, title) in titles.iter().enumerate() {
            let expected = title.map(<[u8]>::to_vec).ok_or(9);
            assert_eq!(tables.title(link, 100), expected, "{link} of {tables:?}");
        }
    }
}

fn assert_title(params: &str, title: Option<&str>) {
    assert_titles(format!("<a>{params}"), &[title.map(str::as_bytes)]);
}

#[test]
fn the_two_chapters_of_rfc_8288() {
    let header = "</TheBook/chapter2>; rel=\"previous\"; title*=UTF-8'de'letztes%20Kapitel, \
                  </TheBook/chapter4>; rel=\"next\"; title*=UTF-8'de'n%c3%a4chstes%20Kapitel";
    let titles = ["letztes Kapitel", "nächstes Kapitel"];
    assert_titles(header, &titles.map(|title| Some(title.as_bytes())));
}

#[test]
fn a_right_one_comes_first() {
    assert_title(";title*=UTF-8''a;title=b", Some("a"));
    assert_title(";title=b;x;TITLE*=utf-8'en'%61", Some("a"));
    assert_title(";title=b;title*=UTF-8''", Some(""));
    assert_title(";title*=\"UTF-8''a\";title=b", Some("a"));
    assert_title(r#";title*="UTF-8\'\'\a";title=b"#, Some("a"));
    assert_title(r#";title*="\U\T\F\-\8\'\'%\4\1";title=b"#, Some("A"));
}

#[test]
fn a_wrong_one_is_as_none() {
    for wrong in [
        ";title*",
        ";title*=\"\"",
        ";title*=a",
        ";title*=UTF-8''%ff",
        ";title*=UTF-8''%",
        ";title*=\"UTF-8''a b\"",
        ";title*=\"UTF-8''\\\\a\"",
        ";title*=\"UTF-8''\u{e4}\"",
        ";title*=ISO-8859-1''a",
    ] {
        assert_title(wrong, None);
        assert_title(&format!("{wrong};title=b"), Some("b"));
        assert_title(&format!(";Title=\"\\b\"{wrong}"), Some("b"));
        assert_title(&format!("{wrong};title"), Some(""));
    }
}

#[test]
fn without_one_it_is_the_title_whatever_its_octets_are() {
    assert_title("", None);
    assert_title(";x;title**=UTF-8''a;titl=b", None);
    assert_title(";title", Some(""));
    assert_title(";title=\"\"", Some(""));
    assert_title(";title=UTF-8''a", Some("UTF-8''a"));
    assert_title(r#";title="\"b\\\"""#, Some("\"b\\\""));
    assert_titles(b"<a>;title=\"\xff\\\xC3\"", &[Some(b"\xff\xC3")]);
}

#[test]
fn a_later_one_is_not_kept() {
    assert_title(";title*=UTF-8''a;title*=UTF-8''b", Some("a"));
    assert_title(";title*=%;title*=UTF-8''b", None);
    assert_title(";title*=%;title*=UTF-8''b;title=c;title=d", Some("c"));
}

#[test]
fn a_link_has_its_own() {
    let header = "<a>;title=b,<c>,<d>;title*=UTF-8''e;title=f,<g>;title*=h";
    assert_titles(header, &[Some(b"b"), None, Some(b"e"), None]);
}

#[test]
fn a_wider_value_is_a_title_but_no_extended_value() {
    let tables = accepted_in(1, b"<a>;title*=UTF-8''a/b;title=c/d,<e>;title*=UTF-8''a@");
    assert_eq!(tables.title(0, 9).unwrap(), b"c/d");
    assert_eq!(tables.title(1, 9), Err(9));
}

/// There is no falling back for want of room.
#[test]
fn exact_room_is_enough_and_one_fewer_is_not() {
    let tables = accepted(b"<a>;title*=UTF-8''%e2%82%ac;title=b,<c>;title=\"\\d\\e\"");
    assert_eq!(tables.title(0, 3).unwrap(), "€".as_bytes());
    assert_eq!(tables.title(0, 4).unwrap(), "€".as_bytes());
    assert_eq!(tables.title(1, 2).unwrap(), b"de");
    for (link, room) in [(0, 2), (0, 1), (0, 0), (1, 1), (1, 0)] {
        assert_eq!(tables.title(link, room), Err(7));
    }
}

#[test]
fn numbers_in_order() {
    let good = accepted(b"<a>;title=b,<c>");
    let mut bad = good.clone();
    bad.param_slots[4] = 9;
    let mut long = bad.clone();
    long.text.resize(8193, b'a');
    let refused = |tables: &Tables, number| {
        for (link, room) in [(0, 0), (1, 9), (2, 0), (usize::MAX, 9)] {
            assert_eq!(tables.title(link, room), Err(number));
            assert_eq!(tables.in_edition(2).title(link, room), Err(10));
        }
    };
    refused(&bad, 5);
    refused(&long, 1);
    for edition in EDITIONS {
        let good = good.in_edition(edition);
        assert_eq!(good.title(2, 0), Err(8));
        assert_eq!(good.title(usize::MAX, 0), Err(8));
        assert_eq!(good.title(1, 0), Err(9));
        assert_eq!(good.title(0, 0), Err(7));
    }
}
