//! Targets that aren't references: where a header is malformed, when a feed
//! tells it, and which tables are bad.

use crate::{accepted_in, read_amply, refusal, Tables, EDITIONS, HELD_OCTET};
use oracle::{Feeding, PARAM_SLOTS};

fn assert_malformed_in(edition: usize, header: &str, place: usize) {
    let (answer, _) = read_amply(edition, header.as_bytes());
    assert_eq!(answer, refusal(2, place), "{header} in {edition}");
}

fn assert_malformed(header: &str, place: usize) {
    for edition in EDITIONS {
        assert_malformed_in(edition, header, place);
    }
}

fn assert_accepted(header: &str) {
    for edition in EDITIONS {
        accepted_in(edition, header.as_bytes());
    }
}

#[test]
fn the_place_is_the_start_of_the_first_wrong_target() {
    assert_malformed("<1:a>", 1);
    assert_malformed("<a#b#c>", 1);
    assert_malformed(" ,\t<1:a> , <a#b#c>", 4);
    assert_malformed("<a>,<1:a>", 5);
    assert_malformed("<a>;x=\"<\",<[>;rel=b", 11);
    assert_malformed("<//[::1>,<a>", 1);
}

#[test]
fn what_stands_behind_it_changes_nothing() {
    for behind in [
        "", "<", ";", ">", " <b>", ",", "\n", ";x=", ";x=\"", ",<%>", ",<2:b>",
    ] {
        assert_malformed(&format!("<1:a>{behind}"), 1);
        assert_malformed(&format!("<a>,<1:a>{behind}"), 5);
    }
}

#[test]
fn a_target_that_is_not_closed_isnt_judged() {
    assert_malformed("<1:a", 4);
    assert_malformed("<1:a b>", 4);
    assert_malformed("<1:a<b>", 4);
    assert_malformed("<a%4>", 4);
    assert_malformed("<1:a%4>", 6);
    assert_malformed("<1:a%", 5);
    assert_malformed("<a#b#c", 6);
    assert_malformed("<a>,<[", 6);
}

#[test]
fn nor_is_one_behind_a_malformed_octet() {
    assert_malformed("<a> <1:a>", 4);
    assert_malformed("<a>;,<1:a>", 4);
    assert_malformed("x,<1:a>", 0);
    assert_malformed("<%4>,<1:a>", 3);
}

#[test]
fn values_are_not_judged() {
    assert_accepted("<>");
    assert_accepted("<>;x,<>");
    assert_accepted("<a>;x=\"<1:a>\"");
    assert_accepted("<a>;x=\",<1:a>\"");
    assert_accepted("<a>;anchor=\"1:a\"");
    assert_accepted("<a>;rel=\"1:a a#b#c\"");
    assert_malformed_in(0, "<a>;x=<1:a>", 6);
    assert_malformed_in(0, "<a>;anchor=1:a", 12);
    for older in ["<a>;x=<1:a>", "<a>;anchor=1:a", "<a>;x=<[>,<b>"] {
        accepted_in(1, older.as_bytes());
    }
    assert_malformed_in(1, "<a>;x=<1:a>,<1:a>", 13);
}

#[test]
fn rooms_come_behind_the_targets() {
    let [mut links, mut params] = [[0; 4], [0; 4]];
    for header in ["<a>;x,<1:a>;y", "<1:a>,<b>,<c>"] {
        let place = header.find('1').unwrap();
        let answer = oracle::read(0, header.as_bytes(), &mut links, &mut params);
        assert_eq!(answer, refusal(2, place));
    }
}

/// What each feed answers, number and place, and then the finish.
fn fed(edition: usize, parts: &[&str]) -> (Vec<(usize, usize)>, (usize, usize)) {
    let mut buffer = vec![HELD_OCTET; 8192];
    let mut feeding = Feeding::start(edition);
    let feeds = parts
        .iter()
        .map(|part| feeding.feed(part.as_bytes(), &mut buffer))
        .collect();
    let mut slots = ([0; 40], [0; 10 * PARAM_SLOTS]);
    let finish = feeding.finish(&buffer, &mut slots.0, &mut slots.1);
    (feeds, (finish.number, finish.place))
}

#[test]
fn a_feed_tells_it_once_the_target_is_closed() {
    for edition in EDITIONS {
        for (parts, feeds, finish) in [
            (
                &["<1:", "a", ">"][..],
                &[(0, 0), (0, 0), (2, 1)][..],
                (2, 1),
            ),
            (&["<1:a"], &[(0, 0)], (2, 4)),
            (
                &["<1:a", "", ">", ""],
                &[(0, 0), (0, 0), (2, 1), (2, 1)],
                (2, 1),
            ),
            (&["<1:a", " ", ">"], &[(0, 0), (2, 4), (2, 4)], (2, 4)),
            (&["<1:a%", "4>"], &[(0, 0), (2, 6)], (2, 6)),
            (&["<a#", "b#", "c>,"], &[(0, 0), (0, 0), (2, 1)], (2, 1)),
            (&["<a>,<", "[", "><"], &[(0, 0), (0, 0), (2, 5)], (2, 5)),
            (&["<a", ":", ">"], &[(0, 0), (0, 0), (0, 0)], (0, 0)),
            (&["<", ">"], &[(0, 0), (0, 0)], (0, 0)),
        ] {
            assert_eq!(fed(edition, parts), (feeds.to_vec(), finish), "{parts:?}");
        }
    }
    let parts = ["<a>;x=", "<1:a", ">"];
    assert_eq!(fed(0, &parts), (vec![(0, 0), (2, 6), (2, 6)], (2, 6)));
    assert_eq!(fed(1, &parts), (vec![(0, 0); 3], (0, 0)));
}

#[test]
fn a_table_with_a_wrong_target_is_bad() {
    for (target, good) in [
        ("a:1", true),
        ("1:a", false),
        ("a#b?c", true),
        ("a#b#c", false),
        ("//[::1]", true),
        ("//[::1", false),
        ("//a:1", true),
        ("//a:b", false),
        ("?[", false),
        ("", true),
    ] {
        let text = format!("rel=b{target}");
        let param = [0, 3, 4, 5, 1, 1];
        for links in [
            [[5, text.len(), 0, 1], [0, 3, 1, 1]],
            [[0, 3, 0, 1], [5, text.len(), 1, 1]],
        ] {
            let tables = Tables::new(text.as_bytes(), &links, &[param; 2]);
            for tables in EDITIONS.map(|edition| tables.in_edition(edition)) {
                let number = if good { 0 } else { 5 };
                assert_eq!(tables.good(), good, "{target}");
                assert_eq!(tables.search("b"), (number, 0));
                assert_eq!(tables.context(b"base", 0).0, number);
                assert_eq!(tables.value(1, 0, 9).err().unwrap_or(0), number);
                assert_eq!(tables.write(99).err().unwrap_or(0), number);
            }
        }
    }
}
