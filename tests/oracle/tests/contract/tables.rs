//! Good tables and hostile ones.

use crate::codes::{known, Known, NAMES};
use crate::{accepted, Tables, EDITIONS};

/// A good table over `a;b="\"c" %41` with spans that overlap and stand out of order.
fn sample() -> Tables {
    Tables::new(
        br#"a;b="\"c" %41"#,
        &[[10, 13, 0, 1], [0, 3, 1, 2], [3, 3, 3, 0]],
        &[
            [2, 3, 5, 8, 2, 0],
            [11, 13, 10, 13, 1, 0],
            [0, 1, 1, 1, 0, 0],
        ],
    )
}

/// Asserts that the sample with one slot set to any of the numbers isn't good.
fn assert_bad(change: impl Fn(&mut Tables, usize), numbers: &[usize]) {
    let editions = |&number| EDITIONS.map(|edition| (edition, number));
    for (edition, number) in numbers.iter().flat_map(editions) {
        let mut tables = sample().in_edition(edition);
        change(&mut tables, number);
        assert!(!tables.good(), "{number}: {tables:?}");
        assert_eq!(tables.meanings(), None);
        assert_eq!(tables.search("a"), (5, 0));
        assert_eq!(tables.context(b"base", 0), (5, 0, 0, 0));
        assert_eq!(tables.value(0, 0, 100), Err(5));
        assert_eq!(tables.title(0, 100), Err(5));
        assert_eq!(tables.write(100), Err(5));
    }
}

#[test]
fn a_good_table_need_not_come_from_reading() {
    let tables = sample();
    assert!(tables.good());
    assert!(tables.in_edition(1).good());
    let meanings = tables.meanings().unwrap();
    assert_eq!(meanings[0].target, b"%41");
    assert_eq!(meanings[0].params[0].value, b"\"c");
    assert_eq!(meanings[1].target, b"a;b");
    assert_eq!(meanings[1].params[0].name, b"41");
    assert_eq!(meanings[1].params[1].value, b"");
    assert!(meanings[2].params.is_empty());
}

#[test]
fn every_slot_matters() {
    const MAX: usize = usize::MAX;
    // Counts.
    assert_bad(|tables, number| tables.link_count = number, &[0, 1, 4, MAX]);
    assert_bad(
        |tables, number| tables.param_count = number,
        &[0, 2, 4, MAX],
    );
    // Links: target start and end, first parameter, count.
    assert_bad(
        |tables, number| tables.link_slots[0] = number,
        &[8, 9, 14, MAX],
    );
    assert_bad(
        |tables, number| tables.link_slots[1] = number,
        &[9, 11, 12, 14, MAX],
    );
    assert_bad(|tables, number| tables.link_slots[2] = number, &[1, MAX]);
    assert_bad(|tables, number| tables.link_slots[3] = number, &[0, 2, MAX]);
    assert_bad(|tables, number| tables.link_slots[6] = number, &[0, 2, MAX]);
    assert_bad(
        |tables, number| tables.link_slots[7] = number,
        &[1, 3, MAX, MAX - 1],
    );
    assert_bad(
        |tables, number| tables.link_slots[10] = number,
        &[0, 2, 4, MAX],
    );
    assert_bad(
        |tables, number| tables.link_slots[11] = number,
        &[1, MAX, MAX - 2],
    );
    // Parameters: name start and end, value start and end, form, code.
    assert_bad(
        |tables, number| tables.param_slots[0] = number,
        &[1, 3, 4, MAX],
    );
    assert_bad(
        |tables, number| tables.param_slots[1] = number,
        &[1, 2, 4, 14, MAX],
    );
    assert_bad(
        |tables, number| tables.param_slots[2] = number,
        &[4, 6, 9, MAX],
    );
    assert_bad(
        |tables, number| tables.param_slots[3] = number,
        &[4, 6, 9, 14, MAX],
    );
    assert_bad(
        |tables, number| tables.param_slots[4] = number,
        &[0, 1, 3, 4, MAX],
    );
    assert_bad(
        |tables, number| tables.param_slots[8] = number,
        &[9, 13, MAX],
    );
    assert_bad(
        |tables, number| tables.param_slots[14] = number,
        &[0, 2, MAX],
    );
    assert_bad(
        |tables, number| tables.param_slots[15] = number,
        &[0, 2, MAX],
    );
    assert_bad(
        |tables, number| tables.param_slots[16] = number,
        &[1, 3, 4, MAX],
    );
    for code in [5, 11, 17] {
        assert_bad(
            |tables, number| tables.param_slots[code] = number,
            &[1, 2, 3, 4, 5, 6, 7, 8, 9, 256, 1 << 32, MAX],
        );
    }
}

#[test]
fn sums_that_run_over_are_bad() {
    let over = [[0, 0, 0, usize::MAX], [0, 0, usize::MAX, 1], [0, 0, 0, 0]];
    assert!(!Tables::new(b"", &over, &[]).good());
    assert!(!Tables::new(b"", &over[..1], &[]).good());
}

#[test]
fn with_no_links_the_parameter_count_is_zero() {
    assert!(Tables::new(b"a", &[], &[]).good());
    assert!(!Tables::new(b"a", &[], &[[0, 1, 1, 1, 0, 0]]).good());
}

#[test]
fn slots_past_the_counts_are_free() {
    let mut tables = sample();
    tables.link_slots.extend([usize::MAX; 6]);
    tables.param_slots.extend([usize::MAX; 9]);
    assert!(tables.good());
    tables.link_slots.truncate(11);
    assert!(!tables.good());
}

#[test]
fn a_link_has_a_name_again_unless_it_is_kept_once() {
    for &Known { name, code, once } in NAMES {
        let text = format!("{name} {}", name.to_uppercase());
        let length = name.len();
        let first = [0, length, length, length, 0, code];
        let second = [length + 1, text.len(), text.len(), text.len(), 0, code];
        let good = |links| Tables::new(text.as_bytes(), links, &[first, second]).good();
        assert_eq!(good(&[[0, 0, 0, 2]]), !once, "{name}");
        assert!(good(&[[0, 0, 0, 1], [0, 0, 1, 1]]), "{name}");
    }
    assert_eq!(accepted(b"<a>;title;title*").param_count, 2);
}

/// The codes with which a table of this name alone is good.
fn good_codes(name: &[u8]) -> Vec<usize> {
    let end = name.len();
    let good = |code: &usize| {
        let param = [0, end, end, end, 0, *code];
        EDITIONS.map(|edition| {
            let tables = Tables::new(name, &[[0, 0, 0, 1]], &[param]);
            tables.in_edition(edition).good()
        }) == [true; 2]
    };
    let round = |bits: u32| (1..=8).map(move |code| (1 << bits) + code);
    let far = [8, 16, 32, 63].into_iter().flat_map(round);
    let codes = (0..=9).chain(far).chain([usize::MAX]);
    codes.filter(good).collect()
}

#[test]
fn a_code_agrees_with_its_name() {
    for (name, code) in known() {
        assert_eq!(good_codes(&name), [code], "{}", name.escape_ascii());
        let longer = [&name[..], b"x"].concat();
        assert_eq!(good_codes(&longer), [0], "{}", longer.escape_ascii());
    }
    for name in ["x", "re", "relx", "rel*", "titl", "title**", "revs", "*"] {
        assert_eq!(good_codes(name.as_bytes()), [0], "{name}");
    }
}

#[test]
fn a_bad_code_is_bad_for_every_question() {
    let good = accepted(b"<a>;rel=b;anchor=c");
    for (slot, code) in [(5, 0), (5, 2), (5, 9), (11, 0), (11, 1), (11, usize::MAX)] {
        let mut tables = good.clone();
        tables.param_slots[slot] = code;
        assert_eq!(tables.search("b"), (5, 0));
        assert_eq!(tables.context(b"base", 0), (5, 0, 0, 0));
        assert_eq!(tables.value(0, 0, 100), Err(5));
        assert_eq!(tables.title(0, 100), Err(5));
        assert_eq!(tables.write(100), Err(5));
    }
}

#[test]
fn values_obey_the_grammar_for_their_form() {
    let value = |text: &[u8], form| {
        let end = text.len();
        Tables::new(text, &[[1, 1, 0, 1]], &[[0, 1, 1, end, form, 0]]).good()
    };
    assert!(value(b"xy", 1) && value(b"xy", 2) && !value(b"xy", 0));
    assert!(!value(b"x", 1) && value(b"x", 2) && value(b"x", 0));
    assert!(!value(b"x\\", 2) && value(b"x\\\\", 2) && !value(b"x\\\\\\", 2));
    for octet in 0..=255 {
        let control = octet < 32 && octet != 9 || octet == 127;
        assert_eq!(value(&[b'x', b'\\', octet], 2), !control);
        let plain = !control && octet != b'"' && octet != b'\\';
        assert_eq!(value(&[b'x', octet], 2), plain);
        let separator = b" \t\"(),/:;<=>?@[\\]{}".contains(&octet);
        assert_eq!(
            value(&[b'x', octet], 1),
            !control && !separator && octet < 128
        );
    }
}

#[test]
fn targets_obey_the_grammar() {
    for octet in 0..=255u8 {
        let excluded = b" \"%:<>[\\]^`{|}".contains(&octet);
        let good = Tables::new(&[octet], &[[0, 1, 0, 0]], &[]).good();
        assert_eq!(good, octet.is_ascii_graphic() && !excluded);
    }
    for (target, good) in [("%4f", true), ("%F0", true), ("%4", false), ("%g0", false)] {
        let tables = Tables::new(target.as_bytes(), &[[0, target.len(), 0, 0]], &[]);
        assert_eq!(tables.good(), good);
    }
}
