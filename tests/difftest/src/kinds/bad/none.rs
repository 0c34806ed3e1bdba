//! Ways that nearly break a clause of a good table, and don't.

use super::edit::{append, set_name, set_no_value, set_target, set_value};
use super::Way;
use crate::generate::case::cased;
use crate::generate::octets::known;
use crate::generate::targets::RIGHT;
use crate::numbers::Numbers;
use crate::tables::Tables;

pub const WAYS: &[(&str, Way)] = &[
    ("slots to spare, of any numbers", |numbers, tables| {
        for _ in 0..1 + numbers.below(9) {
            tables.links.push(numbers.next() as usize);
            tables.params.push(usize::MAX);
        }
    }),
    ("no links and no parameters", |_, tables| {
        tables.link_count = 0;
        tables.param_count = 0;
    }),
    ("nothing at all", |_, tables| {
        *tables = Tables::new(tables.edition, vec![], &[], &[])
    }),
    (
        "an empty target at the end of the text",
        |numbers, tables| {
            let end = tables.text.len();
            set_target(tables, numbers.below(4), [end; 2]);
        },
    ),
    (
        "an empty quoted string at the end of the text",
        |numbers, tables| {
            let end = tables.text.len();
            set_value(tables, numbers.below(6), [end; 2], 2);
        },
    ),
    (
        "a name without a value at the end of the text",
        |numbers, tables| {
            let span = append(tables, b"z");
            let param = numbers.below(6);
            set_no_value(tables, param);
            set_name(tables, param, span);
        },
    ),
    ("one span for everything", |_, tables| {
        let span = append(tables, b"z~9");
        (0..4).for_each(|link| set_target(tables, link, span));
        for param in 0..6 {
            set_name(tables, param, span);
            set_value(tables, param, span, 1 + param % 2);
        }
    }),
    ("targets that are nearly none", |numbers, tables| {
        for link in 0..4 {
            let span = append(tables, numbers.of(RIGHT));
            set_target(tables, link, span);
        }
    }),
    ("values that would be no targets", |_, tables| {
        names(tables, [b"anchor", b"rel", b"x"]);
        let span = append(tables, b"1:[##");
        (3..6).for_each(|param| set_value(tables, param, span, 2));
    }),
    ("a token of every mark", |numbers, tables| {
        let span = append(tables, b"!#$%&'*+-.^_`|~09azAZ");
        set_value(tables, numbers.below(6), span, 1);
    }),
    (
        "backslashes before backslashes, and the edges of octets",
        |numbers, tables| {
            let span = append(tables, b"\t !#[]~\x80\xff\\\t\\ \\~\\\x80\\\xff\\\"\\\\");
            set_value(tables, numbers.below(6), span, 2);
        },
    ),
    ("known names in any case", |numbers, tables| {
        let mut known = known();
        let first = numbers.below(known.len());
        known.rotate_left(first);
        for (param, name) in (0..6).zip(known) {
            names_of(tables, &[param], &cased(numbers, name));
        }
    }),
    ("`hreflang` again", |_, tables| {
        names(tables, [b"hreflang", b"HREFLANG", b"Hreflang"])
    }),
    ("`rev` again", |_, tables| {
        names(tables, [b"rev", b"REV", b"Rev"])
    }),
    ("title and title*", |_, tables| {
        names(tables, [b"title", b"TITLE*", b"title**"])
    }),
    ("names that begin a name kept once", |_, tables| {
        names(tables, [b"rel", b"re", b"re"])
    }),
    ("names that a name kept once begins", |_, tables| {
        names(tables, [b"type", b"types", b"types"])
    }),
    ("a name kept once in each link", |_, tables| {
        let span = append(tables, b"type");
        for param in [0, 2, 3] {
            set_name(tables, param, span);
        }
        names_of(tables, &[1, 4, 5], b"x");
    }),
    ("a text of 8,192 octets", full),
];

/// The names of the last link's parameters.
fn names(tables: &mut Tables, names: [&[u8]; 3]) {
    for (param, name) in (3..).zip(names) {
        names_of(tables, &[param], name);
    }
}

fn names_of(tables: &mut Tables, params: &[usize], name: &[u8]) {
    let span = append(tables, name);
    for &param in params {
        set_name(tables, param, span);
    }
}

fn full(_: &mut Numbers, tables: &mut Tables) {
    tables.text.resize(oracle::number::LIMIT, b'a');
}
