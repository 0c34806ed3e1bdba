//! Forms that there aren't, spans that aren't in the text, and values where there is none.

use super::edit::{append, set_form, set_name, set_no_value, set_target, set_value, Span};
use super::Way;
use crate::numbers::Numbers;
use crate::tables::Tables;

const MAX: usize = usize::MAX;

pub const WAYS: &[(&str, Way)] = &[
    ("form 4", |numbers, tables| form(numbers, tables, 4)),
    ("form 258", |numbers, tables| form(numbers, tables, 258)),
    ("form 2 past 32 bits", |numbers, tables| {
        form(numbers, tables, (1 << 32) + 2)
    }),
    ("the largest form", |numbers, tables| {
        form(numbers, tables, MAX)
    }),
    ("a target that ends past the text", |numbers, tables| {
        let [start, end] = append(tables, b"a");
        target(numbers, tables, [start, end + 1]);
    }),
    ("an empty target past the text", |numbers, tables| {
        let end = tables.text.len();
        target(numbers, tables, [end + 1; 2]);
    }),
    ("a target of the largest places", |numbers, tables| {
        target(numbers, tables, [MAX; 2])
    }),
    (
        "a target that ends at the largest place",
        |numbers, tables| {
            let [start, _] = append(tables, b"a");
            target(numbers, tables, [start, MAX]);
        },
    ),
    ("a target that starts past its end", |numbers, tables| {
        let [start, end] = append(tables, b"aa");
        target(numbers, tables, [end, start]);
    }),
    (
        "a target that starts at the largest place",
        |numbers, tables| {
            target(numbers, tables, [MAX, 0]);
        },
    ),
    ("a name that ends past the text", |numbers, tables| {
        let [start, end] = append(tables, b"a");
        valueless_name(numbers, tables, [start, end + 1]);
    }),
    (
        "a name that ends at the largest place",
        |numbers, tables| {
            let [start, _] = append(tables, b"a");
            valueless_name(numbers, tables, [start, MAX]);
        },
    ),
    ("a name of the largest places", |numbers, tables| {
        valueless_name(numbers, tables, [MAX; 2])
    }),
    ("a name that starts past its end", |numbers, tables| {
        let [start, end] = append(tables, b"aa");
        valueless_name(numbers, tables, [end, start]);
    }),
    ("a value that ends past the text", |numbers, tables| {
        let [start, end] = append(tables, b"a");
        value(numbers, tables, [start, end + 1]);
    }),
    (
        "a value that ends at the largest place",
        |numbers, tables| {
            let [start, _] = append(tables, b"a");
            value(numbers, tables, [start, MAX]);
        },
    ),
    ("an empty value past the text", |numbers, tables| {
        let end = tables.text.len();
        set_value(tables, numbers.below(6), [end + 1; 2], 2);
    }),
    ("a value of the largest places", |numbers, tables| {
        value(numbers, tables, [MAX; 2])
    }),
    ("a value that starts past its end", |numbers, tables| {
        let [start, end] = append(tables, b"aa");
        value(numbers, tables, [end, start]);
    }),
    ("no value, which starts elsewhere", |numbers, tables| {
        no_value(numbers, tables, |end| [end - 1, end]);
    }),
    ("no value, which ends elsewhere", |numbers, tables| {
        no_value(numbers, tables, |end| [end, end + 1]);
    }),
    ("no value, an empty one elsewhere", |numbers, tables| {
        no_value(numbers, tables, |end| [end + 1; 2]);
    }),
    ("no value, at place 0", |numbers, tables| {
        no_value(numbers, tables, |_| [0; 2])
    }),
    ("no value, at the largest place", |numbers, tables| {
        no_value(numbers, tables, |_| [MAX; 2])
    }),
];

fn form(numbers: &mut Numbers, tables: &mut Tables, form: usize) {
    set_form(tables, numbers.below(6), form);
}

fn target(numbers: &mut Numbers, tables: &mut Tables, span: Span) {
    set_target(tables, numbers.below(4), span);
}

fn valueless_name(numbers: &mut Numbers, tables: &mut Tables, span: Span) {
    let param = numbers.below(6);
    set_no_value(tables, param);
    set_name(tables, param, span);
}

fn value(numbers: &mut Numbers, tables: &mut Tables, span: Span) {
    set_value(tables, numbers.below(6), span, 1 + numbers.below(2));
}

/// A parameter without a value, whose value places are others than its name's end.
fn no_value(numbers: &mut Numbers, tables: &mut Tables, places: fn(usize) -> Span) {
    let param = numbers.below(6);
    let [start, end] = append(tables, b"zz");
    append(tables, b"yy");
    set_name(tables, param, [start, end]);
    set_value(tables, param, places(end), 0);
}
