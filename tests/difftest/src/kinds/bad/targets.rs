//! Targets of the right octets that aren't references.

use super::edit::{append, set_target};
use super::Way;
use crate::generate::targets::{spoilt, RIGHT, WRONG};
use crate::numbers::Numbers;
use crate::tables::Tables;

pub const WAYS: &[(&str, Way)] = &[
    ("a target that is no reference", |numbers, tables| {
        let wrong = numbers.of(WRONG);
        target(numbers, tables, wrong);
    }),
    ("a reference that was spoilt", |numbers, tables| {
        let right = numbers.of(RIGHT);
        let wrong = spoilt(numbers, right);
        target(numbers, tables, &wrong);
    }),
    ("an address without its bracket", |numbers, tables| {
        let [start, end] = append(tables, b"//[::1]");
        let wrong = numbers.of(&[[start, end - 1], [start + 2, end]]);
        set_target(tables, numbers.below(4), wrong);
    }),
    ("every target is wrong", |numbers, tables| {
        let span = append(tables, numbers.of(WRONG));
        (0..4).for_each(|link| set_target(tables, link, span));
    }),
    (
        "a long target that goes wrong at its end",
        |numbers, tables| {
            let long = [&b"a".repeat(1 + numbers.below(4000))[..], b"[".as_ref()].concat();
            target(numbers, tables, &long);
        },
    ),
];

fn target(numbers: &mut Numbers, tables: &mut Tables, octets: &[u8]) {
    let span = append(tables, octets);
    set_target(tables, numbers.below(4), span);
}
