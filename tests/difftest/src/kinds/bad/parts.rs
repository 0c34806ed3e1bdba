//! Targets, names and values that the grammar doesn't derive, and names that stand twice.

use super::edit::{append, set_name, set_target, set_value};
use super::Way;
use crate::generate::case::cased;
use crate::generate::octets::{is_escapable, is_hex, is_plain, is_target, is_token, ONCE};
use crate::numbers::Numbers;
use crate::tables::Tables;

pub const WAYS: &[(&str, Way)] = &[
    ("a target with a wrong octet", |numbers, tables| {
        let wrong = other(numbers, |octet| is_target(octet) || octet == b'%');
        let octets = round(numbers, &[wrong]);
        target(numbers, tables, &octets);
    }),
    ("a target with a lone percent sign", |numbers, tables| {
        target(numbers, tables, b"a%")
    }),
    ("a target with half a triple", |numbers, tables| {
        target(numbers, tables, b"%4")
    }),
    (
        "a target with a triple that isn't hex",
        |numbers, tables| {
            let mut octets = *b"a%41b";
            octets[2 + numbers.below(2)] = other(numbers, is_hex);
            target(numbers, tables, &octets);
        },
    ),
    ("an empty name", |numbers, tables| {
        name(numbers, tables, b"")
    }),
    ("a name with a wrong octet", |numbers, tables| {
        let wrong = other(numbers, is_token);
        let octets = round(numbers, &[wrong]);
        name(numbers, tables, &octets);
    }),
    ("an empty token", |numbers, tables| {
        value(numbers, tables, b"", 1)
    }),
    ("a token with a wrong octet", |numbers, tables| {
        let wrong = other(numbers, is_token);
        let octets = round(numbers, &[wrong]);
        value(numbers, tables, &octets, 1);
    }),
    ("a quoted string with a wrong octet", |numbers, tables| {
        let wrong = other(numbers, |octet| is_plain(octet) || octet == b'\\');
        let octets = round(numbers, &[wrong]);
        value(numbers, tables, &octets, 2);
    }),
    (
        "a quoted string with a backslash before a wrong octet",
        |numbers, tables| {
            let wrong = other(numbers, is_escapable);
            let octets = round(numbers, &[b'\\', wrong]);
            value(numbers, tables, &octets, 2);
        },
    ),
    (
        "a quoted string that ends in a backslash",
        |numbers, tables| {
            value(numbers, tables, b"a\\", 2);
        },
    ),
    (
        "a quoted string that ends in a third backslash",
        |numbers, tables| {
            value(numbers, tables, b"\\\\\\", 2);
        },
    ),
    ("a second rel", twice::<0>),
    ("a second anchor", twice::<1>),
    ("a second media", twice::<2>),
    ("a second title", twice::<3>),
    ("a second title*", twice::<4>),
    ("a second type", twice::<5>),
];

/// An octet that isn't in the set.
pub fn other(numbers: &mut Numbers, set: fn(u8) -> bool) -> u8 {
    loop {
        let octet = numbers.octet();
        if !set(octet) {
            return octet;
        }
    }
}

/// Letters round the octets, or none.
pub fn round(numbers: &mut Numbers, octets: &[u8]) -> Vec<u8> {
    let before = &b"ab"[..numbers.below(3)];
    let behind = &b"cd"[..numbers.below(3)];
    [before, octets, behind].concat()
}

fn target(numbers: &mut Numbers, tables: &mut Tables, octets: &[u8]) {
    let span = append(tables, octets);
    set_target(tables, numbers.below(4), span);
}

fn name(numbers: &mut Numbers, tables: &mut Tables, octets: &[u8]) {
    let span = append(tables, octets);
    set_name(tables, numbers.below(6), span);
}

fn value(numbers: &mut Numbers, tables: &mut Tables, octets: &[u8], form: usize) {
    let span = append(tables, octets);
    set_value(tables, numbers.below(6), span, form);
}

/// The last link gets two parameters of a name kept once, in any case of letters.
fn twice<const NAME: usize>(numbers: &mut Numbers, tables: &mut Tables) {
    let places = numbers.of(&[[3, 4], [4, 5], [3, 5]]);
    for place in [3, 4, 5] {
        let mut name = b"zz".to_vec();
        if places.contains(&place) {
            name = cased(numbers, ONCE[NAME]);
        }
        let span = append(tables, &name);
        set_name(tables, place, span);
    }
}
