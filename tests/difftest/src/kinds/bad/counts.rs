//! Counts over the rooms, and links' parameters that don't follow on each other up to the count.

use super::edit::{append, insert_param, set_name};
use super::Way;
use crate::numbers::Numbers;
use crate::tables::Tables;
use oracle::PARAM_SLOTS;

const FIRST: usize = 2;
const COUNT: usize = 3;

pub const WAYS: &[(&str, Way)] = &[
    ("a link slot too few", |_, tables| {
        tables.links.truncate(4 * tables.link_count - 1);
    }),
    ("no link slots", |_, tables| tables.links.clear()),
    ("a parameter slot too few", |_, tables| {
        tables.params.truncate(PARAM_SLOTS * tables.param_count - 1);
    }),
    ("no parameter slots", |_, tables| tables.params.clear()),
    ("the largest link count", |_, tables| {
        tables.link_count = usize::MAX
    }),
    (
        "a link count whose slots wrap to the right ones",
        |_, tables| {
            tables.link_count += 1 << (usize::BITS - 2);
        },
    ),
    ("the largest parameter count", |_, tables| {
        tables.param_count = usize::MAX
    }),
    ("a parameter count whose slots wrap to few", wrapped_slots),
    ("the first link's parameters begin at 1", |_, tables| {
        insert_param(tables, 0);
        raise_firsts(tables, 0);
    }),
    ("a gap before a link's parameters", |_, tables| {
        insert_param(tables, 2);
        raise_firsts(tables, 1);
    }),
    (
        "a link's parameters begin before the former's end",
        |_, tables| {
            tables.links[4 + FIRST] -= 1;
            tables.links[4 + COUNT] += 1;
        },
    ),
    (
        "the first parameter of a link that has none isn't where it would be",
        |numbers, tables| {
            tables.links[2 * 4 + FIRST] = numbers.of(&[0, 2, 4, usize::MAX]);
        },
    ),
    ("a link count of parameters too high", |_, tables| {
        tables.links[COUNT] += 1
    }),
    ("a link count of parameters too low", |_, tables| {
        tables.links[COUNT] -= 1
    }),
    ("the last ends before the count", |_, tables| {
        insert_param(tables, tables.param_count);
    }),
    ("the last ends behind the count", |_, tables| {
        tables.param_count -= 1
    }),
    ("the last ends far behind the count", |_, tables| {
        tables.links[3 * 4 + COUNT] = usize::MAX - 3;
    }),
    ("no links but parameters", |_, tables| tables.link_count = 0),
    ("sums that wrap to the right ends", wrapped_sums),
];

/// Links from this one on begin one parameter later.
fn raise_firsts(tables: &mut Tables, from: usize) {
    for link in tables.links.chunks_exact_mut(4).skip(from) {
        link[FIRST] += 1;
    }
}

/// The count's slots are 2, counted round.
fn wrapped_slots(_: &mut Numbers, tables: &mut Tables) {
    tables.param_count = usize::MAX / PARAM_SLOTS + 1;
    assert_eq!(tables.param_count.wrapping_mul(PARAM_SLOTS), 2);
}

/// The second link's parameters end at 0, counted round, and those of the last at the count. Names
/// may stand again, as the last link has all parameters.
fn wrapped_sums(_: &mut Numbers, tables: &mut Tables) {
    let round = usize::MAX - tables.links[COUNT] + 1;
    tables.links[4 + COUNT] = round;
    tables.links[2 * 4 + FIRST] = 0;
    tables.links[3 * 4 + FIRST] = 0;
    tables.links[3 * 4 + COUNT] = tables.param_count;
    let name = append(tables, b"zz");
    (0..tables.param_count).for_each(|param| set_name(tables, param, name));
}
