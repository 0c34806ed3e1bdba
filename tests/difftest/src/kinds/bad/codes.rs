//! Codes that aren't the name's.

use super::edit::{append, set_code, set_name};
use super::Way;
use crate::generate::case::cased;
use crate::generate::octets::{code, known, UNKNOWN};
use crate::numbers::Numbers;
use crate::tables::Tables;

pub const WAYS: &[(&str, Way)] = &[
    ("code 9", |numbers, tables| {
        let name = any_name(numbers);
        coded(numbers, tables, &name, 9);
    }),
    ("the largest code", |numbers, tables| {
        let name = any_name(numbers);
        coded(numbers, tables, &name, usize::MAX);
    }),
    ("a code that is right in fewer bits", |numbers, tables| {
        let name = any_name(numbers);
        let more = 1 << numbers.of(&[4, 8, 16, 32, 63]);
        coded(numbers, tables, &name, code(&name) + more);
    }),
    ("a code one off", |numbers, tables| {
        let name = any_name(numbers);
        let off = numbers.of(&[1, usize::MAX]);
        coded(numbers, tables, &name, code(&name).wrapping_add(off));
    }),
    ("the code of another name", |numbers, tables| {
        let name = known_name(numbers);
        let count = known().len();
        let other = (code(&name) + numbers.below(count - 1)) % count + 1;
        coded(numbers, tables, &name, other);
    }),
    ("no code for a known name", |numbers, tables| {
        let name = known_name(numbers);
        coded(numbers, tables, &name, 0);
    }),
    (
        "the code of the known name that a name begins as",
        |numbers, tables| {
            let name = known_name(numbers);
            // `title` and a star is known, too.
            let longer = [&name[..], &[numbers.of(b"x0-")]].concat();
            coded(numbers, tables, &longer, code(&name));
        },
    ),
    (
        "the code of a known name that begins as the name",
        |numbers, tables| {
            let name = known_name(numbers);
            // Less a star, `title*` is known still.
            let shorter = &name[..name.len() - 2];
            coded(numbers, tables, shorter, code(&name));
        },
    ),
];

fn known_name(numbers: &mut Numbers) -> Vec<u8> {
    let name = numbers.of(&known());
    cased(numbers, name)
}

fn any_name(numbers: &mut Numbers) -> Vec<u8> {
    match numbers.once_in(3) {
        true => numbers.of(UNKNOWN).to_vec(),
        false => known_name(numbers),
    }
}

/// A parameter of the last link gets the name and the code; its neighbours get a name that isn't kept
/// once, so that the code alone is wrong.
fn coded(numbers: &mut Numbers, tables: &mut Tables, name: &[u8], code: usize) {
    let other = append(tables, b"zz");
    (3..6).for_each(|param| set_name(tables, param, other));
    let (param, span) = (3 + numbers.below(3), append(tables, name));
    set_name(tables, param, span);
    set_code(tables, param, code);
}
