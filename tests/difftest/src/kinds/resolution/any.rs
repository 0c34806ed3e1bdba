//! References and bases made by the grammar, with components that are empty or not there, paths of
//! dots, and changes that make some of them wrong.

use super::ask;
use crate::compare::Compared;
use crate::generate::reference::reference;
use crate::numbers::Numbers;
use crate::run::Run;

const CASES: usize = 50_000;

pub fn compare(run: &mut Run) -> Compared<()> {
    for _ in 0..CASES {
        let (reference, base) = (made(&mut run.numbers), made_base(&mut run.numbers));
        ask(run, &reference, &base)?;
    }
    Ok(())
}

/// Mostly right, and mostly short.
pub fn made(numbers: &mut Numbers) -> Vec<u8> {
    let most = if numbers.once_in(50) { 200 } else { 9 };
    let made = match numbers.once_in(3) {
        true => reference(numbers, most),
        false => of_parts(numbers),
    };
    match numbers.once_in(8) {
        true => changed(numbers, made),
        false => made,
    }
}

/// The same behind a scheme, if it has none.
pub fn made_base(numbers: &mut Numbers) -> Vec<u8> {
    let base = made(numbers);
    let has_scheme = base.iter().find(|octet| b":/?#".contains(octet)) == Some(&b':');
    match has_scheme || numbers.once_in(20) {
        true => base,
        false => [b"a+:", &base[..]].concat(),
    }
}

/// Each component there or not, empty or not.
fn of_parts(numbers: &mut Numbers) -> Vec<u8> {
    const SCHEMES: [&[u8]; 5] = [b"", b"", b"", b"a:", b"b-1:"];
    const AUTHORITIES: [&[u8]; 5] = [b"", b"", b"//", b"//h", b"//u@h:8"];
    const QUERIES: [&[u8]; 4] = [b"", b"", b"?", b"?q/../."];
    const FRAGMENTS: [&[u8]; 4] = [b"", b"", b"#", b"#f/./?"];
    let (scheme, authority) = (numbers.of(&SCHEMES), numbers.of(&AUTHORITIES));
    let path = path(numbers);
    let (query, fragment) = (numbers.of(&QUERIES), numbers.of(&FRAGMENTS));
    [scheme, authority, &path, query, fragment].concat()
}

/// Segments of dots and nearly so, with and without a slash in front.
fn path(numbers: &mut Numbers) -> Vec<u8> {
    const SEGMENTS: [&[u8]; 10] = [
        b"", b".", b"..", b"..", b"...", b"a", b"b.", b"..c", b"%2e", b"d;e",
    ];
    let mut path = vec![];
    for _ in 0..numbers.small(9) {
        path.extend(numbers.of(&SEGMENTS));
        path.push(b'/');
    }
    if numbers.once_in(2) {
        path.extend(numbers.of(&SEGMENTS));
    }
    match numbers.once_in(3) {
        true => [b"/", &path[..]].concat(),
        false => path,
    }
}

/// With another octet, one more or one fewer, in one place or a few.
fn changed(numbers: &mut Numbers, mut text: Vec<u8>) -> Vec<u8> {
    for _ in 0..=numbers.small(3) {
        let at = numbers.below(text.len() + 1);
        let octet = match numbers.once_in(3) {
            true => numbers.octet(),
            false => numbers.of(b":/?#[]@%.a1"),
        };
        match numbers.below(3) {
            0 if at < text.len() => drop(text.remove(at)),
            1 if at < text.len() => text[at] = octet,
            _ => text.insert(at, octet),
        }
    }
    text
}
