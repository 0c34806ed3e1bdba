//! Extended values, right ones and others made of them.

use super::case::cased;
use super::octets::{HEX, LETTERS};
use crate::numbers::Numbers;

/// Those that stand for themselves beside letters and digits.
const MARKS: &[u8] = b"!#$&+-.^_`|~";

/// The first and the last characters of each length, and those about the surrogates.
const EDGES: [char; 10] = [
    '\0',
    '\u{7F}',
    '\u{80}',
    '\u{7FF}',
    '\u{800}',
    '\u{D7FF}',
    '\u{E000}',
    '\u{FFFF}',
    '\u{10000}',
    '\u{10FFFF}',
];

/// A right one, mostly short.
pub fn extended(numbers: &mut Numbers, most: usize) -> Vec<u8> {
    let mut value = cased(numbers, b"utf-8");
    value.push(b'\'');
    for _ in 0..numbers.small(6) {
        let octets = numbers.of(&[LETTERS, b"0123456789-"]);
        value.push(numbers.of(octets));
    }
    value.push(b'\'');
    for _ in 0..numbers.small(most + 1) {
        match numbers.below(4) {
            0 => value.push(numbers.of(LETTERS)),
            1 => value.push(numbers.of(MARKS)),
            _ => {
                let character = character(numbers);
                let octets = character.encode_utf8(&mut [0; 4]).as_bytes().to_vec();
                value.extend(triples(numbers, &octets));
            }
        }
    }
    value
}

/// Any character; those at the edges are many.
fn character(numbers: &mut Numbers) -> char {
    if numbers.once_in(2) {
        return numbers.of(&EDGES);
    }
    let most = numbers.of(&[0x80, 0x800, 0x1_0000, 0x11_0000]);
    let number = numbers.below(most) as u32;
    char::from_u32(number).unwrap_or('\u{D7FF}')
}

/// Each octet as a triple, with digits of either case.
pub fn triples(numbers: &mut Numbers, octets: &[u8]) -> Vec<u8> {
    let mut triples = vec![];
    for octet in octets {
        let triple = format!("%{octet:02x}");
        triples.extend(cased(numbers, triple.as_bytes()));
    }
    triples
}

/// Changed in some places: it may still be right.
pub fn changed(numbers: &mut Numbers, mut value: Vec<u8>) -> Vec<u8> {
    for _ in 0..=numbers.small(3) {
        let at = numbers.below(value.len() + 1);
        let octet = match numbers.below(4) {
            0 => numbers.of(b"'%*\\\"g _"),
            1 => numbers.of(HEX),
            2 => numbers.of(b"%'"),
            _ => numbers.octet(),
        };
        match numbers.below(5) {
            0 => value.insert(at, octet),
            1 | 2 if at < value.len() => drop(value.remove(at)),
            3 => value.truncate(at),
            _ if at < value.len() => value[at] = octet,
            _ => {}
        }
    }
    value
}
