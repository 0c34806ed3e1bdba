//! Spans of a text that the grammar derives, found where the text has them.

use super::octets::{is_escapable, is_free, is_further, is_hex, is_plain, is_token};
use crate::numbers::Numbers;

/// A token from some place on, at most so long, if the text has one there or behind.
pub fn token(numbers: &mut Numbers, text: &[u8], most: usize) -> Option<[usize; 2]> {
    let from = numbers.below(text.len() + 1);
    let start = from + text[from..].iter().position(|&octet| is_token(octet))?;
    let most = 1 + numbers.below(most);
    let octets = text[start..].iter().take(most);
    let length = octets.take_while(|&&octet| is_token(octet)).count();
    Some([start, start + length])
}

/// What only the older edition allows bare, round some place, if the text has it there or behind.
pub fn further(numbers: &mut Numbers, text: &[u8], most: usize) -> Option<[usize; 2]> {
    let from = numbers.below(text.len() + 1);
    let at = from + text[from..].iter().position(|&octet| is_further(octet))?;
    let bare = |octet: &&u8| is_token(**octet) || is_further(**octet);
    let [before, behind] = [numbers.below(most), numbers.below(most)];
    let before = text[..at].iter().rev().take(before).take_while(bare);
    let behind = text[at + 1..].iter().take(behind).take_while(bare);
    Some([at - before.count(), at + 1 + behind.count()])
}

/// What may stand inside quotes, from some place on.
pub fn quoted(numbers: &mut Numbers, text: &[u8], most: usize) -> [usize; 2] {
    grown(numbers, text, most, |rest| match *rest {
        [b'\\', next, ..] if is_escapable(next) => 2,
        [octet, ..] if is_plain(octet) => 1,
        _ => 0,
    })
}

/// A path without colons from some place on, which is a reference: it doesn't begin with two slashes.
pub fn path(numbers: &mut Numbers, text: &[u8], most: usize) -> [usize; 2] {
    let [start, end] = grown(numbers, text, most, |rest| match *rest {
        [b'%', high, low, ..] if is_hex(high) && is_hex(low) => 3,
        [octet, ..] if is_free(octet) || matches!(octet, b'@' | b'/') => 1,
        _ => 0,
    });
    match text[start..end] {
        [b'/', b'/', ..] => [start, start + 1],
        _ => [start, end],
    }
}

/// A span grown by steps as far as one goes, or as many as wished.
fn grown(numbers: &mut Numbers, text: &[u8], most: usize, step: fn(&[u8]) -> usize) -> [usize; 2] {
    let start = numbers.below(text.len() + 1);
    let mut end = start;
    for _ in 0..numbers.below(most + 1) {
        end += step(&text[end..]);
    }
    [start, end]
}
