//! Headers whose links have titles of any extended values, bare or in quotes, with backslashes
//! before any of their octets.

use crate::compare::Compared;
use crate::generate::case::cased;
use crate::generate::extended::{changed, extended};
use crate::generate::octets::{is_escapable, is_plain, is_token};
use crate::kinds::read_and_ask;
use crate::numbers::Numbers;
use crate::run::Run;

const CASES: usize = 1500;

pub fn compare(run: &mut Run) -> Compared<()> {
    for _ in 0..CASES {
        let links = 1 + run.numbers.small(3);
        let links: Vec<Vec<u8>> = (0..links).map(|_| link(&mut run.numbers)).collect();
        read_and_ask(run, &links.join(&b", "[..]))?;
    }
    Ok(())
}

/// A link with some titles of either name in any order.
fn link(numbers: &mut Numbers) -> Vec<u8> {
    let mut link = b"<a>".to_vec();
    for _ in 0..numbers.below(4) {
        let name = numbers.of(&[&b"title*"[..], b"title*", b"title", b"rel"]);
        let mut value = extended(numbers, 6);
        if numbers.once_in(3) {
            value = changed(numbers, value);
        }
        link.push(b';');
        link.extend(cased(numbers, name));
        link.push(b'=');
        link.extend(written(numbers, &value));
    }
    link
}

/// Bare if it may be, else in quotes; octets that stand in no value are left out.
fn written(numbers: &mut Numbers, value: &[u8]) -> Vec<u8> {
    let is_bare = !value.is_empty() && value.iter().copied().all(is_token);
    if is_bare && numbers.once_in(2) {
        return value.to_vec();
    }
    let often = 1 + numbers.below(20);
    let mut written = vec![b'"'];
    for &octet in value.iter().filter(|&&octet| is_escapable(octet)) {
        if !is_plain(octet) || numbers.once_in(often) {
            written.push(b'\\');
        }
        written.push(octet);
    }
    written.push(b'"');
    written
}
