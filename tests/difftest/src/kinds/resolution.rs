//! References resolved on bases, and the contexts of links.

mod anchors;
mod any;
mod lengths;
mod made;
mod octets;
mod orders;
mod rows;
mod strings;

use crate::compare::{Compared, Resolving};
use crate::reached::Entry;
use crate::run::Run;
pub use rows::rows;

/// The cases that no seed changes.
pub fn fixed(run: &mut Run, deep: bool) -> Compared<()> {
    run.begin("resolved");
    rows::compare(run)?;
    strings::compare(run, deep)?;
    octets::compare(run)?;
    lengths::compare(run)?;
    orders::compare(run)?;
    run.begin("resolved anchors");
    anchors::compare(run)
}

/// The cases of a seed.
pub fn seeded(run: &mut Run) -> Compared<()> {
    run.begin("any resolved");
    any::compare(run)?;
    run.begin("made anchors");
    made::compare(run)
}

/// Resolves in just the room that the result takes, in an octet more, in one fewer, and in none. Where
/// it is refused the room is all the same.
fn ask(run: &mut Run, reference: &[u8], base: &[u8]) -> Compared<()> {
    run.case();
    let resolving = Resolving::new(run, reference, base);
    let Ok(result) = resolving.expected() else {
        resolving.compare(run, reference.len() + base.len())?;
        return resolving.compare(run, 0);
    };
    run.reached.count(Entry::Takes, takes(reference, base));
    let length = result.len();
    for room in [length, length + 1, length.saturating_sub(1), 0] {
        resolving.compare(run, room)?;
    }
    Ok(())
}

/// How much the reference takes of the base, as [`Entry::Takes`] counts it. Both are right.
fn takes(reference: &[u8], base: &[u8]) -> usize {
    let before = |text: &[u8], marks: &[u8]| {
        let end = text.iter().position(|octet| marks.contains(octet));
        end.map(|end| text[end])
    };
    let behind_scheme = base.splitn(2, |&octet| octet == b':').nth(1);
    let has_host_alone = behind_scheme
        .and_then(|rest| rest.strip_prefix(b"//"))
        .is_some_and(|rest| before(rest, b"/?#") != Some(b'/'));
    match reference {
        _ if before(reference, b":/?#") == Some(b':') => 0,
        [b'/', b'/', ..] => 1,
        [b'/', ..] => 2,
        [b'?', ..] => 5,
        [] | [b'#', ..] => 6,
        _ if has_host_alone => 4,
        _ => 3,
    }
}
