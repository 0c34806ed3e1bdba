//! The resolved contexts of a table's links.

use crate::compare::{Asked, Compared};
use crate::run::Run;
use oracle::LinkMeaning;

/// Mostly URIs.
const BASES: [&[u8]; 6] = [
    b"http://base/a/b?c#d",
    b"http://base",
    b"a:b/c",
    b"a:/../b/./c?#",
    b"a:b#c#d",
    b"/base",
];

/// Asks for one link's context on some base, and for that of a link that isn't there.
pub fn compare(run: &mut Run, asked: &Asked, links: &[LinkMeaning]) -> Compared<()> {
    let base = run.numbers.of(&BASES);
    if !links.is_empty() {
        let link = run.numbers.below(links.len());
        compare_link(run, asked, base, link, &links[link])?;
    }
    let past = links.len() + run.numbers.small(3);
    asked.resolved_context(run, base, past, 8).map(drop)
}

/// Asks for a link's context in rooms at, over and under; where it is refused, in any.
pub fn compare_link(
    run: &mut Run,
    asked: &Asked,
    base: &[u8],
    link: usize,
    meaning: &LinkMeaning,
) -> Compared<()> {
    let Ok(context) = meaning.resolved_context(base) else {
        return asked.resolved_context(run, base, link, 8).map(drop);
    };
    let length = context.len();
    for room in [length + 1, length, length.saturating_sub(1)] {
        asked.resolved_context(run, base, link, room)?;
    }
    Ok(())
}
