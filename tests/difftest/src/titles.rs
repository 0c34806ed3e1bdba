//! The titles of a table's links.

use crate::compare::{Asked, Compared};
use crate::reached::{Entry, In};
use crate::run::Run;
use oracle::number::BAD_EXTENDED;
use oracle::LinkMeaning;

/// Asks for one link's title in rooms at, over and under, and for that of a link that isn't there.
pub fn compare(run: &mut Run, asked: &Asked, links: &[LinkMeaning]) -> Compared<()> {
    if !links.is_empty() {
        let link = run.numbers.below(links.len());
        compare_link(run, asked, link, &links[link])?;
    }
    let past = links.len() + run.numbers.small(3);
    asked.title(run, past, 8).map(drop)
}

/// Asks for a link's title so; without one, in any room.
pub fn compare_link(
    run: &mut Run,
    asked: &Asked,
    link: usize,
    meaning: &LinkMeaning,
) -> Compared<()> {
    let Some(title) = meaning.title() else {
        return asked.title(run, link, 8).map(drop);
    };
    let length = title.len();
    for room in [length + 1, length, length.saturating_sub(1)] {
        asked.title(run, link, room)?;
    }
    Ok(())
}

/// Counts what each link has: neither title; `title`; a wrong `title*`, and with `title`; a right
/// one, and with `title`.
pub fn count(run: &mut Run, edition: In, links: &[LinkMeaning]) {
    for link in links {
        let plain = usize::from(value_of(link, b"title").is_some());
        let star = match value_of(link, b"title*") {
            None => 0,
            Some(value) if is_right(value) => 2,
            Some(_) => 1,
        };
        run.reached
            .count_in(edition, Entry::Titles, 2 * star + plain);
    }
}

/// The value of its parameter of that name, if it has one.
pub fn value_of<'l>(link: &'l LinkMeaning, name: &[u8]) -> Option<&'l [u8]> {
    let param = link.params.iter().find(|param| param.name == name);
    param.map(|param| &param.value[..])
}

/// Whether it is a right extended value.
pub fn is_right(value: &[u8]) -> bool {
    oracle::decode(value, &mut []).0 != BAD_EXTENDED
}
