//! Headers whose links have anchors of any references, in quotes with backslashes before any of their
//! octets, on any bases.

use super::any::{made, made_base};
use crate::compare::{Asked, Compared};
use crate::generate::case::cased;
use crate::generate::edition::EDITIONS;
use crate::generate::octets::{is_escapable, is_plain};
use crate::kinds::read_amply;
use crate::numbers::Numbers;
use crate::resolved::compare_link;
use crate::run::Run;

const CASES: usize = 4000;

pub fn compare(run: &mut Run) -> Compared<()> {
    for edition in EDITIONS.into_iter().cycle().take(CASES) {
        let links = 1 + run.numbers.small(3);
        let links: Vec<Vec<u8>> = (0..links).map(|_| link(&mut run.numbers)).collect();
        let header = links.join(&b", "[..]);
        let base = made_base(&mut run.numbers);
        run.case();
        let (_, tables) = read_amply(run, edition, &header)?;
        let asked = Asked::new(run, &tables);
        let meanings = tables.meanings().unwrap_or_default();
        for (number, link) in meanings.iter().enumerate() {
            compare_link(run, &asked, &base, number, link)?;
        }
        asked.unchanged()?;
    }
    Ok(())
}

/// Mostly with one anchor. Octets that stand in no quotes are left out.
fn link(numbers: &mut Numbers) -> Vec<u8> {
    let mut link = b"<a>;rel=b".to_vec();
    for _ in 0..numbers.small(4) {
        link.push(b';');
        link.extend(cased(numbers, b"anchor"));
        if numbers.once_in(8) {
            continue;
        }
        link.extend(b"=\"");
        let often = 1 + numbers.below(20);
        for octet in made(numbers)
            .into_iter()
            .filter(|&octet| is_escapable(octet))
        {
            if !is_plain(octet) || numbers.once_in(often) {
                link.push(b'\\');
            }
            link.push(octet);
        }
        link.push(b'"');
    }
    link
}
