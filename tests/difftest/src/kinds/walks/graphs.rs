//! Every way in which three packs can lead to one another, to themselves, to none and nowhere; and long
//! rows and circles of packs.

use super::SMALL;
use crate::compare::{Compared, Walking};
use crate::run::Run;

/// Where the link of a pack leads: to one of three, to a pack that isn't there; or there is no link.
const LINKS: [&str; 5] = ["0", "1", "2", "3", ""];
const PACKS: usize = 3;

pub fn compare(run: &mut Run) -> Compared<()> {
    for which in 0..LINKS.len().pow(PACKS as u32) {
        let link = |pack: usize| LINKS[which / LINKS.len().pow(pack as u32) % LINKS.len()];
        graph(run, link)?;
    }
    for packs in [1, 2, 5, 63, 64, 65, 66, 130] {
        row(run, packs, false)?;
        row(run, packs, true)?;
    }
    Ok(())
}

/// By `next` as it is told, and by `prev` to the pack behind that.
fn graph<'l>(run: &mut Run, link: impl Fn(usize) -> &'l str) -> Compared<()> {
    let line = |pack| {
        let [next, prev] = [link(pack), link((pack + 1) % PACKS)].map(|to| match to {
            "" => String::new(),
            to => format!("<{to}>"),
        });
        let next = if next.is_empty() {
            next
        } else {
            next + ";rel=next"
        };
        let prev = if prev.is_empty() {
            prev
        } else {
            prev + ";rel=prev"
        };
        format!("http://a/b/{pack}\t{next},{prev}\n")
    };
    let text: String = (0..PACKS).map(line).collect();
    run.case();
    let mut walking = Walking::new(run, text.as_bytes(), SMALL);
    for start in 0..=PACKS {
        for steps in (-9..=9).chain([-65, -64, -63, 63, 64, 65]) {
            walking.walk(run, start, steps)?;
        }
        for (m, n) in [(0, 1), (1, 0), (1, 1), (2, 3), (5, 5), (32, 32)] {
            walking.walk_on(run, start, m, n)?;
            walking.walk_on(run, start, -m, -n)?;
        }
    }
    Ok(())
}

/// Each leads to the next and to the one before it; in a circle the last and the first do too.
fn row(run: &mut Run, packs: usize, is_circle: bool) -> Compared<()> {
    let line = |pack: usize| {
        let (last, prev) = (packs - 1, (pack + packs - 1) % packs);
        let to = |there: bool, target: usize, relation: &str| match there || is_circle {
            true => format!("<./{target}>;rel={relation},"),
            false => String::new(),
        };
        let next = to(pack < last, (pack + 1) % packs, "next");
        let prev = to(pack > 0, prev, "prev");
        format!("a:/{pack}\t{prev}{next}\n")
    };
    let text: String = (0..packs).map(line).collect();
    run.case();
    let mut walking = Walking::new(run, text.as_bytes(), SMALL);
    for start in [0, packs / 2, packs - 1] {
        for steps in -66..=66 {
            walking.walk(run, start, steps)?;
        }
    }
    Ok(())
}
