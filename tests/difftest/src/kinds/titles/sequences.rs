//! Octets in triples that are UTF-8 or nearly: every two of them, also with tails behind, every
//! three and four of those at edges, and such ones beside octets that stand for themselves.

use super::{ask, behind_quotes, triples};
use crate::compare::Compared;
use crate::run::Run;

/// The ends of what may stand in each place of a character, and what is next to them.
const EDGES: [u8; 21] = [
    0x00, 0x41, 0x7F, 0x80, 0x8F, 0x90, 0x9F, 0xA0, 0xBF, 0xC0, 0xC1, 0xC2, 0xDF, 0xE0, 0xEC, 0xED,
    0xEF, 0xF0, 0xF3, 0xF4, 0xF5,
];

const TAILS: [&[u8]; 4] = [b"", b"\x80", b"\xBF\x80", b"\x80\xBF\x80"];

pub fn compare(run: &mut Run) -> Compared<()> {
    for first in 0..=255 {
        for tails in TAILS {
            ask(run, &triples(&[&[first], tails].concat()))?;
        }
        for second in 0..=255 {
            for tails in TAILS {
                ask(run, &triples(&[&[first, second], tails].concat()))?;
            }
        }
    }
    edges(run)?;
    beside_plain(run)
}

/// Every three and four octets of the edges.
fn edges(run: &mut Run) -> Compared<()> {
    let base = EDGES.len();
    for number in 0..base.pow(4) {
        let [one, two, three, four] =
            [0, 1, 2, 3].map(|place| EDGES[number / base.pow(place) % base]);
        ask(run, &triples(&[one, two, three, four]))?;
        if four == EDGES[0] {
            ask(run, &triples(&[one, two, three]))?;
        }
    }
    Ok(())
}

/// Characters cut at each octet, with a plain octet there, before them and behind.
fn beside_plain(run: &mut Run) -> Compared<()> {
    for character in ['\u{80}', '\u{E4}', '\u{800}', '\u{FFFF}', '\u{10000}'] {
        let octets = character.to_string().into_bytes();
        for cut in 0..=octets.len() {
            let [before, behind] = [&octets[..cut], &octets[cut..]].map(triples);
            let behind = &behind[b"UTF-8''".len()..];
            ask(run, &before)?;
            ask(run, &behind_quotes(behind))?;
            for plain in [&b"a"[..], b"~", b"%41", b"\xBF", b"'"] {
                ask(run, &[&before, plain, behind].concat())?;
            }
            ask(run, &[&before, behind, &before[7..], behind].concat())?;
        }
    }
    Ok(())
}
