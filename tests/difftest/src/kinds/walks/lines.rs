//! Texts that are catalogues or nearly: read by hand, with every octet in every place, cut everywhere,
//! with lines left out, doubled and exchanged.

use super::{ask, catalogue, sample, SMALL};
use crate::compare::{equal, Compared, Walking};
use crate::run::Run;
use crate::shown;
use oracle::number::{BAD_CATALOGUE, NO_SUCH_LINK};

const BAD: [&[u8]; 41] = [
    b"\n",
    b"\n\n",
    b"a:",
    b"a:\n",
    b"a:\t",
    b"a:\t<b>",
    b"\t\n",
    b"\t<b>\n",
    b"a:\t\n\n",
    b"\na:\t\n",
    b"a:\t\n\nb:\t\n",
    b"a:\t\nb:",
    b"a:\t\nb:\n",
    b"a:\t\nb:\t",
    b"a:\t\n\t\n",
    b" a:\t\n",
    b"a: \t\n",
    b"a: b\t\n",
    b"a\t\n",
    b"/a\t\n",
    b"//a/b\t\n",
    b"?a\t\n",
    b":a\t\n",
    b"1:a\t\n",
    b"a:#\t\n",
    b"a:b#c\t\n",
    b"a:?b#\t\n",
    b"a:[\t\n",
    b"a:%4\t\n",
    b"a://h:p\t\n",
    b"a:\r\t\n",
    b"a:\t\r\n",
    b"a:\t<b\n",
    b"a:\t<1:b>\n",
    b"a:\t<b>;\n",
    b"a:\t<b>;rel=c/d\n",
    b"a:\t<b>;x=\"\n\"\n",
    b"a:\t\na:\t\n",
    b"a:\t<b>\nb:\t\na:\t<c>\n",
    b"a:\xC3\xA4\t\n",
    b"a:\t\xFF\n",
];

/// Each with its number of packs.
const GOOD: [(&[u8], usize); 11] = [
    (b"", 0),
    (b"a:\t\n", 1),
    (b"a:\t\t\t\n", 1),
    (b"a:\t<b>\t;\tx\t=\t\"\t\"\t\n", 1),
    (b"a:\t<b>;x=\"\xFF\"\n", 1),
    (b"a:\t\nA:\t\n", 2),
    (b"a:%41\t\na:%4a\t\na:%4A\t\na:A\t\n", 4),
    (b"a:?\t\na:??\t\na://\t\na:///\t\na:/\t\n", 5),
    (b"a://[::1]:/?/?\t<>\n", 1),
    (b"a:b\t\na:bb\t\na:\t\n", 3),
    (b"a:/./../b\t\na:/b\t\n", 2),
];

/// Two packs that lead to each other, with a tab in a value.
const SHORT: &[u8] = b"a:b?\t<c>;rel=next\na:c\t<b?>;x=\"\t\";rel=prev\n";

pub fn compare(run: &mut Run) -> Compared<()> {
    for text in BAD {
        is_answered(run, text, 0, BAD_CATALOGUE)?;
    }
    for (text, packs) in GOOD {
        is_answered(run, text, packs, NO_SUCH_LINK)?;
    }
    for text in changed(SHORT) {
        ask(run, &text, SMALL)?;
    }
    for end in 0..=sample().len() {
        ask(run, &sample()[..end], SMALL)?;
        ask(run, &sample()[end..], SMALL)?;
    }
    exchanged(run)
}

/// From that number on no pack is there, and that is told by this number.
fn is_answered(run: &mut Run, text: &[u8], packs: usize, number: usize) -> Compared<()> {
    let mut walking = Walking::new(run, text, SMALL);
    let at = || format!("the row of {}", shown::octets(text));
    for start in 0..packs {
        let answer = walking.walk(run, start, 0)?;
        equal(at, (answer.number, answer.pack), (0, start))?;
    }
    for start in [packs, packs + 1, usize::MAX] {
        let answer = walking.walk(run, start, 0)?;
        equal(at, answer.number, number)?;
    }
    ask(run, text, SMALL)
}

/// With every octet in every place, in place of one and put before it, and cut there.
fn changed(text: &'static [u8]) -> impl Iterator<Item = Vec<u8>> {
    let at = |place: usize| {
        let (before, behind) = text.split_at(place);
        let rest = behind.get(1..).unwrap_or_default();
        let octets = (0..=255).flat_map(move |octet| {
            [behind, rest].map(|behind| [before, &[octet], behind].concat())
        });
        octets.chain([before.to_vec(), behind.to_vec()])
    };
    (0..=text.len()).flat_map(at)
}

/// The sample with each line left out, put again behind each, and exchanged with each; and without an
/// end of line behind each.
fn exchanged(run: &mut Run) -> Compared<()> {
    let lines: Vec<&[u8]> = sample().split_inclusive(|&octet| octet == b'\n').collect();
    for one in 0..lines.len() {
        let mut fewer = lines.clone();
        let line = fewer.remove(one);
        ask(run, &fewer.concat(), SMALL)?;
        let mut joined = lines.clone();
        joined[one] = &line[..line.len() - 1];
        ask(run, &joined.concat(), SMALL)?;
        for other in 0..lines.len() {
            let (mut twice, mut moved) = (lines.clone(), lines.clone());
            twice.insert(other, line);
            moved.swap(one, other);
            ask(run, &twice.concat(), SMALL)?;
            ask(run, &moved.concat(), SMALL)?;
        }
    }
    same_uris(run)
}

/// URIs of equal lengths that differ in one place alone, and two that don't.
fn same_uris(run: &mut Run) -> Compared<()> {
    const URI: &[u8] = b"a:/bcdefghijklmnopqrstuvwxyz";
    for place in 3..URI.len() {
        let mut other = URI.to_vec();
        other[place] = b'B';
        for third in [URI, &other, b"a:/"] {
            let value = [b"<", &other[..], b">;rel=next"].concat();
            let text = catalogue(&[(URI, &value), (&other, b""), (third, b"")]);
            ask(run, &text, SMALL)?;
        }
    }
    Ok(())
}
