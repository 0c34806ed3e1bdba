//! Catalogues of as many octets and packs as there may be, one fewer and more; URIs, values and results
//! about the limit.

use super::{ask, catalogue, PROGRAM, SMALL};
use crate::compare::{equal, Compared, Walking};
use crate::run::Run;
use oracle::number::{BAD_CATALOGUE, DONE};
use oracle::End;

const OCTETS: [usize; 4] = [65_535, 65_536, 65_537, 65_538];
const PACKS: [usize; 4] = [255, 256, 257, 258];
const LENGTHS: [usize; 4] = [8191, 8192, 8193, 8194];

pub fn compare(run: &mut Run) -> Compared<()> {
    for octets in OCTETS {
        long(run, octets)?;
    }
    for packs in PACKS {
        many(run, packs)?;
    }
    for length in LENGTHS {
        resolved(run, length)?;
        values(run, length)?;
    }
    Ok(())
}

/// What is due of a text within a limit, or over it.
fn number(is_within: bool) -> usize {
    match is_within {
        true => DONE,
        false => BAD_CATALOGUE,
    }
}

/// A start, and its URI repeated up to the length.
fn uri(before: &[u8], length: usize) -> Vec<u8> {
    let mut uri = before.to_vec();
    uri.resize(length, b'b');
    uri
}

/// Of so many octets: one URI; one pack, and blank values of full length; many packs.
fn long(run: &mut Run, octets: usize) -> Compared<()> {
    let one = catalogue(&[(&uri(b"a:", octets - 2), b"")]);
    let blank = b" ".repeat(8192);
    let mut blanks = vec![];
    for pack in 0..7 {
        let line = [format!("a:{pack}\t").as_bytes(), &blank, b"\n"].concat();
        blanks.extend(line);
    }
    let rest = octets - blanks.len() - b"a:7\t\n".len();
    let blanks = [&blanks[..], b"a:7\t", &b",".repeat(rest), b"\n"].concat();
    let mut many = vec![];
    for pack in 0..250 {
        many.extend(format!("http://a/{pack}\t<{}>;rel=next\n", pack + 1).bytes());
    }
    let rest = octets - many.len() - b"\t\n".len();
    many.extend([&uri(b"http://a/250", rest)[..], b"\t\n"].concat());
    for text in [one, blanks, many] {
        let what = || format!("a catalogue of {octets} octets");
        equal(what, text.len(), octets)?;
        let mut walking = Walking::new(run, &text, SMALL);
        let answer = walking.walk(run, 0, 0)?;
        equal(what, answer.number, number(octets <= 65_536))?;
        ask(run, &text, SMALL)?;
        ask(run, &text[..octets - 1], SMALL)?;
    }
    Ok(())
}

/// So many packs in a row, and the last one leads to one more. Then the last one has the URI of each
/// other that is looked for first or last.
fn many(run: &mut Run, packs: usize) -> Compared<()> {
    let line = |pack: usize| format!("a:/{pack}\t<{}>;rel=next\n", pack + 1);
    let lines: Vec<String> = (0..packs).map(line).collect();
    let text = lines.concat();
    let mut walking = Walking::new(run, text.as_bytes(), SMALL);
    run.case();
    for start in [0, 100, packs - 65, packs - 64, packs - 1, packs] {
        for steps in [0, 1, 63, 64, -1] {
            let answer = walking.walk(run, start, steps)?;
            if start < packs {
                let what = || format!("a catalogue of {packs} packs");
                equal(what, answer.number, number(packs <= 256))?;
            }
        }
    }
    for other in [0, 1, packs / 2, packs - 2] {
        let mut lines = lines.clone();
        lines[packs - 1] = line(other);
        ask(run, lines.concat().as_bytes(), SMALL)?;
    }
    Ok(())
}

/// A pack, its value, and the URI of the only other pack.
type Two<'t> = [&'t [u8]; 3];

/// URIs and results of that length: a step ends for want of a target just if one of them is over the
/// limit.
fn resolved(run: &mut Run, length: usize) -> Compared<()> {
    let own = uri(b"a:/", length);
    let ends = [b"/".as_slice(), b"/c"];
    let [folder, result] = ends.map(|end| [&uri(b"a:/", length - 2), end].concat());
    // Of the URI the target takes nothing, its scheme, or all; the result is there or not.
    let rows: [(Two, End); 6] = [
        ([&own, b"<d:>;rel=next", b"d:"], End::Arrived),
        ([&own, b"</>;rel=next", b"a:/"], End::Arrived),
        ([&own, b"<>;rel=next", b"d:"], End::Arrived),
        ([&own, b"<e:>;rel=next", b"d:"], End::NoPack),
        ([&folder, b"<c>;rel=next", &result], End::Arrived),
        ([&folder, b"<d>;rel=next", &result], End::NoPack),
    ];
    for ([uri, value, other], end) in rows {
        let text = catalogue(&[(uri, value), (other, b"")]);
        let end = if length > 8192 { End::NoTarget } else { end };
        run.case();
        let mut walking = Walking::new(run, &text, SMALL);
        let answer = walking.walk(run, 0, 1)?;
        let what = || format!("a step by {length} octets");
        equal(what, (answer.number, answer.end), (DONE, end as usize))?;
        ask(run, &text, SMALL)?;
    }
    up(run, length)?;
    behind(run, length)
}

/// Up from a folder as deep as the URI allows; what is put together on the way is over the limit.
fn up(run: &mut Run, length: usize) -> Compared<()> {
    let deep = [&b"a:/"[..], &b"b/".repeat((length - 3) / 2)].concat();
    for ups in [2, 2000, 2700] {
        let value = [&b"<"[..], &b"../".repeat(ups), b">;rel=next"].concat();
        let text = catalogue(&[(&deep, &value), (b"a:/", b"")]);
        ask(run, &text, SMALL)?;
    }
    Ok(())
}

/// A step to a long folder, and from there to a result of that length; and long targets on a short URI.
fn behind(run: &mut Run, length: usize) -> Compared<()> {
    let long = [&uri(b"a:/", 8100)[..], b"/"].concat();
    let first = [b"<", &long[..], b">;rel=next"].concat();
    let last = [b"<", &b"c".repeat(length - 8101)[..], b">;rel=next"].concat();
    let text = catalogue(&[(b"a:b", &first), (&long, &last)]);
    run.case();
    Walking::new(run, &text, SMALL).walk_on(run, 0, 1, 2)?;
    for less in 0..12 {
        let target = [b"<", &b"c".repeat(8181 - less)[..], b">;rel=next"].concat();
        ask(run, &catalogue(&[(b"a://host/bb/", &target)]), SMALL)?;
    }
    Ok(())
}

/// A value of that many octets: blank, one target, and as many links and parameters as fit.
fn values(run: &mut Run, length: usize) -> Compared<()> {
    let target = [b"<", &b"c".repeat(length - 11)[..], b">;rel=next"].concat();
    for value in [b" ".repeat(length), target] {
        let text = catalogue(&[(b"a:", b"<a:b>;rel=next"), (b"a:b", &value)]);
        run.case();
        let mut walking = Walking::new(run, &text, PROGRAM);
        let answer = walking.walk(run, 0, 1)?;
        let what = || format!("a value of {length} octets");
        equal(what, value.len(), length)?;
        equal(what, answer.number, number(length <= 8192))?;
        ask(run, &text, PROGRAM)?;
    }
    Ok(())
}
