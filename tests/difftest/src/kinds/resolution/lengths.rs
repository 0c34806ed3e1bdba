//! References, bases and results of 8,192 octets, one under and one over; and paths that are longer
//! before their dots are removed than any result may be.

use super::ask;
use crate::compare::{equal, Compared, Resolving};
use crate::run::Run;
use oracle::number::TOO_LONG;

const LENGTHS: [usize; 3] = [8191, 8192, 8193];

pub fn compare(run: &mut Run) -> Compared<()> {
    for length in LENGTHS {
        for reference in [
            text("b:", "a", length),
            text("/", "a/../", length),
            text("", "../", length),
            text("1:", "a", length),
        ] {
            ask(run, &reference, b"a://h/b")?;
        }
        for base in [
            text("a:", "a", length),
            text("a://h/", "b/", length),
            text("a:#", "a", length),
            text("1:", "a", length),
        ] {
            ask(run, b"../../c", &base)?;
            ask(run, b"#", &base)?;
        }
        both(run, length)?;
        result(run, length)?;
    }
    on_the_way(run)
}

/// Both too long, or one of them and the other wrong.
fn both(run: &mut Run, length: usize) -> Compared<()> {
    let (long, wrong) = (text("a:", "a", length), text("1:", "a", length));
    ask(run, &long, &long)?;
    ask(run, &wrong, &wrong)?;
    ask(run, b"[", &long)?;
    ask(run, &long, b"b")
}

/// Results of each length, of a reference and a base that are shorter: by the base's scheme, its
/// folder, its whole path, its query, and the slash that it lacks.
fn result(run: &mut Run, length: usize) -> Compared<()> {
    let rest = |less: usize| text("", "a", length - less);
    let half = text("", "a", 4000);
    let folder = [b"a:/", &half[..], b"/"].concat();
    let host = [b"a://", &half[..]].concat();
    let pairs: [(Vec<u8>, Vec<u8>); 7] = [
        ([b"/", &rest(3)[..]].concat(), b"a:b".to_vec()),
        ([b"//", &rest(4)[..]].concat(), b"a:b".to_vec()),
        (rest(4004), [&folder[..], b"b?c#d"].concat()),
        (
            [b"?", &rest(4006)[..]].concat(),
            [&folder[..], b"b?c#d"].concat(),
        ),
        (
            [b"#", &rest(4008)[..]].concat(),
            [&folder[..], b"b?c#d"].concat(),
        ),
        (rest(4005), host),
        (
            [b"./x/../", &rest(4004)[..]].concat(),
            [&folder[..], b"."].concat(),
        ),
    ];
    for (reference, base) in pairs {
        let told = Resolving::new(run, &reference, &base);
        let told = told.expected().map(<[u8]>::len);
        let due = match length > 8192 {
            true => Err(TOO_LONG),
            false => Ok(length),
        };
        equal(|| format!("a result of {length} octets"), told, due)?;
        ask(run, &reference, &base)?;
    }
    Ok(())
}

/// The path of both is over 8,192 octets, and what is left of it is short, just within the limit, and
/// over it.
fn on_the_way(run: &mut Run) -> Compared<()> {
    for (segment, up) in [("b/", 1), ("bb/", 2), ("/", 1)] {
        let base = text("a:/", segment, 8192);
        for ups in [2000, 2700, 2730] {
            let dots = [b"../".repeat(ups), b"c".repeat(up)].concat();
            ask(run, &dots, &base)?;
            ask(run, &[&dots[..], &b"d".repeat(2)].concat(), &base)?;
        }
    }
    let base = text("a:/", "b", 8192);
    ask(run, &[b"./".repeat(4095), b"c".to_vec()].concat(), &base)?;
    ask(run, &b"c/../".repeat(1638), &text("a:/", "b/", 8192))?;
    let base = [b"a:/", &b"b".repeat(8180)[..], b"/"].concat();
    for last in 6..12 {
        ask(run, &[b"./d/../", &b"c".repeat(last)[..]].concat(), &base)?;
    }
    Ok(())
}

/// Of that length: a beginning, and what is put behind it again and again, cut where it must.
fn text(before: &str, again: &str, length: usize) -> Vec<u8> {
    let octets = again.bytes().cycle();
    before.bytes().chain(octets).take(length).collect()
}
