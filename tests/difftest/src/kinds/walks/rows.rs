//! Single steps by values of each kind, either way; and the program's sample, from each pack, in all
//! numbers of steps.

use super::{catalogue, SMALL};
use crate::compare::{equal, Compared, Walking};
use crate::run::Run;
use crate::shown;
use oracle::End;

/// Numbers of steps about the limit, and such as have a number in range for their lowest octets.
pub const STEPS: [i32; 14] = [
    i32::MIN,
    i32::MIN + 1,
    i32::MIN + 64,
    -65_536,
    -256,
    -66,
    -65,
    65,
    66,
    256,
    65_536,
    1 << 24,
    i32::MAX - 1,
    i32::MAX,
];

/// The pack that is stepped from, and the only other one.
const URIS: [&[u8]; 2] = [b"http://a/b/c;d?e", b"http://a/b/f"];

/// Values in which `@` stands for the relation, and how a step by it ends.
const VALUES: [(&str, End); 46] = [
    ("<f>;rel=@", End::Arrived),
    ("<f>;rel=\"@\"", End::Arrived),
    ("<f>;rel=\"x @ y\"", End::Arrived),
    ("<f>;rel=\"  @  \"", End::Arrived),
    ("<f>;rel=\"\\@\"", End::Arrived),
    ("<f>;REL=@;rel=x", End::Arrived),
    ("<f>;rel=x;rel=@", End::NoLink),
    ("<f>;rel;rel=@", End::NoLink),
    ("<f>;rel=@s", End::NoLink),
    ("<f>;rel=\"x@\"", End::NoLink),
    ("<f>;rel=\"@\t@\"", End::NoLink),
    ("<f>;rev=@", End::NoLink),
    ("<f>", End::NoLink),
    ("", End::NoLink),
    (" ,\t, ", End::NoLink),
    ("<x>,<y>;rel=z,<f>;rel=@,<x>;rel=@", End::Arrived),
    ("<x>;rel=@,<f>;rel=@", End::NoPack),
    ("\t<f>\t;\trel\t=\t@\t,\t", End::Arrived),
    ("<f>;title=\"\t\";rel=@", End::Arrived),
    // Anchors.
    ("<f>;rel=@;anchor", End::NoLink),
    ("<f>;anchor;rel=@", End::NoLink),
    ("<f>;rel=@;anchor=\"\"", End::NoLink),
    ("<f>;rel=@;AnchoR=\"#\"", End::NoLink),
    ("<f>;rel=@;anchor=\"http://a/b/c;d?e\"", End::NoLink),
    ("<f>;rel=@;anchors=x;nchor", End::Arrived),
    ("<x>;rel=@;anchor=y,<f>;rel=@", End::Arrived),
    ("<x>;rel=@;anchor,<f>;rel=@;anchor=\"\"", End::NoLink),
    ("<f>;rel=@;anchor,<x>;rel=@", End::NoPack),
    // Targets.
    ("<./f>;rel=@", End::Arrived),
    ("<../b/f>;rel=@", End::Arrived),
    ("<../../../b/./f>;rel=@", End::Arrived),
    ("<x/../f>;rel=@", End::Arrived),
    ("</b/f>;rel=@", End::Arrived),
    ("<//a/b/f>;rel=@", End::Arrived),
    ("<http://a/b/f>;rel=@", End::Arrived),
    ("<http://a/x/../b/f>;rel=@", End::Arrived),
    ("<HTTP://a/b/f>;rel=@", End::NoPack),
    ("<//A/b/f>;rel=@", End::NoPack),
    ("<f/>;rel=@", End::NoPack),
    ("<f?>;rel=@", End::NoPack),
    ("<f#>;rel=@", End::NoPack),
    ("<f#f>;rel=@", End::NoPack),
    ("<%66>;rel=@", End::NoPack),
    ("<#>;rel=@", End::NoPack),
    ("<?>;rel=@", End::NoPack),
    ("<b/f>;rel=@", End::NoPack),
];

pub fn compare(run: &mut Run) -> Compared<()> {
    for (value, end) in VALUES {
        for (relation, way) in [("next", 1), ("prev", -1), ("NexT", 1), ("PREV", -1)] {
            step(run, value.replace('@', relation).as_bytes(), way, end)?;
        }
    }
    own(run)?;
    stored(run)
}

/// A step from the first pack of two, and from the last one, which leads back by no link.
fn step(run: &mut Run, value: &[u8], way: i32, end: End) -> Compared<()> {
    let text = catalogue(&[(URIS[0], value), (URIS[1], b"")]);
    run.case();
    let mut walking = Walking::new(run, &text, SMALL);
    let answer = walking.walk(run, 0, way)?;
    let at = || format!("the row of {}", shown::octets(value));
    equal(at, (answer.number, answer.end), (0, end as usize))?;
    walking.walk(run, 0, -way)?;
    walking.walk(run, 0, 7 * way)?;
    walking.walk(run, 1, way).map(drop)
}

/// A pack that leads to itself, by the empty reference and by its own URI.
fn own(run: &mut Run) -> Compared<()> {
    for value in [
        &b"<>;rel=\"next prev\""[..],
        b"<http://a/b/c;d?e>;rel=\"prev next\"",
    ] {
        let text = catalogue(&[(URIS[0], value)]);
        run.case();
        let mut walking = Walking::new(run, &text, SMALL);
        for steps in -66..=66 {
            walking.walk(run, 0, steps)?;
        }
    }
    Ok(())
}

/// The catalogue that the walking program's stored run walks through.
pub fn sample() -> &'static [u8] {
    const STORED: &str = include_str!("../../../../oracle/data/walk_packs.txt");
    let (_, catalogue) = STORED.split_once('\n').expect("it has lines");
    catalogue.as_bytes()
}

fn stored(run: &mut Run) -> Compared<()> {
    run.case();
    let mut walking = Walking::new(run, sample(), SMALL);
    for start in 0..7 {
        for steps in (-66..=66).chain(STEPS) {
            walking.walk(run, start, steps)?;
        }
        for (m, n) in (0..9).flat_map(|m| (0..9).map(move |n| (m, n))) {
            walking.walk_on(run, start, m, n)?;
            walking.walk_on(run, start, -m, -n)?;
        }
    }
    Ok(())
}
