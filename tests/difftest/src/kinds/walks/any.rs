//! Catalogues made of numbers: packs whose links lead to one another in many ways, derived values among
//! them, and changes that make some of them wrong.

use super::{PROGRAM, SMALL, STEPS};
use crate::compare::{Compared, Walking};
use crate::generate::case::cased;
use crate::generate::edition::NEWER;
use crate::generate::header::{derive, SHORT};
use crate::generate::reference::reference;
use crate::numbers::Numbers;
use crate::run::Run;
use crate::view;
use oracle::number::LIMIT;
use oracle::{Room, PARAM_SLOTS};

const CASES: usize = 5000;

/// Of so many catalogues one has many packs.
const MANY: usize = 250;

pub fn compare(run: &mut Run) -> Compared<()> {
    for _ in 0..CASES {
        let mut text = made(&mut run.numbers);
        if run.numbers.once_in(3) {
            for _ in 0..=run.numbers.small(2) {
                text = changed(&mut run.numbers, text);
            }
        }
        let room = room(&mut run.numbers);
        run.case();
        walks(run, &text, room)?;
        if run.numbers.once_in(10) {
            let (start, steps) = (run.numbers.small(6), some_steps(&mut run.numbers));
            view::walks::compare(&text, start, steps)?;
        }
    }
    Ok(())
}

fn walks(run: &mut Run, text: &[u8], room: Room) -> Compared<()> {
    let mut walking = Walking::new(run, text, room);
    let packs = walking.packs().unwrap_or(0);
    for _ in 0..6 {
        let start = run.numbers.below(packs + 1);
        let steps = some_steps(&mut run.numbers);
        walking.walk(run, start, steps)?;
    }
    for _ in 0..3 {
        let start = run.numbers.below(packs + 1);
        let m = run.numbers.small(65) as i32;
        let n = run.numbers.small(65 - m as usize) as i32;
        let way = run.numbers.of(&[1, -1]);
        walking.walk_on(run, start, way * m, way * n)?;
    }
    Ok(())
}

/// Mostly few, either way.
fn some_steps(numbers: &mut Numbers) -> i32 {
    let steps = match numbers.below(8) {
        0 => return numbers.of(&STEPS),
        1 => return numbers.next() as i32,
        2 | 3 => 1 + numbers.below(65) as i32,
        _ => numbers.small(66) as i32,
    };
    numbers.of(&[1, -1]) * steps
}

/// Mostly enough.
fn room(numbers: &mut Numbers) -> Room {
    match numbers.below(12) {
        0 => Room {
            link_slots: numbers.below(20),
            param_slots: numbers.below(60),
            octets: LIMIT,
        },
        1 => Room {
            octets: LIMIT - 2 + numbers.below(4),
            ..SMALL
        },
        2 => PROGRAM,
        _ => Room {
            param_slots: 60 * PARAM_SLOTS,
            ..SMALL
        },
    }
}

fn made(numbers: &mut Numbers) -> Vec<u8> {
    let packs = match numbers.once_in(MANY) {
        true => 200 + numbers.below(60),
        false => numbers.small(12),
    };
    let shape = numbers.below(SHAPES);
    let uris: Vec<Vec<u8>> = (0..packs).map(|pack| uri(numbers, shape, pack)).collect();
    let mut text = vec![];
    for uri in &uris {
        text.extend(uri);
        text.push(b'\t');
        text.extend(value(numbers, &uris));
        text.push(b'\n');
    }
    text
}

/// Four by themselves, and one of all of them.
const SHAPES: usize = 5;

/// No two packs have the same, but for references, which may be equal by chance, or have a fragment.
fn uri(numbers: &mut Numbers, shape: usize, pack: usize) -> Vec<u8> {
    let shape = match shape {
        4 => numbers.below(5),
        shape => shape,
    };
    match shape {
        0 => format!("http://a/b/{pack}").into_bytes(),
        1 => format!("http://a/{pack}/").into_bytes(),
        2 => format!("http://a/b/c?{pack}").into_bytes(),
        3 => format!("a:{pack}").into_bytes(),
        _ => {
            let made = reference(numbers, 9);
            let end = made.iter().position(|&octet| octet == b'#');
            let end = end.filter(|_| !numbers.once_in(8)).unwrap_or(made.len());
            [format!("a{pack}:").as_bytes(), &made[..end]].concat()
        }
    }
}

/// Mostly a link to some pack by each relation, behind any others; now and then a value that is derived
/// from the grammar.
fn value(numbers: &mut Numbers, uris: &[Vec<u8>]) -> Vec<u8> {
    if numbers.once_in(12) {
        return derive(numbers, NEWER, SHORT).header;
    }
    let others = match numbers.once_in(2) {
        true => numbers.small(5),
        false => 0,
    };
    let mut links: Vec<Vec<u8>> = (0..others).map(|_| link(numbers, uris)).collect();
    for relation in [b"next", b"prev"] {
        if !numbers.once_in(10) {
            let target = lead(numbers, uris);
            let link = [b"<", &target[..], b">;rel=", relation].concat();
            links.insert(numbers.below(links.len() + 1), link);
        }
    }
    links.join(numbers.of(&[&b","[..], b", ", b"\t,,\t"]))
}

fn link(numbers: &mut Numbers, uris: &[Vec<u8>]) -> Vec<u8> {
    let target = target(numbers, uris);
    let mut link = [b"<", &target[..], b">"].concat();
    let mut params: Vec<Vec<u8>> = vec![];
    if !numbers.once_in(9) {
        params.push(rel(numbers));
    }
    if numbers.once_in(5) {
        let name = cased(numbers, b"anchor");
        let value = numbers.of(&[&b""[..], b"=\"\"", b"=x", b"=\"a:b\"", b"=\"\\#\""]);
        params.insert(numbers.below(params.len() + 1), [&name, value].concat());
    }
    if numbers.once_in(3) {
        let param = numbers.of(&[&b"x"[..], b"title=\"a\tb, c\"", b"rel=next", b"anchors=c"]);
        params.insert(numbers.below(params.len() + 1), param.to_vec());
    }
    for param in params {
        link.extend(numbers.of(&[&b";"[..], b"; ", b" ;\t"]));
        link.extend(param);
    }
    link
}

/// Mostly `next` or `prev`, alone or among others, bare or in quotes.
fn rel(numbers: &mut Numbers) -> Vec<u8> {
    let relation = match numbers.below(8) {
        0 => numbers.of(&[&b"up"[..], b"nex", b"previous"]).to_vec(),
        1..5 => cased(numbers, b"next"),
        _ => cased(numbers, b"prev"),
    };
    let name = cased(numbers, b"rel");
    let value = match numbers.below(5) {
        0 => [b"\"", &relation[..], b"\""].concat(),
        1 => [b"\"next  ", &relation[..], b"\""].concat(),
        2 => [b"\"up \\", &relation[..], b" prev\""].concat(),
        _ => relation,
    };
    [&name[..], b"=", &value].concat()
}

/// What leads to a pack, mostly; or any reference, or what nearly leads there.
fn target(numbers: &mut Numbers, uris: &[Vec<u8>]) -> Vec<u8> {
    match numbers.below(8) {
        0 => reference(numbers, 9),
        1 => {
            let more = numbers.of(&[&b"#"[..], b"#f", b"?", b"/"]);
            [&lead(numbers, uris), more].concat()
        }
        _ => lead(numbers, uris),
    }
}

/// A pack's URI, or what is left of it behind its scheme, host or folder, with dots and without; on a
/// pack of another shape it leads elsewhere. Or the empty reference, which leads to the pack itself.
fn lead(numbers: &mut Numbers, uris: &[Vec<u8>]) -> Vec<u8> {
    let uri = &uris[numbers.below(uris.len())];
    let behind = |mark: u8, count: usize| {
        let marks = uri.iter().enumerate().filter(|(_, &octet)| octet == mark);
        let (at, _) = marks.take(count).last()?;
        Some(&uri[at + 1..])
    };
    let (before, rest): (&[u8], _) = match numbers.below(9) {
        0 => return vec![],
        1 | 2 => (b"", behind(b'/', 9)),
        3 => (b"/", behind(b'/', 3)),
        4 => (b"//", behind(b'/', 2)),
        5 => (b"./x/../", behind(b'/', 9)),
        6 => (b"?", behind(b'?', 1)),
        _ => (b"", None),
    };
    match rest {
        Some(rest) => [before, rest].concat(),
        None => uri.clone(),
    }
}

/// With another octet, one more or fewer, in a place; or a line left out, put twice, or cut short.
fn changed(numbers: &mut Numbers, mut text: Vec<u8>) -> Vec<u8> {
    let lines: Vec<&[u8]> = text.split_inclusive(|&octet| octet == b'\n').collect();
    let octet = match numbers.once_in(4) {
        true => numbers.octet(),
        false => numbers.of(b"\t\n#:/ <>;\",=%a"),
    };
    let at = numbers.below(text.len() + 1);
    match numbers.below(7) {
        0 if !lines.is_empty() => {
            let mut lines = lines.clone();
            lines.insert(numbers.below(lines.len()), numbers.of(&lines));
            lines.concat()
        }
        1 if !lines.is_empty() => {
            let mut lines = lines.clone();
            lines.remove(numbers.below(lines.len()));
            lines.concat()
        }
        2 => text[..text.len() - text.len().min(numbers.below(3))].to_vec(),
        3 if at < text.len() => {
            text.remove(at);
            text
        }
        4 if at < text.len() => {
            text[at] = octet;
            text
        }
        5 => text[at..].to_vec(),
        _ => {
            text.insert(at, octet);
            text
        }
    }
}
