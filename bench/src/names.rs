//! The codes of names, beside the table loop over the same octets and beside the independent reader, which compares with one known
//! name after another.

use crate::contenders::{asked, TIMES};
use crate::figures::{figures, Figures};
use crate::library;
use std::hint::black_box;

/// Known names, and unknown ones of the same length, some of which differ only in the last octet.
const ALONE: [&[u8]; 11] = [
    b"rel",
    b"rev",
    b"abc",
    b"type",
    b"media",
    b"mediq",
    b"title",
    b"Title*",
    b"hreflang",
    b"hreflanh",
    b"crossori",
];

pub fn print() {
    println!("The code of a name; each figure is for one name:\n");
    println!(
        "| Name | Code | Octets | ns | Times the table loop | Independent reader, times this |"
    );
    println!("|---|---:|---:|---:|---:|---:|");
    for name in ALONE {
        let shown = format!("`{}`", name.escape_ascii());
        line(&shown, &vec![name.to_vec(); TIMES]);
    }
    line("one of 8,192 octets", &vec![vec![b'a'; library::LIMIT]; 2]);
    line("different ones in turn", &different());
}

/// Names of the list in any order, so many that a processor can't learn it.
fn different() -> Vec<Vec<u8>> {
    let mut state = 1u32;
    let mut any = || {
        state = state.wrapping_mul(1_664_525).wrapping_add(1_013_904_223);
        ALONE[(state >> 16) as usize % ALONE.len()].to_vec()
    };
    (0..8 * TIMES).map(|_| any()).collect()
}

fn line(shown: &str, names: &[Vec<u8>]) {
    for name in names {
        assert_eq!(library::name_code(name), oracle::name_code(name), "{shown}");
    }
    let Figures {
        each,
        to_table,
        to_independent,
    } = figures(
        names,
        asked(names, |name| library::name_code(name)),
        asked(names, |name| oracle::name_code(black_box(name))),
    );
    let code = match names.iter().all(|name| *name == names[0]) {
        true => library::name_code(&names[0]).to_string(),
        false => String::new(),
    };
    let octets = names.iter().map(Vec::len).sum::<usize>() / names.len();
    println!("| {shown} | {code} | {octets} | {each:.1} | {to_table:.2} | {to_independent:.1} |");
}
