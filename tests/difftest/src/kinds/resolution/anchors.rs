//! Links whose `anchor` means each row's reference, with backslashes at each place, and others without
//! a value, without any, and with what is no reference.

use super::rows;
use crate::compare::{Asked, Compared};
use crate::generate::edition::{unknown, EDITIONS, OLDER};
use crate::kinds::{read_amply, read_and_ask};
use crate::resolved::compare_link;
use crate::run::Run;
use crate::tables::Tables;

const BASES: [&[u8]; 8] = [
    b"http://a/b/c/d;p?q",
    b"a:b/c#f",
    b"a://h",
    b"a:/../x/./y?#/?",
    b"a:#",
    b"",
    b"//h/b",
    b"a:b#c#d",
];

/// As they stand behind a link.
const ANCHORS: [&[u8]; 21] = [
    b"",
    b";anchor",
    b";ANCHOR;anchor=c",
    b";anchor=\"\"",
    b";anchor=c;anchor=d",
    b";anchors=c",
    b";x;Anchor=c.",
    br#";anchor="\/\/host""#,
    br#";anchor="\.\.\/""#,
    br#";anchor="/\.\./\.""#,
    br#";anchor=".\/\/c""#,
    br#";anchor="\c\:d""#,
    br#";anchor="\%\4\1""#,
    br#";anchor="\?\?\#\?""#,
    br#";anchor="\\""#,
    br#";anchor="\\c""#,
    br#";anchor="\"""#,
    b";anchor=\"1:c\"",
    b";anchor=\"c d\"",
    b";anchor=\"\xC3\xA4\"",
    b";anchor=%",
];

/// Read by the older edition alone.
const BARE: [&[u8]; 5] = [
    b";anchor=/c/../d",
    b";anchor=//[::1]?",
    b";anchor=c:d",
    b";anchor=?",
    b";anchor={}",
];

pub fn compare(run: &mut Run) -> Compared<()> {
    for [_, reference, _] in rows() {
        for place in 0..=reference.len() {
            let one = escaped(reference, |at| at == place);
            let up_to = escaped(reference, |at| at < place);
            for value in [one, up_to] {
                each_base(run, &[b";anchor=\"", &value[..], b"\""].concat())?;
            }
        }
    }
    for anchor in ANCHORS.into_iter().chain(BARE) {
        each_base(run, anchor)?;
        read_and_ask(run, &[b"<a>", anchor].concat())?;
    }
    Ok(())
}

/// With a backslash before each octet that is chosen.
fn escaped(reference: &[u8], chosen: impl Fn(usize) -> bool) -> Vec<u8> {
    let octets = reference.iter().enumerate();
    octets
        .flat_map(|(at, &octet)| chosen(at).then_some(b'\\').into_iter().chain([octet]))
        .collect()
}

/// Asks for the contexts of links with that anchor, with another and with none, on each base.
fn each_base(run: &mut Run, anchor: &[u8]) -> Compared<()> {
    let header = [b"<a>;anchor=e,<b>;rel=f", anchor, b", <c>"].concat();
    for edition in EDITIONS {
        let (answer, tables) = read_amply(run, edition, &header)?;
        if answer.number != 0 && edition != OLDER {
            continue;
        }
        for base in BASES {
            run.case();
            ask_links(run, &tables, base)?;
        }
        let unknown = unknown(&mut run.numbers);
        ask_links(run, &tables.in_edition(unknown), BASES[0])?;
    }
    Ok(())
}

/// Every link has its own.
fn ask_links(run: &mut Run, tables: &Tables, base: &[u8]) -> Compared<()> {
    let asked = Asked::new(run, tables);
    let links = tables.in_edition(OLDER).meanings().unwrap_or_default();
    for (number, link) in links.iter().enumerate() {
        compare_link(run, &asked, base, number, link)?;
    }
    asked.resolved_context(run, base, links.len(), 0)?;
    asked.unchanged()
}
