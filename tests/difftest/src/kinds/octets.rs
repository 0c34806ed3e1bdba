//! Every octet in every place: of headers in which each part of the grammar stands, of each part of a
//! table, and of relations and queries.

use super::read_and_ask;
use crate::ask::ask_in_each;
use crate::compare::{Asked, Compared};
use crate::generate::edition::EDITIONS;
use crate::generate::octets::REL;
use crate::run::Run;
use crate::tables::Tables;
use oracle::PARAM_SLOTS;

const HEADERS: [&[u8]; 4] = [
    br#" <a%4f> ; x = "\"y" ; z=t ,, <b>;rel=c "#,
    br#"<>;title*="\a";rel="b \c",<d>;anchor=e"#,
    b"<>;x=/:;y= =b<c> ;rel=d@,<>",
    b"<a+1://b:c@[::1.2.3.4]:5/d:e?f#g>,<h>",
];

pub fn compare(run: &mut Run) -> Compared<()> {
    run.begin("octets");
    for octet in 0..=255 {
        in_headers(run, octet)?;
        in_tables(run, octet)?;
        in_relations(run, octet)?;
    }
    Ok(())
}

fn in_headers(run: &mut Run, octet: u8) -> Compared<()> {
    for header in HEADERS {
        for place in 0..=header.len() {
            let (before, behind) = header.split_at(place);
            let behind = behind.get(1..).unwrap_or_default();
            read_and_ask(run, &[before, &[octet], behind].concat())?;
        }
    }
    Ok(())
}

/// As a target, as a name, as a token, inside quotes, bare in the older edition's form, also beside
/// an octet of that form, behind a backslash, as either hex digit.
fn in_tables(run: &mut Run, octet: u8) -> Compared<()> {
    let alone = [octet, b'r', b'e', b'l'];
    for (link, param) in [
        ([0, 1], [1, 4, 3, 4, 1, REL]),
        ([1, 4], [0, 1, 1, 1, 0, 0]),
        ([1, 4], [1, 4, 0, 1, 1, REL]),
        ([1, 4], [1, 4, 0, 1, 2, REL]),
        ([1, 4], [1, 4, 0, 1, 3, REL]),
        ([1, 4], [1, 4, 0, 2, 3, REL]),
    ] {
        ask_table(run, &alone, link, param)?;
    }
    for text in [[octet, b'/'], [b'/', octet]] {
        let text = [&text[..], b"rel"].concat();
        ask_table(run, &text, [2, 5], [2, 5, 0, 2, 1, REL])?;
        ask_table(run, &text, [2, 5], [2, 5, 0, 2, 3, REL])?;
    }
    let behind = [b'\\', octet, b'r', b'e', b'l'];
    ask_table(run, &behind, [2, 5], [2, 5, 0, 2, 2, REL])?;
    for triple in [[b'%', octet, b'0'], [b'%', b'0', octet]] {
        let text = [&triple[..], b"rel"].concat();
        ask_table(run, &text, [0, 3], [3, 6, 5, 6, 1, REL])?;
    }
    Ok(())
}

fn ask_table(
    run: &mut Run,
    text: &[u8],
    link: [usize; 2],
    param: [usize; PARAM_SLOTS],
) -> Compared<()> {
    run.case();
    let [start, end] = link;
    let tables = Tables::new(0, text.to_vec(), &[[start, end, 0, 1]], &[param]);
    ask_in_each(run, &tables)
}

/// Every query of one octet to a relation that is this octet.
fn in_relations(run: &mut Run, octet: u8) -> Compared<()> {
    let text = [b'r', b'e', b'l', b'\\', octet];
    for edition in EDITIONS {
        let link = [0, 3, 0, 1];
        let tables = Tables::new(edition, text.to_vec(), &[link], &[[0, 3, 3, 5, 2, REL]]);
        let asked = Asked::new(run, &tables);
        for query in 0..=255 {
            run.case();
            asked.search(run, &[query])?;
        }
        asked.unchanged()?;
    }
    Ok(())
}
