//! The headers read by hand, through the safe functions.

use capstanbar::{read, Counts, Refusal, Table, LINK_SLOTS, PARAM_SLOTS};

fn table<'a>(header: &'a str, links: &'a mut [usize], params: &'a mut [usize]) -> Table<'a> {
    Table::read(header.as_bytes(), links, params).unwrap()
}

fn counts(header: &str) -> Result<(usize, usize), Refusal> {
    let (mut links, mut params) = ([0; 10 * LINK_SLOTS], [0; 10 * PARAM_SLOTS]);
    let Counts { links, params } = read(header.as_bytes(), &mut links, &mut params)?;
    Ok((links, params))
}

#[test]
fn counted() {
    assert_eq!(counts(""), Ok((0, 0)));
    assert_eq!(counts(",, ,"), Ok((0, 0)));
    assert_eq!(counts("<>;x"), Ok((1, 1)));
    assert_eq!(counts("<a>;t=\"b,c\""), Ok((1, 1)));
    assert_eq!(counts("<a,b>"), Ok((1, 0)));
    assert_eq!(counts(",<a>"), Ok((1, 0)));
}

#[test]
fn malformed_at() {
    for (header, place) in [
        ("<a>;rel=next;", 13),
        ("<a> <b>", 4),
        ("<a%4g>", 4),
        ("<a>;rel=a/b", 9),
        ("<a>;x=,<b>", 6),
        ("<a>;t=\"b", 8),
    ] {
        assert_eq!(counts(header), Err(Refusal::Malformed { place }));
    }
}

#[test]
fn records() {
    let header = "</terms>; rel=\"copyright\"; anchor=\"#foo\"";
    let (mut links, mut params) = ([0; LINK_SLOTS], [0; 2 * PARAM_SLOTS]);
    let table = table(header, &mut links, &mut params);
    assert_eq!(table.raw().links, [1, 7, 0, 2]);
    let records = [[10, 13, 15, 24, 2, 1], [27, 33, 35, 39, 2, 2]];
    assert_eq!(table.raw().params, records.concat());
    assert_eq!(table.context(b"base", 0), Ok(&b"#foo"[..]));
}

#[test]
fn written() {
    for (header, form) in [
        ("", ""),
        (
            "</terms>; rel=\"copyright\"; anchor=\"#foo\"",
            "</terms>; rel=copyright; anchor=#foo",
        ),
        ("<a>;REL=Next;rel=prev", "<a>; rel=Next"),
        ("<a>;rel=\"ne\\xt\"", "<a>; rel=next"),
    ] {
        let (mut links, mut params) = ([0; LINK_SLOTS], [0; 2 * PARAM_SLOTS]);
        let table = table(header, &mut links, &mut params);
        assert_eq!(table.write(&mut [0; 64]), Ok(form.as_bytes()));
        assert_eq!(table.write(&mut vec![0; form.len()]), Ok(form.as_bytes()));
    }
    let (mut links, mut params) = ([0; LINK_SLOTS], [0; PARAM_SLOTS]);
    let table = table("<>;x", &mut links, &mut params);
    assert_eq!(table.write(&mut [0; 64]), Err(Refusal::NoRelation));
}

#[test]
fn searched() {
    let (mut links, mut params) = ([0; LINK_SLOTS], [0; PARAM_SLOTS]);
    let table = table("<a>;rel=\"ne\\xt\"", &mut links, &mut params);
    assert_eq!(table.search(b"next").unwrap().target(), b"a");
    for relation in [&b""[..], b"ne\\xt", b"next ", b"prev"] {
        assert_eq!(table.search(relation).unwrap_err(), Refusal::NotFound);
    }
}
