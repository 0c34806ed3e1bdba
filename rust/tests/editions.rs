//! What each edition reads, asks and writes; where they differ, and that nothing else does.

use capstanbar::ffi::{self, RawTable};
use capstanbar::{read_in, Counts, Edition, Form, Refusal, Table, LIMIT, LINK_SLOTS, PARAM_SLOTS};
use Edition::{Rfc5988, Rfc8288};

/// By hand: a header, the place at which the newer edition finds it malformed, and the older one's
/// links, its parameter records and what it writes, if each link has a relation.
type Row = (
    &'static str,
    usize,
    usize,
    &'static [[usize; PARAM_SLOTS]],
    Option<&'static str>,
);

const ROWS: &[Row] = &[
    (
        "<a>;rel=a/b",
        9,
        1,
        &[[4, 7, 8, 11, 3, 1]],
        Some("<a>; rel=\"a/b\""),
    ),
    ("<a>;x==", 6, 1, &[[4, 5, 6, 7, 3, 0]], None),
    ("<a>;x=<b>", 6, 1, &[[4, 5, 6, 9, 3, 0]], None),
    ("<a>;x = /,<b>", 8, 2, &[[4, 5, 8, 9, 3, 0]], None),
    (
        "<a>;x==y=;rel=z",
        6,
        1,
        &[[4, 5, 6, 9, 3, 0], [10, 13, 14, 15, 1, 1]],
        Some("<a>; x=\"=y=\"; rel=z"),
    ),
    (
        "<a>;rel=http://example.net/foo",
        12,
        1,
        &[[4, 7, 8, 30, 3, 1]],
        Some("<a>; rel=\"http://example.net/foo\""),
    ),
    (
        "<a>;rel=b;rel=c/d",
        15,
        1,
        &[[4, 7, 8, 9, 1, 1]],
        Some("<a>; rel=b"),
    ),
];

/// Headers, also wrong ones, of which both editions say the same.
const ALIKE: &[&str] = &[
    "",
    ",, ,",
    "</terms>; rel=\"copyright\"; anchor=\"#foo\"",
    "<>;x",
    "<a>;REL=Next;rel=prev",
    "<a>;rel=\"ne\\xt\"",
    "<a>;t=\"b,c\"",
    "<a,b>",
    ",<a>",
    "<a>;rel=\"(/:<=>?@[]{})\"",
    "<a>;rel=next;",
    "<a> <b>",
    "<a%4g>",
    "<a>;x=,<b>",
    "<a>;t=\"b",
    "<a>;x=",
    "<a>;x=a\"",
    "<a>;x=\"a\"/",
    "<a>;x/y=z",
    "<a>;x=a\\b",
    "<a>/",
];

/// The octets that stand bare in both editions, and in the older one alone.
const TOKEN: &[u8] =
    b"abcdefghijklmnopqrstuvwxyzABCDEFGHIJKLMNOPQRSTUVWXYZ0123456789!#$%&'*+-.^_`|~";
const WIDER: &[u8] = b"()/:<=>?@[]{}";

type Slots = ([usize; 3 * LINK_SLOTS], [usize; 4 * PARAM_SLOTS]);

/// What the slots hold before a call.
const FILLED: Slots = ([7; 3 * LINK_SLOTS], [7; 4 * PARAM_SLOTS]);

fn reading(edition: Edition, header: &[u8]) -> (Result<Counts, Refusal>, Slots) {
    let mut slots = FILLED;
    let counts = read_in(edition, header, &mut slots.0, &mut slots.1);
    (counts, slots)
}

/// What an edition writes of a header that it reads.
fn written(edition: Edition, header: &[u8]) -> Result<Vec<u8>, Refusal> {
    let mut slots = FILLED;
    let table = Table::read_in(edition, header, &mut slots.0, &mut slots.1)?;
    assert_eq!(table.edition(), edition);
    table.write(&mut [0; LIMIT]).map(<[u8]>::to_vec)
}

#[test]
fn rows_agree() {
    for &(header, place, links, records, form) in ROWS {
        let header = header.as_bytes();
        let refused = Err(Refusal::Malformed { place });
        assert_eq!(reading(Rfc8288, header), (refused, FILLED));

        let (counts, slots) = reading(Rfc5988, header);
        let params = records.len();
        assert_eq!(counts, Ok(Counts { links, params }));
        let mut due = FILLED.1;
        due[..params * PARAM_SLOTS].copy_from_slice(records.as_flattened());
        assert_eq!(slots.1, due, "{}", header.escape_ascii());

        let form = form.ok_or(Refusal::NoRelation);
        assert_eq!(
            written(Rfc5988, header),
            form.map(|form| form.as_bytes().to_vec())
        );
    }
}

#[test]
fn what_is_written_reads_in_both() {
    for form in ROWS.iter().filter_map(|row| row.4) {
        let form = form.as_bytes();
        assert!(reading(Rfc8288, form).0.is_ok());
        assert_eq!(reading(Rfc8288, form), reading(Rfc5988, form));
        for &edition in Edition::ALL {
            assert_eq!(written(edition, form), Ok(form.to_vec()));
        }
    }
}

#[test]
fn alike_in_both() {
    for header in ALIKE {
        let header = header.as_bytes();
        assert_eq!(reading(Rfc8288, header), reading(Rfc5988, header));
        assert_eq!(written(Rfc8288, header), written(Rfc5988, header));
    }
}

/// One link and any six of these octets: what the newer edition accepts, the older one reads to the
/// same records; and where both refuse, the older one comes at least as far.
#[test]
fn the_older_edition_reads_what_the_newer_does() {
    const OCTETS: &[u8; 9] = b"<a>;=/, \"";
    for number in 0..OCTETS.len().pow(6) {
        let mut header = *b"<a>......";
        let mut rest = number;
        for octet in &mut header[3..] {
            *octet = OCTETS[rest % OCTETS.len()];
            rest /= OCTETS.len();
        }
        let (newer, older) = (reading(Rfc8288, &header), reading(Rfc5988, &header));
        let agree = match (newer.0, older.0) {
            (Ok(_), _) => newer == older,
            (Err(Refusal::Malformed { place }), Err(Refusal::Malformed { place: further })) => {
                place <= further
            }
            (Err(_), older) => older.is_ok(),
        };
        assert!(agree, "{}", header.escape_ascii());
    }
}

#[test]
fn each_octet_in_a_bare_value() {
    for octet in 0..=u8::MAX {
        for (before, behind) in [("", ""), ("", "a"), ("a", ""), ("a", "b"), ("%~", "%~")] {
            let value = [before.as_bytes(), &[octet], behind.as_bytes()].concat();
            let header = [b"<a>;x=", &value[..]].concat();
            let (newer, older) = (reading(Rfc8288, &header), reading(Rfc5988, &header));
            let shown = header.escape_ascii();
            if !WIDER.contains(&octet) {
                assert_eq!(newer, older, "{shown}");
            } else {
                let place = 6 + before.len();
                assert_eq!(newer.0, Err(Refusal::Malformed { place }), "{shown}");
            }
            if TOKEN.contains(&octet) || WIDER.contains(&octet) {
                let form = if TOKEN.contains(&octet) { 1 } else { 3 };
                assert!(older.0.is_ok(), "{shown}");
                let record = [4, 5, 6, header.len(), form, 0];
                assert!(older.1 .1.starts_with(&record), "{shown}");
            }
        }
    }
}

#[test]
fn asked_in_the_older_edition() {
    let (mut links, mut params) = ([0; 2 * LINK_SLOTS], [0; 4 * PARAM_SLOTS]);
    let header = b"<a>;rel=x/y, <b>;rel=HTTP://Example.net/Foo;anchor=/c?d;t=\"e\"";
    let table = Table::read_in(Rfc5988, header, &mut links, &mut params).unwrap();
    let link = table.search(b"http://example.NET/foo").unwrap();
    assert_eq!((link.number(), link.context(b"base")), (1, &b"/c?d"[..]));
    assert_eq!(table.search(b"x").unwrap_err(), Refusal::NotFound);

    let forms = link.params().map(|param| param.form());
    assert!(forms.eq([Form::Wider, Form::Wider, Form::Quoted]));
    let anchor = link.find(b"anchor").unwrap();
    assert_eq!(anchor.raw_value(), b"/c?d");
    assert_eq!(anchor.value(&mut [0; 4]), Ok(&b"/c?d"[..]));
    assert_eq!(anchor.value(&mut [0; 3]), Err(Refusal::NoOutputRoom));
}

/// Values with the forms in which they are good: in both editions, and in the older one alone.
const VALUES: &[(&[u8], &[usize], &[usize])] = &[
    (b"", &[0, 2], &[]),
    (b"a", &[1, 2], &[]),
    (b"!#$%&'*+-.^_`|~", &[1, 2], &[]),
    (b"/", &[2], &[3]),
    (b"a/b", &[2], &[3]),
    (WIDER, &[2], &[3]),
    (b"a b", &[2], &[]),
    (b"a/ ", &[2], &[]),
    (b",/", &[2], &[]),
    (b"/;", &[2], &[]),
    (b"\\/", &[2], &[]),
    (b"/\x80", &[2], &[]),
    (b"/\\", &[], &[]),
    (b"/\"", &[], &[]),
    (b"/\x7f", &[], &[]),
];

#[test]
fn good_by_form() {
    let counts = Counts {
        links: 1,
        params: 1,
    };
    for &(value, both, older) in VALUES {
        let text = [b"rel", value].concat();
        for form in [0, 1, 2, 3, 4, 5, 255, 256, 259, usize::MAX] {
            let (links, params) = ([0, 3, 0, 1], [0, 3, 3, text.len(), form, 1]);
            for &edition in Edition::ALL {
                let good = both.contains(&form) || edition == Rfc5988 && older.contains(&form);
                let table = Table::new_in(edition, &text, &links, &params, counts);
                let refusal = (!good).then_some(Refusal::BadTable);
                let shown = text.escape_ascii();
                assert_eq!(table.err(), refusal, "{edition:?} {form} {shown}");
            }
            let newer = Table::new(&text, &links, &params, counts);
            assert_eq!(newer.is_ok(), both.contains(&form));
        }
    }
}

/// Of each answer the number is 10 and all others are 0, whatever else is wrong, and what is lent
/// stays as it was.
#[test]
fn unknown_editions() {
    let long = [b','; LIMIT + 1];
    let (links, params) = ([1, 2, 0, 1], [4, 7, 8, 12, 1, 1]);
    let good = RawTable {
        text: b"<a>;rel=next",
        links: &links,
        params: &params,
        link_count: 1,
        param_count: 1,
    };
    let tables = [
        good,
        RawTable {
            param_count: usize::MAX,
            ..good
        },
        RawTable {
            text: &long,
            ..good
        },
    ];
    for edition in [2, 3, 256, 1 << 32, usize::MAX] {
        for header in [&b"<a>;x"[..], b"<a", &long] {
            for room in [0, PARAM_SLOTS] {
                let (mut links, mut params) = FILLED;
                let answer = ffi::read(edition, header, &mut links[..room], &mut params[..room]);
                assert_eq!((answer.number, answer.place), (10, 0));
                assert_eq!((answer.links, answer.params), (0, 0));
                assert_eq!((links, params), FILLED);
            }
        }
        for table in tables {
            for relation in [&b"next"[..], b""] {
                let answer = ffi::search(edition, table, relation);
                assert_eq!((answer.number, answer.link), (10, 0));
            }
            for (link, room) in [(0, 16), (0, 0), (1, 0)] {
                let answer = ffi::context(edition, table, b"base", link);
                assert_eq!((answer.number, answer.source), (10, 0));
                assert_eq!((answer.start, answer.end), (0, 0));

                let mut out = [7; 16];
                let answer = ffi::value(edition, table, link, 0, &mut out[..room]);
                assert_eq!((answer.number, answer.length), (10, 0));
                let answer = ffi::write(edition, table, &mut out[..room]);
                assert_eq!((answer.number, answer.length), (10, 0));
                assert_eq!(out, [7; 16]);
            }
        }
    }
}

#[test]
fn feedings_of_unknown_editions() {
    for edition in [2, 3, 256, 1 << 32, usize::MAX] {
        let state = ffi::start(edition);
        for part in [&b""[..], b"<a>", b"a", &[b','; LIMIT + 1]] {
            for room in [LIMIT, LIMIT - 1, 0] {
                let mut buffer = [7; LIMIT];
                let answer = ffi::feed(state, part, &mut buffer[..room]);
                assert_eq!((answer.number, answer.place), (10, 0));
                assert_eq!(answer.next, state);
                assert_eq!(buffer, [7; LIMIT]);

                let (mut links, mut params) = FILLED;
                let answer = ffi::finish(state, &buffer[..room], &mut links, &mut params);
                assert_eq!((answer.number, answer.place), (10, 0));
                assert_eq!((answer.links, answer.params), (0, 0));
                assert_eq!((links, params), FILLED);
            }
        }
    }
}
