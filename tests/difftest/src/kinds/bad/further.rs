//! The form of bare values with an octet outside a token, over spans that it isn't for; and over those
//! that it is for, which are bad in RFC 8288's edition alone.

use super::edit::{append, name_end, set_value, Span};
use super::parts::{other, round};
use super::Way;
use crate::generate::octets::{is_further, is_token, FURTHER};
use crate::numbers::Numbers;
use crate::tables::Tables;

const MAX: usize = usize::MAX;

/// Bad in each edition.
pub const WAYS: &[(&str, Way)] = &[
    ("form 3 of a token", |numbers, tables| {
        let octet = any_of(numbers, is_token);
        let octets = round(numbers, &[octet]);
        value(numbers, tables, &octets);
    }),
    ("form 3 of a token of every mark", |numbers, tables| {
        value(numbers, tables, b"!#$%&'*+-.^_`|~09azAZ")
    }),
    ("form 3 of no octets", |numbers, tables| {
        value(numbers, tables, b"")
    }),
    (
        "form 3 of no octets at the name's end",
        |numbers, tables| {
            let param = numbers.below(6);
            let end = name_end(tables, param);
            set_value(tables, param, [end; 2], 3);
        },
    ),
    ("form 3 with a wrong octet", |numbers, tables| {
        let wrong = other(numbers, |octet| is_token(octet) || is_further(octet));
        spoilt(numbers, tables, wrong);
    }),
    ("form 3 with a blank", |numbers, tables| {
        spoilt_by(numbers, tables, b" \t")
    }),
    ("form 3 with a comma", |numbers, tables| {
        spoilt_by(numbers, tables, b",")
    }),
    ("form 3 with a semicolon", |numbers, tables| {
        spoilt_by(numbers, tables, b";")
    }),
    ("form 3 with a quote", |numbers, tables| {
        spoilt_by(numbers, tables, b"\"")
    }),
    ("form 3 with a backslash", |numbers, tables| {
        spoilt_by(numbers, tables, b"\\")
    }),
    ("form 3 with a control octet", |numbers, tables| {
        spoilt_by(numbers, tables, b"\0\n\r\x1F\x7F")
    }),
    ("form 3 with an octet past ASCII", |numbers, tables| {
        spoilt_by(numbers, tables, b"\x80\xAF\xBD\xFF")
    }),
    ("form 3 of what stands inside quotes", |numbers, tables| {
        value(numbers, tables, b"a/\\\"b c")
    }),
    ("form 3 that ends past the text", |numbers, tables| {
        let [start, end] = append(tables, b"/");
        place(numbers, tables, [start, end + 1]);
    }),
    (
        "form 3 that ends at the largest place",
        |numbers, tables| {
            let [start, _] = append(tables, b"/");
            place(numbers, tables, [start, MAX]);
        },
    ),
    ("form 3 of the largest places", |numbers, tables| {
        place(numbers, tables, [MAX; 2])
    }),
    ("form 3 that starts past its end", |numbers, tables| {
        let [start, end] = append(tables, b"//");
        place(numbers, tables, [end, start]);
    }),
    ("form 1 of what is no token", |numbers, tables| {
        let octets = further(numbers);
        let span = append(tables, &octets);
        set_value(tables, numbers.below(6), span, 1);
    }),
];

/// Bad in RFC 8288's edition, good in the older one.
pub const OLDER_WAYS: &[(&str, Way)] = &[
    (
        "form 3 with one octet outside a token",
        |numbers, tables| {
            let octets = further(numbers);
            value(numbers, tables, &octets);
        },
    ),
    ("form 3 of a single octet", |numbers, tables| {
        let octet = numbers.of(FURTHER);
        value(numbers, tables, &[octet]);
    }),
    ("form 3 of every octet it allows", |numbers, tables| {
        value(numbers, tables, b"!#$%&'*+-.^_`|~09azAZ()/:<=>?@[]{}")
    }),
    ("form 3 at the end of 8,192 octets", |numbers, tables| {
        tables.text.resize(oracle::number::LIMIT - 2, b'a');
        value(numbers, tables, b"a/");
    }),
];

/// An octet of the set.
fn any_of(numbers: &mut Numbers, set: fn(u8) -> bool) -> u8 {
    loop {
        let octet = numbers.octet();
        if set(octet) {
            return octet;
        }
    }
}

/// Letters round an octet that no token has, or none.
fn further(numbers: &mut Numbers) -> Vec<u8> {
    let octet = numbers.of(FURTHER);
    round(numbers, &[octet])
}

fn spoilt_by(numbers: &mut Numbers, tables: &mut Tables, wrong: &[u8]) {
    let wrong = numbers.of(wrong);
    spoilt(numbers, tables, wrong);
}

/// A value of the form with the wrong octet before its others, among them or behind them.
fn spoilt(numbers: &mut Numbers, tables: &mut Tables, wrong: u8) {
    let mut octets = further(numbers);
    let at = numbers.below(octets.len() + 1);
    octets.insert(at, wrong);
    value(numbers, tables, &octets);
}

fn value(numbers: &mut Numbers, tables: &mut Tables, octets: &[u8]) {
    let span = append(tables, octets);
    place(numbers, tables, span);
}

fn place(numbers: &mut Numbers, tables: &mut Tables, span: Span) {
    set_value(tables, numbers.below(6), span, 3);
}
