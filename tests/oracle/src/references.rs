//! RFC 3986's references: the rules of its Appendix A as values, under their
//! names there. What they derive is asked by sets of places, as the header's
//! rules are.

use crate::grammar::Rule::{self, Any, Either, One, Seq};
use crate::octet::{hex, sub_delim, unreserved};

macro_rules! octets {
    ($($name:ident: $class:expr;)+) => { $(static $name: Rule = One($class);)+ };
}

octets! {
    ALPHA: |octet| octet.is_ascii_alphabetic();
    DIGIT: |octet| octet.is_ascii_digit();
    HEXDIG: hex;
    UNRESERVED: unreserved;
    SUB_DELIM: sub_delim;
    COLON: |octet| octet == b':';
    SLASH: |octet| octet == b'/';
    QUESTION: |octet| octet == b'?';
    HASH: |octet| octet == b'#';
    OPEN: |octet| octet == b'[';
    CLOSE: |octet| octet == b']';
    AT: |octet| octet == b'@';
    PERCENT: |octet| octet == b'%';
    DOT: |octet| octet == b'.';
    PLUS_HYPHEN_DOT: |octet| matches!(octet, b'+' | b'-' | b'.');
    V: |octet| octet.eq_ignore_ascii_case(&b'v');
    FROM_1_TO_9: |octet| matches!(octet, b'1'..=b'9');
    FROM_0_TO_4: |octet| matches!(octet, b'0'..=b'4');
    FROM_0_TO_5: |octet| matches!(octet, b'0'..=b'5');
    DIGIT_1: |octet| octet == b'1';
    DIGIT_2: |octet| octet == b'2';
    DIGIT_5: |octet| octet == b'5';
}

static NOTHING: Rule = Seq(&[]);

/// One time or none.
macro_rules! optional {
    ($($part:expr),+) => { Either(&[&Seq(&[$($part),+]), &NOTHING]) };
}

/// One time or more.
macro_rules! some {
    ($part:expr) => {
        Seq(&[$part, &Any($part)])
    };
}

/// So many times.
macro_rules! times {
    ($count:literal, $part:expr) => {
        Seq(&[$part; $count])
    };
}

/// At most so many times.
macro_rules! up_to {
    ($count:literal, $part:expr) => {
        Seq(&[&optional!($part); $count])
    };
}

pub static URI_REFERENCE: Rule = Either(&[&URI, &RELATIVE_REF]);

pub static URI: Rule = Seq(&[&SCHEME, &COLON, &HIER_PART, &QUERY_AND_FRAGMENT]);

pub static ABSOLUTE_URI: Rule = Seq(&[
    &SCHEME,
    &COLON,
    &HIER_PART,
    &optional!(&QUESTION, &QUERY_OR_FRAGMENT),
]);

static RELATIVE_REF: Rule = Seq(&[&RELATIVE_PART, &QUERY_AND_FRAGMENT]);

static QUERY_AND_FRAGMENT: Rule = Seq(&[
    &optional!(&QUESTION, &QUERY_OR_FRAGMENT),
    &optional!(&HASH, &QUERY_OR_FRAGMENT),
]);

static HIER_PART: Rule = Either(&[
    &Seq(&[&SLASH, &SLASH, &AUTHORITY, &PATH_ABEMPTY]),
    &PATH_ABSOLUTE,
    &PATH_ROOTLESS,
    &NOTHING,
]);

static RELATIVE_PART: Rule = Either(&[
    &Seq(&[&SLASH, &SLASH, &AUTHORITY, &PATH_ABEMPTY]),
    &PATH_ABSOLUTE,
    &PATH_NOSCHEME,
    &NOTHING,
]);

static SCHEME: Rule = Seq(&[&ALPHA, &Any(&Either(&[&ALPHA, &DIGIT, &PLUS_HYPHEN_DOT]))]);

static AUTHORITY: Rule = Seq(&[&optional!(&USERINFO, &AT), &HOST, &optional!(&COLON, &PORT)]);

static USERINFO: Rule = Any(&Either(&[&NAME_OCTET, &COLON]));

static HOST: Rule = Either(&[&IP_LITERAL, &IPV4ADDRESS, &REG_NAME]);

static PORT: Rule = Any(&DIGIT);

static REG_NAME: Rule = Any(&NAME_OCTET);

/// What names are made of, and all else but for a few marks.
static NAME_OCTET: Rule = Either(&[&UNRESERVED, &PCT_ENCODED, &SUB_DELIM]);

static PCT_ENCODED: Rule = Seq(&[&PERCENT, &HEXDIG, &HEXDIG]);

static IP_LITERAL: Rule = Seq(&[&OPEN, &Either(&[&IPV6ADDRESS, &IPVFUTURE]), &CLOSE]);

static IPVFUTURE: Rule = Seq(&[
    &V,
    &some!(&HEXDIG),
    &DOT,
    &some!(&Either(&[&UNRESERVED, &SUB_DELIM, &COLON])),
]);

static IPV6ADDRESS: Rule = Either(&[
    &Seq(&[&times!(6, &GROUP), &LS32]),
    &Seq(&[&GAP, &times!(5, &GROUP), &LS32]),
    &Seq(&[&optional!(&H16), &GAP, &times!(4, &GROUP), &LS32]),
    &Seq(&[
        &optional!(&up_to!(1, &GROUP), &H16),
        &GAP,
        &times!(3, &GROUP),
        &LS32,
    ]),
    &Seq(&[
        &optional!(&up_to!(2, &GROUP), &H16),
        &GAP,
        &times!(2, &GROUP),
        &LS32,
    ]),
    &Seq(&[&optional!(&up_to!(3, &GROUP), &H16), &GAP, &GROUP, &LS32]),
    &Seq(&[&optional!(&up_to!(4, &GROUP), &H16), &GAP, &LS32]),
    &Seq(&[&optional!(&up_to!(5, &GROUP), &H16), &GAP, &H16]),
    &Seq(&[&optional!(&up_to!(6, &GROUP), &H16), &GAP]),
]);

static GAP: Rule = Seq(&[&COLON, &COLON]);

static GROUP: Rule = Seq(&[&H16, &COLON]);

static H16: Rule = Seq(&[&HEXDIG, &up_to!(3, &HEXDIG)]);

static LS32: Rule = Either(&[&Seq(&[&H16, &COLON, &H16]), &IPV4ADDRESS]);

static IPV4ADDRESS: Rule = Seq(&[&times!(3, &Seq(&[&DEC_OCTET, &DOT])), &DEC_OCTET]);

static DEC_OCTET: Rule = Either(&[
    &DIGIT,
    &Seq(&[&FROM_1_TO_9, &DIGIT]),
    &Seq(&[&DIGIT_1, &DIGIT, &DIGIT]),
    &Seq(&[&DIGIT_2, &FROM_0_TO_4, &DIGIT]),
    &Seq(&[&DIGIT_2, &DIGIT_5, &FROM_0_TO_5]),
]);

static PATH_ABEMPTY: Rule = Any(&Seq(&[&SLASH, &SEGMENT]));

static PATH_ABSOLUTE: Rule = Seq(&[&SLASH, &optional!(&SEGMENT_NZ, &PATH_ABEMPTY)]);

static PATH_NOSCHEME: Rule = Seq(&[&SEGMENT_NZ_NC, &PATH_ABEMPTY]);

static PATH_ROOTLESS: Rule = Seq(&[&SEGMENT_NZ, &PATH_ABEMPTY]);

static SEGMENT: Rule = Any(&PCHAR);

static SEGMENT_NZ: Rule = some!(&PCHAR);

static SEGMENT_NZ_NC: Rule = some!(&Either(&[&NAME_OCTET, &AT]));

static PCHAR: Rule = Either(&[&NAME_OCTET, &COLON, &AT]);

static QUERY_OR_FRAGMENT: Rule = Any(&Either(&[&PCHAR, &SLASH, &QUESTION]));
