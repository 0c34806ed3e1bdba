//! The rules' grammar, written down as a value.
//!
//! Two things hold of every rule here, and the other modules lean on them:
//! each rule derives at least one text, and what stands under [`Rule::Any`]
//! never derives the empty text.

use crate::edition::Edition;
use crate::octet;
use Rule::{Any, Either, Labelled, One, Seq};

/// How a text may be derived.
pub enum Rule {
    /// One octet of a class.
    One(fn(u8) -> bool),
    /// All the parts, one after another.
    Seq(&'static [&'static Rule]),
    /// One of the parts.
    Either(&'static [&'static Rule]),
    /// The part, zero or more times.
    Any(&'static Rule),
    /// The rule itself, remembered under a label in the derivation.
    Labelled(Label, &'static Rule),
}

/// The parts of a derivation that the records are made of.
#[derive(Clone, Copy, Debug, PartialEq, Eq)]
pub enum Label {
    Link,
    Target,
    Parameter,
    Name,
    Token,
    Quoted,
    Further,
}

static NOTHING: Rule = Seq(&[]);
static COMMA: Rule = One(|octet| octet == b',');
static SEMICOLON: Rule = One(|octet| octet == b';');
static EQUALS: Rule = One(|octet| octet == b'=');
static QUOTE: Rule = One(|octet| octet == b'"');
static BACKSLASH: Rule = One(|octet| octet == b'\\');
static PERCENT: Rule = One(|octet| octet == b'%');
static LESS: Rule = One(|octet| octet == b'<');
static GREATER: Rule = One(|octet| octet == b'>');
static HEX: Rule = One(octet::hex);
static TOKEN_OCTET: Rule = One(octet::token);
static FURTHER_OCTET: Rule = One(octet::further);

/// OWS and BWS.
static BLANKS: Rule = Any(&One(octet::blank));

/// The field, as the edition has it.
pub fn field(edition: Edition) -> &'static Rule {
    match edition {
        Edition::Rfc8288 => &rfc8288::FIELD,
        Edition::Rfc5988 => &rfc5988::FIELD,
    }
}

/// What stands before a target, with its `<`.
pub fn before_target(edition: Edition) -> &'static Rule {
    match edition {
        Edition::Rfc8288 => &rfc8288::BEFORE_TARGET,
        Edition::Rfc5988 => &rfc5988::BEFORE_TARGET,
    }
}

/// The rules that have a value in them, over what may stand there in an edition.
macro_rules! edition {
    ($edition:ident: $($value:expr),+) => {
        mod $edition {
            use super::*;

            /// Field: blanks at both ends don't count; between them a comma list.
            pub static FIELD: Rule = Seq(&[&BLANKS, &LIST, &BLANKS]);

            /// RFC 9110 section 5.6.1: `[ element ] *( OWS "," OWS [ element ] )`.
            static LIST: Rule = Seq(&[&PLACE, &Any(&Seq(&[&BLANKS, &COMMA, &BLANKS, &PLACE]))]);

            /// The field up to a place that is a link, and into it.
            pub static BEFORE_TARGET: Rule = Seq(&[
                &BLANKS,
                &Any(&Seq(&[&PLACE, &BLANKS, &COMMA, &BLANKS])),
                &LESS,
            ]);

            /// A place of the list: empty or one link.
            static PLACE: Rule = Either(&[&LINK, &NOTHING]);

            pub static LINK: Rule = Labelled(
                Label::Link,
                &Seq(&[
                    &LESS,
                    &Labelled(Label::Target, &TARGET),
                    &GREATER,
                    &Any(&Seq(&[&BLANKS, &SEMICOLON, &BLANKS, &PARAMETER])),
                ]),
            );

            pub static PARAMETER: Rule = Labelled(
                Label::Parameter,
                &Seq(&[
                    &Labelled(Label::Name, &TOKEN),
                    &BLANKS,
                    &Either(&[&Seq(&[&EQUALS, &BLANKS, &VALUE]), &NOTHING]),
                ]),
            );

            static VALUE: Rule = Either(&[$($value),+]);
        }
    };
}

edition!(rfc8288: &TOKEN_VALUE, &QUOTED_VALUE);
edition!(rfc5988: &TOKEN_VALUE, &FURTHER_VALUE, &QUOTED_VALUE);

static TOKEN_VALUE: Rule = Labelled(Label::Token, &TOKEN);
static FURTHER_VALUE: Rule = Labelled(Label::Further, &FURTHER);
static QUOTED_VALUE: Rule = Seq(&[&QUOTE, &Labelled(Label::Quoted, &QUOTED), &QUOTE]);

/// Token, and name.
pub static TOKEN: Rule = Seq(&[&TOKEN_OCTET, &Any(&TOKEN_OCTET)]);

/// RFC 5988's `ptoken`, where it is no token: one of its octets at least is none of a token's.
pub static FURTHER: Rule = Seq(&[&PTOKEN_OCTETS, &FURTHER_OCTET, &PTOKEN_OCTETS]);

static PTOKEN_OCTETS: Rule = Any(&Either(&[&TOKEN_OCTET, &FURTHER_OCTET]));

/// What stands between the quotes of a quoted string.
pub static QUOTED: Rule = Any(&Either(&[
    &One(octet::plain),
    &Seq(&[&BACKSLASH, &One(octet::escaped)]),
]));

/// Target, without its angle brackets, by its octets alone.
pub static TARGET: Rule = Any(&Either(&[
    &One(octet::target),
    &Seq(&[&PERCENT, &HEX, &HEX]),
]));

#[cfg(test)]
mod tests {
    use super::*;
    use crate::references::URI_REFERENCE;

    /// The length of a shortest text that the rule derives, if it derives any;
    /// on the way, every part under `Any` is checked to need an octet.
    fn shortest(rule: &Rule) -> Option<usize> {
        match rule {
            One(class) => (0..=255).any(class).then_some(1),
            Seq(parts) => parts.iter().map(|part| shortest(part)).sum(),
            Either(parts) => {
                let each: Option<Vec<usize>> = parts.iter().map(|part| shortest(part)).collect();
                each?.into_iter().min()
            }
            Any(part) => shortest(part).filter(|&length| length > 0).map(|_| 0),
            Labelled(_, part) => shortest(part),
        }
    }

    #[test]
    fn every_rule_derives_a_text_and_no_repeated_part_is_empty() {
        for [field, link, parameter] in [
            [&rfc8288::FIELD, &rfc8288::LINK, &rfc8288::PARAMETER],
            [&rfc5988::FIELD, &rfc5988::LINK, &rfc5988::PARAMETER],
        ] {
            assert_eq!(shortest(field), Some(0));
            assert_eq!(shortest(link), Some(2));
            assert_eq!(shortest(parameter), Some(1));
        }
        for before_target in [&rfc8288::BEFORE_TARGET, &rfc5988::BEFORE_TARGET] {
            assert_eq!(shortest(before_target), Some(1));
        }
        assert_eq!(shortest(&TOKEN), Some(1));
        assert_eq!(shortest(&FURTHER), Some(1));
        assert_eq!(shortest(&QUOTED), Some(0));
        assert_eq!(shortest(&TARGET), Some(0));
        assert_eq!(shortest(&URI_REFERENCE), Some(0));
    }
}
