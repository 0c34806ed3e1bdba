//! Targets are references by RFC 3986's grammar, or the header is malformed where the target starts:
//! read whole, fed in parts, and in tables. Nothing else is judged so.

mod good;

use capstanbar::ffi::RawTable;
use capstanbar::{
    read_in, Counts, Edition, Feeding, Refusal, Table, LIMIT, LINK_SLOTS, PARAM_SLOTS,
};

/// Where a header is malformed, and how many of its octets must be fed before a feed says so; one that
/// is cut short is refused by no feed.
type Fault = (usize, usize);
const UNTOLD: usize = usize::MAX;

/// By hand: a header, and its fault in each edition, if it has one.
const ROWS: &[(&str, [Option<Fault>; 2])] = &[
    ("<1:a>", [Some((1, 5)); 2]),
    ("<1:a", [Some((4, UNTOLD)); 2]),
    ("<1:a b>", [Some((4, 5)); 2]),
    ("<a%4>", [Some((4, 5)); 2]),
    ("<1:a%4>", [Some((6, 7)); 2]),
    ("<1:a><", [Some((1, 5)); 2]),
    ("<1:a>;;", [Some((1, 5)); 2]),
    ("<a>,<1:a>;", [Some((5, 9)); 2]),
    ("<a>,<1:a>,<a#b#c>", [Some((5, 9)); 2]),
    ("<a>;;<1:a>", [Some((4, 5)); 2]),
    ("<a> <1:a>", [Some((4, 5)); 2]),
    ("<a#b#c>", [Some((1, 7)); 2]),
    ("<[>;rel=next", [Some((1, 3)); 2]),
    ("<>", [None; 2]),
    ("<a>;x=\"<1:a>\"", [None; 2]),
    ("<a>;x=<1:a>", [Some((6, 7)), None]),
    ("<a>;anchor=\"1:a\"", [None; 2]),
    ("<a>;anchor=1:a", [Some((12, 13)), None]),
    ("<1:a>;anchor=1:a", [Some((1, 5)); 2]),
    ("<a>;x=/,<1:a>", [Some((6, 7)), Some((9, 13))]),
];

/// Some of each part of the grammar.
const REFERENCES: &[&str] = &[
    "",
    "a",
    ".",
    "1",
    "a/1:b",
    "./1:a",
    "1/a:b",
    "/1:a",
    "//",
    "///a",
    "a;b=c,d",
    "%41",
    "(a)'!$&*+",
    "a:",
    "a:b:c",
    "a:1:b",
    "A+-.1:b",
    "a:/",
    "a://",
    "mailto:a@b",
    "urn:x:y",
    "a:?:#:",
    "?",
    "#",
    "?/?:@",
    "#/?:@",
    "a?b#c",
    "?%7e#%7E",
    "//a",
    "//a:",
    "//a:80/b",
    "//u:p@h:1",
    "//u:@",
    "//@",
    "//1.2.3.4",
    "//256.1.1.1",
    "//%41:1",
    "//[::]",
    "//[::1]:8/",
    "//[1::]",
    "//[1::8]",
    "//[1:2:3:4:5:6:7:8]",
    "//[1:2:3:4:5:6:7::]",
    "//[1:2:3:4:5:6::8]",
    "//[1:2:3:4:5::7:8]",
    "//[::2:3:4:5:6:7:8]",
    "//[abcd:EF01::]",
    "//[1:2:3:4:5:6:1.2.3.4]",
    "//[::255.255.255.255]",
    "//[1:2:3:4:5::0.10.200.249]",
    "//u@[::1]?a",
    "//[v1.a:b]",
    "//[VAf.!$]:1",
];

/// Octets that may stand in a target, most of them nearly a reference.
const OTHERS: &[&str] = &[
    "1:a",
    ":",
    ":a",
    "-:a",
    "a_b:c",
    "%61:b",
    "@:a",
    "a@:b",
    "1:a/b",
    "1:a%41",
    "a#b#c",
    "##",
    "?a#b#",
    "[",
    "]",
    "a[b]",
    "?[",
    "#]",
    "a:[b]",
    "//a/[",
    "//a:b",
    "//a:1:2",
    "//a:-1",
    "//a@b@c",
    "//a[::1]",
    "//[",
    "//[]",
    "//[:]",
    "//[::1",
    "//[::1]a",
    "//[::1]:a",
    "//[[::1]]",
    "//[::1]]",
    "//[1:2:3:4:5:6:7]",
    "//[1:2:3:4:5:6:7:8:9]",
    "//[1:2:3:4:5:6:7:8::]",
    "//[1:2:3:4:5:6:7::8]",
    "//[::1::]",
    "//[:::]",
    "//[1:::2]",
    "//[12345::]",
    "//[g::]",
    "//[1:]",
    "//[:1]",
    "//[::%41]",
    "//[1.2.3.4]",
    "//[::01.2.3.4]",
    "//[::1.2.3]",
    "//[::1.2.3.4.5]",
    "//[::256.1.1.1]",
    "//[::1.2.3.4:5]",
    "//[1:2:3:4:5:6:7:1.2.3.4]",
    "//[::1.2..4]",
    "//[::1a.2.3.4]",
    "//[v.a]",
    "//[v1.]",
    "//[v1a]",
    "//[vg.a]",
    "//[v1.%41]",
];

/// Each target, and whether it is a reference.
fn targets() -> impl Iterator<Item = (&'static str, bool)> {
    let right = REFERENCES.iter().map(|&target| (target, true));
    right.chain(OTHERS.iter().map(|&target| (target, false)))
}

type Slots = ([usize; 2 * LINK_SLOTS], [usize; 2 * PARAM_SLOTS]);

const FILLED: Slots = ([7; 2 * LINK_SLOTS], [7; 2 * PARAM_SLOTS]);

/// Reads the header whole, fed in one part, in two parts cut everywhere, and octet by octet. Each
/// answer must be as the fault says, and all finishes as the reading.
fn check(edition: Edition, header: &[u8], fault: Option<Fault>) -> Slots {
    let mut slots = FILLED;
    let counts = read_in(edition, header, &mut slots.0, &mut slots.1);
    let shown = header.escape_ascii();
    match fault {
        None => assert!(counts.is_ok(), "{edition:?} {shown}"),
        Some((place, _)) => {
            assert_eq!(
                counts,
                Err(Refusal::Malformed { place }),
                "{edition:?} {shown}"
            );
            assert_eq!(slots, FILLED, "{edition:?} {shown}");
        }
    }
    for cut in 0..=header.len() {
        let (start, rest) = header.split_at(cut);
        let fed = feed(edition, &[start, rest], fault);
        assert_eq!(fed, (counts, slots), "{edition:?} {shown}, cut at {cut}");
    }
    let fed = feed(edition, &header.chunks(1).collect::<Vec<_>>(), fault);
    assert_eq!(fed, (counts, slots), "{edition:?} {shown}, octet by octet");
    slots
}

/// Feeds the parts, each of which is refused just if the fault is told by then, and finishes.
fn feed(
    edition: Edition,
    parts: &[&[u8]],
    fault: Option<Fault>,
) -> (Result<Counts, Refusal>, Slots) {
    let mut buffer = [0; LIMIT];
    let mut feeding = Feeding::new_in(edition, &mut buffer);
    let mut total = 0;
    for part in parts {
        total += part.len();
        let due = match fault {
            Some((place, told)) if told <= total => Err(Refusal::Malformed { place }),
            _ => Ok(()),
        };
        assert_eq!(feeding.feed(part), due, "{edition:?} {parts:?} at {total}");
    }
    let mut slots = FILLED;
    let counts = feeding.finish(&mut slots.0, &mut slots.1);
    (counts, slots)
}

#[test]
fn places_and_feeds() {
    for (header, faults) in ROWS {
        for (&edition, fault) in Edition::ALL.iter().zip(faults) {
            check(edition, header.as_bytes(), *fault);
        }
    }
}

/// As the first target and as a later one, with something right, wrong or nothing behind it.
#[test]
fn every_part_of_the_grammar() {
    for (target, right) in targets() {
        for before in ["", ", ", "<a>,", "</b>;rel=next , "] {
            for behind in ["", ";rel=next", ",<b", " <"] {
                let header = format!("{before}<{target}>{behind}");
                let start = before.len() + 1;
                let closed = start + target.len() + 1;
                let fault = match (right, behind) {
                    (false, _) => Some((start, closed)),
                    (true, ",<b") => Some((header.len(), UNTOLD)),
                    (true, " <") => Some((closed + 1, closed + 2)),
                    (true, _) => None,
                };
                for &edition in Edition::ALL {
                    check(edition, header.as_bytes(), fault);
                }
            }
        }
    }
}

#[test]
fn records_of_references() {
    for &target in REFERENCES {
        let header = format!("<{target}>;rel=x");
        for &edition in Edition::ALL {
            let (links, params) = check(edition, header.as_bytes(), None);
            let end = 1 + target.len();
            assert_eq!(links[..LINK_SLOTS], [1, end, 0, 1], "{header}");
            let record = [end + 2, end + 5, end + 6, end + 7, 1, 1];
            assert_eq!(params[..PARAM_SLOTS], record, "{header}");
        }
    }
}

/// A table made by hand, whose second link has the target; the reference is written as it is.
#[test]
fn tables_hold_references() {
    for (target, right) in targets() {
        let text = format!("relx{target}");
        let links = [3, 4, 0, 1, 4, text.len(), 1, 1];
        let params = [0, 3, 3, 4, 1, 1, 0, 3, 3, 4, 2, 1];
        let raw = RawTable {
            text: text.as_bytes(),
            links: &links,
            params: &params,
            link_count: 2,
            param_count: 2,
        };
        for &edition in Edition::ALL {
            let view = good::view(edition, raw);
            assert_eq!(view.is_some(), right, "{target}");
            let Some(table) = view else { continue };
            assert_eq!(table.search(b"x").unwrap().target(), b"x");
            let written = format!("<x>; rel=x, <{target}>; rel=x");
            let mut out = [0; 128];
            assert_eq!(table.write(&mut out).unwrap(), written.as_bytes());
        }
    }
}

/// It is the span that counts, not what stands about it.
#[test]
fn every_span_of_a_text() {
    let text = b"a1:b#c#//[::1]:2";
    let mut good = 0;
    for start in 0..=text.len() {
        for end in start..=text.len() {
            let header = [b"<", &text[start..end], b">"].concat();
            for &edition in Edition::ALL {
                let raw = RawTable {
                    text,
                    links: &[start, end, 0, 0],
                    params: &[],
                    link_count: 1,
                    param_count: 0,
                };
                let view = good::view(edition, raw);
                let (mut links, mut params) = FILLED;
                let read = Table::read_in(edition, &header, &mut links, &mut params);
                assert_eq!(view.is_some(), read.is_ok(), "{}", header.escape_ascii());
                good += usize::from(view.is_some());
            }
        }
    }
    assert!(good > 0);
}

/// Whatever its anchor and its other values are, a link with a right target is good.
#[test]
fn no_other_part_is_judged() {
    for (octets, _) in targets() {
        for name in ["anchor", "x", "title"] {
            let header = format!("<a>;rel=b;{name}=\"{octets}\"");
            for &edition in Edition::ALL {
                let (links, params) = check(edition, header.as_bytes(), None);
                let raw = RawTable {
                    text: header.as_bytes(),
                    links: &links,
                    params: &params,
                    link_count: 1,
                    param_count: 2,
                };
                assert!(good::view(edition, raw).is_some(), "{header}");
            }
        }
    }
}

/// Octets over the limit are still told before it, and room behind it.
#[test]
fn among_the_other_refusals() {
    let mut header = b"<1:a>".to_vec();
    let malformed = Err(Refusal::Malformed { place: 1 });
    for &edition in Edition::ALL {
        assert_eq!(read_in(edition, &header, &mut [], &mut []), malformed);
    }
    header.resize(LIMIT, b',');
    for &edition in Edition::ALL {
        assert_eq!(read_in(edition, &header, &mut [], &mut []), malformed);
    }
    header.push(b',');
    for &edition in Edition::ALL {
        let too_long = Err(Refusal::TooLong);
        assert_eq!(read_in(edition, &header, &mut [], &mut []), too_long);
    }
}

/// Targets as long as a header has room for, each with something at its start or its end.
#[test]
fn long_targets() {
    let rows = [
        ("", "", true),
        ("1:", "", false),
        ("", "1:", true), // behind letters, which with it are a scheme
        ("/", "1:", true),
        ("1", ":", false),
        ("#", "", true),
        ("#", "#", false),
    ];
    for (start, end, right) in rows {
        let letters = "a".repeat(LIMIT - 2 - start.len() - end.len());
        let header = format!("<{start}{letters}{end}>");
        let fault = (!right).then_some((1, LIMIT));
        for size in [1, 16, LIMIT] {
            let parts: Vec<&[u8]> = header.as_bytes().chunks(size).collect();
            for &edition in Edition::ALL {
                let (counts, _) = feed(edition, &parts, fault);
                assert_eq!(counts.is_ok(), right, "{start} {end} {size}");
            }
        }
    }
}
