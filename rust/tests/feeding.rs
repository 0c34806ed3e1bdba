//! Headers in parts, however they are cut, held in each edition to what reading says of the octets fed.

use capstanbar::{read_in, Counts, Edition, Feeding, Refusal, LIMIT, LINK_SLOTS, PARAM_SLOTS};

const HEADERS: [&[u8]; 12] = [
    b"",
    b" , </packs/6>; rel=prev,,",
    br#"<a>; title="12, \"3"; rel*, <b>"#,
    b"<http://[v1.a]:8/%7Eb?c#d>;x = y",
    b"<a>;rel=next;",
    b"<a> <b>, <c>",
    b"<a%4g>;rel=next",
    br#"<a>;t="b\"#,
    b"<a>;t=\"\x7f\", <b>\n",
    b"<a>;rel=http://b/;x = <c>==, <d>",
    b"<a>;x==/ <b>",
    b"<//[::1.2.3]>, <1:a>;x",
];

type Slots = ([usize; 2 * LINK_SLOTS], [usize; 4 * PARAM_SLOTS]);

/// What the slots hold before a call.
const FILLED: Slots = ([7; 2 * LINK_SLOTS], [7; 4 * PARAM_SLOTS]);

/// What is read of a whole header, with the slots.
fn whole(edition: Edition, header: &[u8]) -> (Result<Counts, Refusal>, Slots) {
    let mut slots = FILLED;
    let counts = read_in(edition, header, &mut slots.0, &mut slots.1);
    (counts, slots)
}

/// What a feed must answer where these are all the octets fed: one that is cut short is no fault.
fn due(edition: Edition, octets: &[u8]) -> Result<(), Refusal> {
    match whole(edition, octets).0 {
        Err(Refusal::Malformed { place }) if place == octets.len() => Ok(()),
        Err(refusal @ (Refusal::TooLong | Refusal::Malformed { .. })) => Err(refusal),
        _ => Ok(()),
    }
}

fn check(parts: &[&[u8]]) {
    for &edition in Edition::ALL {
        check_in(edition, parts);
    }
}

/// Feeds the parts, and holds each answer, the octets gathered and two finishes to what is due.
fn check_in(edition: Edition, parts: &[&[u8]]) {
    let mut buffer = [b'<'; LIMIT];
    let mut feeding = Feeding::new_in(edition, &mut buffer);
    let (mut fed, mut gathered) = (vec![], vec![]);
    for part in parts {
        fed.extend_from_slice(part);
        let answer = feeding.feed(part);
        assert_eq!(answer, due(edition, &fed), "{edition:?} {parts:?}");
        if answer.is_ok() {
            gathered.extend_from_slice(part);
        }
        assert_eq!(feeding.gathered(), gathered);
    }
    for _ in 0..2 {
        let mut slots = FILLED;
        let counts = feeding.finish(&mut slots.0, &mut slots.1);
        let due = whole(edition, &fed);
        assert_eq!((counts, slots), due, "{edition:?} {parts:?}");
    }
    assert!(buffer.starts_with(&gathered));
    assert!(buffer[gathered.len()..].iter().all(|&octet| octet == b'<'));
}

#[test]
fn every_cut_in_two_and_three_parts() {
    for header in HEADERS {
        for second in 0..=header.len() {
            let (start, rest) = header.split_at(second);
            check(&[start, rest]);
            for third in 0..=rest.len() {
                check(&[start, &rest[..third], &rest[third..]]);
            }
        }
    }
}

#[test]
fn octet_by_octet() {
    for header in HEADERS {
        check(&header.chunks(1).collect::<Vec<_>>());
    }
}

#[test]
fn any_octet_behind_any_beginning() {
    for header in HEADERS {
        for end in 0..=header.len() {
            for octet in 0..=u8::MAX {
                check(&[&header[..end], &[octet]]);
            }
        }
    }
}

#[test]
fn about_the_limit() {
    let commas = [b','; LIMIT + 1];
    for last in [&b""[..], b",", b"a", b"<a"] {
        for length in LIMIT - 2..=LIMIT + 1 {
            check(&[&commas[..length], last, b"", b",", b""]);
            check(&[b"<a>;t=\"", &commas[..length - 7], last, b"", b"\"", b""]);
            check(&[b"<a> <", &commas[..length - 5], last, b"", b",", b""]);
        }
    }
    check(&[&commas[..LIMIT / 2], &commas, b"", &commas]);
}

#[test]
fn a_view_of_what_was_fed() {
    let (mut links, mut params) = ([0; 2 * LINK_SLOTS], [0; 2 * PARAM_SLOTS]);
    let mut buffer = [0; LIMIT];
    let mut feeding = Feeding::new(&mut buffer);
    feeding.feed(b"<a>; rel=next, <b").unwrap();
    let cut_short = feeding.table(&mut links, &mut params);
    assert_eq!(cut_short.unwrap_err(), Refusal::Malformed { place: 17 });

    feeding.feed(b">; rel=prev").unwrap();
    let no_room = feeding.table(&mut links[..7], &mut params);
    assert_eq!(no_room.unwrap_err(), Refusal::NoLinkRoom);

    let table = feeding.into_table(&mut links, &mut params).unwrap();
    assert_eq!(table.text(), b"<a>; rel=next, <b>; rel=prev");
    assert_eq!(table.search(b"prev").unwrap().target(), b"b");
    assert_eq!(table.edition(), Edition::Rfc8288);
}

#[test]
fn a_view_remembers_the_edition() {
    let (mut links, mut params) = ([0; LINK_SLOTS], [0; PARAM_SLOTS]);
    let mut buffer = [0; LIMIT];
    let mut feeding = Feeding::new_in(Edition::Rfc5988, &mut buffer);
    feeding.feed(b"<a>; rel=b").unwrap();
    feeding.feed(b"/c").unwrap();
    let table = feeding.table(&mut links, &mut params).unwrap();
    assert_eq!(table.search(b"b/c").unwrap().target(), b"a");
    let table = feeding.into_table(&mut links, &mut params).unwrap();
    assert_eq!(table.edition(), Edition::Rfc5988);
    assert_eq!(table.search(b"b/c").unwrap().target(), b"a");
}

#[test]
fn shown_without_the_rest_of_the_buffer() {
    let mut buffer = [0; LIMIT];
    let mut feeding = Feeding::new(&mut buffer);
    feeding.feed(b"<").unwrap();
    let shown = format!("{feeding:?}");
    assert!(shown.starts_with("Feeding { state: "), "{shown}");
    assert!(shown.ends_with("gathered: [60] }"), "{shown}");
}
