//! Every refusal with its number and words, and what a refusal leaves alone.

use capstanbar::{decode, read, resolve, Refusal, Table, LINK_SLOTS, PARAM_SLOTS};

#[test]
fn numbers_and_words() {
    let all = [
        (Refusal::TooLong, "more than 8,192 octets"),
        (Refusal::Malformed { place: 7 }, "malformed at octet 7"),
        (Refusal::NoLinkRoom, "more links than room"),
        (Refusal::NoParamRoom, "more parameters than room"),
        (Refusal::BadTable, "not a good table"),
        (Refusal::NoRelation, "a link without a relation"),
        (Refusal::NoOutputRoom, "output buffer too short"),
        (Refusal::NoSuchLink, "no such link"),
        (Refusal::NotFound, "not found"),
        (Refusal::UnknownEdition, "unknown edition"),
        (Refusal::BadExtended, "wrong extended value"),
        (Refusal::BadBase, "the base is no URI"),
        (Refusal::BadReference, "not a URI-reference"),
        (Refusal::OutOfRange, "more than 64 steps"),
        (Refusal::BadCatalogue, "not a catalogue"),
    ];
    for (number, (refusal, words)) in (1..).zip(all) {
        assert_eq!(refusal.number(), number);
        assert_eq!(refusal.to_string(), words);
        let error: &dyn std::error::Error = &refusal;
        assert!(error.source().is_none());
    }
}

#[test]
fn reading_leaves_the_slots_alone() {
    for (header, refusal) in [
        (&[b'<'; 8193][..], Refusal::TooLong),
        (b"<a>;", Refusal::Malformed { place: 4 }),
        (b"<a>,<b>,<c>", Refusal::NoLinkRoom),
        (b"<a>;x;y;z", Refusal::NoParamRoom),
    ] {
        let slots = ([7; 3 * LINK_SLOTS - 1], [8; 3 * PARAM_SLOTS - 1]);
        let (mut links, mut params) = slots;
        assert_eq!(read(header, &mut links, &mut params), Err(refusal));
        assert_eq!((links, params), slots);
    }
}

#[test]
fn output_is_left_alone() {
    let (mut links, mut params) = ([0; 2 * LINK_SLOTS], [0; 2 * PARAM_SLOTS]);
    let header = b"<a>;rel=next,<b>;rel=\"\"";
    let table = Table::read(header, &mut links, &mut params).unwrap();
    let mut out = [9; 3];
    assert_eq!(table.write(&mut out), Err(Refusal::NoRelation));
    assert_eq!(table.value(0, 0, &mut out), Err(Refusal::NoOutputRoom));
    assert_eq!(table.value(0, 1, &mut out), Err(Refusal::NotFound));
    assert_eq!(table.value(2, 0, &mut out), Err(Refusal::NoSuchLink));
    assert_eq!(table.title(0, &mut out), Err(Refusal::NotFound));
    assert_eq!(table.title(2, &mut out), Err(Refusal::NoSuchLink));
    assert_eq!(decode(b"UTF-8''ab%", &mut out), Err(Refusal::BadExtended));
    assert_eq!(decode(b"UTF-8''abcd", &mut out), Err(Refusal::NoOutputRoom));
    assert_eq!(decode(&[b'a'; 8193], &mut out), Err(Refusal::TooLong));
    assert_eq!(resolve(b"b", b"a:/", &mut out), Err(Refusal::NoOutputRoom));
    assert_eq!(resolve(b"[", b"a:/", &mut out), Err(Refusal::BadReference));
    assert_eq!(resolve(b"b", b"/", &mut out), Err(Refusal::BadBase));
    assert_eq!(
        resolve(&[b'b'; 8193], b"/", &mut out),
        Err(Refusal::TooLong)
    );
    let mut context = |base: &[u8], link| {
        let resolved = table.resolved_context(base, link, &mut out);
        resolved.map(<[u8]>::len)
    };
    assert_eq!(context(b"a:/b", 0), Err(Refusal::NoOutputRoom));
    assert_eq!(context(b"/b", 0), Err(Refusal::BadBase));
    assert_eq!(context(b"/b", 2), Err(Refusal::NoSuchLink));
    assert_eq!(context(&[b'b'; 8193], 2), Err(Refusal::TooLong));
    assert_eq!(out, [9; 3]);
}
