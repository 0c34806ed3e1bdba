//! The code of its name in each parameter's record: reading puts it there, the view tells the name by
//! it, and a table with any other is refused.

mod good;

use capstanbar::ffi::RawTable;
use capstanbar::{read_in, Edition, Feeding, Name, Table, LIMIT, LINK_SLOTS, PARAM_SLOTS};

/// Names that are not known, most of them nearly one that is.
const OTHERS: [&[u8]; 7] = [b"x", b"re", b"relx", b"rel*", b"titl", b"title**", b"revs"];

/// Every known name in small letters, in capitals and in both, each with its code; and the others,
/// with code 0.
fn coded() -> impl Iterator<Item = (Vec<u8>, usize)> {
    let known = Name::ALL.iter().flat_map(|name| {
        let small = name.as_bytes().to_vec();
        let capitals = small.to_ascii_uppercase();
        let both = [&capitals[..1], &small[1..]].concat();
        [small, capitals, both].map(|octets| (octets, name.code()))
    });
    known.chain(OTHERS.map(|octets| (octets.to_vec(), 0)))
}

/// For each name a link with a parameter of it.
fn header() -> Vec<u8> {
    let link = |(name, _): (Vec<u8>, _)| [b"<a>; ", &name[..], b"=x"].concat();
    coded().map(link).collect::<Vec<_>>().join(&b", "[..])
}

type Slots = ([usize; 64 * LINK_SLOTS], [usize; 64 * PARAM_SLOTS]);

fn slots() -> Slots {
    ([7; 64 * LINK_SLOTS], [7; 64 * PARAM_SLOTS])
}

/// Where the code stands in a record: last.
const CODE: usize = PARAM_SLOTS - 1;

fn codes(params: &[usize]) -> impl Iterator<Item = usize> + '_ {
    params.chunks(PARAM_SLOTS).map(|record| record[CODE])
}

#[test]
fn reading_puts_it_last() {
    let header = header();
    for &edition in Edition::ALL {
        let (mut links, mut params) = slots();
        let counts = read_in(edition, &header, &mut links, &mut params).unwrap();
        let read = &params[..counts.params * PARAM_SLOTS];
        assert!(codes(read).eq(coded().map(|row| row.1)));

        let mut buffer = [0; LIMIT];
        let mut feeding = Feeding::new_in(edition, &mut buffer);
        for part in header.chunks(3) {
            feeding.feed(part).unwrap();
        }
        let mut fed = slots();
        feeding.finish(&mut fed.0, &mut fed.1).unwrap();
        assert_eq!(fed, (links, params));
    }
}

#[test]
fn the_view_tells_the_name() {
    let (header, mut slots) = (header(), slots());
    let table = Table::read(&header, &mut slots.0, &mut slots.1).unwrap();
    for (link, (octets, code)) in table.links().zip(coded()) {
        let param = link.params().next().unwrap();
        assert_eq!(param.name(), octets);
        assert_eq!(param.known().map_or(0, Name::code), code);
        assert_eq!(param.known(), Name::of(&octets));
    }
}

/// Numbers that may stand for a code: the codes, what is about them, and what has a code's low bits.
fn numbers() -> impl Iterator<Item = usize> {
    let wide = [1 << 8, 1 << 16, 1 << 32, 1 << 63];
    let wider = wide.into_iter().flat_map(|wide| wide..=wide + 9);
    (0..=16)
        .chain(wider)
        .chain([255, usize::MAX - 1, usize::MAX])
}

#[test]
fn no_other_number_is_good() {
    for (name, code) in coded() {
        let (text, end) = ([&name[..], b"x"].concat(), name.len());
        for number in numbers() {
            let params = [0, end, end, end + 1, 1, number];
            let raw = RawTable {
                text: &text,
                links: &[0, 0, 0, 1],
                params: &params,
                link_count: 1,
                param_count: 1,
            };
            for &edition in Edition::ALL {
                let good = good::view(edition, raw).is_some();
                assert_eq!(good, number == code, "{} {number}", name.escape_ascii());
            }
        }
    }
}

/// Whichever parameter it is whose code is another, also one that the question has no need of.
#[test]
fn wherever_it_stands() {
    let text = b"<a>; rel=x; title=b; c, <d>; e; hreflang=f; rev=g; HREFLANG=h";
    let (mut links, mut params) = ([0; 2 * LINK_SLOTS], [0; 7 * PARAM_SLOTS]);
    read_in(Edition::Rfc8288, text, &mut links, &mut params).unwrap();
    assert!(codes(&params).eq([1, 4, 0, 0, 7, 8, 7]));
    for record in 0..7 {
        for number in numbers() {
            let mut params = params;
            let code = &mut params[PARAM_SLOTS * record + CODE];
            let own = std::mem::replace(code, number);
            let raw = RawTable {
                text,
                links: &links,
                params: &params,
                link_count: 2,
                param_count: 7,
            };
            for &edition in Edition::ALL {
                let good = good::view(edition, raw).is_some();
                assert_eq!(good, number == own, "{record} {number}");
            }
        }
    }
}
