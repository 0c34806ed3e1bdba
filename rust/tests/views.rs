//! Views of tables made by reading or by hand, with any numbers.

mod good;

use capstanbar::ffi::RawTable;
use capstanbar::{Counts, Edition, Form, Name, Refusal, Table, LINK_SLOTS, PARAM_SLOTS};

type Links = [usize; 2 * LINK_SLOTS];
type Params = [usize; 2 * PARAM_SLOTS];

const TEXT: &[u8] = b"rel=\\\"%41";
const LINKS: Links = [6, 9, 0, 2, 3, 3, 2, 0];
const PARAMS: Params = [0, 3, 4, 6, 2, 1, 0, 2, 2, 2, 0, 0];
const COUNTS: Counts = Counts {
    links: 2,
    params: 2,
};

#[test]
fn a_table_made_by_hand() {
    let table = Table::new(TEXT, &LINKS, &PARAMS, COUNTS).unwrap();
    let link = table.search(b"\"").unwrap();
    assert_eq!((link.number(), link.target()), (0, &b"%41"[..]));
    let [rel, re] = [0, 1].map(|place| link.params().nth(place).unwrap());
    assert_eq!(
        (rel.name(), rel.raw_value(), rel.form()),
        (&b"rel"[..], &b"\\\""[..], Form::Quoted)
    );
    assert_eq!(
        (re.name(), re.raw_value(), re.form()),
        (&b"re"[..], &b""[..], Form::NoValue)
    );
    assert_eq!((rel.known(), re.known()), (Some(Name::Rel), None));
    assert_eq!((re.place(), re.number()), (1, 1));
    assert_eq!(rel.value(&mut [0; 1]), Ok(&b"\""[..]));
    assert_eq!(table.link(1).unwrap().params().len(), 0);
    assert_eq!(table.write(&mut [0; 64]), Err(Refusal::NoRelation));
}

/// How many numbers the table has: the slots, and the two counts.
const NUMBERS: usize = LINKS.len() + PARAMS.len() + 2;

/// The table with another number in one of its slots, or for one of its counts.
fn changed(place: usize, number: usize) -> (Links, Params, Counts) {
    let (mut links, mut params, mut counts) = (LINKS, PARAMS, COUNTS);
    let mut all: Vec<&mut usize> = links.iter_mut().chain(&mut params).collect();
    all.extend([&mut counts.links, &mut counts.params]);
    *all[place] = number;
    (links, params, counts)
}

/// Goes through everything that the view hands out.
fn octets(table: Table) -> usize {
    let params = table.links().flat_map(|link| link.params());
    let own = params.map(|param| param.name().len() + param.raw_value().len());
    let links = table.links();
    let rest = links.map(|link| link.target().len() + link.context(b"").len());
    own.sum::<usize>() + rest.sum::<usize>()
}

#[test]
fn any_number_in_any_slot_is_good_or_refused() {
    for &edition in Edition::ALL {
        any_number_in_any_slot(edition);
    }
}

fn any_number_in_any_slot(edition: Edition) {
    let numbers = [0, 1, 2, 3, 4, 5, 9, 10, usize::MAX - 1, usize::MAX];
    let (mut good, mut refused) = (0, 0);
    for (place, number) in (0..NUMBERS).flat_map(|place| numbers.map(|number| (place, number))) {
        let (links, params, counts) = changed(place, number);
        let raw = RawTable {
            text: TEXT,
            links: &links,
            params: &params,
            link_count: counts.links,
            param_count: counts.params,
        };
        match good::view(edition, raw) {
            Some(table) => {
                assert!(octets(table) < 100);
                good += 1;
            }
            None => refused += 1,
        }
    }
    assert!(good > 20 && refused > 100, "{good} good, {refused} refused");
}

#[test]
fn a_text_too_long() {
    let text = [b'a'; 8193];
    let none = Table::new(&text, &[], &[], Counts::default());
    assert_eq!(none.unwrap_err(), Refusal::TooLong);
}

#[test]
fn no_links() {
    let table = Table::new(b"", &[], &[], Counts::default()).unwrap();
    assert!(table.links().next().is_none());
    assert_eq!(table.write(&mut []), Ok(&b""[..]));
}
