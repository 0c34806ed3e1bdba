//! What a link's lookups by name find.

use crate::compare::{equal, Compared};
use capstanbar::{ByName, Link, Name};
use oracle::LinkMeaning;

/// Of a link's parameters about so many are looked up by the octets of their names.
const ASKED: usize = 4;

/// The parameters found are those whose names have the code, or are the same in another case.
pub fn compare(link: Link, meaning: &LinkMeaning) -> Compared<()> {
    let names = || meaning.params.iter().map(|param| &param.name[..]);
    let codes: Vec<usize> = names().map(oracle::name_code).collect();
    let known = link.params().map(|param| param.known());
    let known = known.map(|known| known.map_or(0, Name::code)).collect();
    equal(|| at(link, "known names"), &known, &codes)?;
    for &name in Name::ALL {
        let same = codes.iter().map(|&code| code == name.code());
        compare_found(link, name.into(), same)?;
    }
    for name in names().step_by(1 + codes.len() / ASKED) {
        let capitals = name.to_ascii_uppercase();
        let same = names().map(|other| other.eq_ignore_ascii_case(name));
        compare_found(link, (&capitals).into(), same)?;
    }
    Ok(())
}

/// Found are all the parameters that have the name, or the first of them.
fn compare_found(link: Link, name: ByName, same: impl Iterator<Item = bool>) -> Compared<()> {
    let places = (0..)
        .zip(same)
        .filter_map(|(place, same)| same.then_some(place));
    let places: Vec<usize> = places.collect();
    let all = link.find_all(name).map(|param| param.place()).collect();
    equal(|| at(link, &format!("all of {name:?}")), &all, &places)?;
    let first = link.find(name).map(|param| param.place());
    equal(
        || at(link, &format!("first of {name:?}")),
        first,
        places.first().copied(),
    )
}

fn at(link: Link, what: &str) -> String {
    format!("{what} of link {}", link.number())
}
