//! Reading.

use super::equal::{equal, equal_rooms};
use super::Compared;
use crate::generate::edition::NEWER;
use crate::lent::Lent;
use crate::reached::{Entry, In};
use crate::run::Run;
use crate::shown;
use crate::tables::Tables;
use capstanbar::ffi;
use oracle::{ReadAnswer, PARAM_SLOTS};

/// The answer to a header in that edition and that many slots, and the tables with all their slots.
pub fn read(
    run: &mut Run,
    edition: usize,
    header: &[u8],
    link_slots: usize,
    param_slots: usize,
) -> Compared<(ReadAnswer, Tables)> {
    let salt = run.salt();
    let asked = || {
        let header = shown::octets(header);
        format!(
            "read {header} in edition {edition}, {link_slots} link slots and {param_slots} parameter slots"
        )
    };
    let lent = Lent::holding(header, salt);
    let mut links = Lent::new(link_slots, salt);
    let mut params = Lent::new(param_slots, salt);
    let answer = ffi::read(edition, lent.room(), links.room_mut(), params.room_mut());
    let answer = of_library(answer);

    let (mut expected_links, mut expected_params) = (vec![0; link_slots], vec![0; param_slots]);
    let mut reference =
        |edition| oracle::read(edition, header, &mut expected_links, &mut expected_params);
    let expected = reference(edition);
    let counted = match In::of(edition) {
        In::Unknown => reference(NEWER).number,
        _ => answer.number,
    };
    run.reached.count_in(In::of(edition), Entry::Read, counted);
    equal(asked, answer, expected)?;
    equal_rooms(
        asked,
        "links",
        &links,
        &expected_links[..4 * expected.links],
    )?;
    equal_rooms(
        asked,
        "parameters",
        &params,
        &expected_params[..PARAM_SLOTS * expected.params],
    )?;
    equal_rooms(asked, "header", &lent, header)?;
    let tables = Tables {
        edition,
        text: header.to_vec(),
        links: links.room().to_vec(),
        params: params.room().to_vec(),
        link_count: answer.links,
        param_count: answer.params,
    };
    Ok((answer, tables))
}

/// What these tables were read of must be read in that edition to the same, told without the
/// reference: the tables in that edition.
pub fn read_alike(
    run: &mut Run,
    edition: usize,
    answer: ReadAnswer,
    tables: &Tables,
) -> Compared<Tables> {
    let asked = || format!("read in edition {edition} too: {}", shown::table(tables));
    let lent = Lent::holding(&tables.text, run.salt());
    let [mut links, mut params] =
        [&tables.links, &tables.params].map(|slots| Lent::new(slots.len(), run.salt()));
    let alike = ffi::read(edition, lent.room(), links.room_mut(), params.room_mut());
    run.reached
        .count_in(In::of(edition), Entry::Read, alike.number);
    equal(asked, of_library(alike), answer)?;
    equal_rooms(asked, "links", &links, &tables.links[..4 * answer.links])?;
    let param_slots = &tables.params[..PARAM_SLOTS * answer.params];
    equal_rooms(asked, "parameters", &params, param_slots)?;
    equal_rooms(asked, "header", &lent, &tables.text)?;
    Ok(tables.in_edition(edition))
}

/// The library's answer as the reference would give it.
pub fn of_library(answer: ffi::ReadAnswer) -> ReadAnswer {
    ReadAnswer {
        number: answer.number,
        place: answer.place,
        links: answer.links,
        params: answer.params,
    }
}
