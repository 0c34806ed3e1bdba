//! Reading a header into lent tables.

use crate::edition::Edition;
use crate::number::{DONE, LIMIT, MALFORMED, NO_LINK_ROOM, NO_PARAM_ROOM, TOO_LONG};
use crate::prefix::place;
use crate::reading::reading;
use crate::record::{link_records, param_records};

/// The number, the place of a malformed header, and the counts of records.
#[derive(Clone, Copy, Debug, Default, PartialEq, Eq)]
pub struct ReadAnswer {
    pub number: usize,
    pub place: usize,
    pub links: usize,
    pub params: usize,
}

/// Reads the header into the lent slots, which a refusal leaves as they are.
/// Numbers in order: 10, 1, 2, 3, 4.
pub fn read(
    edition: usize,
    header: &[u8],
    link_slots: &mut [usize],
    param_slots: &mut [usize],
) -> ReadAnswer {
    let refusal = |number| ReadAnswer {
        number,
        ..ReadAnswer::default()
    };
    let edition = match Edition::of(edition) {
        Ok(edition) => edition,
        Err(number) => return refusal(number),
    };
    if header.len() > LIMIT {
        return refusal(TOO_LONG);
    }
    let Some(links) = reading(edition, header) else {
        return ReadAnswer {
            place: place(edition, header),
            ..refusal(MALFORMED)
        };
    };
    let link_records = link_records(&links);
    let param_records = param_records(&links);
    let Some(link_room) = link_slots.get_mut(..link_records.as_flattened().len()) else {
        return refusal(NO_LINK_ROOM);
    };
    let Some(param_room) = param_slots.get_mut(..param_records.as_flattened().len()) else {
        return refusal(NO_PARAM_ROOM);
    };
    link_room.copy_from_slice(link_records.as_flattened());
    param_room.copy_from_slice(param_records.as_flattened());
    ReadAnswer {
        number: DONE,
        place: 0,
        links: link_records.len(),
        params: param_records.len(),
    }
}
