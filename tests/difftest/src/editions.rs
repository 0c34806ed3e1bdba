//! A header in both editions, and what RFC 8288's reading says of the older one without the reference.

use crate::compare::{equal, read, read_alike, Compared};
use crate::generate::edition::{NEWER, OLDER};
use crate::generate::octets::is_further;
use crate::reached::Entry;
use crate::run::Run;
use crate::shown;
use crate::tables::Tables;
use oracle::number::MALFORMED;
use oracle::ReadAnswer;

/// What became of a header in the older edition: the same, since it isn't malformed; read; malformed
/// in the same place; malformed later.
const SAME: usize = 0;
const READ: usize = 1;
const AS_BEFORE: usize = 2;
const LATER: usize = 3;

/// What RFC 8288's edition and the older one make of a header in that many slots.
///
/// They answer the same unless the first malformed octet is one of those that the older edition adds:
/// the reference, which is slow, is asked a second time only then.
pub fn read_in_each(
    run: &mut Run,
    header: &[u8],
    [link_slots, param_slots]: [usize; 2],
) -> Compared<[(ReadAnswer, Tables); 2]> {
    let newer = read(run, NEWER, header, link_slots, param_slots)?;
    let (answer, tables) = &newer;
    let malformed = answer.number == MALFORMED;
    let added = malformed
        && header
            .get(answer.place)
            .is_some_and(|&octet| is_further(octet));
    if !added {
        let tables = read_alike(run, OLDER, *answer, tables)?;
        let case = if malformed { AS_BEFORE } else { SAME };
        run.reached.count(Entry::Editions, case);
        let older = (*answer, tables);
        return Ok([newer, older]);
    }
    let older = read(run, OLDER, header, link_slots, param_slots)?;
    let case = match older.0.number {
        MALFORMED if older.0.place == answer.place => AS_BEFORE,
        MALFORMED => LATER,
        _ => READ,
    };
    let asked = || {
        let header = shown::octets(header);
        format!(
            "whether the older edition goes as far, {:?}, in {header}",
            older.0
        )
    };
    equal(asked, case != LATER || older.0.place > answer.place, true)?;
    run.reached.count(Entry::Editions, case);
    Ok([newer, older])
}
