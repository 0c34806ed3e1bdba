//! Slots at, over and under what a header takes.

use crate::compare::Compared;
use crate::editions::read_in_each;
use crate::generate::header::{derive_any, SHORT};
use crate::run::Run;
use oracle::PARAM_SLOTS;

const CASES: usize = 300;

pub fn compare(run: &mut Run) -> Compared<()> {
    run.begin("rooms");
    for _ in 0..CASES {
        let derived = derive_any(&mut run.numbers, SHORT);
        let (links, params) = (4 * derived.links.len(), PARAM_SLOTS * derived.params.len());
        for link_slots in round(links, 4) {
            for param_slots in round(params, PARAM_SLOTS) {
                run.case();
                read_in_each(run, &derived.header, [link_slots, param_slots])?;
            }
        }
    }
    Ok(())
}

/// Just the slots, a slot fewer, a record fewer, nearly a record more, a record more.
pub fn round(slots: usize, record: usize) -> [usize; 5] {
    [
        slots,
        slots.saturating_sub(1),
        slots.saturating_sub(record),
        slots + record - 1,
        slots + record,
    ]
}
