//! Every known name with any of its octets changed, and in every mix of case with one octet fewer,
//! another one or one more.

use super::{ask, known};
use crate::compare::Compared;
use crate::run::Run;

/// In a letter this bit is the case.
const CASE: u8 = 0x20;

pub fn compare(run: &mut Run) -> Compared<()> {
    for name in known() {
        for bits in 1..=255 {
            for changed in flipped(name, bits) {
                ask(run, &changed)?;
            }
        }
        for mix in flipped(name, CASE) {
            neighbours(run, &mix)?;
        }
    }
    Ok(())
}

/// The name with the bits flipped in every choice of its octets.
fn flipped(name: &[u8], bits: u8) -> impl Iterator<Item = Vec<u8>> + '_ {
    (0..1 << name.len()).map(move |choice: usize| {
        let chosen = |place: usize| choice >> place & 1 == 1;
        let flip = |(place, &octet)| if chosen(place) { octet ^ bits } else { octet };
        name.iter().enumerate().map(flip).collect()
    })
}

fn neighbours(run: &mut Run, name: &[u8]) -> Compared<()> {
    for place in 0..=name.len() {
        let (before, from) = name.split_at(place);
        let behind = from.get(1..);
        if let Some(behind) = behind {
            ask(run, &[before, behind].concat())?;
        }
        for octet in 0..=255 {
            ask(run, &[before, &[octet], from].concat())?;
            if let Some(behind) = behind {
                ask(run, &[before, &[octet], behind].concat())?;
            }
        }
    }
    Ok(())
}
