//! Every octet in every place of a reference and of a base, in place of one and put before it, and
//! both cut there.

use super::ask;
use crate::compare::Compared;
use crate::run::Run;

const REFERENCE: &[u8] = b"..//./g;x?y#s";
const BASE: &[u8] = b"a+1://u@h:80/b/../c?q#f";

pub fn compare(run: &mut Run) -> Compared<()> {
    for reference in changed(REFERENCE) {
        ask(run, &reference, BASE)?;
    }
    for base in changed(BASE) {
        ask(run, REFERENCE, &base)?;
    }
    Ok(())
}

fn changed(text: &'static [u8]) -> impl Iterator<Item = Vec<u8>> {
    let at = |place: usize| {
        let (before, behind) = text.split_at(place);
        let rest = behind.get(1..).unwrap_or_default();
        let octets = (0..=255).flat_map(move |octet| {
            [behind, rest].map(|behind| [before, &[octet], behind].concat())
        });
        octets.chain([before.to_vec(), behind.to_vec()])
    };
    (0..=text.len()).flat_map(at)
}
