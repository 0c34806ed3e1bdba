//! Headers derived from the grammar, whose records the derivation tells too.

use crate::ask::ask;
use crate::compare::{equal, Compared};
use crate::editions::read_in_each;
use crate::generate::edition::{EDITIONS, OLDER};
use crate::generate::header::{derive, Derived, Sizes, SHORT};
use crate::run::Run;
use crate::shown::{self, Difference};
use oracle::number::MALFORMED;

const CASES: usize = 4000;

/// Some hundred octets.
const MIDDLE: Sizes = Sizes {
    places: 10,
    params: 12,
    octets: 30,
};

/// Some thousand octets; the reference is slow with them.
const LONG: Sizes = Sizes {
    places: 40,
    params: 20,
    octets: 60,
};

pub fn compare(run: &mut Run) -> Compared<()> {
    run.begin("valid");
    for (case, edition) in (0..CASES).zip(EDITIONS.into_iter().cycle()) {
        let sizes = match case {
            0..6 => LONG,
            6..200 => MIDDLE,
            _ => SHORT,
        };
        let derived = derive(&mut run.numbers, edition, sizes);
        if derived.header.len() <= oracle::number::LIMIT {
            run.case();
            compare_derived(run, derived)?;
        }
    }
    Ok(())
}

/// Reads in just the room that the derivation takes. The older edition reads it, and RFC 8288's just
/// if no bare value has an octet outside a token.
fn compare_derived(run: &mut Run, derived: Derived) -> Compared<()> {
    let (links, params) = (derived.links.concat(), derived.params.concat());
    let readings = read_in_each(run, &derived.header, [links.len(), params.len()])?;
    for (answer, tables) in readings {
        if tables.edition != OLDER && derived.has_further {
            let header = shown::octets(&derived.header);
            equal(|| format!("read {header}"), answer.number, MALFORMED)?;
            continue;
        }
        if (answer.number, &tables.links, &tables.params) != (0, &links, &params) {
            let header = shown::octets(&derived.header);
            return Err(Difference {
                asked: format!("read {header} in edition {}", tables.edition),
                library: format!("{answer:?}, {:?}, {:?}", tables.links, tables.params),
                expected: format!("by the derivation {links:?}, {params:?}"),
            });
        }
        ask(run, &tables)?;
    }
    Ok(())
}
