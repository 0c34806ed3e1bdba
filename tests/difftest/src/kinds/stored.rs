//! The headers read by hand, the RFC's examples, those with targets that are references or nearly,
//! those with values that the older edition allows bare, and headers of other projects' tests, each
//! cut everywhere too.

use super::read_and_ask;
use crate::compare::Compared;
use crate::run::Run;

const LISTS: [&str; 5] = [
    include_str!("../../../oracle/data/rows.txt"),
    include_str!("../../../oracle/data/rfc8288.txt"),
    include_str!("../../../oracle/data/references.txt"),
    include_str!("../../../oracle/data/older.txt"),
    include_str!("../../../oracle/data/corpus.txt"),
];

pub fn headers() -> impl Iterator<Item = &'static [u8]> {
    LISTS
        .iter()
        .flat_map(|list| list.lines())
        .map(str::as_bytes)
}

pub fn compare(run: &mut Run) -> Compared<()> {
    run.begin("stored");
    for header in headers() {
        for end in 0..=header.len() {
            read_and_ask(run, &header[..end])?;
        }
    }
    Ok(())
}
