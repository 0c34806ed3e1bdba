//! Tables bad in one way: each way breaks one clause of a good table and keeps the others. Beside
//! them, ways that break none.

mod codes;
mod counts;
mod edit;
mod further;
mod none;
mod parts;
mod spans;
mod targets;

use crate::ask::ask_in_each;
use crate::compare::{Asked, Compared};
use crate::generate::edition::EDITIONS;
use crate::generate::table::{table, Shape};
use crate::numbers::Numbers;
use crate::run::Run;
use crate::shown::{self, Difference};
use crate::tables::Tables;

/// Changes a good table.
type Way = fn(&mut Numbers, &mut Tables);

const TIMES: usize = 30;

pub fn compare(run: &mut Run) -> Compared<()> {
    run.begin("bad");
    for ways in [
        counts::WAYS,
        spans::WAYS,
        parts::WAYS,
        targets::WAYS,
        further::WAYS,
        codes::WAYS,
    ] {
        compare_ways(run, ways, [5, 5])?;
    }
    run.begin("bad in one edition");
    compare_ways(run, further::OLDER_WAYS, [5, 9])?;
    run.begin("still good");
    compare_ways(run, none::WAYS, [9, 9])
}

fn compare_ways(run: &mut Run, ways: &[(&str, Way)], numbers: [usize; 2]) -> Compared<()> {
    for &(name, way) in ways {
        for edition in EDITIONS.into_iter().cycle().take(TIMES) {
            run.case();
            compare_way(run, edition, name, way, numbers)?;
        }
    }
    Ok(())
}

/// The table is good in the edition before, and then gets the number of the edition where it is asked
/// for what isn't found. One made in RFC 8288's gets that of the other too.
fn compare_way(
    run: &mut Run,
    edition: usize,
    name: &str,
    way: Way,
    numbers: [usize; 2],
) -> Compared<()> {
    let shape = Shape {
        edition,
        params: &[2, 1, 0, 3],
        most: 10,
    };
    let mut tables = table(&mut run.numbers, shape);
    let before = Asked::new(run, &tables).search(run, b"")?;
    way(&mut run.numbers, &mut tables);
    for (edition, &number) in numbers.iter().enumerate().skip(edition) {
        let tables = tables.in_edition(edition);
        let after = Asked::new(run, &tables).search(run, b"")?;
        if (before, after) != (9, number) {
            return Err(Difference {
                asked: format!("{name}: {}", shown::table(&tables)),
                library: format!("search answered {before} before and {after} after"),
                expected: format!("9 before, and {number} after"),
            });
        }
    }
    ask_in_each(run, &tables)
}
