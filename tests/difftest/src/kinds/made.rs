//! Good tables that no reading gave.

use crate::ask::ask_in_each;
use crate::compare::Compared;
use crate::generate::edition;
use crate::generate::table::{table, Shape};
use crate::run::Run;
use crate::shown::{self, Difference};
use crate::tables::Tables;

const CASES: usize = 3000;

pub fn compare(run: &mut Run) -> Compared<()> {
    run.begin("made");
    for case in 0..CASES {
        let counts: Vec<usize> = (0..run.numbers.small(6))
            .map(|_| run.numbers.below(5))
            .collect();
        compare_shape(run, &counts, if case % 10 == 0 { 300 } else { 20 })?;
    }
    // Many parameters whose spans lie on one another: the form is far longer than the text.
    for (links, params) in [(1, 600), (1, 60), (200, 3), (60, 1), (20, 10), (3, 100)] {
        compare_shape(run, &vec![params; links], 300)?;
    }
    Ok(())
}

fn compare_shape(run: &mut Run, params: &[usize], most: usize) -> Compared<()> {
    let shape = Shape {
        edition: edition::known(&mut run.numbers),
        params,
        most,
    };
    let mut tables = table(&mut run.numbers, shape);
    run.case();
    if tables.meanings().is_none() {
        return Err(not_good(&tables));
    }
    // Slots past the counts are free.
    for _ in 0..run.numbers.small(7) {
        tables.links.push(run.numbers.next() as usize);
        tables.params.push(usize::MAX);
    }
    ask_in_each(run, &tables)
}

fn not_good(tables: &Tables) -> Difference {
    Difference {
        asked: format!("whether good: {}", shown::table(tables)),
        library: String::from("not asked"),
        expected: String::from("good, as it was made; the reference says it isn't"),
    }
}
