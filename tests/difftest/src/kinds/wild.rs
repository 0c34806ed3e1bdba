//! Tables with any number in any slot: good or bad as the reference says.

use super::read_amply;
use crate::ask::ask_in_each;
use crate::compare::Compared;
use crate::generate::edition;
use crate::generate::header::{derive, SHORT};
use crate::generate::table::{table, Shape};
use crate::numbers::Numbers;
use crate::run::Run;
use crate::tables::Tables;
use oracle::PARAM_SLOTS;

const CASES: usize = 12000;

pub fn compare(run: &mut Run) -> Compared<()> {
    run.begin("wild");
    for _ in 0..CASES {
        let mut tables = some_table(run)?;
        for _ in 0..=run.numbers.small(3) {
            change(&mut run.numbers, &mut tables);
        }
        run.case();
        ask_in_each(run, &tables)?;
    }
    Ok(())
}

/// A good table, made or read.
fn some_table(run: &mut Run) -> Compared<Tables> {
    let edition = edition::known(&mut run.numbers);
    if run.numbers.once_in(2) {
        let params = [
            1 + run.numbers.below(3),
            run.numbers.below(3),
            run.numbers.below(3),
        ];
        let count = run.numbers.below(params.len() + 1);
        let shape = Shape {
            edition,
            params: &params[..count],
            most: 12,
        };
        return Ok(table(&mut run.numbers, shape));
    }
    let header = derive(&mut run.numbers, edition, SHORT).header;
    let (_, tables) = read_amply(run, edition, &header)?;
    Ok(tables)
}

/// Puts another number into a slot or a count, or another octet into the text.
fn change(numbers: &mut Numbers, tables: &mut Tables) {
    let links = tables.links.len().min(tables.link_count.saturating_mul(4));
    let params = tables
        .params
        .len()
        .min(tables.param_count.saturating_mul(PARAM_SLOTS));
    match numbers.below(8) {
        0 => tables.link_count = near(numbers, tables.link_count),
        1 => tables.param_count = near(numbers, tables.param_count),
        2 if !tables.text.is_empty() => {
            let at = numbers.below(tables.text.len());
            tables.text[at] = numbers.octet();
        }
        3 => {
            tables.text.truncate(numbers.below(tables.text.len() + 1));
        }
        4 | 5 if links > 0 => {
            let at = numbers.below(links);
            tables.links[at] = near(numbers, tables.links[at]);
        }
        _ if params > 0 => {
            let at = numbers.below(params);
            tables.params[at] = near(numbers, tables.params[at]);
        }
        _ => {}
    }
}

/// A number near this one, or any small or huge one.
fn near(numbers: &mut Numbers, number: usize) -> usize {
    match numbers.below(8) {
        0 | 1 => number.wrapping_add(1),
        2 | 3 => number.wrapping_sub(1),
        4 => numbers.below(4),
        5 => numbers.below(100),
        6 => usize::MAX - numbers.below(3),
        _ => (1 << (60 + numbers.below(4))) + numbers.below(3),
    }
}
