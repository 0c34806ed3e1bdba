//! Which number is answered where several could be.

use super::lengths::form_of;
use crate::compare::{read, Asked, Compared};
use crate::generate::edition::{unknown, EDITIONS};
use crate::generate::octets::REL;
use crate::run::Run;
use crate::shown::{self, Difference};
use crate::tables::Tables;
use oracle::PARAM_SLOTS;

/// In so many unknown editions each table is asked.
const UNKNOWN: usize = 20;

pub fn compare(run: &mut Run) -> Compared<()> {
    read_orders(run)?;
    table_orders(run)
}

/// Reading: 10, 1, 2, 3, 4.
fn read_orders(run: &mut Run) -> Compared<()> {
    let long = b"<a>;x;".repeat(1400);
    for (header, link_slots, param_slots, number) in [
        (&long[..], 0, 0, 1),
        (b"<a>;x;", 0, 0, 2),
        (b"<a>;x", 0, 0, 3),
        (b"<a>;x", 3, PARAM_SLOTS - 1, 3),
        (b"<a>;x", 4, PARAM_SLOTS - 1, 4),
        (b"<a>;x", 4, PARAM_SLOTS, 0),
    ] {
        let unknown = unknown(&mut run.numbers);
        for (edition, number) in [(0, number), (1, number), (unknown, 10)] {
            run.case();
            let (answer, _) = read(run, edition, header, link_slots, param_slots)?;
            if answer.number != number {
                let header = shown::octets(header);
                return Err(Difference {
                    asked: format!("read {header} in edition {edition}"),
                    library: format!("{answer:?}"),
                    expected: format!("number {number}"),
                });
            }
        }
    }
    Ok(())
}

/// The numbers that a table gets where nothing is found, no link or parameter is there, and the
/// output has no room.
#[derive(Clone, Copy, Debug, PartialEq)]
struct Answers {
    search: usize,
    context_of_no_link: usize,
    value_of_no_link: usize,
    value_at_no_place: usize,
    value_in_no_room: usize,
    title_of_untitled_link: usize,
    title_of_no_link: usize,
    write: usize,
}

const GOOD: Answers = Answers {
    search: 9,
    context_of_no_link: 8,
    value_of_no_link: 8,
    value_at_no_place: 9,
    value_in_no_room: 7,
    title_of_untitled_link: 9,
    title_of_no_link: 8,
    write: 7,
};

const fn refused(number: usize) -> Answers {
    Answers {
        search: number,
        context_of_no_link: number,
        value_of_no_link: number,
        value_at_no_place: number,
        value_in_no_room: number,
        title_of_untitled_link: number,
        title_of_no_link: number,
        write: number,
    }
}

fn expect(run: &mut Run, tables: &Tables, expected: Answers) -> Compared<()> {
    let asked = Asked::new(run, tables);
    let answers = Answers {
        search: asked.search(run, b"")?,
        context_of_no_link: asked.context(run, b"", tables.link_count)?,
        value_of_no_link: asked.value(run, tables.link_count, 9999, 0)?.0,
        value_at_no_place: asked.value(run, 0, 9999, 0)?.0,
        value_in_no_room: asked.value(run, 0, 0, 0)?.0,
        title_of_untitled_link: asked.title(run, 0, 0)?.0,
        title_of_no_link: asked.title(run, tables.link_count, 0)?.0,
        write: asked.write(run, 0)?.0,
    };
    if answers == expected {
        return Ok(());
    }
    Err(Difference {
        asked: format!("the order of numbers in {}", shown::table(tables)),
        library: format!("{answers:?}"),
        expected: format!("{expected:?}"),
    })
}

/// Of the first parameter's `rel` only `re` is left.
fn rename(tables: &mut Tables) {
    tables.params[1] = 2;
    tables.params[5] = 0;
}

/// An unknown edition before everything; then, of any two things that are wrong with a table or a call, the one that is asked first.
fn table_orders(run: &mut Run) -> Compared<()> {
    let good = Tables::new(0, b"rel".to_vec(), &[[0, 3, 0, 1]], &[[0, 3, 0, 1, 1, REL]]);
    let mut bad = good.clone();
    bad.params[4] = 3;
    let mut bad_code = good.clone();
    bad_code.params[5] = 0;
    let mut bad_and_long = bad.clone();
    bad_and_long.text.resize(8193, b'a');
    let mut long_form = form_of(2, 9000);
    let mut no_relation_and_long_form = long_form.clone();
    rename(&mut no_relation_and_long_form);
    let mut no_relation = good.clone();
    rename(&mut no_relation);
    let mut bad_code_and_no_relation = no_relation.clone();
    bad_code_and_no_relation.params[5] = REL;
    let mut bad_and_no_relation = no_relation.clone();
    bad_and_no_relation.links[3] = 2;
    long_form.links.extend([7; 3]);
    for (tables, expected) in [
        (good, GOOD),
        (bad, refused(5)),
        (bad_code, refused(5)),
        (bad_code_and_no_relation, refused(5)),
        (bad_and_long, refused(1)),
        (bad_and_no_relation, refused(5)),
        (no_relation, Answers { write: 6, ..GOOD }),
        (no_relation_and_long_form, Answers { write: 6, ..GOOD }),
        (long_form, Answers { write: 1, ..GOOD }),
    ] {
        for edition in EDITIONS {
            run.case();
            expect(run, &tables.in_edition(edition), expected)?;
        }
        for _ in 0..UNKNOWN {
            run.case();
            let unknown = unknown(&mut run.numbers);
            expect(run, &tables.in_edition(unknown), refused(10))?;
        }
    }
    Ok(())
}
