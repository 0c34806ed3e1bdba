//! Everything that can be asked of a table, at the edges of each question.

use crate::codes;
use crate::compare::{read, read_alike, Asked, Compared};
use crate::generate::edition::{self, EDITIONS};
use crate::reached::{Entry, In};
use crate::resolved;
use crate::run::Run;
use crate::shown::{self, Difference};
use crate::tables::Tables;
use crate::titles;
use crate::view;
use oracle::number::LIMIT;
use oracle::{LinkMeaning, PARAM_SLOTS};

/// Up to so many links, parameters and relations each one is asked for; of more, as many.
const ASKED: usize = 4;

/// Of so many tables one is asked in an unknown edition too.
const UNKNOWN: usize = 4;

/// Asks a table, good or bad, in each edition, whichever it was made or read in.
pub fn ask_in_each(run: &mut Run, tables: &Tables) -> Compared<()> {
    for edition in EDITIONS {
        ask(run, &tables.in_edition(edition))?;
    }
    Ok(())
}

/// Asks a table, good or bad, in all ways, and reads back what is written.
pub fn ask(run: &mut Run, tables: &Tables) -> Compared<()> {
    let meanings = tables.meanings();
    let links = meanings.as_deref().unwrap_or_default();
    let asked = Asked::new(run, tables);
    searches(run, &asked, links)?;
    contexts(run, &asked, links.len())?;
    values(run, &asked, links)?;
    titles::compare(run, &asked, links)?;
    resolved::compare(run, &asked, links)?;
    let form = writes(run, &asked)?;
    asked.unchanged()?;
    if run.numbers.once_in(UNKNOWN) {
        unknown(run, tables)?;
    }
    view::compare(tables, meanings.as_deref())?;
    if meanings.is_some() {
        codes::compare(run, tables)?;
        records(run, tables);
        titles::count(run, In::of(tables.edition), links);
    }
    match form {
        Some(form) => read_back(run, tables, links, &form),
        None => Ok(()),
    }
}

/// Asks in an unknown edition.
fn unknown(run: &mut Run, tables: &Tables) -> Compared<()> {
    let edition = edition::unknown(&mut run.numbers);
    let tables = tables.in_edition(edition);
    let asked = Asked::new(run, &tables);
    let (link, room) = (run.numbers.below(3), run.numbers.below(40));
    asked.search(run, b"next")?;
    asked.context(run, b"http://base/", link)?;
    asked.value(run, link, 0, room)?;
    asked.title(run, link, room)?;
    asked.resolved_context(run, b"http://base/", link, room)?;
    asked.write(run, room)?;
    asked.unchanged()
}

/// Counts the forms and the codes in a good table's records.
fn records(run: &mut Run, tables: &Tables) {
    let params = &tables.params.as_chunks().0[..tables.param_count];
    for &[_, _, _, _, form, code] in params {
        let edition = In::of(tables.edition);
        run.reached.count_in(edition, Entry::Form, form);
        run.reached.count_in(edition, Entry::Code, code);
    }
}

/// Some of the numbers below the count, or all where there are few.
fn some_below(run: &mut Run, count: usize) -> Vec<usize> {
    if count <= ASKED {
        return (0..count).collect();
    }
    (0..ASKED).map(|_| run.numbers.below(count)).collect()
}

fn searches(run: &mut Run, asked: &Asked, links: &[LinkMeaning]) -> Compared<()> {
    asked.search(run, b"")?;
    asked.search(run, b"next")?;
    let relations: Vec<Vec<u8>> = links.iter().flat_map(LinkMeaning::relations).collect();
    for which in some_below(run, relations.len()) {
        let mut query = relations[which].clone();
        asked.search(run, &query)?;
        // In letters this is the other case; other octets it changes into what isn't the same.
        let at = run.numbers.below(query.len());
        query[at] ^= 0x20;
        asked.search(run, &query)?;
        let more = run.numbers.of(b" a\\,");
        query.insert(run.numbers.below(query.len() + 1), more);
        asked.search(run, &query)?;
        query.truncate(run.numbers.below(query.len()));
        asked.search(run, &query)?;
    }
    Ok(())
}

fn contexts(run: &mut Run, asked: &Asked, count: usize) -> Compared<()> {
    for link in some_below(run, count) {
        asked.context(run, b"http://base/", link)?;
    }
    for link in [0, count.saturating_sub(1), count, usize::MAX] {
        asked.context(run, b"", link)?;
    }
    Ok(())
}

fn values(run: &mut Run, asked: &Asked, links: &[LinkMeaning]) -> Compared<()> {
    for link in some_below(run, links.len()) {
        let params = &links[link].params;
        for place in some_below(run, params.len()) {
            let length = params[place].value.len();
            for room in [length, length + 1, length.saturating_sub(1), 0] {
                asked.value(run, link, place, room)?;
            }
        }
        asked.value(run, link, params.len(), 8)?;
        asked.value(run, link, usize::MAX, 8)?;
    }
    for link in [links.len(), usize::MAX] {
        asked.value(run, link, 0, 8)?;
    }
    Ok(())
}

/// Writes in rooms at, over and under; the form, if the table is accepted.
fn writes(run: &mut Run, asked: &Asked) -> Compared<Option<Vec<u8>>> {
    let (mut number, mut form) = asked.write(run, 200)?;
    if number == 7 {
        (number, form) = asked.write(run, LIMIT)?;
    }
    if number != 0 {
        asked.write(run, 0)?;
        return Ok(None);
    }
    let length = form.len();
    for room in [length, length + 1, length.saturating_sub(1), 0] {
        asked.write(run, room)?;
    }
    Ok(Some(form))
}

/// What was written, read in just the room for the table's counts, has its counts and meanings, and
/// the same records in each edition.
fn read_back(run: &mut Run, tables: &Tables, links: &[LinkMeaning], form: &[u8]) -> Compared<()> {
    let (link_count, param_count) = (tables.link_count, tables.param_count);
    let (link_slots, param_slots) = (4 * link_count, PARAM_SLOTS * param_count);
    let (answer, back) = read(run, tables.edition, form, link_slots, param_slots)?;
    let counts = (answer.number, answer.links, answer.params);
    let same = counts == (0, link_count, param_count) && back.meanings().as_deref() == Some(links);
    run.also("read-back");
    if !same {
        return Err(Difference {
            asked: format!(
                "read back {}, written of {}",
                shown::octets(form),
                shown::table(tables)
            ),
            library: format!("{answer:?}, meanings {:?}", back.meanings()),
            expected: format!("{link_count} links, {param_count} parameters, meanings {links:?}"),
        });
    }
    for edition in EDITIONS {
        read_alike(run, edition, answer, &back)?;
    }
    Ok(())
}
