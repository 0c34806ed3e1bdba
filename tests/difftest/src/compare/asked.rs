//! Questions to a table, and writing it.

use super::equal::{equal, equal_rooms};
use super::output::equal_output;
use super::Compared;
use crate::generate::edition::NEWER;
use crate::lent::Lent;
use crate::reached::{Entry, In, FORM_TOO_LONG, RESULT_TOO_LONG};
use crate::run::Run;
use crate::shown::{self, Difference};
use crate::tables::{LentTables, Tables};
use capstanbar::ffi;
use oracle::number::LIMIT;

/// A table that is asked, in lent memory.
pub struct Asked<'t> {
    tables: &'t Tables,
    lent: LentTables,
}

impl<'t> Asked<'t> {
    pub fn new(run: &mut Run, tables: &'t Tables) -> Asked<'t> {
        let lent = LentTables::new(tables, run.salt());
        Asked { tables, lent }
    }

    /// The number of searching.
    pub fn search(&self, run: &mut Run, relation: &[u8]) -> Compared<usize> {
        let asked = || {
            let relation = shown::octets(relation);
            format!("search {relation} in {}", shown::table(self.tables))
        };
        let query = Lent::holding(relation, run.salt());
        let t = self.tables;
        let answer = ffi::search(t.edition, self.lent.raw(), query.room());
        let reference = |edition| {
            oracle::search(
                edition,
                &t.text,
                &t.links,
                &t.params,
                t.link_count,
                t.param_count,
                relation,
            )
        };
        let expected = reference(t.edition);
        self.count(run, Entry::Search, answer.number, || reference(NEWER).0);
        equal(asked, (answer.number, answer.link), expected)?;
        equal_rooms(asked, "relation", &query, relation)?;
        Ok(answer.number)
    }

    /// The number of asking for a context.
    pub fn context(&self, run: &mut Run, base: &[u8], link: usize) -> Compared<usize> {
        let asked = || {
            let (base, table) = (shown::octets(base), shown::table(self.tables));
            format!("context of link {link}, base {base}, in {table}")
        };
        let lent = Lent::holding(base, run.salt());
        let t = self.tables;
        let answer = ffi::context(t.edition, self.lent.raw(), lent.room(), link);
        let reference = |edition| {
            oracle::context(
                edition,
                &t.text,
                base,
                &t.links,
                &t.params,
                t.link_count,
                t.param_count,
                link,
            )
        };
        let expected = reference(t.edition);
        self.count(run, Entry::Context, answer.number, || reference(NEWER).0);
        let numbers = (answer.number, answer.source, answer.start, answer.end);
        equal(asked, numbers, expected)?;
        equal_rooms(asked, "base", &lent, base)?;
        Ok(answer.number)
    }

    /// The number of copying a value into that many octets, and the copy.
    pub fn value(
        &self,
        run: &mut Run,
        link: usize,
        place: usize,
        room: usize,
    ) -> Compared<(usize, Vec<u8>)> {
        let asked = || {
            let table = shown::table(self.tables);
            format!("value of link {link}, place {place}, into {room} octets, in {table}")
        };
        let mut out = Lent::new(room, run.salt());
        let t = self.tables;
        let answer = ffi::value(t.edition, self.lent.raw(), link, place, out.room_mut());
        let mut copy = vec![0; room];
        let mut reference = |edition| {
            oracle::value(
                edition,
                &t.text,
                &t.links,
                &t.params,
                t.link_count,
                t.param_count,
                link,
                place,
                &mut copy,
            )
        };
        let expected = reference(t.edition);
        self.count(run, Entry::Value, answer.number, || reference(NEWER).0);
        equal_output(asked, answer, &out, expected, copy)
    }

    /// The number of copying a link's title into that many octets, and the copy.
    pub fn title(&self, run: &mut Run, link: usize, room: usize) -> Compared<(usize, Vec<u8>)> {
        let asked = || {
            let table = shown::table(self.tables);
            format!("title of link {link}, into {room} octets, in {table}")
        };
        let mut out = Lent::new(room, run.salt());
        let t = self.tables;
        let answer = ffi::title(t.edition, self.lent.raw(), link, out.room_mut());
        let mut copy = vec![0; room];
        let mut reference = |edition| {
            oracle::title(
                edition,
                &t.text,
                &t.links,
                &t.params,
                t.link_count,
                t.param_count,
                link,
                &mut copy,
            )
        };
        let expected = reference(t.edition);
        self.count(run, Entry::Title, answer.number, || reference(NEWER).0);
        equal_output(asked, answer, &out, expected, copy)
    }

    /// The number of resolving a link's context into that many octets, and the context.
    pub fn resolved_context(
        &self,
        run: &mut Run,
        base: &[u8],
        link: usize,
        room: usize,
    ) -> Compared<(usize, Vec<u8>)> {
        let asked = || {
            let (base, table) = (shown::octets(base), shown::table(self.tables));
            format!("resolved context of link {link}, base {base}, into {room} octets, in {table}")
        };
        let lent = Lent::holding(base, run.salt());
        let mut out = Lent::new(room, run.salt());
        let t = self.tables;
        let answer = ffi::resolved_context(
            t.edition,
            self.lent.raw(),
            lent.room(),
            link,
            out.room_mut(),
        );
        let mut context = vec![0; room];
        let mut reference = |edition| {
            oracle::resolved_context(
                edition,
                &t.text,
                base,
                &t.links,
                &t.params,
                t.link_count,
                t.param_count,
                link,
                &mut context,
            )
        };
        let expected = reference(t.edition);
        let is_long = [&t.text[..], base]
            .iter()
            .any(|octets| octets.len() > LIMIT);
        let told = |number| match number {
            1 if !is_long => RESULT_TOO_LONG,
            number => number,
        };
        let else_told = || told(reference(NEWER).0);
        self.count(run, Entry::ResolvedContext, told(answer.number), else_told);
        equal_rooms(asked, "base", &lent, base)?;
        equal_output(asked, answer, &out, expected, context)
    }

    /// The number of writing into that many octets, and the form.
    pub fn write(&self, run: &mut Run, room: usize) -> Compared<(usize, Vec<u8>)> {
        let asked = || {
            let table = shown::table(self.tables);
            format!("write into {room} octets, in {table}")
        };
        let mut out = Lent::new(room, run.salt());
        let t = self.tables;
        let answer = ffi::write(t.edition, self.lent.raw(), out.room_mut());
        let mut form = vec![0; room];
        let mut reference = |edition| {
            oracle::write(
                edition,
                &t.text,
                &t.links,
                &t.params,
                t.link_count,
                t.param_count,
                &mut form,
            )
        };
        let expected = reference(t.edition);
        let told = |number| match number {
            1 if t.text.len() <= LIMIT => FORM_TOO_LONG,
            number => number,
        };
        let else_told = || told(reference(NEWER).0);
        self.count(run, Entry::Write, told(answer.number), else_told);
        equal_output(asked, answer, &out, expected, form)
    }

    /// Counts the number; of an unknown edition, what RFC 8288's would answer.
    fn count(&self, run: &mut Run, entry: Entry, number: usize, newer: impl FnOnce() -> usize) {
        let edition = In::of(self.tables.edition);
        let number = match edition {
            In::Unknown => newer(),
            _ => number,
        };
        run.reached.count_in(edition, entry, number);
    }

    /// Nothing asked may have changed the tables.
    pub fn unchanged(&self) -> Compared<()> {
        if self.lent.unchanged(self.tables) {
            return Ok(());
        }
        Err(Difference {
            asked: format!("questions to {}", shown::table(self.tables)),
            library: shown::raw_table(self.lent.raw()),
            expected: String::from("the table as it was"),
        })
    }
}
