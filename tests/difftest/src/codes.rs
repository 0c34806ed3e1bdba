//! The codes of the names of a good table, those of names that a link has again, and that names
//! compare as their codes say.

use crate::compare::{compare_texts, compare_texts_of, equal, name_code, Compared};
use crate::generate::octets::known;
use crate::reached::Entry;
use crate::run::Run;
use crate::shown;
use crate::tables::Tables;
use oracle::PARAM_SLOTS;

pub fn compare(run: &mut Run, tables: &Tables) -> Compared<()> {
    let links = &tables.links.as_chunks().0[..tables.link_count];
    let params = tables.params.as_chunks().0;
    for &[_, _, first, count] in links {
        compare_link(run, &tables.text, &params[first..first + count])?;
    }
    Ok(())
}

fn compare_link(run: &mut Run, text: &[u8], params: &[[usize; PARAM_SLOTS]]) -> Compared<()> {
    let mut names: Vec<&[u8]> = vec![];
    for &[start, end, ..] in params {
        let name = &text[start..end];
        let code = name_code(run, name)?;
        compare_known(run, name, code)?;
        let mut again = false;
        for former in &names {
            again |= compare_texts_of(run, former, name)?;
        }
        if again {
            run.reached.count(Entry::Again, code);
        }
        names.push(name);
    }
    Ok(())
}

/// A name is the same as the known one of its code, and as no other known one.
fn compare_known(run: &mut Run, name: &[u8], code: usize) -> Compared<()> {
    for (number, known) in (1..).zip(known()) {
        let same = compare_texts(run, name, known)?;
        let asked = || format!("compare {} with name {number}", shown::octets(name));
        equal(asked, same, code == number)?;
    }
    Ok(())
}
