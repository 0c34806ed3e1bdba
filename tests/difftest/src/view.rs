//! What the crate's view of a table hands out.

mod lookups;
mod resolved;
mod titles;
pub mod walks;

use crate::compare::{equal, Compared};
use crate::generate::edition::NEWER;
use crate::shown::{self, Difference};
use crate::tables::Tables;
use capstanbar::{Counts, Edition, Table};
use oracle::LinkMeaning;

/// The view is there exactly of tables that are good in their edition, of texts that aren't too long;
/// it hands out the records' octets, finds parameters by their names, tells titles, and resolves.
pub fn compare(tables: &Tables, meanings: Option<&[LinkMeaning]>) -> Compared<()> {
    let counts = Counts {
        links: tables.link_count,
        params: tables.param_count,
    };
    let expected = match meanings {
        _ if tables.text.len() > oracle::number::LIMIT => Err(1),
        None => Err(5),
        Some(links) => Ok(links.to_vec()),
    };
    let edition = match tables.edition {
        NEWER => Edition::Rfc8288,
        _ => Edition::Rfc5988,
    };
    let table = Table::new_in(edition, &tables.text, &tables.links, &tables.params, counts);
    let seen = match table {
        Ok(table) => Ok(table.links().map(meaning).collect::<Vec<_>>()),
        Err(refusal) => Err(refusal.number()),
    };
    let view = || format!("view of {}", shown::table(tables));
    equal(view, &seen, &expected)?;
    let (Ok(table), Ok(meanings)) = (table, expected) else {
        return Ok(());
    };
    let mut links = table.links().zip(&meanings);
    // The reference takes its time to resolve, so one link has to do.
    let resolved = tables.text.len() % meanings.len().max(1);
    let found = links.try_for_each(|(link, meaning)| {
        lookups::compare(link, meaning)?;
        titles::compare(link, meaning)?;
        match link.number() == resolved {
            true => resolved::compare(link, meaning),
            false => Ok(()),
        }
    });
    found.map_err(|difference| Difference {
        asked: format!("{} in the {}", difference.asked, view()),
        ..difference
    })
}

/// The meaning of a link as the view tells it.
fn meaning(link: capstanbar::Link) -> LinkMeaning {
    let params = link.params().map(|param| {
        let mut room = vec![0; param.raw_value().len()];
        let value = param.value(&mut room).map(<[u8]>::to_vec);
        oracle::ParamMeaning {
            name: param.name().to_ascii_lowercase(),
            value: value.unwrap_or_else(|refusal| refusal.to_string().into_bytes()),
        }
    });
    LinkMeaning {
        target: link.target().to_vec(),
        params: params.collect(),
    }
}
