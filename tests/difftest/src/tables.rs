//! A text with its tables and counts, and the edition that they are asked in.

use crate::lent::Lent;
use capstanbar::ffi::RawTable;
use oracle::PARAM_SLOTS;

#[derive(Clone)]
pub struct Tables {
    pub edition: usize,
    pub text: Vec<u8>,
    pub links: Vec<usize>,
    pub params: Vec<usize>,
    pub link_count: usize,
    pub param_count: usize,
}

impl Tables {
    pub fn new(
        edition: usize,
        text: Vec<u8>,
        links: &[[usize; 4]],
        params: &[[usize; PARAM_SLOTS]],
    ) -> Tables {
        Tables {
            edition,
            text,
            links: links.concat(),
            params: params.concat(),
            link_count: links.len(),
            param_count: params.len(),
        }
    }

    /// The same ones, asked in that edition.
    pub fn in_edition(&self, edition: usize) -> Tables {
        Tables {
            edition,
            ..self.clone()
        }
    }

    pub fn raw(&self) -> RawTable<'_> {
        RawTable {
            text: &self.text,
            links: &self.links,
            params: &self.params,
            link_count: self.link_count,
            param_count: self.param_count,
        }
    }

    pub fn meanings(&self) -> Option<Vec<oracle::LinkMeaning>> {
        oracle::meanings(
            self.edition,
            &self.text,
            &self.links,
            &self.params,
            self.link_count,
            self.param_count,
        )
    }
}

/// Tables in lent memory, which nothing asked of them may change.
pub struct LentTables {
    text: Lent<u8>,
    links: Lent<usize>,
    params: Lent<usize>,
    link_count: usize,
    param_count: usize,
}

impl LentTables {
    pub fn new(tables: &Tables, salt: u64) -> LentTables {
        LentTables {
            text: Lent::holding(&tables.text, salt),
            links: Lent::holding(&tables.links, salt),
            params: Lent::holding(&tables.params, salt),
            link_count: tables.link_count,
            param_count: tables.param_count,
        }
    }

    pub fn raw(&self) -> RawTable<'_> {
        RawTable {
            text: self.text.room(),
            links: self.links.room(),
            params: self.params.room(),
            link_count: self.link_count,
            param_count: self.param_count,
        }
    }

    pub fn unchanged(&self, tables: &Tables) -> bool {
        self.text.holds_just(&tables.text)
            && self.links.holds_just(&tables.links)
            && self.params.holds_just(&tables.params)
    }
}
