//! The contract's own rows, limits, orders and laws.

mod codes;
mod comparisons;
mod components;
mod contexts;
mod editions;
mod extended;
mod feeds;
mod laws;
mod limits;
mod program;
mod questions;
mod references;
mod resolution;
mod rfc8288;
mod rows;
mod segments;
mod tables;
mod targets;
mod titles;
mod walks;
mod writing;

use oracle::{ReadAnswer, PARAM_SLOTS};

/// What slots and output hold before a call.
const HELD: usize = 7777;
const HELD_OCTET: u8 = 0xEE;

/// The editions that there are.
const EDITIONS: [usize; 2] = [0, 1];

/// A text with its tables and counts, and the edition to ask them in.
#[derive(Clone, Debug)]
struct Tables {
    edition: usize,
    text: Vec<u8>,
    link_slots: Vec<usize>,
    param_slots: Vec<usize>,
    link_count: usize,
    param_count: usize,
}

impl Tables {
    fn new(text: &[u8], links: &[[usize; 4]], params: &[[usize; PARAM_SLOTS]]) -> Tables {
        Tables {
            edition: 0,
            text: text.to_vec(),
            link_slots: links.concat(),
            param_slots: params.concat(),
            link_count: links.len(),
            param_count: params.len(),
        }
    }

    fn in_edition(&self, edition: usize) -> Tables {
        Tables {
            edition,
            ..self.clone()
        }
    }

    fn good(&self) -> bool {
        oracle::good(
            self.edition,
            &self.text,
            &self.link_slots,
            &self.param_slots,
            self.link_count,
            self.param_count,
        )
    }

    fn meanings(&self) -> Option<Vec<oracle::LinkMeaning>> {
        oracle::meanings(
            self.edition,
            &self.text,
            &self.link_slots,
            &self.param_slots,
            self.link_count,
            self.param_count,
        )
    }

    fn search(&self, relation: impl AsRef<[u8]>) -> (usize, usize) {
        oracle::search(
            self.edition,
            &self.text,
            &self.link_slots,
            &self.param_slots,
            self.link_count,
            self.param_count,
            relation.as_ref(),
        )
    }

    fn context(&self, base: &[u8], link: usize) -> (usize, usize, usize, usize) {
        oracle::context(
            self.edition,
            &self.text,
            base,
            &self.link_slots,
            &self.param_slots,
            self.link_count,
            self.param_count,
            link,
        )
    }

    /// Copies a value into that many octets.
    fn value(&self, link: usize, place: usize, room: usize) -> Result<Vec<u8>, usize> {
        let mut out = vec![HELD_OCTET; room];
        let answer = oracle::value(
            self.edition,
            &self.text,
            &self.link_slots,
            &self.param_slots,
            self.link_count,
            self.param_count,
            link,
            place,
            &mut out,
        );
        output(answer, out)
    }

    /// Copies a link's title into that many octets.
    fn title(&self, link: usize, room: usize) -> Result<Vec<u8>, usize> {
        let mut out = vec![HELD_OCTET; room];
        let answer = oracle::title(
            self.edition,
            &self.text,
            &self.link_slots,
            &self.param_slots,
            self.link_count,
            self.param_count,
            link,
            &mut out,
        );
        output(answer, out)
    }

    /// Resolves a link's context into that many octets.
    fn resolved_context(&self, base: &[u8], link: usize, room: usize) -> Result<Vec<u8>, usize> {
        let mut out = vec![HELD_OCTET; room];
        let answer = oracle::resolved_context(
            self.edition,
            &self.text,
            base,
            &self.link_slots,
            &self.param_slots,
            self.link_count,
            self.param_count,
            link,
            &mut out,
        );
        output(answer, out)
    }

    /// Writes the form into that many octets.
    fn write(&self, room: usize) -> Result<Vec<u8>, usize> {
        let mut out = vec![HELD_OCTET; room];
        let answer = oracle::write(
            self.edition,
            &self.text,
            &self.link_slots,
            &self.param_slots,
            self.link_count,
            self.param_count,
            &mut out,
        );
        output(answer, out)
    }
}

/// The octets answered, or the number of a refusal; the rest of the output
/// must hold what it held.
fn output((number, length): (usize, usize), mut out: Vec<u8>) -> Result<Vec<u8>, usize> {
    assert!(out[length..].iter().all(|&octet| octet == HELD_OCTET));
    out.truncate(length);
    match number {
        0 => Ok(out),
        _ => {
            assert_eq!(length, 0);
            Err(number)
        }
    }
}

/// Reads in the given room; slots past those used must hold what they held.
fn read_in(
    edition: usize,
    header: &[u8],
    link_room: usize,
    param_room: usize,
) -> (ReadAnswer, Tables) {
    let mut link_slots = vec![HELD; link_room * 4];
    let mut param_slots = vec![HELD; param_room * PARAM_SLOTS];
    let answer = oracle::read(edition, header, &mut link_slots, &mut param_slots);
    let used = (answer.links * 4, answer.params * PARAM_SLOTS);
    assert!(link_slots[used.0..].iter().all(|&slot| slot == HELD));
    assert!(param_slots[used.1..].iter().all(|&slot| slot == HELD));
    let tables = Tables {
        edition,
        text: header.to_vec(),
        link_slots: link_slots[..used.0].to_vec(),
        param_slots: param_slots[..used.1].to_vec(),
        link_count: answer.links,
        param_count: answer.params,
    };
    (answer, tables)
}

/// Reads in room for whatever a header of 8,192 octets may hold.
fn read_amply(edition: usize, header: &[u8]) -> (ReadAnswer, Tables) {
    read_in(edition, header, 2731, 4096)
}

/// The tables of a header that must be accepted.
fn accepted(header: &[u8]) -> Tables {
    accepted_in(0, header)
}

fn accepted_in(edition: usize, header: &[u8]) -> Tables {
    let (answer, tables) = read_amply(edition, header);
    assert_eq!((answer.number, answer.place), (0, 0), "{header:?}");
    assert!(tables.good());
    tables
}

fn refusal(number: usize, place: usize) -> ReadAnswer {
    ReadAnswer {
        number,
        place,
        links: 0,
        params: 0,
    }
}

fn written(tables: &Tables) -> Result<String, usize> {
    tables
        .write(8192)
        .map(|form| String::from_utf8(form).unwrap())
}
