//! The independent reader's entries, over the same tables.

use crate::library::{Table, EDITION};

pub fn search(t: &Table, relation: &[u8]) -> (usize, usize) {
    oracle::search(
        EDITION,
        &t.text,
        &t.links,
        &t.params,
        t.link_count,
        t.param_count,
        relation,
    )
}

pub fn value(t: &Table, link: usize, place: usize, out: &mut [u8]) -> (usize, usize) {
    oracle::value(
        EDITION,
        &t.text,
        &t.links,
        &t.params,
        t.link_count,
        t.param_count,
        link,
        place,
        out,
    )
}

pub fn title(t: &Table, link: usize, out: &mut [u8]) -> (usize, usize) {
    oracle::title(
        EDITION,
        &t.text,
        &t.links,
        &t.params,
        t.link_count,
        t.param_count,
        link,
        out,
    )
}

pub fn resolved_context(t: &Table, base: &[u8], link: usize, out: &mut [u8]) -> (usize, usize) {
    oracle::resolved_context(
        EDITION,
        &t.text,
        base,
        &t.links,
        &t.params,
        t.link_count,
        t.param_count,
        link,
        out,
    )
}

pub fn write(t: &Table, out: &mut [u8]) -> (usize, usize) {
    oracle::write(
        EDITION,
        &t.text,
        &t.links,
        &t.params,
        t.link_count,
        t.param_count,
        out,
    )
}
