//! Writing a table in the one fixed form.

use crate::grammar::TOKEN;
use crate::meaning::{links_meanings, LinkMeaning, ParamMeaning};
use crate::number::{LIMIT, NO_RELATION, TOO_LONG};
use crate::output::put;
use crate::sets::derives;
use crate::table::asked_links;

/// Writes the table's written form and answers number and length.
/// Numbers in order: 10, 1 (text), 5, 6, 1 (form), 7.
pub fn write(
    edition: usize,
    text: &[u8],
    link_slots: &[usize],
    param_slots: &[usize],
    link_count: usize,
    param_count: usize,
    out: &mut [u8],
) -> (usize, usize) {
    let links = asked_links(
        edition,
        text,
        link_slots,
        param_slots,
        link_count,
        param_count,
    );
    let form = links.and_then(|links| {
        let meanings = links_meanings(text, &links);
        if meanings.iter().any(|link| link.relations().is_empty()) {
            return Err(NO_RELATION);
        }
        let form = written_links(&meanings);
        if form.len() > LIMIT {
            return Err(TOO_LONG);
        }
        Ok(form)
    });
    put(form, out)
}

fn written_links(links: &[LinkMeaning]) -> Vec<u8> {
    let links: Vec<Vec<u8>> = links.iter().map(written_link).collect();
    links.join(&b", "[..])
}

fn written_link(link: &LinkMeaning) -> Vec<u8> {
    let params: Vec<Vec<u8>> = link.params.iter().map(written_param).collect();
    [b"<", &link.target[..], b">", &params.concat()].concat()
}

fn written_param(param: &ParamMeaning) -> Vec<u8> {
    [b"; ", &param.name[..], b"=", &written_value(&param.value)].concat()
}

/// Bare if it is a token, else in quotes with `\` before `"` and `\` only.
fn written_value(value: &[u8]) -> Vec<u8> {
    if derives(&TOKEN, value) {
        return value.to_vec();
    }
    let mut written = vec![b'"'];
    for &octet in value {
        if matches!(octet, b'"' | b'\\') {
            written.push(b'\\');
        }
        written.push(octet);
    }
    written.push(b'"');
    written
}
