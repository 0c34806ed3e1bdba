//! A link's title as the view tells it.

use crate::compare::{equal, Compared};
use crate::titles::{is_right, value_of};
use capstanbar::{Link, Title};
use oracle::number::{NOT_FOUND, NO_OUTPUT_ROOM};
use oracle::LinkMeaning;

/// It is text just if it comes of a right `title*`, and octets if it comes of `title`.
pub fn compare(link: Link, meaning: &LinkMeaning) -> Compared<()> {
    let is_text = value_of(meaning, b"title*").is_some_and(is_right);
    let title = meaning.title();
    let length = title.as_ref().map_or(0, Vec::len);
    let expected = title.map(|octets| (is_text, octets)).ok_or(NOT_FOUND);
    let at = || format!("title of link {}", link.number());
    equal(at, told(link, length), expected)?;
    match length.checked_sub(1) {
        Some(fewer) => equal(at, told(link, fewer), Err(NO_OUTPUT_ROOM)),
        None => Ok(()),
    }
}

/// Whether it is text, and its octets, or the number of the refusal.
fn told(link: Link, room: usize) -> Result<(bool, Vec<u8>), usize> {
    let mut out = vec![0; room];
    let title = link.title(&mut out);
    let told = title.map(|title| (matches!(title, Title::Text(_)), title.as_bytes().to_vec()));
    told.map_err(|refusal| refusal.number())
}
