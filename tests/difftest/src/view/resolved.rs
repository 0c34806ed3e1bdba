//! A link's target and context, resolved through the view.

use crate::compare::{equal, Compared};
use crate::shown;
use capstanbar::{Link, Refusal};
use oracle::number::NO_OUTPUT_ROOM;
use oracle::LinkMeaning;

const BASE: &[u8] = b"http://a/b/c/d;p?q#f";

/// In just the room, and in an octet fewer.
pub fn compare(link: Link, meaning: &LinkMeaning) -> Compared<()> {
    let target = oracle::resolved(&meaning.target, BASE);
    compare_in_rooms(link, "target", |out| link.resolve(BASE, out), target)?;
    let context = meaning.resolved_context(BASE);
    compare_in_rooms(
        link,
        "context",
        |out| link.resolved_context(BASE, out),
        context,
    )
}

fn compare_in_rooms(
    link: Link,
    what: &str,
    ask: impl for<'o> Fn(&'o mut [u8]) -> Result<&'o [u8], Refusal>,
    expected: Result<Vec<u8>, usize>,
) -> Compared<()> {
    let base = shown::octets(BASE);
    let at = || format!("{what} of link {} resolved on {base}", link.number());
    let told = |room| {
        let mut out = vec![0; room];
        let resolved = ask(&mut out).map(<[u8]>::to_vec);
        resolved.map_err(|refusal| refusal.number())
    };
    let length = expected.as_ref().map_or(0, Vec::len);
    equal(at, told(length), expected)?;
    match length.checked_sub(1) {
        Some(fewer) => equal(at, told(fewer), Err(NO_OUTPUT_ROOM)),
        None => Ok(()),
    }
}
