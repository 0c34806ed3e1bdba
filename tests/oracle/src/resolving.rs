//! What the resolving program prints.

use crate::listing::{line, LINK_ROOM, PARAM_ROOM, RFC_8288};
use crate::meaning::{meanings, LinkMeaning};
use crate::number::{BAD_BASE, DONE, LIMIT, TOO_LONG};
use crate::read::read;
use crate::record::PARAM_SLOTS;
use crate::resolve::resolved;
use crate::targets::is_uri;

/// The lines for what standard input holds, a field value and one final LF, if
/// there, that doesn't belong to it, and for the program's arguments: the base,
/// which is empty if they aren't just one.
///
/// A header that is refused has the listing program's line. Then comes a base
/// that is refused, with no place. Else each link has a line: its number and
/// the octets of its target and of its context, both resolved; or, if one of
/// them is refused, that refusal, the target's first.
pub fn resolving(arguments: &[Vec<u8>], input: &[u8]) -> Vec<u8> {
    let base = match arguments {
        [base] => &base[..],
        _ => b"",
    };
    let header = input.strip_suffix(b"\n").unwrap_or(input);
    let (mut link_slots, mut param_slots) = ([0; LINK_ROOM * 4], [0; PARAM_ROOM * PARAM_SLOTS]);
    let answer = read(RFC_8288, header, &mut link_slots, &mut param_slots);
    if answer.number != DONE {
        return refused(answer.number, answer.place);
    }
    if base.len() > LIMIT {
        return refused(TOO_LONG, 0);
    }
    if !is_uri(base) {
        return refused(BAD_BASE, 0);
    }
    let links = meanings(
        RFC_8288,
        header,
        &link_slots,
        &param_slots,
        answer.links,
        answer.params,
    );
    let links = links.expect("what is read is good");
    let lines = links.iter().enumerate();
    lines
        .flat_map(|(number, link)| resolved_line(number, link, base))
        .collect()
}

fn refused(number: usize, place: usize) -> Vec<u8> {
    line("refused", &[number, place]).into_bytes()
}

fn resolved_line(number: usize, link: &LinkMeaning, base: &[u8]) -> Vec<u8> {
    let target = resolved(&link.target, base);
    let parts = target.and_then(|target| Ok((target, link.resolved_context(base)?)));
    match parts {
        Err(number) => refused(number, 0),
        Ok((target, context)) => [
            number.to_string().as_bytes(),
            b"\t",
            &target,
            b"\t",
            &context,
            b"\n",
        ]
        .concat(),
    }
}
