//! Decoding an extended value.

use super::equal::{equal, equal_rooms};
use super::output::equal_output;
use super::Compared;
use crate::lent::Lent;
use crate::reached::Entry;
use crate::run::Run;
use crate::shown;
use capstanbar::ffi;

/// The number of decoding a value that stands in lent memory into that many octets, and what it
/// gives, which the standard library takes for UTF-8 too.
pub fn decode(run: &mut Run, value: &[u8], room: usize) -> Compared<(usize, Vec<u8>)> {
    let asked = || format!("decode {} into {room} octets", shown::octets(value));
    let lent = Lent::holding(value, run.salt());
    let mut out = Lent::new(room, run.salt());
    let answer = ffi::decode(lent.room(), out.room_mut());
    run.reached.count(Entry::Decode, answer.number);
    let mut octets = vec![0; room];
    let expected = oracle::decode(value, &mut octets);
    let (number, octets) = equal_output(asked, answer, &out, expected, octets)?;
    equal_rooms(asked, "value", &lent, value)?;
    equal(asked, str::from_utf8(&octets).is_ok(), true)?;
    Ok((number, octets))
}
