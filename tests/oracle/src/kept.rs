//! Kept parameters.

use crate::code::kept_once;
use crate::comparison::same;
use crate::record::Param;

/// Whether the parameter of that place within its link has a name that is
/// kept once and an earlier one has the same name.
pub fn repeats(text: &[u8], params: &[Param], place: usize) -> bool {
    let name = params[place].name.of(text);
    kept_once(name)
        && params[..place]
            .iter()
            .any(|earlier| same(earlier.name.of(text), name))
}

/// The kept ones of a link's parameters, in order.
pub fn kept(text: &[u8], params: &[Param]) -> Vec<Param> {
    (0..params.len())
        .filter(|&place| !repeats(text, params, place))
        .map(|place| params[place])
        .collect()
}
