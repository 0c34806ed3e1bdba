//! What is compared of one call.

use super::Compared;
use crate::lent::{Lent, Pattern};
use crate::shown::Difference;
use std::fmt::Debug;

/// The library's answer must be the reference's.
pub fn equal<T: Debug + PartialEq>(
    asked: impl Fn() -> String,
    library: T,
    expected: T,
) -> Compared<()> {
    if library == expected {
        return Ok(());
    }
    Err(Difference {
        asked: asked(),
        library: format!("{library:?}"),
        expected: format!("{expected:?}"),
    })
}

/// The library's room must hold just what is expected: it used no more, and touched nothing else.
pub fn equal_rooms<T: Pattern + Debug>(
    asked: impl Fn() -> String,
    what: &str,
    library: &Lent<T>,
    expected: &[T],
) -> Compared<()> {
    if library.holds_just(expected) {
        return Ok(());
    }
    let (place, found, held) = library.first_other(expected).expect("there is one");
    let used = expected.len();
    Err(Difference {
        asked: asked(),
        library: format!("place {place} of the {what}, of which {used} are used, holds {found:?}"),
        expected: format!("{held:?} there"),
    })
}
