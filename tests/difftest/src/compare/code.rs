//! The code of a name.

use super::equal::{equal, equal_rooms};
use super::Compared;
use crate::lent::Lent;
use crate::reached::Entry;
use crate::run::Run;
use crate::shown;
use capstanbar::ffi;

/// The code of a name that stands in lent memory.
pub fn name_code(run: &mut Run, name: &[u8]) -> Compared<usize> {
    let lent = Lent::holding(name, run.salt());
    let code = name_code_of(run, lent.room())?;
    let asked = || format!("code of {}", shown::octets(name));
    equal_rooms(asked, "name", &lent, name)?;
    Ok(code)
}

/// The code of a name that stands where it is, so that what is round it may tempt.
pub fn name_code_of(run: &mut Run, name: &[u8]) -> Compared<usize> {
    let asked = || format!("code of {}", shown::octets(name));
    let code = ffi::name_code(name);
    run.reached.count(Entry::NameCode, code);
    equal(asked, code, oracle::name_code(name))?;
    Ok(code)
}
