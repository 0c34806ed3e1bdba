//! Long names that begin or end as a known one, some so long that their length, kept in 8 or in 16
//! bits, would be that of the known one.

use super::{ask, known};
use crate::compare::Compared;
use crate::run::Run;

const MORE: [usize; 11] = [7, 8, 16, 56, 256, 512, 8184, 8189, 8190, 65_536, 131_072];

pub fn compare(run: &mut Run) -> Compared<()> {
    for name in known() {
        for more in MORE {
            for octet in [0, b' ', b'a', b'*', 255] {
                let rest = vec![octet; more];
                ask(run, &[name, &rest].concat())?;
                ask(run, &[&rest, name].concat())?;
            }
            let again = name.iter().cycle().take(name.len() + more);
            ask(run, &again.copied().collect::<Vec<_>>())?;
        }
    }
    Ok(())
}
