//! Headers of about as many links and parameters as are noted while they are judged, and of about the lengths that tell how many are:
//! what is noted whole is copied, and what isn't is written by a second pass.

use crate::compare::Compared;
use crate::editions::read_in_each;
use crate::kinds::ample;
use crate::run::Run;

/// The lengths up to which there are so many notes, and one of those that have the most.
const LENGTHS: [usize; 4] = [128, 512, 1024, 2048];
const LINKS: [usize; 4] = [4, 16, 24, 160];
const PARAMS: [usize; 4] = [8, 32, 64, 320];

pub fn compare(run: &mut Run) -> Compared<()> {
    for length in LENGTHS.into_iter().flat_map(|n| [n, n + 1]) {
        for links in LINKS.into_iter().flat_map(|n| [n, n + 1]) {
            for params in PARAMS.into_iter().flat_map(|n| [n, n + 1]) {
                let Some(header) = header(length, links, params) else {
                    continue;
                };
                run.case();
                read_in_each(run, &header, ample(header.len()))?;
            }
        }
    }
    Ok(())
}

/// A header of that many octets, links and parameters, which the last links have; the first target takes what is left.
fn header(length: usize, links: usize, params: usize) -> Option<Vec<u8>> {
    let each = params / 3;
    let last = ["<>".to_string() + &";a=1".repeat(params - 2 * each)];
    let some = [
        "<b>".to_string() + &"; c".repeat(each),
        "<>".to_string() + &";d=\"\"".repeat(each),
    ];
    let none = vec!["<e>".to_string(); links - 4];
    let behind = [&none[..], &some, &last].concat().join(",");
    let target = length.checked_sub(behind.len() + "<>,".len())?;
    Some(format!("<{}>,{behind}", "f".repeat(target)).into_bytes())
}
