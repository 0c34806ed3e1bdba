//! Every two spans of one text: they may overlap or be one, and what stands round them isn't part
//! of them.

use crate::compare::{compare_texts_of, Compared};
use crate::run::Run;

const TEXT: &[u8] = b"aAbBa[A{@`Aab\xC0\xE0AB";

pub fn compare(run: &mut Run) -> Compared<()> {
    let ending = |end| (0..=end).map(move |start| &TEXT[start..end]);
    let spans: Vec<&[u8]> = (0..=TEXT.len()).flat_map(ending).collect();
    for one in &spans {
        for other in &spans {
            run.case();
            compare_texts_of(run, one, other)?;
        }
    }
    Ok(())
}
