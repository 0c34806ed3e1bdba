//! The folded comparison of two texts.

use super::equal::{equal, equal_rooms};
use super::Compared;
use crate::lent::Lent;
use crate::run::Run;
use crate::shown;
use capstanbar::ffi::{self, CompareAnswer};

/// Whether two texts that stand in lent memory are the same.
pub fn compare_texts(run: &mut Run, one: &[u8], other: &[u8]) -> Compared<bool> {
    let lent = [one, other].map(|text| Lent::holding(text, run.salt()));
    let same = compare_texts_of(run, lent[0].room(), lent[1].room())?;
    let asked = || asked(one, other);
    equal_rooms(asked, "first text", &lent[0], one)?;
    equal_rooms(asked, "second text", &lent[1], other)?;
    Ok(same)
}

/// The same of texts that stand where they are: they may overlap, and what is round them may tempt.
pub fn compare_texts_of(run: &mut Run, one: &[u8], other: &[u8]) -> Compared<bool> {
    let answer = ffi::compare(one, other);
    let expected = oracle::compare(one, other);
    let numbers = CompareAnswer {
        same: usize::from(expected.same),
        pairs: expected.pairs,
    };
    equal(|| asked(one, other), answer, numbers)?;
    let told = capstanbar::compare(one, other);
    let told = (told.same, told.pairs);
    equal(|| asked(one, other), told, (expected.same, expected.pairs))?;
    laws(one, other, answer)?;
    run.reached.compared(one.len(), other.len(), answer);
    Ok(expected.same)
}

/// What holds of every comparison, told without the reference. Turned round it answers the same.
/// Texts are the same just if their lengths are equal, all pairs were compared, and the last agrees.
fn laws(one: &[u8], other: &[u8], answer: CompareAnswer) -> Compared<()> {
    let turned = ffi::compare(other, one);
    equal(|| asked(other, one), turned, answer)?;
    let last = |text: &[u8]| text.last().map(u8::to_ascii_lowercase);
    let all = one.len() == other.len() && answer.pairs == one.len();
    let same = all && last(one) == last(other);
    let asked = || format!("the law of {}", asked(one, other));
    equal(asked, answer.same, usize::from(same))
}

fn asked(one: &[u8], other: &[u8]) -> String {
    format!(
        "compare {} with {}",
        shown::octets(one),
        shown::octets(other)
    )
}
