//! What a rule derives, by sets of places.
//!
//! A rule stands for a relation between places: it ties start `i` to end `j`
//! if it derives the octets of the text from `i` up to `j`. [`after`] goes
//! through that relation from starts to ends, [`before`] from ends to starts.

use crate::grammar::Rule;
use crate::places::Places;

/// Places with octets between them: of one text, or of several that begin
/// alike.
pub trait Text {
    /// The places that an octet of the class leads to from a place.
    fn behind(&self, place: usize, class: fn(u8) -> bool) -> impl Iterator<Item = usize>;
}

impl Text for [u8] {
    fn behind(&self, place: usize, class: fn(u8) -> bool) -> impl Iterator<Item = usize> {
        let octet = self.get(place).filter(|&&octet| class(octet));
        octet.map(|_| place + 1).into_iter()
    }
}

/// The ends of all that the rule derives from one of the starts.
pub fn after<T: Text + ?Sized>(rule: &Rule, text: &T, starts: &Places) -> Places {
    if starts.is_empty() {
        return Places::default();
    }
    match rule {
        Rule::One(class) => {
            let ends = starts.iter().flat_map(|start| text.behind(start, *class));
            Places::of(ends.collect())
        }
        Rule::Seq(parts) => parts
            .iter()
            .fold(starts.clone(), |places, part| after(part, text, &places)),
        Rule::Either(parts) => all(parts.iter().map(|part| after(part, text, starts))),
        Rule::Any(part) => closure(starts, |places| after(part, text, places)),
        Rule::Labelled(_, part) => after(part, text, starts),
    }
}

/// The starts of all that the rule derives up to one of the ends.
pub fn before(rule: &Rule, text: &[u8], ends: &Places) -> Places {
    if ends.is_empty() {
        return Places::default();
    }
    match rule {
        Rule::One(class) => {
            let starts = ends.iter().filter_map(|end| end.checked_sub(1));
            Places::of(starts.filter(|&start| class(text[start])).collect())
        }
        Rule::Seq(parts) => parts
            .iter()
            .rfold(ends.clone(), |places, part| before(part, text, &places)),
        Rule::Either(parts) => all(parts.iter().map(|part| before(part, text, ends))),
        Rule::Any(part) => closure(ends, |places| before(part, text, places)),
        Rule::Labelled(_, part) => before(part, text, ends),
    }
}

/// The places of all the sets.
fn all(sets: impl Iterator<Item = Places>) -> Places {
    let mut all = Places::default();
    sets.for_each(|places| all.add(&places));
    all
}

/// Whether the rule derives the whole text.
pub fn derives(rule: &Rule, text: &[u8]) -> bool {
    after(rule, text, &Places::one(0)).contains(text.len())
}

/// The places given and all that steps lead to from them.
fn closure(places: &Places, step: impl Fn(&Places) -> Places) -> Places {
    let mut all = places.clone();
    let mut fresh = places.clone();
    while !fresh.is_empty() {
        fresh = step(&fresh).without(&all);
        all.add(&fresh);
    }
    all
}

#[cfg(test)]
mod tests {
    use super::*;
    use crate::edition::Edition;
    use crate::grammar::field;

    #[test]
    fn both_directions_tell_the_same_relation() {
        let text: &[u8] = br#" <a%2f>;x = "\"," ; y;z=/<c>,, <b> "#;
        for field in [Edition::Rfc8288, Edition::Rfc5988].map(field) {
            for start in 0..=text.len() {
                for end in 0..=text.len() {
                    assert_eq!(
                        after(field, text, &Places::one(start)).contains(end),
                        before(field, text, &Places::one(end)).contains(start),
                    );
                }
            }
        }
    }
}
