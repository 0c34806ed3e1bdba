//! Sets of places.

use std::collections::VecDeque;

/// So many are put in one by one.
const FEW: usize = 8;

/// Places in order, each of them once. They mostly grow near an end: where rules
/// are gone through forwards at the last place, backwards at the first.
#[derive(Clone, Debug, Default, PartialEq, Eq)]
pub struct Places(VecDeque<usize>);

impl Places {
    pub fn one(place: usize) -> Places {
        Places(VecDeque::from([place]))
    }

    /// Places that come in any order, and may come again.
    pub fn of(mut places: Vec<usize>) -> Places {
        places.sort();
        places.dedup();
        Places(places.into())
    }

    pub fn is_empty(&self) -> bool {
        self.0.is_empty()
    }

    pub fn contains(&self, place: usize) -> bool {
        self.0.binary_search(&place).is_ok()
    }

    pub fn iter(&self) -> impl DoubleEndedIterator<Item = usize> + '_ {
        self.0.iter().copied()
    }

    pub fn last(&self) -> Option<usize> {
        self.0.back().copied()
    }

    /// Those that the others don't have.
    pub fn without(mut self, others: &Places) -> Places {
        self.0.retain(|&place| !others.contains(place));
        self
    }

    pub fn add(&mut self, more: &Places) {
        if more.0.len() > FEW && self.last() >= more.0.front().copied() {
            *self = Places::of(self.iter().chain(more.iter()).collect());
            return;
        }
        for place in more.iter() {
            if let Err(at) = self.0.binary_search(&place) {
                self.0.insert(at, place);
            }
        }
    }
}
