//! What reading or finishing should answer.

use oracle::{ReadAnswer, PARAM_SLOTS};

/// The answer, and the slots that it fills.
pub struct Reading {
    pub answer: ReadAnswer,
    pub links: Vec<usize>,
    pub params: Vec<usize>,
}

impl Reading {
    /// What the reference says in that many link and parameter slots.
    pub fn by(
        reference: impl FnOnce(&mut [usize], &mut [usize]) -> ReadAnswer,
        slots: [usize; 2],
    ) -> Reading {
        let [mut links, mut params] = slots.map(|slots| vec![0; slots]);
        let answer = reference(&mut links, &mut params);
        links.truncate(4 * answer.links);
        params.truncate(PARAM_SLOTS * answer.params);
        Reading {
            answer,
            links,
            params,
        }
    }
}
