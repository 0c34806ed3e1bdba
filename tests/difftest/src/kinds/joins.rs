//! Joins of headers: what the single readings say of the whole.

use super::{read_amply, stored};
use crate::ask::ask;
use crate::compare::{read, Compared};
use crate::generate::edition::EDITIONS;
use crate::generate::header::{derive, SHORT};
use crate::numbers::Numbers;
use crate::run::Run;
use crate::shown::{self, Difference};
use crate::tables::Tables;
use oracle::PARAM_SLOTS;

/// In each edition.
const CASES: usize = 500;

pub fn compare(run: &mut Run) -> Compared<()> {
    run.begin("joins");
    for edition in EDITIONS {
        compare_in(run, edition)?;
    }
    Ok(())
}

fn compare_in(run: &mut Run, edition: usize) -> Compared<()> {
    let all: Vec<&[u8]> = stored::headers().collect();
    let (mut accepted, mut malformed) = (vec![], vec![]);
    for header in all {
        let (answer, _) = read_amply(run, edition, header)?;
        let list = if answer.number == 0 {
            &mut accepted
        } else {
            &mut malformed
        };
        list.push(header);
    }
    for _ in 0..CASES {
        let mut join = Join {
            edition,
            ..Join::default()
        };
        for _ in 0..run.numbers.below(6) {
            let header = match run.numbers.once_in(5) {
                true => run.numbers.of(&accepted).to_vec(),
                false => derive(&mut run.numbers, edition, SHORT).header,
            };
            join.add(run, &header)?;
        }
        join.compare(run)?;
        let last = spoilt(&mut run.numbers, edition, &malformed);
        join.compare_malformed(run, &last)?;
    }
    Ok(())
}

/// A header that is likely to be malformed.
fn spoilt(numbers: &mut Numbers, edition: usize, malformed: &[&[u8]]) -> Vec<u8> {
    if numbers.once_in(4) {
        return numbers.of(malformed).to_vec();
    }
    let mut header = derive(numbers, edition, SHORT).header;
    let at = numbers.below(header.len() + 1);
    header.insert(at, numbers.of(b"<>;=\"\\%:#[]"));
    header
}

/// Headers joined so far, and their records as raised from the single readings.
#[derive(Default)]
struct Join {
    edition: usize,
    headers: usize,
    octets: Vec<u8>,
    links: Vec<[usize; 4]>,
    params: Vec<[usize; PARAM_SLOTS]>,
}

impl Join {
    /// Everything before the next header: a comma behind a former one, and blanks.
    fn part(&mut self, numbers: &mut Numbers) {
        if self.headers > 0 {
            self.octets.push(b',');
        }
        self.headers += 1;
        self.pad(numbers);
    }

    fn pad(&mut self, numbers: &mut Numbers) {
        for _ in 0..numbers.small(4) {
            self.octets.push(numbers.of(b" \t"));
        }
    }

    /// Joins an accepted header.
    fn add(&mut self, run: &mut Run, header: &[u8]) -> Compared<()> {
        let (answer, alone) = read_amply(run, self.edition, header)?;
        self.part(&mut run.numbers);
        let (raised, former) = (self.octets.len(), self.params.len());
        for &[start, end, first, count] in &alone.links.as_chunks().0[..answer.links] {
            let link = [start + raised, end + raised, first + former, count];
            self.links.push(link);
        }
        for &[a, b, c, d, form, code] in &alone.params.as_chunks().0[..answer.params] {
            let param = [a + raised, b + raised, c + raised, d + raised, form, code];
            self.params.push(param);
        }
        self.octets.extend(header);
        self.pad(&mut run.numbers);
        Ok(())
    }

    /// Read in room for the sums, the join has the raised records.
    fn compare(&self, run: &mut Run) -> Compared<()> {
        run.case();
        let octets = self.octets.clone();
        let expected = Tables::new(self.edition, octets, &self.links, &self.params);
        let (link_slots, param_slots) = (expected.links.len(), expected.params.len());
        let (answer, tables) = read(run, self.edition, &self.octets, link_slots, param_slots)?;
        let records = (&tables.links, &tables.params);
        if answer.number != 0 || records != (&expected.links, &expected.params) {
            return Err(Difference {
                asked: self.asked(),
                library: format!("{answer:?}, {records:?}"),
                expected: format!("{:?}, {:?}", expected.links, expected.params),
            });
        }
        ask(run, &tables)
    }

    fn asked(&self) -> String {
        let join = shown::octets(&self.octets);
        format!("read the join {join} in edition {}", self.edition)
    }

    /// With a malformed header behind, the join is malformed, where that header is.
    fn compare_malformed(&mut self, run: &mut Run, last: &[u8]) -> Compared<()> {
        let (alone, _) = read_amply(run, self.edition, last)?;
        if alone.number != 2 {
            return Ok(());
        }
        run.also("joins malformed");
        self.part(&mut run.numbers);
        let place = self.octets.len() + alone.place;
        self.octets.extend(last);
        let (answer, _) = read(run, self.edition, &self.octets, 0, 0)?;
        if (answer.number, answer.place) == (2, place) {
            return Ok(());
        }
        Err(Difference {
            asked: self.asked(),
            library: format!("{answer:?}"),
            expected: format!("malformed at {place}"),
        })
    }
}
