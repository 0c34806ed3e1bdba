//! Which numbers each entry answered in each edition, and how often; what became of headers in the
//! older edition, and of targets by themselves; the forms and codes of records; what titles links
//! have; how much references take of the base that they are resolved on; how walks ended; the codes of
//! names that a link has again; and how far comparisons went.

use crate::generate::edition::{NEWER, OLDER};
use capstanbar::ffi::CompareAnswer;
use oracle::{LAST_CODE, LAST_ONCE};
use std::collections::BTreeMap;
use std::fmt::Write;
use std::ops::RangeInclusive;

#[derive(Clone, Copy, PartialEq, Eq, PartialOrd, Ord)]
pub enum Entry {
    Read,
    Feed,
    Finish,
    Search,
    Context,
    Value,
    Title,
    ResolvedContext,
    Write,
    Form,
    Code,
    Titles,
    Target,
    Editions,
    Decode,
    Resolve,
    Takes,
    Walk,
    Ends,
    Onwards,
    NameCode,
    Again,
    Compare,
    Same,
    Unequal,
    Left,
}

/// In which edition an entry was asked.
#[derive(Clone, Copy, PartialEq, Eq, PartialOrd, Ord)]
pub enum In {
    Newer,
    Older,
    /// None that there is. What is counted is the number that RFC 8288's would answer, so that 10 is
    /// seen to come before each.
    Unknown,
    /// It takes none.
    Any,
}

impl In {
    pub fn of(edition: usize) -> In {
        match edition {
            NEWER => In::Newer,
            OLDER => In::Older,
            _ => In::Unknown,
        }
    }

    fn shown(self) -> &'static str {
        match self {
            In::Newer | In::Any => "",
            In::Older => " in the older edition",
            In::Unknown => " in an unknown edition, else",
        }
    }
}

/// The numbers that an entry may answer.
type Allowed = &'static [RangeInclusive<usize>];

const ALL: &[In] = &[In::Newer, In::Older, In::Unknown];
const ANY: &[In] = &[In::Any];

const ENTRIES: [(Entry, &str, &[In], Allowed); 27] = [
    (Entry::Read, "read", ALL, &[0..=4]),
    (Entry::Feed, "feed", ALL, &[0..=2, 7..=7]),
    (Entry::Finish, "finish", ALL, &[0..=4, 7..=7]),
    (Entry::Search, "search", ALL, &[0..=1, 5..=5, 9..=9]),
    (Entry::Context, "context", ALL, &[0..=1, 5..=5, 8..=8]),
    (Entry::Value, "value", ALL, &[0..=1, 5..=5, 7..=9]),
    (Entry::Title, "title", ALL, &[0..=1, 5..=5, 7..=9]),
    (
        Entry::ResolvedContext,
        "resolved_context",
        ALL,
        &[
            0..=1,
            5..=5,
            7..=8,
            12..=13,
            RESULT_TOO_LONG..=RESULT_TOO_LONG,
        ],
    ),
    (
        Entry::Write,
        "write",
        ALL,
        &[0..=1, 5..=7, FORM_TOO_LONG..=FORM_TOO_LONG],
    ),
    (Entry::Form, "forms of values", &[In::Newer], &[0..=2]),
    (Entry::Form, "forms of values", &[In::Older], &[0..=3]),
    (
        Entry::Code,
        "codes of records",
        &[In::Newer, In::Older],
        &[0..=LAST_CODE],
    ),
    (
        Entry::Titles,
        "links with neither title, title, wrong title*, both, right title*, both",
        &[In::Newer, In::Older],
        &[0..=5],
    ),
    (
        Entry::Target,
        "targets read, no references, of wrong octets",
        ANY,
        &[0..=2],
    ),
    (
        Entry::Editions,
        "same, read, malformed as before, malformed later in the older edition",
        ANY,
        &[0..=3],
    ),
    (Entry::Decode, "decode", ANY, &[0..=1, 7..=7, 11..=11]),
    (
        Entry::Resolve,
        "resolve",
        ANY,
        &[
            0..=1,
            7..=7,
            12..=13,
            RESULT_TOO_LONG..=RESULT_TOO_LONG,
        ],
    ),
    (
        Entry::Takes,
        "references that take of the base nothing, scheme, authority, folder, root behind a host, path, query",
        ANY,
        &[0..=6],
    ),
    (Entry::Walk, "walk", ANY, &[0..=0, 7..=8, 14..=15]),
    (Entry::Ends, "ends of walks", ANY, &[1..=4]),
    (
        Entry::Onwards,
        "ends of walks on from where one arrived",
        ANY,
        &[1..=4],
    ),
    (Entry::NameCode, "name_code", ANY, &[0..=LAST_CODE]),
    (
        Entry::Again,
        "name_code of a name again",
        ANY,
        &[0..=0, LAST_ONCE + 1..=LAST_CODE],
    ),
    (Entry::Compare, "compare", ANY, &[0..=1]),
    (
        Entry::Same,
        "compare, digits of pairs if same",
        ANY,
        &[0..=DIGITS],
    ),
    (
        Entry::Unequal,
        "compare, digits of pairs if unequal",
        ANY,
        &[0..=DIGITS],
    ),
    (
        Entry::Left,
        "compare, digits of pairs left behind",
        ANY,
        &[0..=DIGITS],
    ),
];

/// The longest texts that are compared have lengths of so many digits.
const DIGITS: usize = 5;

/// Stands for number 1 where the written form is too long, and not the text.
pub const FORM_TOO_LONG: usize = usize::MAX;

/// Stands for number 1 where what was resolved is too long, and none of what it was resolved from.
pub const RESULT_TOO_LONG: usize = usize::MAX - 1;

/// How often each entry answered each number in each edition.
#[derive(Default)]
pub struct Reached(BTreeMap<(Entry, In), BTreeMap<usize, u64>>);

impl Reached {
    /// Counts what takes no edition.
    pub fn count(&mut self, entry: Entry, number: usize) {
        self.count_in(In::Any, entry, number);
    }

    pub fn count_in(&mut self, edition: In, entry: Entry, number: usize) {
        let numbers = self.0.entry((entry, edition)).or_default();
        *numbers.entry(number).or_default() += 1;
    }

    /// Counts a comparison of texts of these lengths; where they aren't equal, there are no pairs.
    pub fn compared(&mut self, one: usize, other: usize, answer: CompareAnswer) {
        self.count(Entry::Compare, answer.same);
        if answer.same == 1 {
            return self.count(Entry::Same, digits(answer.pairs));
        }
        self.count(Entry::Unequal, digits(answer.pairs));
        if one == other {
            self.count(Entry::Left, digits(one - answer.pairs));
        }
    }

    fn times(&self, entry: Entry, edition: In, number: usize) -> u64 {
        let numbers = self.0.get(&(entry, edition));
        numbers
            .and_then(|numbers| numbers.get(&number).copied())
            .unwrap_or(0)
    }

    /// Each entry with its numbers and how often they were answered.
    pub fn line(&self) -> String {
        let mut line = String::from("answered:");
        for (entry, name, edition, allowed) in rows() {
            let _ = write!(line, " {name}{}", edition.shown());
            for number in allowed.iter().cloned().flatten() {
                let times = self.times(entry, edition, number);
                let _ = write!(line, " {}:{times}", shown(number));
            }
            line.push(';');
        }
        line
    }

    /// A number that the rules allow and that was never answered, or one that they don't allow.
    pub fn wrong(&self) -> Option<String> {
        for (entry, name, edition, allowed) in rows() {
            let name = format!("{name}{}", edition.shown());
            let mut due = allowed.iter().cloned().flatten();
            if let Some(number) = due.find(|&number| self.times(entry, edition, number) == 0) {
                return Some(format!("{name} never answered {}", shown(number)));
            }
            let mut answered = self.0[&(entry, edition)].keys();
            let is_allowed = |number| allowed.iter().any(|range| range.contains(number));
            if let Some(&number) = answered.find(|number| !is_allowed(number)) {
                return Some(format!("{name} answered {}", shown(number)));
            }
        }
        None
    }
}

/// Each entry in each edition that it is asked in.
fn rows() -> impl Iterator<Item = (Entry, &'static str, In, Allowed)> {
    let row = |(entry, name, editions, allowed): (_, _, &'static [In], _)| {
        editions
            .iter()
            .map(move |&edition| (entry, name, edition, allowed))
    };
    ENTRIES.into_iter().flat_map(row)
}

/// How many digits a number has; 0 has none.
fn digits(number: usize) -> usize {
    number
        .checked_ilog10()
        .map_or(0, |digits| digits as usize + 1)
}

fn shown(number: usize) -> String {
    match number {
        FORM_TOO_LONG => String::from("1(form)"),
        RESULT_TOO_LONG => String::from("1(result)"),
        _ => number.to_string(),
    }
}
