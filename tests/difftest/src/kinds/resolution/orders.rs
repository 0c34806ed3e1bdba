//! Which number is answered where two could be: every two things that can be wrong with a call.

use crate::compare::{equal, Asked, Compared, Resolving};
use crate::generate::edition::{unknown, EDITIONS};
use crate::run::Run;
use crate::tables::Tables;
use oracle::number::LIMIT;

/// The code of `anchor`.
const ANCHOR: usize = 2;

/// What can be wrong, in the order of the numbers.
#[derive(Clone, Copy, Debug, PartialEq, Eq)]
enum Wrong {
    Edition,
    LongText,
    LongBase,
    Table,
    Link,
    Base,
    Reference,
    Result,
    Room,
}

use Wrong::*;

const ALL: [Wrong; 9] = [
    Edition, LongText, LongBase, Table, Link, Base, Reference, Result, Room,
];

impl Wrong {
    fn number(self) -> usize {
        match self {
            Edition => 10,
            LongText | LongBase | Result => 1,
            Table => 5,
            Link => 8,
            Base => 12,
            Reference => 13,
            Room => 7,
        }
    }
}

pub fn compare(run: &mut Run) -> Compared<()> {
    for (place, &first) in ALL.iter().enumerate() {
        for &second in &ALL[place..] {
            let wrong = [first, second];
            for edition in EDITIONS {
                context(run, edition, wrong)?;
            }
            if !wrong
                .iter()
                .any(|one| matches!(one, Edition | Table | Link))
            {
                reference(run, wrong)?;
            }
        }
    }
    Ok(())
}

/// A base that is right or not, as long as it must be. With one octet behind its folder the longest is
/// too long.
fn base(wrong: [Wrong; 2]) -> Vec<u8> {
    let scheme = if wrong.contains(&Base) {
        b"1:/"
    } else {
        b"a:/"
    };
    let length = match wrong {
        _ if wrong.contains(&LongBase) => LIMIT + 1,
        _ if wrong.contains(&Result) => LIMIT,
        _ => 8,
    };
    [scheme, &b"b".repeat(length - 4)[..], b"/"].concat()
}

/// A reference of two octets, right or not.
fn short(wrong: [Wrong; 2]) -> &'static [u8] {
    match wrong.contains(&Reference) {
        true => b"c[",
        false => b"cc",
    }
}

fn room(wrong: [Wrong; 2]) -> usize {
    match wrong.contains(&Room) {
        true => 9,
        false => LIMIT + 1,
    }
}

/// A table of one link whose `anchor` is the reference.
fn context(run: &mut Run, edition: usize, wrong: [Wrong; 2]) -> Compared<()> {
    let mut text = [b"anchor", short(wrong)].concat();
    if wrong.contains(&LongText) {
        text.resize(LIMIT + 1, b'a');
    }
    let form = if wrong.contains(&Table) { 4 } else { 2 };
    let params = [[0, 6, 6, 8, form, ANCHOR]];
    let edition = match wrong.contains(&Edition) {
        true => unknown(&mut run.numbers),
        false => edition,
    };
    let tables = Tables::new(edition, text, &[[0, 6, 0, 1]], &params);
    let asked = Asked::new(run, &tables);
    let link = usize::from(wrong.contains(&Link));
    run.case();
    let (number, _) = asked.resolved_context(run, &base(wrong), link, room(wrong))?;
    let what = || format!("resolved context with wrong {wrong:?} in edition {edition}");
    equal(what, number, wrong[0].number())
}

/// The reference by itself; its length stands for the text's.
fn reference(run: &mut Run, wrong: [Wrong; 2]) -> Compared<()> {
    let mut reference = short(wrong).to_vec();
    if wrong.contains(&LongText) {
        reference.resize(LIMIT + 1, b'a');
    }
    let base = base(wrong);
    let resolving = Resolving::new(run, &reference, &base);
    run.case();
    resolving.compare(run, room(wrong))?;
    let number = match resolving.expected() {
        Ok(_) => Room.number(),
        Err(number) => number,
    };
    let what = || format!("resolve with wrong {wrong:?}");
    equal(what, number, wrong[0].number())
}
