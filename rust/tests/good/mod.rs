//! Which tables are good, asked of every function over a table.

use capstanbar::ffi::{self, ContextAnswer, LengthAnswer, RawTable, SearchAnswer};
use capstanbar::{Counts, Edition, Refusal, Table};

const OUT: [u8; 64] = [7; 64];

/// What the functions answer, and the output behind them.
type Asked = (SearchAnswer, ContextAnswer, [LengthAnswer; 4], [u8; 64]);

/// What is due of a bad table: nothing is told but the number, and nothing put out.
const BAD: Asked = (
    SearchAnswer { number: 5, link: 0 },
    ContextAnswer {
        number: 5,
        source: 0,
        start: 0,
        end: 0,
    },
    [LengthAnswer {
        number: 5,
        length: 0,
    }; 4],
    OUT,
);

fn asked(edition: usize, raw: RawTable) -> Asked {
    let mut out = OUT;
    (
        ffi::search(edition, raw, b"x"),
        ffi::context(edition, raw, b"x", 0),
        [
            ffi::value(edition, raw, 0, 0, &mut out),
            ffi::title(edition, raw, 0, &mut out),
            ffi::resolved_context(edition, raw, b"a:b", 0, &mut out),
            ffi::write(edition, raw, &mut out),
        ],
        out,
    )
}

/// The view of a table if it is good; the functions must all say the same of it.
pub fn view(edition: Edition, raw: RawTable<'_>) -> Option<Table<'_>> {
    let counts = Counts {
        links: raw.link_count,
        params: raw.param_count,
    };
    let asked = asked(edition.number(), raw);
    match Table::new_in(edition, raw.text, raw.links, raw.params, counts) {
        Ok(table) => {
            let lengths = asked.2.map(|answer| answer.number);
            let numbers = [asked.0.number, asked.1.number];
            assert!(![&numbers[..], &lengths].concat().contains(&5), "{asked:?}");
            Some(table)
        }
        Err(refusal) => {
            assert_eq!((refusal, asked), (Refusal::BadTable, BAD));
            None
        }
    }
}
