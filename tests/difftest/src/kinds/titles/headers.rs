//! Headers with every two of some `title*` and `title`, either first, and links before and behind.

use crate::ask::ask_in_each;
use crate::compare::{Asked, Compared};
use crate::generate::edition::{unknown, EDITIONS};
use crate::kinds::{read_amply, read_and_ask};
use crate::run::Run;
use crate::tables::Tables;
use crate::titles;

/// Right ones, wrong ones, and some that are right with their backslashes out.
const STARS: [&[u8]; 22] = [
    b"",
    b";title*",
    b";title*=\"\"",
    b";title*=x",
    b";Title*=UTF-8''",
    b";title*=UTF-8'de'letztes%20Kapitel",
    b";TITLE*=utf-8'de'n%c3%a4chstes%20Kapitel",
    b";title*=\"UTF-8''a\"",
    br#";title*="UTF-8\'\'\a""#,
    br#";title*="\u\t\f\-\8'\e\n'%\4\1""#,
    br#";title*="UTF-8''a\\""#,
    br#";title*="UTF-8''\"""#,
    b";title*=\"UTF-8''a b\"",
    b";title*=\"UTF-8''\xC3\xA4\"",
    b";title*=UTF-8''%00",
    b";title*=UTF-8''%c3",
    b";title*=UTF-8''%ed%a0%80",
    b";title*=UTF-8''a*",
    b";title*=ISO-8859-1''a",
    b";title*=UTF-8''a;title*=UTF-8''b",
    b";title*=%;title*=UTF-8''b",
    b";title**=UTF-8''a",
];

const TITLES: [&[u8]; 8] = [
    b"",
    b";title",
    b";Title=\"\"",
    b";title=UTF-8''c",
    br#";TITLE="\"c\\\d""#,
    b";title=\"\xFF\\\xC3\x80\"",
    b";title=c;title=d",
    b";titles=c",
];

pub fn compare(run: &mut Run) -> Compared<()> {
    for star in STARS {
        for title in TITLES {
            for params in [[star, title].concat(), [title, b";x", star].concat()] {
                read_and_ask(run, &[b"<a>", &params[..]].concat())?;
                let among = [b"<a>;title=e,<b>;rel=f", &params[..], b", <c>;title*=g"];
                each_link(run, &among.concat())?;
            }
        }
    }
    spoilt(run)
}

/// Asks for every link's title, and in unknown editions too.
fn each_link(run: &mut Run, header: &[u8]) -> Compared<()> {
    for edition in EDITIONS {
        run.case();
        let (_, tables) = read_amply(run, edition, header)?;
        ask_links(run, &tables)?;
        let unknown = unknown(&mut run.numbers);
        ask_links(run, &tables.in_edition(unknown))?;
    }
    Ok(())
}

fn ask_links(run: &mut Run, tables: &Tables) -> Compared<()> {
    let asked = Asked::new(run, tables);
    let links = tables.in_edition(0).meanings().unwrap_or_default();
    for (number, link) in links.iter().enumerate() {
        titles::compare_link(run, &asked, number, link)?;
    }
    for link in [links.len(), usize::MAX] {
        asked.title(run, link, 0)?;
    }
    asked.unchanged()
}

/// Each number of a table with both titles is another one, so that most are bad.
fn spoilt(run: &mut Run) -> Compared<()> {
    let header = b"<a>;title*=UTF-8''%41;title=\"\\b\",<c>";
    let (_, tables) = read_amply(run, EDITIONS[0], header)?;
    for place in 0..6 {
        for number in [0, 1, 2, 4, 5, 11, header.len(), usize::MAX] {
            for (links, at) in [(true, place % 4), (false, place), (false, 6 + place)] {
                let mut tables = tables.clone();
                match links {
                    true => tables.links[at] = number,
                    false => tables.params[at] = number,
                }
                run.case();
                ask_in_each(run, &tables)?;
            }
        }
    }
    Ok(())
}
