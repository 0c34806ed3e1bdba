//! Headers, texts and written forms of 8,192 octets, one under and one over.

use crate::ask::ask_in_each;
use crate::compare::{Asked, Compared};
use crate::generate::edition::OLDER;
use crate::generate::octets::REL;
use crate::kinds::read_and_ask;
use crate::run::Run;
use crate::shown::{self, Difference};
use crate::tables::Tables;

const LENGTHS: [usize; 3] = [8191, 8192, 8193];

pub fn compare(run: &mut Run) -> Compared<()> {
    headers(run)?;
    texts(run)?;
    forms(run)
}

/// Headers of each length, derivable and not.
fn headers(run: &mut Run) -> Compared<()> {
    const MAKES: [(&[u8], &[u8], &[u8]); 18] = [
        (b"<", b"a", b">"),
        (b"<", b"/", b">"),
        (b"<a:", b":", b">"),
        (b"<1:", b"a", b">"),
        (b"<", b"a", b"[>"),
        (b"<//", b":", b"@b>"),
        (b"<//", b":", b"@[>"),
        (b"", b" ", b""),
        (b"", b",", b""),
        (b"<a>;rel=\"", b"a ", b"\""),
        (b"<a>;rel=a;t=\"", b"\\\"", b"\""),
        (b"<a>;rel=", b"a", b""),
        (b"<a>;rel=", b"a", b"/"),
        (b"", b"<>,", b"<>"),
        (b"<a>;rel=a", b";x;y=\"z\";t=uuuuuuuuuuuuuuuuuuuuuuuuu", b""),
        (b"<", b"a", b""),
        (b"<a>;t=\"", b"a", b"\\"),
        (b"", b"x", b""),
    ];
    for (start, middle, end) in MAKES {
        for length in LENGTHS {
            let room = length - start.len() - end.len();
            let mut header = [start, &middle.repeat(room / middle.len())].concat();
            // Blanks before the end where the middle doesn't go up evenly.
            header.resize(length - end.len(), b' ');
            header.extend(end);
            read_and_ask(run, &header)?;
        }
    }
    Ok(())
}

/// Tables over a text of each length.
fn texts(run: &mut Run) -> Compared<()> {
    for length in LENGTHS {
        let text = [b"rel", &vec![b'a'; length - 3][..]].concat();
        let params = [
            [0, 3, length - 9, length, 1, REL],
            [length - 1, length, length, length, 0, 0],
        ];
        let good = Tables::new(0, text, &[[3, length, 0, 2]], &params);
        run.case();
        ask_in_each(run, &good)?;
        let mut bad = good.clone();
        bad.links[1] += 1;
        let mut wrong = good.clone();
        wrong.text[length - 2] = b'[';
        wrong.params[2] = length - 1;
        for tables in [bad, wrong] {
            run.case();
            ask_in_each(run, &tables)?;
        }
    }
    Ok(())
}

/// Tables whose form has each length, most of them over a shorter text; and forms so long that their
/// length, kept in 16 bits, would be a short one.
fn forms(run: &mut Run) -> Compared<()> {
    for length in LENGTHS {
        for links in [1, 2, 5, 64] {
            compare_form(run, form_of(links, length), length)?;
        }
        compare_form(run, quoted_form_of(length), length)?;
    }
    compare_form(run, form_of(16, 65_536), 65_536)?;
    compare_form(run, form_of(64, 65_636), 65_636)
}

fn compare_form(run: &mut Run, tables: Tables, length: usize) -> Compared<()> {
    run.case();
    ask_in_each(run, &tables)?;
    let (number, form) = Asked::new(run, &tables).write(run, 9000)?;
    let expected = if length > 8192 { (1, 0) } else { (0, length) };
    if (number, form.len()) == expected {
        return Ok(());
    }
    Err(Difference {
        asked: format!("write {}", shown::table(&tables)),
        library: format!("{:?}", (number, form.len())),
        expected: format!("{expected:?}"),
    })
}

/// So many links over one target, `<...>; rel=r` parted by `, `, and a last value that fills up.
pub fn form_of(links: usize, length: usize) -> Tables {
    const ROUND: usize = b"<>; rel=r, ".len();
    let target = (length + 2) / links - ROUND;
    let rest = (length + 2) % links;
    let text = [b"rel", &b"r".repeat(target.max(rest + 1))[..]].concat();
    let link_records: Vec<_> = (0..links).map(|link| [3, 3 + target, link, 1]).collect();
    let mut params = vec![[0, 3, 3, 4, 1, REL]; links];
    params[links - 1][3] += rest;
    Tables::new(0, text, &link_records, &params)
}

/// In the older edition, `<...>; rel="/"`, whose value has no quotes in the text.
fn quoted_form_of(length: usize) -> Tables {
    const ROUND: usize = b"<>; rel=\"/\"".len();
    let text = [b"rel/", &b"r".repeat(length - ROUND)[..]].concat();
    let link = [4, text.len(), 0, 1];
    Tables::new(OLDER, text, &[link], &[[0, 3, 3, 4, 3, REL]])
}
