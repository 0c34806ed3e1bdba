//! The C interface with slices for pointers and lengths, its answers number by number.
//!
//! These functions are safe for every input, also for tables of any numbers: the library is proved
//! to stay within what it is lent. All the unsafe code of the crate is here.
//!
//! An edition is the number of an [`Edition`](crate::Edition); any other number is refused with 10,
//! before all else.

#![allow(unsafe_code)]

mod answers;
mod symbols;

pub use answers::{
    CompareAnswer, ContextAnswer, FeedAnswer, FeedingState, LengthAnswer, RawTable, ReadAnswer,
    SearchAnswer, WalkAnswer,
};
use symbols::{
    capstan_compare, capstan_context, capstan_decode, capstan_feed, capstan_finish,
    capstan_name_code, capstan_read, capstan_resolve, capstan_resolved_context, capstan_search,
    capstan_start, capstan_title, capstan_value, capstan_walk, capstan_write,
};

/// Reads a header into the slots lent.
///
/// ```
/// let mut links = [0; 4];
/// let answer = capstanbar::ffi::read(0, b"<a>", &mut links, &mut []);
/// assert_eq!((answer.number, answer.links, links), (0, 1, [1, 2, 0, 0]));
/// assert_eq!(capstanbar::ffi::read(2, b"<a>", &mut links, &mut []).number, 10);
/// ```
pub fn read(
    edition: usize,
    header: &[u8],
    links: &mut [usize],
    params: &mut [usize],
) -> ReadAnswer {
    // SAFETY: each pointer comes with the length of its slice, so it isn't null, is aligned, and leads
    // to that many values that are set. What is written to comes of a mutable slice, so it overlaps
    // nothing else and no other thread has it. The library keeps no pointer past its return. All this
    // holds of the calls below too.
    unsafe {
        capstan_read(
            edition,
            header.as_ptr(),
            header.len(),
            links.as_mut_ptr(),
            links.len(),
            params.as_mut_ptr(),
            params.len(),
        )
    }
}

/// The state that a feeding starts with. In an unknown edition nothing can be fed to it.
///
/// ```
/// use capstanbar::ffi::{feed, start};
///
/// assert_eq!(start(1).total, 0);
/// let answer = feed(start(2), b"<a", &mut [0; 8192]);
/// assert_eq!((answer.number, answer.next), (10, start(2)));
/// ```
pub fn start(edition: usize) -> FeedingState {
    // SAFETY: nothing is lent.
    unsafe { capstan_start(edition) }
}

/// Takes one part more of a header, which the buffer gathers.
///
/// ```
/// use capstanbar::ffi::{feed, start};
///
/// let mut buffer = [0; 8192];
/// let answer = feed(start(0), b"<a", &mut buffer);
/// assert_eq!((answer.number, answer.next.total, &buffer[..3]), (0, 2, &b"<a\0"[..]));
/// assert_eq!(feed(answer.next, b">", &mut [0; 8191]).number, 7);
/// ```
pub fn feed(state: FeedingState, part: &[u8], buffer: &mut [u8]) -> FeedAnswer {
    // SAFETY: as in `read`; the buffer alone is lent for writing. Any numbers may stand in the state.
    unsafe {
        capstan_feed(
            state,
            part.as_ptr(),
            part.len(),
            buffer.as_mut_ptr(),
            buffer.len(),
        )
    }
}

/// Reads what was fed into the slots lent.
///
/// ```
/// use capstanbar::ffi::{feed, finish, start};
///
/// let (mut buffer, mut links) = ([0; 8192], [0; 4]);
/// let state = feed(start(0), b"<a", &mut buffer).next;
/// let state = feed(state, b">", &mut buffer).next;
/// assert_eq!((finish(state, &buffer, &mut links, &mut []).links, links), (1, [1, 2, 0, 0]));
/// ```
pub fn finish(
    state: FeedingState,
    buffer: &[u8],
    links: &mut [usize],
    params: &mut [usize],
) -> ReadAnswer {
    // SAFETY: as in `read`; both tables are lent for writing. Any numbers may stand in the state.
    unsafe {
        capstan_finish(
            state,
            buffer.as_ptr(),
            buffer.len(),
            links.as_mut_ptr(),
            links.len(),
            params.as_mut_ptr(),
            params.len(),
        )
    }
}

/// Asks for the code of a parameter's name, 0 if it has none.
///
/// ```
/// use capstanbar::ffi::name_code;
///
/// assert_eq!([name_code(b"Rel"), name_code(b"TITLE*")], [1, 5]);
/// assert_eq!([name_code(b"relation"), name_code(b"")], [0, 0]);
/// ```
pub fn name_code(name: &[u8]) -> usize {
    // SAFETY: as in `read`; nothing is lent for writing.
    unsafe { capstan_name_code(name.as_ptr(), name.len()) }
}

/// Compares two texts with A to Z taken for a to z.
///
/// ```
/// use capstanbar::ffi::{compare, CompareAnswer};
///
/// assert_eq!(compare(b"Next", b"nEXT"), CompareAnswer { same: 1, pairs: 4 });
/// assert_eq!(compare(b"next", b"text"), CompareAnswer { same: 0, pairs: 1 });
/// ```
pub fn compare(a: &[u8], b: &[u8]) -> CompareAnswer {
    // SAFETY: as in `read`; nothing is lent for writing.
    unsafe { capstan_compare(a.as_ptr(), a.len(), b.as_ptr(), b.len()) }
}

/// Searches for the lowest link that has the relation.
///
/// ```
/// use capstanbar::ffi::{search, RawTable, SearchAnswer};
///
/// let (links, params) = ([1, 2, 0, 1], [4, 7, 8, 12, 1, 1]);
/// let text = b"<a>;rel=next";
/// let table = RawTable { text, links: &links, params: &params, link_count: 1, param_count: 1 };
/// assert_eq!(search(0, table, b"NEXT"), SearchAnswer { number: 0, link: 0 });
/// ```
pub fn search(edition: usize, table: RawTable<'_>, relation: &[u8]) -> SearchAnswer {
    // SAFETY: as in `read`; nothing is lent for writing.
    unsafe {
        capstan_search(
            edition,
            table.text.as_ptr(),
            table.text.len(),
            table.links.as_ptr(),
            table.links.len(),
            table.params.as_ptr(),
            table.params.len(),
            table.link_count,
            table.param_count,
            relation.as_ptr(),
            relation.len(),
        )
    }
}

/// Asks for the context of a link: which part of the text or of the base it is.
///
/// ```
/// use capstanbar::ffi::{context, ContextAnswer, RawTable};
///
/// let table = RawTable { text: b"<a>", links: &[1, 2, 0, 0], params: &[], link_count: 1, param_count: 0 };
/// let whole_base = ContextAnswer { number: 0, source: 2, start: 0, end: 4 };
/// assert_eq!(context(0, table, b"base", 0), whole_base);
/// ```
pub fn context(edition: usize, table: RawTable<'_>, base: &[u8], link: usize) -> ContextAnswer {
    // SAFETY: as in `read`; nothing is lent for writing.
    unsafe {
        capstan_context(
            edition,
            table.text.as_ptr(),
            table.text.len(),
            base.as_ptr(),
            base.len(),
            table.links.as_ptr(),
            table.links.len(),
            table.params.as_ptr(),
            table.params.len(),
            table.link_count,
            table.param_count,
            link,
        )
    }
}

/// Copies the meaning of one parameter's value, named by its link and its place within that link.
///
/// ```
/// use capstanbar::ffi::{value, RawTable};
///
/// let (links, params) = ([0, 0, 0, 1], [0, 1, 2, 5, 2, 0]);
/// let text = br#"t"a\b""#;
/// let table = RawTable { text, links: &links, params: &params, link_count: 1, param_count: 1 };
/// let mut out = *b"....";
/// assert_eq!((value(0, table, 0, 0, &mut out).length, &out), (2, b"ab.."));
/// ```
pub fn value(
    edition: usize,
    table: RawTable<'_>,
    link: usize,
    place: usize,
    out: &mut [u8],
) -> LengthAnswer {
    // SAFETY: as in `read`; the output alone is lent for writing.
    unsafe {
        capstan_value(
            edition,
            table.text.as_ptr(),
            table.text.len(),
            table.links.as_ptr(),
            table.links.len(),
            table.params.as_ptr(),
            table.params.len(),
            table.link_count,
            table.param_count,
            link,
            place,
            out.as_mut_ptr(),
            out.len(),
        )
    }
}

/// Copies the title of a link: what its `title*` gives, or else what its `title` means.
///
/// ```
/// use capstanbar::ffi::{title, RawTable};
///
/// let (links, params) = ([0, 0, 0, 1], [0, 6, 6, 16, 1, 5]);
/// let text = b"title*UTF-8''%41";
/// let table = RawTable { text, links: &links, params: &params, link_count: 1, param_count: 1 };
/// let mut out = *b"....";
/// assert_eq!((title(0, table, 0, &mut out).length, &out), (1, b"A..."));
/// assert_eq!(title(0, table, 1, &mut out).number, 8);
/// ```
pub fn title(edition: usize, table: RawTable<'_>, link: usize, out: &mut [u8]) -> LengthAnswer {
    // SAFETY: as in `read`; the output alone is lent for writing.
    unsafe {
        capstan_title(
            edition,
            table.text.as_ptr(),
            table.text.len(),
            table.links.as_ptr(),
            table.links.len(),
            table.params.as_ptr(),
            table.params.len(),
            table.link_count,
            table.param_count,
            link,
            out.as_mut_ptr(),
            out.len(),
        )
    }
}

/// Decodes one extended value.
///
/// ```
/// use capstanbar::ffi::decode;
///
/// let mut out = *b"....";
/// assert_eq!((decode(b"UTF-8''%c3%a4", &mut out).length, &out), (2, b"\xc3\xa4.."));
/// assert_eq!(decode(b"UTF-8''%c3", &mut out).number, 11);
/// ```
pub fn decode(value: &[u8], out: &mut [u8]) -> LengthAnswer {
    // SAFETY: as in `read`; the output alone is lent for writing.
    unsafe { capstan_decode(value.as_ptr(), value.len(), out.as_mut_ptr(), out.len()) }
}

/// Resolves a reference on a base.
///
/// ```
/// use capstanbar::ffi::resolve;
///
/// let mut out = *b"........";
/// assert_eq!((resolve(b"../c", b"a:/b/d", &mut out).length, &out), (4, b"a:/c...."));
/// assert_eq!(resolve(b"../c", b"/b/d", &mut out).number, 12);
/// assert_eq!(resolve(b"1:c", b"a:/b/d", &mut out).number, 13);
/// ```
pub fn resolve(reference: &[u8], base: &[u8], out: &mut [u8]) -> LengthAnswer {
    // SAFETY: as in `read`; the output alone is lent for writing.
    unsafe {
        capstan_resolve(
            reference.as_ptr(),
            reference.len(),
            base.as_ptr(),
            base.len(),
            out.as_mut_ptr(),
            out.len(),
        )
    }
}

/// Resolves the context of a link: what its `anchor` means on the base, or else the base without its
/// fragment.
///
/// ```
/// use capstanbar::ffi::{resolved_context, RawTable};
///
/// let (links, params) = ([0, 0, 0, 1], [0, 6, 6, 9, 2, 2]);
/// let text = br"anchor\/b";
/// let table = RawTable { text, links: &links, params: &params, link_count: 1, param_count: 1 };
/// let mut out = *b".......";
/// assert_eq!((resolved_context(0, table, b"a://c/d", 0, &mut out).length, &out), (7, b"a://c/b"));
/// assert_eq!(resolved_context(0, table, b"/d", 0, &mut out).number, 12);
/// ```
pub fn resolved_context(
    edition: usize,
    table: RawTable<'_>,
    base: &[u8],
    link: usize,
    out: &mut [u8],
) -> LengthAnswer {
    // SAFETY: as in `read`; the output alone is lent for writing.
    unsafe {
        capstan_resolved_context(
            edition,
            table.text.as_ptr(),
            table.text.len(),
            base.as_ptr(),
            base.len(),
            table.links.as_ptr(),
            table.links.len(),
            table.params.as_ptr(),
            table.params.len(),
            table.link_count,
            table.param_count,
            link,
            out.as_mut_ptr(),
            out.len(),
        )
    }
}

/// Writes the table's one written form.
///
/// ```
/// use capstanbar::ffi::{write, RawTable};
///
/// let (links, params) = ([0, 3, 0, 1], [0, 3, 0, 1, 2, 1]);
/// let table = RawTable { text: b"Rel", links: &links, params: &params, link_count: 1, param_count: 1 };
/// let mut out = *b"................";
/// assert_eq!((write(0, table, &mut out).length, &out), (12, b"<Rel>; rel=R...."));
/// ```
pub fn write(edition: usize, table: RawTable<'_>, out: &mut [u8]) -> LengthAnswer {
    // SAFETY: as in `read`; the output alone is lent for writing.
    unsafe {
        capstan_write(
            edition,
            table.text.as_ptr(),
            table.text.len(),
            table.links.as_ptr(),
            table.links.len(),
            table.params.as_ptr(),
            table.params.len(),
            table.link_count,
            table.param_count,
            out.as_mut_ptr(),
            out.len(),
        )
    }
}

/// Walks so many steps through a catalogue, from the pack of that number. What is lent for work may hold
/// anything afterwards.
///
/// ```
/// use capstanbar::ffi::{walk, WalkAnswer};
///
/// let catalogue = b"a:b\t<c>;rel=next\na:c\t\n";
/// let (mut links, mut params) = ([0; 4], [0; 6]);
/// let mut ask = |start, steps, octets| {
///     walk(catalogue, start, steps, &mut links, &mut params, &mut [0; 8192][..octets])
/// };
/// assert_eq!(ask(0, 9, 8192), WalkAnswer { number: 0, end: 2, pack: 1, steps: 1 });
/// assert_eq!(ask(0, 0, 8191).number, 7);
/// assert_eq!(ask(2, 0, 8191).number, 8);
/// assert_eq!(ask(2, -65, 8191).number, 14);
/// assert_eq!(walk(catalogue, 0, 0, &mut links, &mut [], &mut []).number, 15);
/// ```
pub fn walk(
    catalogue: &[u8],
    start: usize,
    steps: i32,
    links: &mut [usize],
    params: &mut [usize],
    work: &mut [u8],
) -> WalkAnswer {
    // SAFETY: as in `read`; both tables and the octets for resolving are lent for writing.
    unsafe {
        capstan_walk(
            catalogue.as_ptr(),
            catalogue.len(),
            start,
            steps,
            links.as_mut_ptr(),
            links.len(),
            params.as_mut_ptr(),
            params.len(),
            work.as_mut_ptr(),
            work.len(),
        )
    }
}
