use crate::ffi::{self, RawTable};
use crate::{read_in, Counts, Edition, Link, Links, Refusal, Title, LINK_SLOTS, PARAM_SLOTS};

/// A good table: a text, and link and parameter records in slots that are lent as long as it lives.
///
/// It is made by reading, or from a caller's numbers, which are checked. So whatever is asked of it,
/// its links and its parameters finds records that describe parts of the text, and accessors have
/// nothing to refuse.
///
/// ```
/// use capstanbar::{Refusal, Table, LINK_SLOTS, PARAM_SLOTS};
///
/// let (mut links, mut params) = ([0; 2 * LINK_SLOTS], [0; 2 * PARAM_SLOTS]);
/// let table = Table::read(b"<a>;rel=next, <b>;rel=prev", &mut links, &mut params)?;
/// let targets: Vec<&[u8]> = table.links().map(|link| link.target()).collect();
/// assert_eq!(targets, [b"a", b"b"]);
/// # Ok::<(), Refusal>(())
/// ```
///
/// While it lives its slots can't be changed:
///
/// ```compile_fail,E0506
/// let (mut links, mut params) = ([0; capstanbar::LINK_SLOTS], []);
/// let table = capstanbar::Table::read(b"<a>", &mut links, &mut params).unwrap();
/// links[1] = 9;
/// table.link(0);
/// ```
#[derive(Clone, Copy, Debug)]
pub struct Table<'a> {
    edition: Edition,
    raw: RawTable<'a>,
}

impl<'a> Table<'a> {
    /// Reads a field value into the slots lent, as [`read`](crate::read()) does, and hands back a
    /// view of it.
    ///
    /// ```
    /// use capstanbar::{Refusal, Table, LINK_SLOTS, PARAM_SLOTS};
    ///
    /// let (mut links, mut params) = ([0; LINK_SLOTS], [0; PARAM_SLOTS]);
    /// let table = Table::read(b"<a>;rel=next;rel=prev", &mut links, &mut params)?;
    /// assert_eq!(table.counts().params, 1); // of `rel` only the first is kept
    ///
    /// let refused = Table::read(b"<a>,<b>", &mut links, &mut params);
    /// assert_eq!(refused.unwrap_err(), Refusal::NoLinkRoom);
    /// # Ok::<(), Refusal>(())
    /// ```
    pub fn read(
        header: &'a [u8],
        links: &'a mut [usize],
        params: &'a mut [usize],
    ) -> Result<Table<'a>, Refusal> {
        Table::read_in(Edition::Rfc8288, header, links, params)
    }

    /// Reads a field value as [`read`](Table::read) does, in that edition. What is asked of the table
    /// is answered in it, too.
    ///
    /// ```
    /// use capstanbar::{Edition, Refusal, Table, LINK_SLOTS, PARAM_SLOTS};
    ///
    /// let (mut links, mut params) = ([0; LINK_SLOTS], [0; PARAM_SLOTS]);
    /// let header = b"<a>;rel=http://example.net/foo";
    /// let table = Table::read_in(Edition::Rfc5988, header, &mut links, &mut params)?;
    /// assert_eq!(table.search(b"HTTP://example.net/foo")?.target(), b"a");
    /// # Ok::<(), Refusal>(())
    /// ```
    pub fn read_in(
        edition: Edition,
        header: &'a [u8],
        links: &'a mut [usize],
        params: &'a mut [usize],
    ) -> Result<Table<'a>, Refusal> {
        let counts = read_in(edition, header, links, params)?;
        // What is read is good: the library is proved to leave a good table.
        Ok(Table::of(edition, header, links, params, counts))
    }

    /// Takes records made elsewhere, which may hold any numbers: a table that isn't good is refused.
    /// It is judged by RFC 8288; [`new_in`](Table::new_in) also judges by the older RFC 5988.
    ///
    /// Refused in this order: too long, bad table. In a good one every target is a URI-reference.
    ///
    /// ```
    /// use capstanbar::{Counts, Refusal, Table};
    ///
    /// let counts = Counts { links: 1, params: 1 };
    /// let table = Table::new(b"rel/a", &[3, 5, 0, 1], &[0, 3, 4, 5, 1, 1], counts)?;
    /// assert_eq!(table.search(b"A")?.target(), b"/a");
    ///
    /// let past_the_end = Table::new(b"rel/a", &[3, 6, 0, 1], &[0, 3, 4, 5, 1, 1], counts);
    /// assert_eq!(past_the_end.unwrap_err(), Refusal::BadTable);
    ///
    /// let code_of_rev = Table::new(b"rel/a", &[3, 5, 0, 1], &[0, 3, 4, 5, 1, 8], counts);
    /// assert_eq!(code_of_rev.unwrap_err(), Refusal::BadTable);
    ///
    /// let no_reference = Table::new(b"rel:a", &[3, 5, 0, 1], &[0, 3, 4, 5, 1, 1], counts);
    /// assert_eq!(no_reference.unwrap_err(), Refusal::BadTable);
    /// # Ok::<(), Refusal>(())
    /// ```
    pub fn new(
        text: &'a [u8],
        links: &'a [usize],
        params: &'a [usize],
        counts: Counts,
    ) -> Result<Table<'a>, Refusal> {
        Table::new_in(Edition::Rfc8288, text, links, params, counts)
    }

    /// Takes records made elsewhere as [`new`](Table::new) does, in that edition: the one that they
    /// were read in.
    ///
    /// ```
    /// use capstanbar::{read_in, Edition, Refusal, Table, LINK_SLOTS, PARAM_SLOTS};
    ///
    /// let (mut links, mut params) = ([0; LINK_SLOTS], [0; PARAM_SLOTS]);
    /// let header = b"<a>;rel=b/c";
    /// let counts = read_in(Edition::Rfc5988, header, &mut links, &mut params)?;
    /// assert!(Table::new_in(Edition::Rfc5988, header, &links, &params, counts).is_ok());
    ///
    /// let bare = Table::new_in(Edition::Rfc8288, header, &links, &params, counts);
    /// assert_eq!(bare.unwrap_err(), Refusal::BadTable);
    /// # Ok::<(), Refusal>(())
    /// ```
    pub fn new_in(
        edition: Edition,
        text: &'a [u8],
        links: &'a [usize],
        params: &'a [usize],
        counts: Counts,
    ) -> Result<Table<'a>, Refusal> {
        let table = Table::of(edition, text, links, params, counts);
        // No link has the empty relation, so of a good table it isn't found.
        match Refusal::check(ffi::search(edition.number(), table.raw, b"").number, 0) {
            Ok(()) | Err(Refusal::NotFound) => Ok(table),
            Err(refusal) => Err(refusal),
        }
    }

    /// Whoever hands it out must know that it is good.
    pub(crate) fn of(
        edition: Edition,
        text: &'a [u8],
        links: &'a [usize],
        params: &'a [usize],
        counts: Counts,
    ) -> Table<'a> {
        Table {
            edition,
            raw: RawTable {
                text,
                links,
                params,
                link_count: counts.links,
                param_count: counts.params,
            },
        }
    }

    /// How many links and parameters it holds.
    ///
    /// ```
    /// # let (mut links, mut params) = ([0; 8], [0; 64]);
    /// let table = capstanbar::Table::read(b"<a>;x;y, <b>", &mut links, &mut params)?;
    /// assert_eq!((table.counts().links, table.counts().params), (2, 2));
    /// # Ok::<(), capstanbar::Refusal>(())
    /// ```
    pub fn counts(&self) -> Counts {
        Counts {
            links: self.raw.link_count,
            params: self.raw.param_count,
        }
    }

    /// The edition that it was read in, or is judged in.
    ///
    /// ```
    /// use capstanbar::{Edition, Table};
    ///
    /// # let (mut links, mut params) = ([0; 8], [0; 64]);
    /// let table = Table::read(b"<a>", &mut links, &mut params)?;
    /// assert_eq!(table.edition(), Edition::Rfc8288);
    /// let table = Table::read_in(Edition::Rfc5988, b"<a>", &mut links, &mut params)?;
    /// assert_eq!(table.edition(), Edition::Rfc5988);
    /// # Ok::<(), capstanbar::Refusal>(())
    /// ```
    pub fn edition(&self) -> Edition {
        self.edition
    }

    /// The text that its records are places in.
    ///
    /// ```
    /// # let (mut links, mut params) = ([0; 8], [0; 64]);
    /// let table = capstanbar::Table::read(b" <a> ", &mut links, &mut params)?;
    /// assert_eq!(table.text(), b" <a> ");
    /// # Ok::<(), capstanbar::Refusal>(())
    /// ```
    pub fn text(&self) -> &'a [u8] {
        self.raw.text
    }

    /// The table as the C interface takes it behind the edition.
    ///
    /// ```
    /// # let (mut links, mut params) = ([0; 8], [0; 64]);
    /// let table = capstanbar::Table::read(b"<a>", &mut links, &mut params)?;
    /// assert_eq!(table.raw().links[..4], [1, 2, 0, 0]);
    /// # Ok::<(), capstanbar::Refusal>(())
    /// ```
    pub fn raw(&self) -> RawTable<'a> {
        self.raw
    }

    /// The link of that number, if it is below the count.
    ///
    /// ```
    /// # let (mut links, mut params) = ([0; 8], [0; 64]);
    /// let table = capstanbar::Table::read(b"<a>, <b>", &mut links, &mut params)?;
    /// assert_eq!(table.link(1).unwrap().target(), b"b");
    /// assert!(table.link(2).is_none());
    /// # Ok::<(), capstanbar::Refusal>(())
    /// ```
    pub fn link(&self, number: usize) -> Option<Link<'a>> {
        (number < self.raw.link_count).then(|| Link::of(*self, number))
    }

    /// The links in order.
    ///
    /// ```
    /// # let (mut links, mut params) = ([0; 8], [0; 64]);
    /// let table = capstanbar::Table::read(b"<a>, <b>", &mut links, &mut params)?;
    /// assert_eq!(table.links().len(), 2);
    /// assert_eq!(table.links().next_back().unwrap().target(), b"b");
    /// # Ok::<(), capstanbar::Refusal>(())
    /// ```
    pub fn links(&self) -> Links<'a> {
        Links::of(*self)
    }

    /// The lowest link that has the relation, whatever the case of letters.
    ///
    /// Refused: not found. An empty relation, or one with a space, is never found.
    ///
    /// ```
    /// use capstanbar::{Refusal, Table};
    ///
    /// # let (mut links, mut params) = ([0; 8], [0; 64]);
    /// let table = Table::read(br#"<a>;rel=up, <b>;rel="start NEXT""#, &mut links, &mut params)?;
    /// assert_eq!(table.search(b"next")?.number(), 1);
    /// assert_eq!(table.search(b"prev").unwrap_err(), Refusal::NotFound);
    /// # Ok::<(), Refusal>(())
    /// ```
    pub fn search(&self, relation: &[u8]) -> Result<Link<'a>, Refusal> {
        let answer = ffi::search(self.edition.number(), self.raw, relation);
        Refusal::check(answer.number, 0)?;
        Ok(Link::of(*self, answer.link))
    }

    /// The context of the link of that number: its `anchor` value as written, also when empty, else
    /// the whole base.
    ///
    /// Refused: no such link.
    ///
    /// ```
    /// use capstanbar::{Refusal, Table};
    ///
    /// # let (mut links, mut params) = ([0; 8], [0; 64]);
    /// let table = Table::read(br##"<a>;anchor="#foo", <b>"##, &mut links, &mut params)?;
    /// assert_eq!(table.context(b"/base", 0)?, b"#foo");
    /// assert_eq!(table.context(b"/base", 1)?, b"/base");
    /// assert_eq!(table.context(b"/base", 2), Err(Refusal::NoSuchLink));
    /// # Ok::<(), Refusal>(())
    /// ```
    pub fn context<'c>(&self, base: &'c [u8], link: usize) -> Result<&'c [u8], Refusal>
    where
        'a: 'c,
    {
        let answer = ffi::context(self.edition.number(), self.raw, base, link);
        Refusal::check(answer.number, 0)?;
        let whole = if answer.source == 1 {
            self.raw.text
        } else {
            base
        };
        Ok(&whole[answer.start..answer.end])
    }

    /// Resolves the context of the link of that number to the beginning of the output, and hands back
    /// the result: what its `anchor` means, the backslashes of a quoted string taken out, resolved on
    /// the base as [`resolve`](crate::resolve()) does; without an `anchor`, the base without its
    /// fragment. An `anchor` without a value is the empty reference.
    ///
    /// Refused in this order: too long (the base), no such link, bad base, bad reference, too long (the
    /// result), no output room. [`LIMIT`](crate::LIMIT) octets of room are always enough.
    ///
    /// ```
    /// use capstanbar::{Refusal, Table};
    ///
    /// # let (mut links, mut params) = ([0; 8], [0; 64]);
    /// let table = Table::read(br#"<a>;anchor="\../c", <b>"#, &mut links, &mut params)?;
    /// let mut room = [0; 16];
    /// assert_eq!(table.resolved_context(b"http://a/b/", 0, &mut room)?, b"http://a/c");
    /// assert_eq!(table.resolved_context(b"http://a/b/#d", 1, &mut room)?, b"http://a/b/");
    /// assert_eq!(table.resolved_context(b"/b/", 1, &mut room), Err(Refusal::BadBase));
    /// assert_eq!(table.resolved_context(b"/b/", 2, &mut room), Err(Refusal::NoSuchLink));
    /// # Ok::<(), Refusal>(())
    /// ```
    pub fn resolved_context<'o>(
        &self,
        base: &[u8],
        link: usize,
        out: &'o mut [u8],
    ) -> Result<&'o [u8], Refusal> {
        let answer = ffi::resolved_context(self.edition.number(), self.raw, base, link, out);
        Refusal::check(answer.number, 0)?;
        Ok(&out[..answer.length])
    }

    /// Copies the meaning of a parameter's value, its backslashes taken out, to the beginning of the
    /// output, and hands back what was copied. The parameter is named by the number of its link and
    /// its place within that link.
    ///
    /// Refused in this order: no such link, not found, no output room. Room for the value as written
    /// is always enough.
    ///
    /// ```
    /// use capstanbar::{Refusal, Table};
    ///
    /// # let (mut links, mut params) = ([0; 8], [0; 64]);
    /// let table = Table::read(br#"<a>;title="say \"hi\"""#, &mut links, &mut params)?;
    /// let mut out = [0; 8];
    /// assert_eq!(table.value(0, 0, &mut out)?, b"say \"hi\"");
    /// assert_eq!(table.value(0, 1, &mut out), Err(Refusal::NotFound));
    /// assert_eq!(table.value(0, 0, &mut out[..7]), Err(Refusal::NoOutputRoom));
    /// # Ok::<(), Refusal>(())
    /// ```
    pub fn value<'o>(
        &self,
        link: usize,
        place: usize,
        out: &'o mut [u8],
    ) -> Result<&'o [u8], Refusal> {
        let answer = ffi::value(self.edition.number(), self.raw, link, place, out);
        Refusal::check(answer.number, 0)?;
        Ok(&out[..answer.length])
    }

    /// Copies the title of a link to the beginning of the output, and hands back what was copied: the
    /// text that its `title*` gives, if that is a right extended value as [`decode`](crate::decode)
    /// says, and else the meaning of its `title`.
    ///
    /// Refused in this order: no such link, not found, no output room. A right `title*` that gives
    /// more octets than the output has is refused so, too, and `title` isn't taken instead. Room for
    /// the value taken, as written, is always enough.
    ///
    /// ```
    /// use capstanbar::{Refusal, Table, Title};
    ///
    /// # let (mut links, mut params) = ([0; 8], [0; 64]);
    /// let header = b"<a>;title=next;title*=UTF-8''n%c3%a4chstes, <b>";
    /// let table = Table::read(header, &mut links, &mut params)?;
    /// let mut out = [0; 9];
    /// assert_eq!(table.title(0, &mut out)?, Title::Text("n\u{e4}chstes"));
    /// assert_eq!(table.title(0, &mut out[..8]), Err(Refusal::NoOutputRoom));
    /// assert_eq!(table.title(1, &mut out), Err(Refusal::NotFound));
    /// assert_eq!(table.title(2, &mut out), Err(Refusal::NoSuchLink));
    /// # Ok::<(), Refusal>(())
    /// ```
    pub fn title<'o>(&self, link: usize, out: &'o mut [u8]) -> Result<Title<'o>, Refusal> {
        let answer = ffi::title(self.edition.number(), self.raw, link, out);
        Refusal::check(answer.number, 0)?;
        Ok(Title::of(Link::of(*self, link), &out[..answer.length]))
    }

    /// Writes the table in its one fixed form to the beginning of the output, and hands back what
    /// was written. Names are folded to lower case; a value stands bare if it is a token, else in
    /// quotes, so that it reads in every edition.
    ///
    /// Refused in this order: no relation, too long, no output room. [`LIMIT`](crate::LIMIT) octets
    /// of room are always enough.
    ///
    /// ```
    /// use capstanbar::{Refusal, Table};
    ///
    /// # let (mut links, mut params) = ([0; 8], [0; 64]);
    /// let table = Table::read(br#" <a> ;REL = "ne\xt" ,"#, &mut links, &mut params)?;
    /// assert_eq!(table.write(&mut [0; 32])?, b"<a>; rel=next");
    ///
    /// let table = Table::read(b"<a>", &mut links, &mut params)?;
    /// assert_eq!(table.write(&mut [0; 32]), Err(Refusal::NoRelation));
    /// # Ok::<(), Refusal>(())
    /// ```
    pub fn write<'o>(&self, out: &'o mut [u8]) -> Result<&'o [u8], Refusal> {
        let answer = ffi::write(self.edition.number(), self.raw, out);
        Refusal::check(answer.number, 0)?;
        Ok(&out[..answer.length])
    }

    /// Whether the value of a `title*` is right. The number is that of the parameter, below the count.
    ///
    /// The record is lent as the only one of a link with an empty target: so the library takes the
    /// backslashes out, and no value has to be copied.
    pub(crate) fn is_right_title_star(&self, number: usize) -> bool {
        let alone = RawTable {
            text: self.raw.text,
            links: &[0, 0, 0, 1],
            params: &self.param_record(number),
            link_count: 1,
            param_count: 1,
        };
        let answer = ffi::title(self.edition.number(), alone, 0, &mut []);
        // With an empty output a right value is done if it gives nothing, and else has no room; a wrong
        // one is no title, so none is found.
        matches!(
            Refusal::check(answer.number, 0),
            Ok(()) | Err(Refusal::NoOutputRoom)
        )
    }

    /// The record of a link below the count.
    pub(crate) fn link_record(&self, number: usize) -> [usize; LINK_SLOTS] {
        self.raw.links.as_chunks().0[number]
    }

    /// The record of a parameter below the count.
    pub(crate) fn param_record(&self, number: usize) -> [usize; PARAM_SLOTS] {
        self.raw.params.as_chunks().0[number]
    }
}
