use crate::{resolve, ByName, NamedParams, Param, Params, Refusal, Table, Title};
use core::ops::Range;

/// A link of a table.
///
/// ```
/// # let (mut links, mut params) = ([0; 8], [0; 64]);
/// let table = capstanbar::Table::read(b"<a>;rel=next", &mut links, &mut params)?;
/// let link = table.search(b"next")?;
/// assert_eq!((link.number(), link.target()), (0, &b"a"[..]));
/// # Ok::<(), capstanbar::Refusal>(())
/// ```
#[derive(Clone, Copy, Debug)]
pub struct Link<'a> {
    table: Table<'a>,
    number: usize,
}

impl<'a> Link<'a> {
    /// The number must be below the table's count of links.
    pub(crate) fn of(table: Table<'a>, number: usize) -> Link<'a> {
        Link { table, number }
    }

    /// Its number in the table.
    ///
    /// ```
    /// # let (mut links, mut params) = ([0; 8], [0; 64]);
    /// let table = capstanbar::Table::read(b"<a>, <b>", &mut links, &mut params)?;
    /// assert!(table.links().map(|link| link.number()).eq([0, 1]));
    /// # Ok::<(), capstanbar::Refusal>(())
    /// ```
    pub fn number(&self) -> usize {
        self.number
    }

    /// The octets of its target: a URI-reference (RFC 3986), which may have none.
    ///
    /// ```
    /// # let (mut links, mut params) = ([0; 8], [0; 64]);
    /// let table = capstanbar::Table::read(b"<http://a/%7Eb>", &mut links, &mut params)?;
    /// assert_eq!(table.link(0).unwrap().target(), b"http://a/%7Eb");
    /// # Ok::<(), capstanbar::Refusal>(())
    /// ```
    pub fn target(&self) -> &'a [u8] {
        let [start, end, ..] = self.table.link_record(self.number);
        &self.table.text()[start..end]
    }

    /// Its parameters in order.
    ///
    /// ```
    /// # let (mut links, mut params) = ([0; 8], [0; 64]);
    /// let header = b"<a>;x, <b>;hreflang=en;hreflang=de";
    /// let table = capstanbar::Table::read(header, &mut links, &mut params)?;
    /// let values = table.link(1).unwrap().params().map(|param| param.raw_value());
    /// assert!(values.eq([&b"en"[..], b"de"]));
    /// # Ok::<(), capstanbar::Refusal>(())
    /// ```
    pub fn params(&self) -> Params<'a> {
        let [_, _, first, count] = self.table.link_record(self.number);
        Params::of(self.table, self.number, first, count)
    }

    /// Its first parameter of that name, whatever the case of letters. The name is a
    /// [`Name`](crate::Name) or any octets.
    ///
    /// ```
    /// use capstanbar::Name;
    ///
    /// # let (mut links, mut params) = ([0; 8], [0; 64]);
    /// let table = capstanbar::Table::read(b"<a>;x=y;Type=t;title*=u", &mut links, &mut params)?;
    /// let link = table.link(0).unwrap();
    /// assert_eq!(link.find(Name::Type).unwrap().raw_value(), b"t");
    /// assert_eq!(link.find(b"type").unwrap().raw_value(), b"t");
    /// assert_eq!(link.find(b"X").unwrap().raw_value(), b"y");
    /// assert!(link.find(Name::Title).is_none());
    /// # Ok::<(), capstanbar::Refusal>(())
    /// ```
    pub fn find<'n>(&self, name: impl Into<ByName<'n>>) -> Option<Param<'a>> {
        self.find_all(name).next()
    }

    /// Its parameters of that name in order, of names that are kept each time maybe several.
    ///
    /// ```
    /// use capstanbar::Name;
    ///
    /// # let (mut links, mut params) = ([0; 4], [0; 64]);
    /// let header = b"<a>;HrefLang=en;rev=b;hreflang=de;REV=c;Type=d;type=e;x=f";
    /// let table = capstanbar::Table::read(header, &mut links, &mut params)?;
    /// let link = table.link(0).unwrap();
    /// let places = |name| link.find_all(name).map(|param| param.place()).collect::<Vec<_>>();
    /// assert_eq!(places(Name::Hreflang), [0, 2]);
    /// assert_eq!(places(Name::Rev), [1, 3]);
    /// assert_eq!(places(Name::Type), [4]); // of `type` only the first is kept
    /// assert_eq!(link.find_all(b"X").count(), 1);
    /// # Ok::<(), capstanbar::Refusal>(())
    /// ```
    pub fn find_all<'n>(&self, name: impl Into<ByName<'n>>) -> NamedParams<'a, 'n> {
        NamedParams::of(self.params(), name.into())
    }

    /// Its context: what its `anchor` holds, as it is written, even if that is nothing; without one, the base.
    ///
    /// ```
    /// # let (mut links, mut params) = ([0; 8], [0; 64]);
    /// let header = b"<a>;anchor=x, <b>";
    /// let table = capstanbar::Table::read(header, &mut links, &mut params)?;
    /// let contexts = table.links().map(|link| link.context(b"base"));
    /// assert!(contexts.eq([&b"x"[..], b"base"]));
    /// # Ok::<(), capstanbar::Refusal>(())
    /// ```
    pub fn context<'c>(&self, base: &'c [u8]) -> &'c [u8]
    where
        'a: 'c,
    {
        self.table
            .context(base, self.number)
            .expect("the table is good and has this link")
    }

    /// Resolves its target on a base to the beginning of the output, as [`resolve`](crate::resolve())
    /// does, and hands back the result.
    ///
    /// Refused in this order: too long (the base), bad base, too long (the result), no output room.
    /// [`LIMIT`](crate::LIMIT) octets of room are always enough.
    ///
    /// ```
    /// use capstanbar::Refusal;
    ///
    /// # let (mut links, mut params) = ([0; 8], [0; 64]);
    /// let table = capstanbar::Table::read(b"<../c>, <>", &mut links, &mut params)?;
    /// let [up, same] = [0, 1].map(|number| table.link(number).unwrap());
    /// let mut room = [0; 16];
    /// assert_eq!(up.resolve(b"http://a/b/", &mut room)?, b"http://a/c");
    /// assert_eq!(same.resolve(b"http://a/b/#top", &mut room)?, b"http://a/b/");
    /// assert_eq!(up.resolve(b"/b/", &mut room), Err(Refusal::BadBase));
    /// assert_eq!(up.resolve(b"http://a/b/", &mut room[..9]), Err(Refusal::NoOutputRoom));
    /// # Ok::<(), Refusal>(())
    /// ```
    pub fn resolve<'o>(&self, base: &[u8], out: &'o mut [u8]) -> Result<&'o [u8], Refusal> {
        resolve(self.target(), base, out)
    }

    /// Resolves its context, as [`Table::resolved_context`] does: what its `anchor` means on the base;
    /// without one, the base without its fragment.
    ///
    /// Refused in this order: too long (the base), bad base, bad reference, too long (the result), no
    /// output room.
    ///
    /// ```
    /// use capstanbar::Refusal;
    ///
    /// # let (mut links, mut params) = ([0; 16], [0; 64]);
    /// let header = br##"<a>;anchor="\#f", <b>;anchor, <c>, <d>;anchor="1:e""##;
    /// let table = capstanbar::Table::read(header, &mut links, &mut params)?;
    /// let (base, mut room) = (b"http://a/b#top", [0; 16]);
    /// let [a, b, c, d] = [0, 1, 2, 3].map(|number| table.link(number).unwrap());
    /// assert_eq!(a.resolved_context(base, &mut room)?, b"http://a/b#f");
    /// assert_eq!(b.resolved_context(base, &mut room)?, b"http://a/b");
    /// assert_eq!(c.resolved_context(base, &mut room)?, b"http://a/b");
    /// assert_eq!(d.resolved_context(base, &mut room), Err(Refusal::BadReference));
    /// # Ok::<(), Refusal>(())
    /// ```
    pub fn resolved_context<'o>(
        &self,
        base: &[u8],
        out: &'o mut [u8],
    ) -> Result<&'o [u8], Refusal> {
        self.table.resolved_context(base, self.number, out)
    }

    /// Copies its title, as [`Table::title`] does: the text of its `title*` if that is right, else the
    /// octets of its `title`.
    ///
    /// Refused in this order: not found, no output room.
    ///
    /// ```
    /// use capstanbar::{Refusal, Title};
    ///
    /// # let (mut links, mut params) = ([0; 16], [0; 64]);
    /// let header = b"<a>;title*=UTF-8'de'n%c3%a4chstes%20Kapitel, <b>;title=\"Last chapter\", <c>";
    /// let table = capstanbar::Table::read(header, &mut links, &mut params)?;
    /// let mut out = [0; 64];
    /// let [a, b, c] = [0, 1, 2].map(|number| table.link(number).unwrap());
    /// assert_eq!(a.title(&mut out)?, Title::Text("n\u{e4}chstes Kapitel"));
    /// assert_eq!(b.title(&mut out)?, Title::Octets(b"Last chapter"));
    /// assert_eq!(c.title(&mut out), Err(Refusal::NotFound));
    /// # Ok::<(), Refusal>(())
    /// ```
    pub fn title<'o>(&self, out: &'o mut [u8]) -> Result<Title<'o>, Refusal> {
        self.table.title(self.number, out)
    }
}

/// The links of a table in order.
///
/// ```
/// # let (mut links, mut params) = ([0; 8], [0; 64]);
/// let table = capstanbar::Table::read(b"<a>, <b>", &mut links, &mut params)?;
/// let mut links = table.links();
/// assert_eq!(links.next().unwrap().target(), b"a");
/// assert_eq!(links.len(), 1);
/// # Ok::<(), capstanbar::Refusal>(())
/// ```
#[derive(Clone, Debug)]
pub struct Links<'a> {
    table: Table<'a>,
    numbers: Range<usize>,
}

impl<'a> Links<'a> {
    pub(crate) fn of(table: Table<'a>) -> Links<'a> {
        let numbers = 0..table.counts().links;
        Links { table, numbers }
    }
}

impl<'a> Iterator for Links<'a> {
    type Item = Link<'a>;

    fn next(&mut self) -> Option<Link<'a>> {
        let number = self.numbers.next()?;
        Some(Link::of(self.table, number))
    }

    fn size_hint(&self) -> (usize, Option<usize>) {
        self.numbers.size_hint()
    }
}

impl DoubleEndedIterator for Links<'_> {
    fn next_back(&mut self) -> Option<Self::Item> {
        let number = self.numbers.next_back()?;
        Some(Link::of(self.table, number))
    }
}

impl ExactSizeIterator for Links<'_> {}
