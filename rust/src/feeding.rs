use crate::ffi::{self, FeedingState};
use crate::{Counts, Edition, Refusal, Table, LIMIT};
use core::fmt;

/// A header that arrives in parts: made, fed each part, and finished.
///
/// However the header is cut, the finish answers what [`read_in`](crate::read_in) answers of the
/// whole, and a feed is refused as soon as something is wrong with what was fed. A target that is no
/// reference is told once its `>` is fed.
///
/// ```
/// use capstanbar::{Feeding, Refusal, LIMIT, LINK_SLOTS, PARAM_SLOTS};
///
/// let (mut links, mut params) = ([0; LINK_SLOTS], [0; 2 * PARAM_SLOTS]);
/// let mut buffer = [0; LIMIT];
/// let mut feeding = Feeding::new(&mut buffer);
/// for part in [&b"</packs/8>; title=\"Harb"[..], b"", b"our, part 3\"; rel=ne", b"xt"] {
///     feeding.feed(part)?;
/// }
/// let table = feeding.table(&mut links, &mut params)?;
/// assert_eq!(table.search(b"next")?.target(), b"/packs/8");
/// # Ok::<(), Refusal>(())
/// ```
///
/// It holds the state, and the buffer that gathers the parts is lent to it as long as it lives. So
/// each call finds both as the call before left them:
///
/// ```compile_fail,E0506
/// let mut buffer = [0; capstanbar::LIMIT];
/// let mut feeding = capstanbar::Feeding::new(&mut buffer);
/// buffer[0] = b'<';
/// feeding.feed(b"a>");
/// ```
pub struct Feeding<'a> {
    edition: Edition,
    state: FeedingState,
    buffer: &'a mut [u8; LIMIT],
    /// How many octets of the buffer were gathered.
    length: usize,
}

impl<'a> Feeding<'a> {
    /// A feeding of no parts yet. What the buffer holds doesn't matter. The header is read by RFC
    /// 8288; [`new_in`](Feeding::new_in) also reads by the older RFC 5988.
    ///
    /// A shorter buffer would be refused by every call. An array of [`LIMIT`] octets can't be
    /// shorter, so there is nothing to refuse; of a longer slice, lend the first octets.
    ///
    /// ```
    /// use capstanbar::{Feeding, LIMIT};
    ///
    /// let mut longer = vec![0; 3 * LIMIT];
    /// let buffer = longer.first_chunk_mut().expect("it has as many octets");
    /// assert_eq!(Feeding::new(buffer).gathered(), b"");
    /// ```
    pub fn new(buffer: &'a mut [u8; LIMIT]) -> Feeding<'a> {
        Feeding::new_in(Edition::Rfc8288, buffer)
    }

    /// A feeding as [`new`](Feeding::new) makes it, in that edition.
    ///
    /// ```
    /// use capstanbar::{Edition, Feeding, Refusal, LIMIT, LINK_SLOTS, PARAM_SLOTS};
    ///
    /// let (mut links, mut params) = ([0; LINK_SLOTS], [0; PARAM_SLOTS]);
    /// let mut buffer = [0; LIMIT];
    /// let mut feeding = Feeding::new_in(Edition::Rfc5988, &mut buffer);
    /// feeding.feed(b"<a>;rel=http:/")?;
    /// feeding.feed(b"/example.net/foo")?;
    /// let table = feeding.table(&mut links, &mut params)?;
    /// assert_eq!(table.edition(), Edition::Rfc5988);
    /// assert_eq!(table.search(b"http://example.net/foo")?.target(), b"a");
    ///
    /// let mut feeding = Feeding::new(&mut buffer);
    /// let refused = Err(Refusal::Malformed { place: 12 });
    /// assert_eq!(feeding.feed(b"<a>;rel=http:/"), refused);
    /// # Ok::<(), Refusal>(())
    /// ```
    pub fn new_in(edition: Edition, buffer: &'a mut [u8; LIMIT]) -> Feeding<'a> {
        Feeding {
            edition,
            state: ffi::start(edition.number()),
            buffer,
            length: 0,
        }
    }

    /// Takes one part more, of any length.
    ///
    /// Refused in this order: too long, malformed. What counts are the octets of all parts so far,
    /// refused ones too; so a malformed beginning stays malformed at its place, and once there are
    /// too many octets there always are. A header that is only cut short isn't refused here, nor is an
    /// open target, however wrong it is; once its `>` is fed, its place may lie in an earlier part.
    ///
    /// ```
    /// use capstanbar::{Feeding, Refusal, LIMIT};
    ///
    /// let mut buffer = [0; LIMIT];
    /// let mut feeding = Feeding::new(&mut buffer);
    /// assert_eq!(feeding.feed(b"<a>;t=\""), Ok(()));
    /// assert_eq!(feeding.feed(b""), Ok(()));
    /// assert_eq!(feeding.feed(b"b\" <c>"), Err(Refusal::Malformed { place: 10 }));
    /// assert_eq!(feeding.feed(b", <d>"), Err(Refusal::Malformed { place: 10 }));
    /// assert_eq!(feeding.feed(&[b','; LIMIT]), Err(Refusal::TooLong));
    /// assert_eq!(feeding.feed(b""), Err(Refusal::TooLong));
    ///
    /// let mut feeding = Feeding::new(&mut buffer);
    /// assert_eq!(feeding.feed(b"<1:a"), Ok(()));
    /// assert_eq!(feeding.feed(b"/b>"), Err(Refusal::Malformed { place: 1 }));
    /// ```
    pub fn feed(&mut self, part: &[u8]) -> Result<(), Refusal> {
        let answer = ffi::feed(self.state, part, self.buffer);
        self.state = answer.next;
        Refusal::check(answer.number, answer.place)?;
        self.length += part.len();
        Ok(())
    }

    /// The octets gathered: those of all parts that weren't refused, in order. Of a refused part
    /// there is none, also none of those before its fault.
    ///
    /// ```
    /// use capstanbar::{Feeding, Refusal, LIMIT};
    ///
    /// let mut buffer = [0; LIMIT];
    /// let mut feeding = Feeding::new(&mut buffer);
    /// feeding.feed(b"<a>")?;
    /// feeding.feed(b";rel")?;
    /// assert!(feeding.feed(b"=next;;").is_err());
    /// assert_eq!(feeding.gathered(), b"<a>;rel");
    /// # Ok::<(), Refusal>(())
    /// ```
    pub fn gathered(&self) -> &[u8] {
        &self.buffer[..self.length]
    }

    /// Reads all that was fed into the slots lent, as [`read_in`](crate::read_in) reads a whole
    /// header. Asked again it answers the same, and feeds may go on.
    ///
    /// Refused in this order: too long, malformed, no link room, no parameter room. A header cut
    /// short is malformed at its end.
    ///
    /// ```
    /// use capstanbar::{Counts, Feeding, Refusal, LIMIT, LINK_SLOTS, PARAM_SLOTS};
    ///
    /// let (mut links, mut params) = ([7; LINK_SLOTS], [7; PARAM_SLOTS]);
    /// let mut buffer = [0; LIMIT];
    /// let mut feeding = Feeding::new(&mut buffer);
    /// feeding.feed(b"<a>;re")?;
    /// feeding.feed(b"l=")?;
    /// let cut_short = Err(Refusal::Malformed { place: 8 });
    /// assert_eq!(feeding.finish(&mut links, &mut params), cut_short);
    /// assert_eq!((links, params), ([7; LINK_SLOTS], [7; PARAM_SLOTS]));
    ///
    /// feeding.feed(b"next")?;
    /// for _ in 0..2 {
    ///     let counts = feeding.finish(&mut links, &mut params)?;
    ///     assert_eq!(counts, Counts { links: 1, params: 1 });
    ///     assert_eq!((links, params), ([1, 2, 0, 1], [4, 7, 8, 12, 1, 1]));
    /// }
    /// # Ok::<(), Refusal>(())
    /// ```
    pub fn finish(&self, links: &mut [usize], params: &mut [usize]) -> Result<Counts, Refusal> {
        Counts::check(ffi::finish(self.state, self.buffer, links, params))
    }

    /// Finishes, and hands back a view of what was read. Its text is what was gathered, so while it
    /// is used no part can be fed.
    ///
    /// Refused as [`finish`](Feeding::finish) is.
    ///
    /// ```
    /// use capstanbar::{Feeding, Refusal, LIMIT, LINK_SLOTS, PARAM_SLOTS};
    ///
    /// let (mut links, mut params) = ([0; 2 * LINK_SLOTS], [0; 2 * PARAM_SLOTS]);
    /// let mut buffer = [0; LIMIT];
    /// let mut feeding = Feeding::new(&mut buffer);
    /// feeding.feed(b"<a>; rel=next")?;
    /// assert_eq!(feeding.table(&mut links, &mut params)?.counts().links, 1);
    ///
    /// feeding.feed(b", <b>; rel=prev")?;
    /// let table = feeding.table(&mut links, &mut params)?;
    /// assert_eq!(table.text(), b"<a>; rel=next, <b>; rel=prev");
    /// assert_eq!(table.search(b"prev")?.target(), b"b");
    /// # Ok::<(), Refusal>(())
    /// ```
    pub fn table<'t>(
        &'t self,
        links: &'t mut [usize],
        params: &'t mut [usize],
    ) -> Result<Table<'t>, Refusal> {
        let counts = self.finish(links, params)?;
        // What is read is good, and it was read from all that was fed: nothing was refused, or the
        // finish would have been.
        Ok(Table::of(
            self.edition,
            self.gathered(),
            links,
            params,
            counts,
        ))
    }

    /// Finishes for good: the view may be used as long as the buffer is lent, also where the feeding
    /// is gone.
    ///
    /// Refused as [`finish`](Feeding::finish) is.
    ///
    /// ```
    /// use capstanbar::{Feeding, Refusal, Table, LIMIT, LINK_SLOTS, PARAM_SLOTS};
    ///
    /// fn gather<'a>(
    ///     parts: &[&[u8]],
    ///     buffer: &'a mut [u8; LIMIT],
    ///     links: &'a mut [usize],
    ///     params: &'a mut [usize],
    /// ) -> Result<Table<'a>, Refusal> {
    ///     let mut feeding = Feeding::new(buffer);
    ///     parts.iter().try_for_each(|part| feeding.feed(part))?;
    ///     feeding.into_table(links, params)
    /// }
    ///
    /// let (mut links, mut params) = ([0; LINK_SLOTS], [0; PARAM_SLOTS]);
    /// let mut buffer = [0; LIMIT];
    /// let table = gather(&[b"<a>;re", b"l=next"], &mut buffer, &mut links, &mut params)?;
    /// assert_eq!(table.search(b"next")?.target(), b"a");
    /// # Ok::<(), Refusal>(())
    /// ```
    pub fn into_table(
        self,
        links: &'a mut [usize],
        params: &'a mut [usize],
    ) -> Result<Table<'a>, Refusal> {
        let counts = self.finish(links, params)?;
        Ok(Table::of(
            self.edition,
            &self.buffer[..self.length],
            links,
            params,
            counts,
        ))
    }
}

/// The state and the octets gathered; the rest of the buffer says nothing.
impl fmt::Debug for Feeding<'_> {
    fn fmt(&self, f: &mut fmt::Formatter<'_>) -> fmt::Result {
        f.debug_struct("Feeding")
            .field("state", &self.state)
            .field("gathered", &self.gathered())
            .finish()
    }
}
