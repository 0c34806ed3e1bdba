use crate::ffi::{self, ReadAnswer};
use crate::{Edition, Refusal};

/// How many links and parameters a table holds.
///
/// ```
/// use capstanbar::{read, Counts, LINK_SLOTS, PARAM_SLOTS};
///
/// let (mut links, mut params) = ([0; 2 * LINK_SLOTS], [0; 2 * PARAM_SLOTS]);
/// let counts = read(b"<a>;x;y,<b>", &mut links, &mut params);
/// assert_eq!(counts, Ok(Counts { links: 2, params: 2 }));
/// ```
#[derive(Clone, Copy, Debug, Default, PartialEq, Eq, Hash)]
pub struct Counts {
    /// Links.
    pub links: usize,
    /// Parameters of all the links.
    pub params: usize,
}

impl Counts {
    /// What reading answered: the counts, or the refusal.
    pub(crate) fn check(answer: ReadAnswer) -> Result<Counts, Refusal> {
        Refusal::check(answer.number, answer.place)?;
        Ok(Counts {
            links: answer.links,
            params: answer.params,
        })
    }
}

/// Reads a field value into the slots lent, [`LINK_SLOTS`](crate::LINK_SLOTS) a link and
/// [`PARAM_SLOTS`](crate::PARAM_SLOTS) a parameter, and answers how many of each there are. Slots past
/// those used, and all slots on a refusal, keep what they held. The value is read by RFC 8288;
/// [`read_in`] also reads by the older RFC 5988.
///
/// Refused in this order: too long, malformed, no link room, no parameter room. A header is malformed
/// also where a target is no URI-reference by the grammar of RFC 3986, IP literals included; `<>` is
/// right. No other part is judged so, not even an `anchor`. Which place a malformed header has,
/// [`Refusal::Malformed`] says.
///
/// [`Table::read`](crate::Table::read) does the same and hands back a view of what was read. To keep
/// slots and counts apart from a view, read with this and make the view by
/// [`Table::new`](crate::Table::new) when it is wanted.
///
/// ```
/// use capstanbar::{read, Refusal};
///
/// let mut links = [7; 6];
/// let mut params = [7; 8];
/// let counts = read(b"<a>;rel=next", &mut links, &mut params)?;
/// assert_eq!((counts.links, counts.params), (1, 1));
/// assert_eq!(links, [1, 2, 0, 1, 7, 7]);
/// assert_eq!(params, [4, 7, 8, 12, 1, 1, 7, 7]);
///
/// assert_eq!(read(b"<a>,<b>", &mut links, &mut params), Err(Refusal::NoLinkRoom));
/// assert_eq!(links, [1, 2, 0, 1, 7, 7]);
///
/// let no_scheme = read(b"<a>,<1:a>", &mut links, &mut params);
/// assert_eq!(no_scheme, Err(Refusal::Malformed { place: 5 }));
/// # Ok::<(), Refusal>(())
/// ```
pub fn read(header: &[u8], links: &mut [usize], params: &mut [usize]) -> Result<Counts, Refusal> {
    read_in(Edition::Rfc8288, header, links, params)
}

/// Reads a field value as [`read`] does, in that edition.
///
/// ```
/// use capstanbar::{read_in, Edition, Refusal, LINK_SLOTS, PARAM_SLOTS};
///
/// let (mut links, mut params) = ([0; LINK_SLOTS], [0; PARAM_SLOTS]);
/// let header = b"<a>;rel=http://example.net/foo";
/// let refused = read_in(Edition::Rfc8288, header, &mut links, &mut params);
/// assert_eq!(refused, Err(Refusal::Malformed { place: 12 }));
///
/// read_in(Edition::Rfc5988, header, &mut links, &mut params)?;
/// assert_eq!((links, params), ([1, 2, 0, 1], [4, 7, 8, 30, 3, 1]));
/// # Ok::<(), Refusal>(())
/// ```
pub fn read_in(
    edition: Edition,
    header: &[u8],
    links: &mut [usize],
    params: &mut [usize],
) -> Result<Counts, Refusal> {
    Counts::check(ffi::read(edition.number(), header, links, params))
}
