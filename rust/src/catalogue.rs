use crate::{ffi, Refusal, LIMIT, LINK_SLOTS, PARAM_SLOTS};

/// The room that [`Catalogue::walk`] lends for one Link value.
const LINKS: usize = 256;
const PARAMS: usize = 1024;

/// A catalogue of packs: a text with a line for each, its URI, HTAB, its Link value, and LF.
///
/// Packs have the numbers of their lines, from 0. A URI is an absolute-URI by RFC 3986, which has a
/// scheme and no fragment, and no URI stands twice; a Link value must be read by RFC 8288. There are
/// at most [`PACK_LIMIT`](crate::PACK_LIMIT) packs in at most
/// [`CATALOGUE_LIMIT`](crate::CATALOGUE_LIMIT) octets. No octets are a catalogue of no packs.
///
/// The chapters of a game: the first has no `prev`, so a walk back stops there, and nothing goes to a
/// chapter before it.
///
/// ```
/// use capstanbar::{Catalogue, End, Refusal, Walk};
///
/// let chapters = b"\
/// http://example.net/chapters/0\t<1>; rel=next
/// http://example.net/chapters/1\t<0>; rel=prev, <2>; rel=next
/// http://example.net/chapters/2\t<1>; rel=prev
/// ";
/// let catalogue = Catalogue::new(chapters);
/// assert_eq!(catalogue.walk(0, 2)?, Walk { end: End::Arrived, pack: 2, steps: 2 });
/// assert_eq!(catalogue.walk(2, -1)?, Walk { end: End::Arrived, pack: 1, steps: 1 });
/// assert_eq!(catalogue.walk(1, -2)?, Walk { end: End::NoLink, pack: 0, steps: 1 });
/// assert_eq!(catalogue.walk(0, -1)?, Walk { end: End::NoLink, pack: 0, steps: 0 });
/// assert_eq!(catalogue.walk(3, 0), Err(Refusal::NoSuchLink));
/// # Ok::<(), Refusal>(())
/// ```
#[derive(Clone, Copy, Debug)]
pub struct Catalogue<'a> {
    text: &'a [u8],
}

/// How a walk ended, and where.
///
/// ```
/// use capstanbar::{Catalogue, End};
///
/// let walk = Catalogue::new(b"a:b\t<c>; rel=next\na:c\t\n").walk(0, 5)?;
/// assert_eq!((walk.end, walk.pack, walk.steps), (End::NoLink, 1, 1));
/// # Ok::<(), capstanbar::Refusal>(())
/// ```
#[derive(Clone, Copy, Debug, PartialEq, Eq, Hash)]
pub struct Walk {
    /// How it ended.
    pub end: End,
    /// The number of the last pack.
    pub pack: usize,
    /// How many steps were taken: all that were asked for just if it arrived.
    pub steps: usize,
}

/// How a walk ends: it arrives, or its last pack says why no further step could be taken.
///
/// ```
/// use capstanbar::{Catalogue, End};
///
/// let catalogue = Catalogue::new(b"a:b\t<c>; rel=next\na:c\t<d>; rel=next, <b>; rel=prev\n");
/// assert_eq!(catalogue.walk(0, 1)?.end, End::Arrived);
/// assert_eq!(catalogue.walk(0, 2)?.end, End::NoPack);
/// assert_eq!(catalogue.walk(1, -2)?.end, End::NoLink);
/// # Ok::<(), capstanbar::Refusal>(())
/// ```
#[derive(Clone, Copy, Debug, PartialEq, Eq, Hash)]
pub enum End {
    /// All steps were taken.
    Arrived,
    /// The pack has no link with the relation and without an `anchor`.
    NoLink,
    /// It has one, whose target can't be resolved: the result, or the pack's URI itself, has over
    /// [`LIMIT`](crate::LIMIT) octets.
    NoTarget,
    /// No pack has exactly the octets of the resolved target for its URI.
    NoPack,
}

impl<'a> Catalogue<'a> {
    /// Takes any octets: whether they are a catalogue is judged by each walk.
    ///
    /// ```
    /// use capstanbar::{Catalogue, Refusal};
    ///
    /// let cut_short = Catalogue::new(b"a:b\t<c>; rel=next");
    /// assert_eq!(cut_short.walk(0, 0), Err(Refusal::BadCatalogue));
    /// assert_eq!(Catalogue::new(b"").walk(0, 0), Err(Refusal::NoSuchLink));
    /// ```
    pub const fn new(text: &'a [u8]) -> Catalogue<'a> {
        Catalogue { text }
    }

    /// The text as it was taken.
    ///
    /// ```
    /// assert_eq!(capstanbar::Catalogue::new(b"a:b\t\n").text(), b"a:b\t\n");
    /// ```
    pub const fn text(&self) -> &'a [u8] {
        self.text
    }

    /// Walks so many steps from a pack: by the relation `next`, or, if the number is negative, by
    /// `prev`; 0 stays.
    ///
    /// A step takes the first link of the pack that has the relation and no `anchor`, not even an empty
    /// one, resolves its target on the pack's URI, and goes to the pack that has exactly those octets
    /// for its URI. A walk may come to a pack again.
    ///
    /// Every Link value is read in room for 256 links and 1,024 parameters, which takes 64 KiB of the
    /// stack, and the walk itself up to 48; [`walk_with`](Catalogue::walk_with) takes other room.
    ///
    /// Refused in this order: out of range, bad catalogue, no such link (no pack has the number
    /// `start`).
    ///
    /// ```
    /// use capstanbar::{Catalogue, End, Refusal, Walk};
    ///
    /// let round = Catalogue::new(b"\
    /// http://a/1\t<2>; rel=next; anchor, </3>; rel=next
    /// http://a/2\t
    /// http://a/3\t<../x/../1>; rel=next
    /// ");
    /// assert_eq!(round.walk(0, 1)?, Walk { end: End::Arrived, pack: 2, steps: 1 });
    /// assert_eq!(round.walk(0, 64)?, Walk { end: End::Arrived, pack: 0, steps: 64 });
    /// assert_eq!(round.walk(0, 65), Err(Refusal::OutOfRange));
    /// assert_eq!(round.walk(9, i32::MIN), Err(Refusal::OutOfRange));
    /// # Ok::<(), Refusal>(())
    /// ```
    pub fn walk(&self, start: usize, steps: i32) -> Result<Walk, Refusal> {
        let (mut links, mut params) = ([0; LINKS * LINK_SLOTS], [0; PARAMS * PARAM_SLOTS]);
        self.walk_with(start, steps, &mut links, &mut params, &mut [0; LIMIT])
    }

    /// Walks as [`walk`](Catalogue::walk) does, in slots and octets that are lent, and that may hold
    /// anything afterwards, also on a refusal. A Link value that isn't read in all of the slots makes
    /// the catalogue bad.
    ///
    /// Fewer octets for resolving would be refused. An array of [`LIMIT`](crate::LIMIT) can't have
    /// fewer, so there is nothing to refuse; of a longer slice, lend the first octets.
    ///
    /// ```
    /// use capstanbar::{Catalogue, End, Refusal, LIMIT, LINK_SLOTS, PARAM_SLOTS};
    ///
    /// let catalogue = Catalogue::new(b"a:b\t<c>; rel=next, <d>\na:c\t<b>; rel=prev\n");
    /// let (mut links, mut params) = ([0; 2 * LINK_SLOTS], [0; PARAM_SLOTS]);
    /// let mut work = [0; LIMIT];
    /// let walk = catalogue.walk_with(0, 1, &mut links, &mut params, &mut work)?;
    /// assert_eq!(walk.pack, 1);
    ///
    /// let room_for_one = &mut links[..LINK_SLOTS];
    /// let refused = catalogue.walk_with(0, 1, room_for_one, &mut params, &mut work);
    /// assert_eq!(refused, Err(Refusal::BadCatalogue));
    /// # Ok::<(), Refusal>(())
    /// ```
    pub fn walk_with(
        &self,
        start: usize,
        steps: i32,
        links: &mut [usize],
        params: &mut [usize],
        work: &mut [u8; LIMIT],
    ) -> Result<Walk, Refusal> {
        let answer = ffi::walk(self.text, start, steps, links, params, work);
        Refusal::check(answer.number, 0)?;
        Ok(Walk {
            end: End::of(answer.end),
            pack: answer.pack,
            steps: answer.steps,
        })
    }
}

impl End {
    /// Its number, the one that the C interface answers.
    ///
    /// ```
    /// use capstanbar::End;
    ///
    /// let ends = [End::Arrived, End::NoLink, End::NoTarget, End::NoPack];
    /// assert_eq!(ends.map(End::number), [1, 2, 3, 4]);
    /// ```
    pub const fn number(self) -> usize {
        match self {
            End::Arrived => 1,
            End::NoLink => 2,
            End::NoTarget => 3,
            End::NoPack => 4,
        }
    }

    /// The library is proved to answer no other number of a walk that it doesn't refuse.
    fn of(number: usize) -> End {
        match number {
            1 => End::Arrived,
            2 => End::NoLink,
            3 => End::NoTarget,
            4 => End::NoPack,
            _ => panic!("the library answered the unknown end {number}"),
        }
    }
}
