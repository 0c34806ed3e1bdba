use core::error::Error;
use core::fmt;

/// Why something wasn't done.
///
/// ```
/// use capstanbar::{read, Refusal};
///
/// assert_eq!(read(b"<a>", &mut [], &mut []), Err(Refusal::NoLinkRoom));
/// assert_eq!(read(b"<a%4g>", &mut [], &mut []), Err(Refusal::Malformed { place: 4 }));
/// assert_eq!(read(b"<1:a>", &mut [], &mut []), Err(Refusal::Malformed { place: 1 }));
/// ```
#[derive(Clone, Copy, Debug, PartialEq, Eq, Hash)]
#[non_exhaustive]
pub enum Refusal {
    /// The header, all that was fed, the text, the written form or the extended value has over
    /// [`LIMIT`](crate::LIMIT) octets; or the reference, the base or what they resolve to has.
    TooLong,
    /// The header isn't well formed; at a feed, what was fed is wrong, whatever follows.
    Malformed {
        /// The octet behind the `<` of the first target that is closed by its `>` and is no
        /// URI-reference (RFC 3986), if nothing up to and with that `>` is wrong otherwise.
        ///
        /// Else it is how many octets stand in the longest part of the header, from its beginning,
        /// that some header begins with, where any octets of URI-references, with two hex digits
        /// behind each `%`, pass for a target. A header cut short has its own length here; a feed
        /// doesn't refuse it.
        place: usize,
    },
    /// The header has more links than room was lent for.
    NoLinkRoom,
    /// The header has more kept parameters than room was lent for.
    NoParamRoom,
    /// The table isn't good: its numbers don't describe links within the text.
    BadTable,
    /// A link to be written has no `rel`, or one with no relations.
    NoRelation,
    /// The output buffer is shorter than the result. A feed or a finish in [`ffi`](crate::ffi)
    /// answers its number if the gathering buffer is under [`LIMIT`](crate::LIMIT) octets, and a walk
    /// there if it resolves in fewer; [`Feeding`](crate::Feeding) and [`Catalogue`](crate::Catalogue)
    /// have no such buffers.
    NoOutputRoom,
    /// The link number isn't below the count, or the number of the pack that a walk starts from.
    NoSuchLink,
    /// There is no such parameter, no link has the relation, or the link has no title.
    NotFound,
    /// The number is no edition's. Only [`ffi`](crate::ffi) can be given one; an
    /// [`Edition`](crate::Edition) is always known.
    UnknownEdition,
    /// The extended value is wrong. A link's title is never refused for it: a `title*` that is wrong
    /// counts as none.
    BadExtended,
    /// The base that something is to be resolved on is no URI by the grammar of RFC 3986; one without a
    /// scheme is none.
    BadBase,
    /// What is to be resolved is no URI-reference by that grammar: the reference, or what an `anchor`
    /// means. A link's target is never refused for it: in a good table it is one.
    BadReference,
    /// A walk of more than [`STEP_LIMIT`](crate::STEP_LIMIT) steps, either way.
    OutOfRange,
    /// The text is no catalogue, or a Link value in it is refused when it is read by itself, also for
    /// want of room.
    BadCatalogue,
}

impl Refusal {
    /// The refusal's number, the one that the C interface answers.
    ///
    /// ```
    /// use capstanbar::Refusal;
    ///
    /// assert_eq!(Refusal::TooLong.number(), 1);
    /// assert_eq!(Refusal::Malformed { place: 13 }.number(), 2);
    /// assert_eq!(Refusal::BadReference.number(), 13);
    /// assert_eq!(Refusal::BadCatalogue.number(), 15);
    /// ```
    pub const fn number(self) -> usize {
        match self {
            Refusal::TooLong => 1,
            Refusal::Malformed { .. } => 2,
            Refusal::NoLinkRoom => 3,
            Refusal::NoParamRoom => 4,
            Refusal::BadTable => 5,
            Refusal::NoRelation => 6,
            Refusal::NoOutputRoom => 7,
            Refusal::NoSuchLink => 8,
            Refusal::NotFound => 9,
            Refusal::UnknownEdition => 10,
            Refusal::BadExtended => 11,
            Refusal::BadBase => 12,
            Refusal::BadReference => 13,
            Refusal::OutOfRange => 14,
            Refusal::BadCatalogue => 15,
        }
    }

    /// What the answered number says: nothing refused, or the refusal. The place counts with number
    /// 2 alone.
    ///
    /// The library is proved to answer no other number, so one past 15 means that the library linked
    /// isn't the one this crate was made for.
    pub(crate) fn check(number: usize, place: usize) -> Result<(), Refusal> {
        Err(match number {
            0 => return Ok(()),
            1 => Refusal::TooLong,
            2 => Refusal::Malformed { place },
            3 => Refusal::NoLinkRoom,
            4 => Refusal::NoParamRoom,
            5 => Refusal::BadTable,
            6 => Refusal::NoRelation,
            7 => Refusal::NoOutputRoom,
            8 => Refusal::NoSuchLink,
            9 => Refusal::NotFound,
            10 => Refusal::UnknownEdition,
            11 => Refusal::BadExtended,
            12 => Refusal::BadBase,
            13 => Refusal::BadReference,
            14 => Refusal::OutOfRange,
            15 => Refusal::BadCatalogue,
            _ => panic!("the library answered the unknown number {number}"),
        })
    }
}

impl fmt::Display for Refusal {
    fn fmt(&self, f: &mut fmt::Formatter<'_>) -> fmt::Result {
        f.write_str(match self {
            Refusal::TooLong => "more than 8,192 octets",
            Refusal::Malformed { place } => return write!(f, "malformed at octet {place}"),
            Refusal::NoLinkRoom => "more links than room",
            Refusal::NoParamRoom => "more parameters than room",
            Refusal::BadTable => "not a good table",
            Refusal::NoRelation => "a link without a relation",
            Refusal::NoOutputRoom => "output buffer too short",
            Refusal::NoSuchLink => "no such link",
            Refusal::NotFound => "not found",
            Refusal::UnknownEdition => "unknown edition",
            Refusal::BadExtended => "wrong extended value",
            Refusal::BadBase => "the base is no URI",
            Refusal::BadReference => "not a URI-reference",
            Refusal::OutOfRange => "more than 64 steps",
            Refusal::BadCatalogue => "not a catalogue",
        })
    }
}

impl Error for Refusal {}
