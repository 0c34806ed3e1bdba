//! What the functions take and answer, laid out as in C.

/// What reading answers.
///
/// ```
/// use capstanbar::ffi::{read, ReadAnswer};
///
/// let refused = ReadAnswer { number: 2, place: 4, links: 0, params: 0 };
/// assert_eq!(read(0, b"<a> <b>", &mut [0; 8], &mut []), refused);
/// ```
#[repr(C)]
#[derive(Clone, Copy, Debug, PartialEq, Eq)]
pub struct ReadAnswer {
    /// 0 done, 1 too long, 2 malformed, 3 no link room, 4 no parameter room, 10 unknown edition; of a
    /// finish also 7, its buffer is under [`LIMIT`](crate::LIMIT) octets.
    pub number: usize,
    /// Where a malformed header went wrong, else 0.
    pub place: usize,
    /// The count of links, 0 if refused.
    pub links: usize,
    /// The count of kept parameters, 0 if refused.
    pub params: usize,
}

/// What a feeding remembers between calls. Its numbers are the library's: with other ones no call
/// touches anything but what it is lent, and a refusal still changes nothing.
///
/// ```
/// use capstanbar::ffi::{start, FeedingState};
///
/// let unfed = FeedingState { edition: 1, phase: 0, total: 0, place: 0, target: 0, judged: 0 };
/// assert_eq!(start(1), unfed);
/// ```
#[repr(C)]
#[derive(Clone, Copy, Debug, PartialEq, Eq)]
pub struct FeedingState {
    /// The edition that the header is read in.
    pub edition: usize,
    /// The phase of reading behind the octets gathered.
    pub phase: usize,
    /// How many octets were fed, and one past the limit where they are over it.
    pub total: usize,
    /// Within the limit, how many of them have nothing wrong: all, or up to the place of the fault.
    pub place: usize,
    /// Where they end in a target, where that starts.
    pub target: usize,
    /// And how far its judging as a reference has come.
    pub judged: usize,
}

/// What a feed answers.
///
/// ```
/// use capstanbar::ffi::{feed, start};
///
/// let mut buffer = [0; 8192];
/// let answer = feed(start(0), b"<a> <", &mut buffer);
/// assert_eq!((answer.number, answer.place), (2, 4));
/// assert_eq!(feed(answer.next, b"", &mut buffer), answer);
/// ```
#[repr(C)]
#[derive(Clone, Copy, Debug, PartialEq, Eq)]
pub struct FeedAnswer {
    /// 0 done, 1 too long, 2 malformed, 7 the buffer is under [`LIMIT`](crate::LIMIT) octets, 10
    /// unknown edition.
    pub number: usize,
    /// Where malformed octets went wrong, else 0.
    pub place: usize,
    /// The state for the next call.
    pub next: FeedingState,
}

/// What comparing two texts answers.
///
/// ```
/// use capstanbar::ffi::{compare, CompareAnswer};
///
/// assert_eq!(compare(b"title", b"title*"), CompareAnswer { same: 0, pairs: 0 });
/// ```
#[repr(C)]
#[derive(Clone, Copy, Debug, PartialEq, Eq)]
pub struct CompareAnswer {
    /// 1 if the texts are the same, else 0.
    pub same: usize,
    /// How many pairs of octets were compared, 0 if the lengths differ.
    pub pairs: usize,
}

/// What searching answers.
///
/// ```
/// use capstanbar::ffi::{search, RawTable, SearchAnswer};
///
/// let none = RawTable { text: b"", links: &[], params: &[], link_count: 0, param_count: 0 };
/// assert_eq!(search(0, none, b"next"), SearchAnswer { number: 9, link: 0 });
/// ```
#[repr(C)]
#[derive(Clone, Copy, Debug, PartialEq, Eq)]
pub struct SearchAnswer {
    /// 0 done, 1 too long, 5 bad table, 9 not found, 10 unknown edition.
    pub number: usize,
    /// The link's number, 0 if refused.
    pub link: usize,
}

/// What asking for a context answers.
///
/// ```
/// use capstanbar::ffi::{context, ContextAnswer, RawTable};
///
/// let none = RawTable { text: b"", links: &[], params: &[], link_count: 0, param_count: 0 };
/// let refused = ContextAnswer { number: 8, source: 0, start: 0, end: 0 };
/// assert_eq!(context(0, none, b"base", 0), refused);
/// ```
#[repr(C)]
#[derive(Clone, Copy, Debug, PartialEq, Eq)]
pub struct ContextAnswer {
    /// 0 done, 1 too long, 5 bad table, 8 no such link, 10 unknown edition.
    pub number: usize,
    /// What the context is a part of: 1 the text, 2 the base; 0 if refused.
    pub source: usize,
    /// Where it starts there.
    pub start: usize,
    /// One past where it ends there.
    pub end: usize,
}

/// What copying a value or a title, decoding an extended value, resolving or writing a table answers.
///
/// ```
/// use capstanbar::ffi::{write, LengthAnswer, RawTable};
///
/// let none = RawTable { text: b"", links: &[], params: &[], link_count: 0, param_count: 0 };
/// assert_eq!(write(0, none, &mut []), LengthAnswer { number: 0, length: 0 });
/// ```
#[repr(C)]
#[derive(Clone, Copy, Debug, PartialEq, Eq)]
pub struct LengthAnswer {
    /// 0 done, 1 too long, 5 bad table, 6 no relation, 7 no output room, 8 no such link, 9 not found,
    /// 10 unknown edition, 11 bad extended value, 12 bad base, 13 bad reference.
    pub number: usize,
    /// The octets put into the output, 0 if refused.
    pub length: usize,
}

/// What a walk answers.
///
/// ```
/// use capstanbar::ffi::{walk, WalkAnswer};
///
/// let still = WalkAnswer { number: 0, end: 1, pack: 0, steps: 0 };
/// assert_eq!(walk(b"a:b\t\n", 0, 0, &mut [], &mut [], &mut [0; 8192]), still);
/// ```
#[repr(C)]
#[derive(Clone, Copy, Debug, PartialEq, Eq)]
pub struct WalkAnswer {
    /// 0 done, 7 fewer than [`LIMIT`](crate::LIMIT) octets for resolving, 8 no pack has the number of the
    /// start, 14 out of range, 15 bad catalogue.
    pub number: usize,
    /// 1 arrived, 2 no link, 3 no resolvable target, 4 no pack; 0 if refused.
    pub end: usize,
    /// The number of the last pack, 0 if refused.
    pub pack: usize,
    /// The steps taken, 0 if refused.
    pub steps: usize,
}

/// A text with the slots of its tables and its counts, of whose numbers nothing is known.
///
/// ```
/// use capstanbar::ffi::{search, RawTable};
///
/// let links = [usize::MAX, 0, 3, usize::MAX];
/// let wild = RawTable { text: b"a", links: &links, params: &[], link_count: 1, param_count: 0 };
/// assert_eq!(search(0, wild, b"next").number, 5);
/// ```
#[derive(Clone, Copy, Debug)]
pub struct RawTable<'a> {
    /// The text that the records are places in.
    pub text: &'a [u8],
    /// Link records, [`LINK_SLOTS`](crate::LINK_SLOTS) each.
    pub links: &'a [usize],
    /// Parameter records, [`PARAM_SLOTS`](crate::PARAM_SLOTS) each.
    pub params: &'a [usize],
    /// How many links the slots hold.
    pub link_count: usize,
    /// How many parameters the slots hold.
    pub param_count: usize,
}
