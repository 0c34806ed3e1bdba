/// Which edition of the grammar a header is read by, and a table judged by.
///
/// In the older one more may stand bare as a parameter's value, which is then of
/// [`Form::Wider`](crate::Form::Wider); nothing else differs. What the newer one reads, the older one
/// reads to the same records. What is written reads in both.
///
/// ```
/// use capstanbar::{read, read_in, Counts, Edition, Refusal, LINK_SLOTS, PARAM_SLOTS};
///
/// let (mut links, mut params) = ([0; LINK_SLOTS], [0; PARAM_SLOTS]);
/// let refused = read(b"<a>;rel=b/c", &mut links, &mut params);
/// assert_eq!(refused, Err(Refusal::Malformed { place: 9 }));
///
/// let counts = read_in(Edition::Rfc5988, b"<a>;rel=b/c", &mut links, &mut params);
/// assert_eq!(counts, Ok(Counts { links: 1, params: 1 }));
/// assert_eq!(Edition::default(), Edition::Rfc8288); // the one of `read`
/// ```
#[derive(Clone, Copy, Debug, Default, PartialEq, Eq, Hash)]
#[non_exhaustive]
pub enum Edition {
    /// RFC 8288: a bare value is a token.
    #[default]
    Rfc8288 = 0,
    /// RFC 5988, the older one: a bare value may also hold any of `( ) / : < = > ? @ [ ] { }`.
    Rfc5988 = 1,
}

impl Edition {
    /// All of them, in the order of their numbers.
    ///
    /// ```
    /// use capstanbar::Edition;
    ///
    /// assert_eq!(Edition::ALL, [Edition::Rfc8288, Edition::Rfc5988]);
    /// ```
    pub const ALL: &[Edition] = &[Edition::Rfc8288, Edition::Rfc5988];

    /// Its number, the one that the C interface takes.
    ///
    /// ```
    /// use capstanbar::Edition;
    ///
    /// assert_eq!((Edition::Rfc8288.number(), Edition::Rfc5988.number()), (0, 1));
    /// ```
    pub const fn number(self) -> usize {
        self as usize
    }
}
