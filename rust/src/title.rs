use crate::decode::text;
use crate::{Link, Name};

/// A link's title, and by that where it comes from.
///
/// ```
/// use capstanbar::Title;
///
/// # let (mut links, mut params) = ([0; 8], [0; 64]);
/// let header = b"<a>;title*=UTF-8''%41, <b>;title*=wrong;title=\"B\xff\"";
/// let table = capstanbar::Table::read(header, &mut links, &mut params)?;
/// let [mut a, mut b] = [[0; 8]; 2];
/// assert_eq!(table.title(0, &mut a)?, Title::Text("A"));
/// assert_eq!(table.title(1, &mut b)?, Title::Octets(b"B\xff"));
/// # Ok::<(), capstanbar::Refusal>(())
/// ```
#[derive(Clone, Copy, Debug, PartialEq, Eq, Hash)]
pub enum Title<'o> {
    /// What a right `title*` gives, which is text. It may hold any characters, also control
    /// characters of ASCII such as ESC, LF and NUL, of which a `title` can hold HTAB alone.
    Text(&'o str),
    /// What `title` means, where there is no right `title*`. Nobody judged its octets: they may be
    /// UTF-8, or of any other charset.
    Octets(&'o [u8]),
}

impl<'o> Title<'o> {
    /// The title of which these octets were copied: the link has one.
    pub(crate) fn of(link: Link, octets: &'o [u8]) -> Title<'o> {
        match link.find(Name::TitleStar) {
            // With no `title` beside it, it was the `title*`.
            Some(star) if link.find(Name::Title).is_none() || star.is_right_title_star() => {
                Title::Text(text(octets))
            }
            _ => Title::Octets(octets),
        }
    }

    /// Its octets, wherever it comes from.
    ///
    /// ```
    /// use capstanbar::Title;
    ///
    /// assert_eq!(Title::Text("H\u{e4}fen").as_bytes(), b"H\xc3\xa4fen");
    /// assert_eq!(Title::Octets(b"H\xe4fen").as_bytes(), b"H\xe4fen");
    /// ```
    pub const fn as_bytes(self) -> &'o [u8] {
        match self {
            Title::Text(text) => text.as_bytes(),
            Title::Octets(octets) => octets,
        }
    }
}
