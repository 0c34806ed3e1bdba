use crate::{compare, ffi, Param};

/// Makes `Name` of one row a name: its variant and code, its octets in small letters, and which of a
/// link's parameters of that name are kept.
macro_rules! names {
    (
        $(#[$about:meta])*
        pub enum Name { $($name:ident = $code:literal, $octets:literal, $kept:ident;)* }
    ) => {
        $(#[$about])*
        #[derive(Clone, Copy, Debug, PartialEq, Eq, Hash)]
        #[non_exhaustive]
        pub enum Name {
            $(#[doc = concat!("`", $octets, "`.")] $name = $code,)*
        }

        impl Name {
            /// All of them, in the order of their codes.
            ///
            /// ```
            /// use capstanbar::Name;
            ///
            /// assert_eq!(Name::ALL[..3], [Name::Rel, Name::Anchor, Name::Media]);
            /// assert!(Name::ALL.iter().map(|name| name.code()).eq(1..=Name::ALL.len()));
            /// ```
            pub const ALL: &[Name] = &[$(Name::$name),*];

            /// What stands in its row behind the code.
            const fn row(self) -> (&'static str, Kept) {
                match self {
                    $(Name::$name => ($octets, Kept::$kept),)*
                }
            }
        }
    };
}

/// Which of a link's parameters of one name are kept.
enum Kept {
    First,
    Each,
}

names! {
    /// A name of parameters that the library knows, whatever the case of its letters.
    ///
    /// [`Link::find`](crate::Link::find) and [`Link::find_all`](crate::Link::find_all) take one, and
    /// [`Param::known`](crate::Param::known) hands it back.
    ///
    /// ```
    /// use capstanbar::Name;
    ///
    /// # let (mut links, mut params) = ([0; 4], [0; 64]);
    /// let header = b"<a>;HrefLang=en;hreflang=de;title*=b;Pack=9";
    /// let table = capstanbar::Table::read(header, &mut links, &mut params)?;
    /// let link = table.link(0).unwrap();
    /// assert_eq!(link.find(Name::Hreflang).unwrap().raw_value(), b"en");
    /// assert_eq!(link.find_all(Name::Hreflang).count(), 2);
    /// assert!(link.find(Name::Title).is_none());
    /// assert_eq!(link.find(b"title*").unwrap().known(), Some(Name::TitleStar));
    /// assert_eq!(link.find(b"pack").unwrap().known(), None);
    /// # Ok::<(), capstanbar::Refusal>(())
    /// ```
    pub enum Name {
        Rel = 1, "rel", First;
        Anchor = 2, "anchor", First;
        Media = 3, "media", First;
        Title = 4, "title", First;
        TitleStar = 5, "title*", First;
        Type = 6, "type", First;
        Hreflang = 7, "hreflang", Each;
        Rev = 8, "rev", Each;
    }
}

impl Name {
    /// The one that the octets are, if they are one. They may be any.
    ///
    /// ```
    /// use capstanbar::Name;
    ///
    /// assert_eq!(Name::of(b"HREFLANG"), Some(Name::Hreflang));
    /// assert_eq!(Name::of(b"title"), Some(Name::Title));
    /// assert_eq!(Name::of(b"title*"), Some(Name::TitleStar));
    /// assert_eq!(Name::of(b"title**"), None);
    /// assert_eq!(Name::of(b""), None);
    /// ```
    pub fn of(octets: &[u8]) -> Option<Name> {
        Name::coded(ffi::name_code(octets))
    }

    /// The one that has the code, if one has it.
    pub(crate) fn coded(code: usize) -> Option<Name> {
        // Code 0 is no name's. A name that only the library knew would be as any other name here.
        Name::ALL.iter().copied().find(|name| name.code() == code)
    }

    /// Its code, the one that the C interface answers and that stands last in a parameter's record.
    ///
    /// ```
    /// use capstanbar::Name;
    ///
    /// assert_eq!((Name::Rel.code(), Name::Rev.code()), (1, 8));
    /// ```
    pub const fn code(self) -> usize {
        self as usize
    }

    /// Its octets, in small letters.
    ///
    /// ```
    /// use capstanbar::Name;
    ///
    /// assert_eq!(Name::TitleStar.as_bytes(), b"title*");
    /// ```
    pub const fn as_bytes(self) -> &'static [u8] {
        self.row().0.as_bytes()
    }

    /// Whether a link that is read keeps only its first parameter of that name. Of the others it
    /// keeps each, as of a name that isn't known.
    ///
    /// ```
    /// use capstanbar::Name;
    ///
    /// # let (mut links, mut params) = ([0; 4], [0; 64]);
    /// let header = b"<a>;Type=b;type=c;rev=d;REV=e";
    /// let table = capstanbar::Table::read(header, &mut links, &mut params)?;
    /// let link = table.link(0).unwrap();
    /// assert!(Name::Type.kept_once());
    /// assert!(link.find_all(Name::Type).map(|param| param.raw_value()).eq([b"b"]));
    /// assert!(!Name::Rev.kept_once());
    /// assert!(link.find_all(Name::Rev).map(|param| param.raw_value()).eq([b"d", b"e"]));
    /// # Ok::<(), capstanbar::Refusal>(())
    /// ```
    pub const fn kept_once(self) -> bool {
        matches!(self.row().1, Kept::First)
    }
}

/// What parameters are looked up by: a [`Name`], or any octets, whatever the case of letters.
///
/// It is made where a lookup is given a name, of a `Name` or of a reference to octets of any kind.
/// Octets that are a known name are taken for it, so there is one way to find it: by the code in the
/// parameters' records.
///
/// ```
/// use capstanbar::Name;
///
/// # let (mut links, mut params) = ([0; 4], [0; 64]);
/// let table = capstanbar::Table::read(b"<a>;rev=b;Pack=9", &mut links, &mut params)?;
/// let link = table.link(0).unwrap();
/// assert!(link.find(Name::Rev).is_some() && link.find(b"REV").is_some());
/// assert!(link.find(b"pack").is_some() && link.find(&b"PACKS"[..4]).is_some());
/// assert!(link.find(&vec![b'p', b'a', b'c', b'k']).is_some());
/// # Ok::<(), capstanbar::Refusal>(())
/// ```
#[derive(Clone, Copy, Debug)]
pub struct ByName<'n>(Wanted<'n>);

#[derive(Clone, Copy, Debug)]
enum Wanted<'n> {
    Known(Name),
    /// Octets that are no known name.
    Other(&'n [u8]),
}

impl ByName<'_> {
    /// Whether the parameter has that name. The record's code tells it of a known name; only other
    /// names are compared.
    pub(crate) fn is_of(self, param: &Param) -> bool {
        match self.0 {
            Wanted::Known(name) => param.code() == name.code(),
            Wanted::Other(other) => compare(other, param.name()).same,
        }
    }
}

impl From<Name> for ByName<'_> {
    fn from(name: Name) -> Self {
        ByName(Wanted::Known(name))
    }
}

impl<'n, T: AsRef<[u8]> + ?Sized> From<&'n T> for ByName<'n> {
    fn from(octets: &'n T) -> Self {
        let octets = octets.as_ref();
        ByName(Name::of(octets).map_or(Wanted::Other(octets), Wanted::Known))
    }
}
