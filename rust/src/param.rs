use crate::{ByName, Name, Refusal, Table};
use core::ops::Range;

/// How a parameter's value is written.
///
/// ```
/// use capstanbar::{Edition, Form, Table};
///
/// # let (mut links, mut params) = ([0; 4], [0; 64]);
/// let table = Table::read(br#"<a>;x;y=z;t="u""#, &mut links, &mut params)?;
/// let forms = table.link(0).unwrap().params().map(|param| param.form());
/// assert!(forms.eq([Form::NoValue, Form::Token, Form::Quoted]));
///
/// let header = b"<a>;y=/z";
/// let table = Table::read_in(Edition::Rfc5988, header, &mut links, &mut params)?;
/// assert_eq!(table.link(0).unwrap().find(b"y").unwrap().form(), Form::Wider);
/// # Ok::<(), capstanbar::Refusal>(())
/// ```
#[derive(Clone, Copy, Debug, PartialEq, Eq, Hash)]
#[non_exhaustive]
pub enum Form {
    /// There is no value, which means the empty one.
    NoValue,
    /// A token.
    Token,
    /// A quoted string.
    Quoted,
    /// Bare, but no token. Only [`Edition::Rfc5988`](crate::Edition::Rfc5988) has such values.
    Wider,
}

/// A parameter of a link.
///
/// ```
/// # let (mut links, mut params) = ([0; 4], [0; 64]);
/// let table = capstanbar::Table::read(br#"<a>;Title="\b""#, &mut links, &mut params)?;
/// let param = table.link(0).unwrap().params().next().unwrap();
/// assert_eq!(param.name(), b"Title");
/// assert_eq!(param.raw_value(), br"\b");
/// assert_eq!(param.value(&mut [0; 2])?, b"b");
/// # Ok::<(), capstanbar::Refusal>(())
/// ```
#[derive(Clone, Copy, Debug)]
pub struct Param<'a> {
    table: Table<'a>,
    link: usize,
    place: usize,
    number: usize,
}

impl<'a> Param<'a> {
    /// Its place within its link, from 0.
    ///
    /// ```
    /// # let (mut links, mut params) = ([0; 8], [0; 64]);
    /// let table = capstanbar::Table::read(b"<a>;x, <b>;y", &mut links, &mut params)?;
    /// assert_eq!(table.link(1).unwrap().find(b"y").unwrap().place(), 0);
    /// # Ok::<(), capstanbar::Refusal>(())
    /// ```
    pub fn place(&self) -> usize {
        self.place
    }

    /// Its number, counted through the whole table.
    ///
    /// ```
    /// # let (mut links, mut params) = ([0; 8], [0; 64]);
    /// let table = capstanbar::Table::read(b"<a>;x, <b>;y", &mut links, &mut params)?;
    /// assert_eq!(table.link(1).unwrap().find(b"y").unwrap().number(), 1);
    /// # Ok::<(), capstanbar::Refusal>(())
    /// ```
    pub fn number(&self) -> usize {
        self.number
    }

    /// The octets of its name as written.
    ///
    /// ```
    /// # let (mut links, mut params) = ([0; 4], [0; 64]);
    /// let table = capstanbar::Table::read(b"<a>;REL=x", &mut links, &mut params)?;
    /// assert_eq!(table.link(0).unwrap().find(b"rel").unwrap().name(), b"REL");
    /// # Ok::<(), capstanbar::Refusal>(())
    /// ```
    pub fn name(&self) -> &'a [u8] {
        let [start, end, ..] = self.table.param_record(self.number);
        &self.table.text()[start..end]
    }

    /// Which name that the library knows it has, if it has one. The code in its record tells, and no
    /// octet of the name is looked at.
    ///
    /// ```
    /// use capstanbar::Name;
    ///
    /// # let (mut links, mut params) = ([0; 4], [0; 64]);
    /// let table = capstanbar::Table::read(b"<a>;REL=x;title*=y;z", &mut links, &mut params)?;
    /// let known = table.link(0).unwrap().params().map(|param| param.known());
    /// assert!(known.eq([Some(Name::Rel), Some(Name::TitleStar), None]));
    /// # Ok::<(), capstanbar::Refusal>(())
    /// ```
    pub fn known(&self) -> Option<Name> {
        Name::coded(self.code())
    }

    /// The code of its name, 0 if the library doesn't know that.
    pub(crate) fn code(&self) -> usize {
        let [.., code] = self.table.param_record(self.number);
        code
    }

    /// The octets of its value as written: those inside the quotes of a quoted string, backslashes
    /// still there; none without a value.
    ///
    /// ```
    /// # let (mut links, mut params) = ([0; 4], [0; 64]);
    /// let table = capstanbar::Table::read(br#"<a>;t="b\"c""#, &mut links, &mut params)?;
    /// assert_eq!(table.link(0).unwrap().find(b"t").unwrap().raw_value(), br#"b\"c"#);
    /// # Ok::<(), capstanbar::Refusal>(())
    /// ```
    pub fn raw_value(&self) -> &'a [u8] {
        let [_, _, start, end, ..] = self.table.param_record(self.number);
        &self.table.text()[start..end]
    }

    /// How its value is written.
    ///
    /// ```
    /// # let (mut links, mut params) = ([0; 4], [0; 64]);
    /// let table = capstanbar::Table::read(b"<a>;crossorigin", &mut links, &mut params)?;
    /// let param = table.link(0).unwrap().find(b"crossorigin").unwrap();
    /// assert_eq!(param.form(), capstanbar::Form::NoValue);
    /// # Ok::<(), capstanbar::Refusal>(())
    /// ```
    pub fn form(&self) -> Form {
        let [_, _, _, _, form, ..] = self.table.param_record(self.number);
        match form {
            0 => Form::NoValue,
            1 => Form::Token,
            2 => Form::Quoted,
            _ => Form::Wider,
        }
    }

    /// Copies the meaning of its value, as [`Table::value`] does.
    ///
    /// Refused: no output room. Room for [`raw_value`](Param::raw_value) is always enough.
    ///
    /// ```
    /// use capstanbar::Refusal;
    ///
    /// # let (mut links, mut params) = ([0; 4], [0; 64]);
    /// let table = capstanbar::Table::read(br#"<a>;t="b\"c""#, &mut links, &mut params)?;
    /// let param = table.link(0).unwrap().find(b"t").unwrap();
    /// assert_eq!(param.value(&mut [0; 3])?, br#"b"c"#);
    /// assert_eq!(param.value(&mut [0; 2]), Err(Refusal::NoOutputRoom));
    /// # Ok::<(), Refusal>(())
    /// ```
    pub fn value<'o>(&self, out: &'o mut [u8]) -> Result<&'o [u8], Refusal> {
        self.table.value(self.link, self.place, out)
    }

    /// Whether its value is right; it is a `title*`.
    pub(crate) fn is_right_title_star(&self) -> bool {
        self.table.is_right_title_star(self.number)
    }
}

/// The parameters of a link in order.
///
/// ```
/// # let (mut links, mut params) = ([0; 4], [0; 64]);
/// let table = capstanbar::Table::read(b"<a>;x;y", &mut links, &mut params)?;
/// let mut params = table.link(0).unwrap().params();
/// assert_eq!(params.next_back().unwrap().name(), b"y");
/// assert_eq!(params.len(), 1);
/// # Ok::<(), capstanbar::Refusal>(())
/// ```
#[derive(Clone, Debug)]
pub struct Params<'a> {
    table: Table<'a>,
    link: usize,
    first: usize,
    places: Range<usize>,
}

impl<'a> Params<'a> {
    /// First and count are the ones of the link's record.
    pub(crate) fn of(table: Table<'a>, link: usize, first: usize, count: usize) -> Params<'a> {
        Params {
            table,
            link,
            first,
            places: 0..count,
        }
    }

    fn at(&self, place: usize) -> Param<'a> {
        Param {
            table: self.table,
            link: self.link,
            place,
            number: self.first + place,
        }
    }
}

impl<'a> Iterator for Params<'a> {
    type Item = Param<'a>;

    fn next(&mut self) -> Option<Param<'a>> {
        let place = self.places.next()?;
        Some(self.at(place))
    }

    fn size_hint(&self) -> (usize, Option<usize>) {
        self.places.size_hint()
    }
}

impl DoubleEndedIterator for Params<'_> {
    fn next_back(&mut self) -> Option<Self::Item> {
        let place = self.places.next_back()?;
        Some(self.at(place))
    }
}

impl ExactSizeIterator for Params<'_> {}

/// The parameters of a link that have one name, in order.
///
/// ```
/// use capstanbar::Name;
///
/// # let (mut links, mut params) = ([0; 4], [0; 64]);
/// let header = b"<a>;hreflang=en;x;HREFLANG=de";
/// let table = capstanbar::Table::read(header, &mut links, &mut params)?;
/// let mut languages = table.link(0).unwrap().find_all(Name::Hreflang);
/// assert_eq!(languages.next_back().unwrap().raw_value(), b"de");
/// assert_eq!(languages.next().unwrap().raw_value(), b"en");
/// assert!(languages.next().is_none());
/// # Ok::<(), capstanbar::Refusal>(())
/// ```
#[derive(Clone, Debug)]
pub struct NamedParams<'a, 'n> {
    params: Params<'a>,
    name: ByName<'n>,
}

impl<'a, 'n> NamedParams<'a, 'n> {
    pub(crate) fn of(params: Params<'a>, name: ByName<'n>) -> NamedParams<'a, 'n> {
        NamedParams { params, name }
    }
}

impl<'a> Iterator for NamedParams<'a, '_> {
    type Item = Param<'a>;

    fn next(&mut self) -> Option<Param<'a>> {
        self.params.find(|param| self.name.is_of(param))
    }

    fn size_hint(&self) -> (usize, Option<usize>) {
        (0, Some(self.params.len()))
    }
}

impl DoubleEndedIterator for NamedParams<'_, '_> {
    fn next_back(&mut self) -> Option<Self::Item> {
        self.params.rfind(|param| self.name.is_of(param))
    }
}

#[cfg(test)]
mod tests {
    use crate::{Counts, Edition, Name, Table};

    /// Only inside the crate can a table be made whose codes disagree with its names.
    #[test]
    fn the_code_alone_tells_a_known_name() {
        let counts = Counts {
            links: 1,
            params: 2,
        };
        let records = [[0, 1, 1, 1, 0, Name::Rev.code()], [1, 4, 4, 4, 0, 0]];
        let (links, params) = ([0, 0, 0, 2], records.as_flattened());
        let table = Table::of(Edition::Rfc8288, b"xrev", &links, params, counts);
        let link = table.link(0).unwrap();
        let known = link.params().map(|param| param.known());
        assert!(known.eq([Some(Name::Rev), None]));
        for mut found in [link.find_all(Name::Rev), link.find_all(b"REV")] {
            assert_eq!(found.next_back().unwrap().name(), b"x");
            assert!(found.next().is_none());
        }
        assert_eq!(link.find(Name::Rev).unwrap().name(), b"x");
    }
}
