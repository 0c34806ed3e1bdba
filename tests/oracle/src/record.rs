//! Link and parameter records, and how they stand in the lent slots.

/// How many slots a parameter record takes.
pub const PARAM_SLOTS: usize = 6;

/// An octet place and the place one past the end.
#[derive(Clone, Copy, Debug, PartialEq, Eq)]
pub struct Span {
    pub start: usize,
    pub end: usize,
}

impl Span {
    /// The whole of the text.
    pub fn whole(text: &[u8]) -> Span {
        Span {
            start: 0,
            end: text.len(),
        }
    }

    /// The octets of the span, if its start is at most its end and its end at
    /// most the text's length.
    pub fn get(self, text: &[u8]) -> Option<&[u8]> {
        text.get(self.start..self.end)
    }

    /// The octets of what is known to be a span of the text.
    pub fn of(self, text: &[u8]) -> &[u8] {
        &text[self.start..self.end]
    }
}

/// How a parameter's value is written.
#[derive(Clone, Copy, Debug, PartialEq, Eq)]
pub enum Form {
    NoValue,
    Token,
    Quoted,
    /// Bare, with an octet that no token has.
    Further,
}

#[derive(Clone, Copy, Debug, PartialEq, Eq)]
pub struct Param {
    pub name: Span,
    pub value: Span,
    pub form: Form,
    /// What the record says; in a good table it is the name's.
    pub code: usize,
}

/// A link with its own parameters; the number of the first one is only made
/// or checked where slots are.
#[derive(Clone, Debug, PartialEq, Eq)]
pub struct Link {
    pub target: Span,
    pub params: Vec<Param>,
}

/// The link records: target start and end, first parameter, parameter count.
pub fn link_records(links: &[Link]) -> Vec<[usize; 4]> {
    let mut first = 0;
    links
        .iter()
        .map(|link| {
            let count = link.params.len();
            first += count;
            [link.target.start, link.target.end, first - count, count]
        })
        .collect()
}

/// The parameter records: name start and end, value start and end, form, code.
pub fn param_records(links: &[Link]) -> Vec<[usize; PARAM_SLOTS]> {
    let params = links.iter().flat_map(|link| &link.params);
    params
        .map(|param| {
            let Param { name, value, .. } = *param;
            let form = match param.form {
                Form::NoValue => 0,
                Form::Token => 1,
                Form::Quoted => 2,
                Form::Further => 3,
            };
            [
                name.start,
                name.end,
                value.start,
                value.end,
                form,
                param.code,
            ]
        })
        .collect()
}

/// The links that the slots hold; none if the counts don't fit the rooms, the
/// links' parameters don't follow on each other up to the parameter count, or
/// a form is none of the four.
pub fn links_of_slots(
    link_slots: &[usize],
    param_slots: &[usize],
    link_count: usize,
    param_count: usize,
) -> Option<Vec<Link>> {
    let link_records = link_slots.as_chunks().0.get(..link_count)?;
    let param_records = param_slots.as_chunks().0.get(..param_count)?;
    let mut links = vec![];
    let mut next = 0;
    for &[start, end, first, count] in link_records {
        if first != next {
            return None;
        }
        next = first.checked_add(count)?;
        let own = param_records.get(first..next)?;
        links.push(Link {
            target: Span { start, end },
            params: own.iter().map(param_of_record).collect::<Option<_>>()?,
        });
    }
    (next == param_count).then_some(links)
}

fn param_of_record(record: &[usize; PARAM_SLOTS]) -> Option<Param> {
    let &[name_start, name_end, value_start, value_end, form, code] = record;
    Some(Param {
        name: Span {
            start: name_start,
            end: name_end,
        },
        value: Span {
            start: value_start,
            end: value_end,
        },
        form: match form {
            0 => Form::NoValue,
            1 => Form::Token,
            2 => Form::Quoted,
            3 => Form::Further,
            _ => return None,
        },
        code,
    })
}
