//! The headers that are measured. Every link has a relation, so that each table can be written too, and every target that is closed is a
//! reference, so that builds that judge targets and builds that don't answer alike.

use crate::different;

/// A well-formed header and what is asked of its table.
pub struct Sample {
    pub name: &'static str,
    pub header: Vec<u8>,
    /// The relation searched for: the last link alone has it.
    pub relation: &'static [u8],
    /// Link and place of the parameter whose value is copied.
    pub value: (usize, usize),
}

pub fn samples() -> Vec<Sample> {
    let sample = |name, header, value| Sample {
        name,
        header,
        relation: b"last",
        value,
    };
    vec![
        sample("paginated", four_pages(), (3, 0)),
        sample("60 links", sixty_links(), (59, 1)),
        sample("quoted and escaped", escaped(), (3, 1)),
        sample("many parameters", many_params(), (1, 3)),
        sample("rel last", rel_last(), (19, 3)),
    ]
}

pub const MIXED: &str = "mixed, 500 different in turn";

/// The headers that are read: one alone under each name, or many in turn.
pub fn to_read() -> Vec<(&'static str, Vec<Vec<u8>>)> {
    let alone = |sample: Sample| (sample.name, vec![sample.header]);
    let mut all: Vec<_> = samples().into_iter().map(alone).collect();
    all.push(("one target of 80 octets", vec![one_target()]));
    all.push(("one target of 8,000 octets", vec![long_target()]));
    all.push(("one IP literal", vec![ip_literal()]));
    all.push(("malformed", vec![malformed()]));
    all.push(("paginated, 500 different in turn", different::pages()));
    all.push((MIXED, different::mixed()));
    all
}

/// Four links, as a listing that comes in packs has.
pub fn paginated(target: &str, last: usize) -> String {
    let page = |number: usize, relation: &str| {
        format!("<{target}?page={number}&per_page=50>; rel=\"{relation}\"")
    };
    let pages = [
        page(last / 2 + 1, "next"),
        page(last / 2 - 1, "prev"),
        page(1, "first"),
        page(last, "last"),
    ];
    pages.join(", ")
}

fn four_pages() -> Vec<u8> {
    paginated("https://api.example.org/v2/catalogue/18/items", 1997).into_bytes()
}

/// A link without parameters, so that reading is mostly judging its target.
fn one_target() -> Vec<u8> {
    let target = "https://api.example.org/v2/catalogue/18/items?page=999&per_page=50&state=open&q=";
    assert_eq!(target.len(), 80);
    format!("<{target}>").into_bytes()
}

/// A target that is a long path. Nearly all of it goes by blocks of 16 octets, in either pass: if the compiler no longer makes vector
/// code of the loops through a block, it shows here more than anywhere.
fn long_target() -> Vec<u8> {
    let target = "/shelves/12/books/24".repeat(400);
    assert_eq!(target.len(), 8000);
    format!("<{target}>; rel=last").into_bytes()
}

/// One target with an address in brackets, an IPv4 one at its end.
fn ip_literal() -> Vec<u8> {
    b"<https://[2001:db8:0:18::c0a8:192.0.2.33]:8443/packs/8?lang=de>".to_vec()
}

/// Near 8,192 octets, with 60 links of four parameters each.
fn sixty_links() -> Vec<u8> {
    let link = |number| {
        let relation = if number < 60 { "item" } else { "last item" };
        let target = format!("https://books.example.org/volume%20{number}?view=full#top");
        let title = format!("Volume {number}, new edition");
        format!(
            "<{target}>; rel=\"{relation}\"; title=\"{title}\"; type=\"text/html\"; hreflang=en"
        )
    };
    let links: Vec<String> = (1..=60).map(link).collect();
    links.join(", ").into_bytes()
}

/// Values in quotes, with a backslash every few octets.
fn escaped() -> Vec<u8> {
    let link = |number| {
        let relation = if number < 4 { r"ne\xt" } else { r"la\st" };
        let title = r#"\"Ropes\" \& \\knots\\, \"a\" to \"z\"; C:\\deck\\log \<1\>, "#.repeat(3);
        format!("</n{number}>; rel=\"{relation}\"; title=\"{title}\"")
    };
    let links: Vec<String> = (1..=4).map(link).collect();
    links.join(", ").into_bytes()
}

/// Two links with short parameters: of names kept once and of others, first ones and later ones, of every form.
fn many_params() -> Vec<u8> {
    let params = ";a=1;rev=x;title=t;c;hreflang=en;type=\"a\";b2=\"\";media=m".repeat(10);
    format!("<a>;rel=next{params},<b>;rel=last{params}").into_bytes()
}

/// 20 links whose `rel` stands behind all their other parameters, most of which have names as long as a known one. None has an `anchor`.
fn rel_last() -> Vec<u8> {
    let link = |number| {
        let relation = if number < 20 { "preload" } else { "last" };
        let params = "as=style; nonce=n; media=screen; type=text; title=t; hreflang=en; rev=x";
        format!("</styles/{number}>; {params}; rel={relation}")
    };
    let links: Vec<String> = (1..=20).map(link).collect();
    links.join(", ").into_bytes()
}

/// Links, the last of which is broken off in its value.
fn malformed() -> Vec<u8> {
    let pages = four_pages();
    let mut header = [&pages[..], &pages, &pages].join(&b", "[..]);
    header.pop();
    header
}

/// Links as in the one that is broken off, but a target in the middle has a blank.
pub fn wrong_midway() -> Vec<u8> {
    let mut header = malformed();
    let middle = header.len() / 2;
    let target = header[middle..].iter().position(|&octet| octet == b'<');
    header[middle + target.expect("a link begins") + 1] = b' ';
    header
}

/// Links whose values are addresses, between such quotes: with none the older edition alone reads them.
pub fn addresses(quote: &str) -> Vec<u8> {
    let link = |number| {
        let relation = format!("{quote}http://example.net/relations/item{quote}");
        let anchor = format!("{quote}/shelf?volume={number}{quote}");
        format!("</volume/{number}>; rel={relation}; anchor={anchor}; type={quote}text/html{quote}")
    };
    let links: Vec<String> = (1..=40).map(link).collect();
    links.join(", ").into_bytes()
}

/// A well-formed header of just that many octets, at least 200.
pub fn of_length(octets: usize) -> Vec<u8> {
    let link = b"</shelf/7/volume/12?view=full>; rel=\"item\"; title=\"Volume 12\", ";
    let (open, close) = (b"</pad", b">; rel=last");
    let ends = open.len() + close.len();
    let mut header = link.repeat((octets - ends) / link.len());
    header.extend_from_slice(open);
    header.resize(octets - close.len(), b'/');
    header.extend_from_slice(close);
    header
}
