//! HTTP `Link` field values (RFC 8288, and the older RFC 5988): read into tables that the caller lends,
//! asked, also for titles in any language (RFC 8187) and for targets and contexts resolved on a base
//! (RFC 3986), and written back in one fixed form; and walks by them through a catalogue of packs.
//!
//! The work is done by a static library whose promises are proved for every input; this crate makes
//! it safe and pleasant to call. It allocates nothing and needs no `std`.
//!
//! ```
//! use capstanbar::{Table, LINK_SLOTS, PARAM_SLOTS};
//!
//! let header = br#"</packs/7>; rel="prev", </packs/9>; rel="next"; title="Pack \"9\"""#;
//! let (mut links, mut params) = ([0; 16 * LINK_SLOTS], [0; 64 * PARAM_SLOTS]);
//! let table = Table::read(header, &mut links, &mut params)?;
//!
//! let next = table.search(b"next")?;
//! assert_eq!(next.target(), b"/packs/9");
//!
//! let mut room = [0; 64];
//! let title = next.find(b"title").expect("it has a title");
//! assert_eq!(title.value(&mut room)?, b"Pack \"9\"");
//!
//! for link in table.links() {
//!     assert!(link.target().starts_with(b"/packs/"));
//!     assert!(link.params().len() > 0);
//! }
//!
//! let mut form = [0; capstanbar::LIMIT];
//! let written: &[u8] = br#"</packs/7>; rel=prev, </packs/9>; rel=next; title="Pack \"9\"""#;
//! assert_eq!(table.write(&mut form)?, written);
//! # Ok::<(), capstanbar::Refusal>(())
//! ```
//!
//! Parameters are found by a [`Name`] that the library knows, or by any octets:
//!
//! ```
//! use capstanbar::{Name, Table, LINK_SLOTS, PARAM_SLOTS};
//!
//! let (mut links, mut params) = ([0; 16 * LINK_SLOTS], [0; 64 * PARAM_SLOTS]);
//! let header = b"</packs/9>; rel=next; HrefLang=en; hreflang=de; pack=9";
//! let table = Table::read(header, &mut links, &mut params)?;
//! let next = table.search(b"next")?;
//! assert_eq!(next.find(Name::Hreflang).unwrap().raw_value(), b"en");
//! let languages = next.find_all(Name::Hreflang).map(|param| param.raw_value());
//! assert!(languages.eq([b"en", b"de"]));
//! assert!(next.find(b"Pack").is_some());
//! # Ok::<(), capstanbar::Refusal>(())
//! ```
//!
//! A link's [`Title`] is the text of its `title*` where that is right, and else what its `title` holds,
//! whose octets nobody judged. [`decode`] decodes any extended value:
//!
//! ```
//! use capstanbar::{decode, Table, Title, LINK_SLOTS, PARAM_SLOTS};
//!
//! let (mut links, mut params) = ([0; 16 * LINK_SLOTS], [0; 64 * PARAM_SLOTS]);
//! let header = b"</packs/9>; rel=next; title=Harbour; title*=UTF-8'de'H%c3%a4fen";
//! let table = Table::read(header, &mut links, &mut params)?;
//! let mut room = [0; 64];
//! assert_eq!(table.search(b"next")?.title(&mut room)?, Title::Text("H\u{e4}fen"));
//! assert_eq!(decode(b"utf-8''%e2%82%ac", &mut room)?, "\u{20ac}");
//! # Ok::<(), capstanbar::Refusal>(())
//! ```
//!
//! A link's target and its context are resolved on the address that the header came from. [`resolve`]
//! resolves any reference:
//!
//! ```
//! use capstanbar::{resolve, Table, LINK_SLOTS, PARAM_SLOTS};
//!
//! let (mut links, mut params) = ([0; 16 * LINK_SLOTS], [0; 64 * PARAM_SLOTS]);
//! let header = br##"<../9>; rel=next; anchor="#scene-2""##;
//! let table = Table::read(header, &mut links, &mut params)?;
//! let (base, mut room) = (b"http://example.net/packs/8/", [0; 64]);
//! let next = table.search(b"next")?;
//! assert_eq!(next.resolve(base, &mut room)?, b"http://example.net/packs/9");
//! assert_eq!(next.resolved_context(base, &mut room)?, b"http://example.net/packs/8/#scene-2");
//! assert_eq!(resolve(b"../../../g", b"http://a/b/c/d;p?q", &mut room)?, b"http://a/g");
//! # Ok::<(), capstanbar::Refusal>(())
//! ```
//!
//! A [`Catalogue`] of packs, each with its own address and Link value, is walked through by `next` and
//! `prev`, up to 64 steps at once. The walk stops where a pack has no such link, so nothing goes to a
//! chapter before the first:
//!
//! ```
//! use capstanbar::{Catalogue, End, Walk};
//!
//! let chapters = Catalogue::new(b"\
//! http://example.net/chapters/0\t<1>; rel=next
//! http://example.net/chapters/1\t<0>; rel=prev
//! ");
//! assert_eq!(chapters.walk(0, 1)?, Walk { end: End::Arrived, pack: 1, steps: 1 });
//! assert_eq!(chapters.walk(1, -2)?, Walk { end: End::NoLink, pack: 0, steps: 1 });
//! # Ok::<(), capstanbar::Refusal>(())
//! ```
//!
//! Some servers still write by RFC 5988, and leave values bare that RFC 8288 wants in quotes. Their
//! headers are read in that [`Edition`], which the table remembers; what it writes reads in both:
//!
//! ```
//! use capstanbar::{Edition, Refusal, Table, LINK_SLOTS, PARAM_SLOTS};
//!
//! let (mut links, mut params) = ([0; 16 * LINK_SLOTS], [0; 64 * PARAM_SLOTS]);
//! let header = b"</packs/9>; rel=http://example.net/foo";
//! let refused = Table::read(header, &mut links, &mut params);
//! assert_eq!(refused.unwrap_err(), Refusal::Malformed { place: 20 });
//!
//! let table = Table::read_in(Edition::Rfc5988, header, &mut links, &mut params)?;
//! assert_eq!(table.search(b"http://example.net/foo")?.target(), b"/packs/9");
//! let written = br#"</packs/9>; rel="http://example.net/foo""#;
//! assert_eq!(table.write(&mut [0; 64])?, written);
//! assert!(Table::read(written, &mut [0; LINK_SLOTS], &mut [0; PARAM_SLOTS]).is_ok());
//! # Ok::<(), Refusal>(())
//! ```
//!
//! Any two texts compare as names do. The answer also says how many pairs of octets were compared:
//!
//! ```
//! use capstanbar::{compare, Comparison};
//!
//! assert_eq!(compare(b"Next", b"nEXT"), Comparison { same: true, pairs: 4 });
//! assert_eq!(compare(b"next", b"nest"), Comparison { same: false, pairs: 3 });
//! ```
//!
//! A header that arrives in parts is fed to a [`Feeding`] part by part, wherever it is cut:
//!
//! ```
//! use capstanbar::{Feeding, LIMIT, LINK_SLOTS, PARAM_SLOTS};
//!
//! let (mut links, mut params) = ([0; 16 * LINK_SLOTS], [0; 64 * PARAM_SLOTS]);
//! let mut buffer = [0; LIMIT];
//! let mut feeding = Feeding::new(&mut buffer);
//! feeding.feed(b"</packs/9>; rel=\"ne")?;
//! feeding.feed(b"xt\"; title=Harbour")?;
//! let table = feeding.table(&mut links, &mut params)?;
//! assert_eq!(table.search(b"next")?.target(), b"/packs/9");
//! # Ok::<(), capstanbar::Refusal>(())
//! ```
//!
//! What can't be done is refused by a [`Refusal`]; a malformed header with the place where it went
//! wrong, or where a target starts that is no URI-reference (RFC 3986). A refusal leaves everything
//! lent as it was, but for what is lent to a walk for work.
//!
//! ```
//! use capstanbar::{read, Refusal, LINK_SLOTS, PARAM_SLOTS};
//!
//! let (mut links, mut params) = ([0; LINK_SLOTS], [0; PARAM_SLOTS]);
//! let refusal = read(b"<a>;rel=next;", &mut links, &mut params).unwrap_err();
//! assert_eq!(refusal, Refusal::Malformed { place: 13 });
//! assert_eq!(refusal.to_string(), "malformed at octet 13");
//!
//! let no_scheme = read(b"<1:a>;rel=next", &mut links, &mut params).unwrap_err();
//! assert_eq!(no_scheme, Refusal::Malformed { place: 1 });
//! ```

#![no_std]
#![deny(unsafe_code)]
#![warn(missing_docs)]

mod catalogue;
mod compare;
mod decode;
mod edition;
mod feeding;
pub mod ffi;
mod limits;
mod link;
mod name;
mod param;
mod read;
mod refusal;
mod resolve;
mod table;
mod title;

pub use catalogue::{Catalogue, End, Walk};
pub use compare::{compare, Comparison};
pub use decode::decode;
pub use edition::Edition;
pub use feeding::Feeding;
pub use limits::{CATALOGUE_LIMIT, LIMIT, LINK_SLOTS, PACK_LIMIT, PARAM_SLOTS, STEP_LIMIT};
pub use link::{Link, Links};
pub use name::{ByName, Name};
pub use param::{Form, NamedParams, Param, Params};
pub use read::{read, read_in, Counts};
pub use refusal::Refusal;
pub use resolve::resolve;
pub use table::Table;
pub use title::Title;
