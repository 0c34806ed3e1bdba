//! A reference for the rules of reading, searching and writing Link field values.
//!
//! It answers the same questions as the product and is written in another
//! way: the grammar is a value (`grammar`), what it derives is asked by sets
//! of places (`sets`), the malformed place by the cuts that can still be
//! completed (`prefix`), and the records come from a derivation found so
//! (`derivation`, `reading`). Targets are judged in the same way, by RFC 3986's
//! own rules (`references`, `targets`). A header in parts is judged as the
//! octets that came so far (`feeding`). Extended values are taken apart at their
//! marks (`extended`), and their octets compared with what the numbers in them
//! are written as (`utf8`). References are parted as RFC 3986's regular
//! expression does, and resolved by its pseudocode, step by step
//! (`resolution`). A catalogue is split at its line ends into a map from URIs,
//! and walked from URI to URI (`walk`). All else follows the rules' definitions
//! word by word.
//! Clarity comes before speed.
//!
//! What is asked of headers and tables begins with the number of an edition:
//! 0 is RFC 8288's, 1 RFC 5988's.
//!
//! Tables are lent as slots of plain numbers, and every answer begins with
//! one of the rules' numbers ([`number`]), but for the code of a name and the
//! comparison of two texts, which refuse nothing.

mod code;
mod comparison;
mod context;
mod decode;
mod derivation;
mod edition;
mod extended;
mod feeding;
mod grammar;
mod kept;
mod listing;
mod meaning;
pub mod number;
mod octet;
mod output;
mod places;
mod prefix;
mod read;
mod reading;
mod record;
mod references;
mod resolution;
mod resolve;
mod resolved_context;
mod resolving;
mod search;
mod sets;
mod table;
mod targets;
mod title;
mod tree;
mod utf8;
mod value;
mod vectors;
mod walk;
mod walking;
mod write;

pub use code::{name_code, LAST_CODE, LAST_ONCE};
pub use comparison::{compare, Comparison};
pub use context::context;
pub use decode::decode;
pub use feeding::Feeding;
pub use listing::listing;
pub use meaning::{meanings, LinkMeaning, ParamMeaning};
pub use read::{read, ReadAnswer};
pub use record::PARAM_SLOTS;
pub use resolve::{resolve, resolved};
pub use resolved_context::resolved_context;
pub use resolving::resolving;
pub use search::search;
pub use table::good;
pub use targets::{is_absolute_uri, is_reference, is_uri};
pub use title::title;
pub use tree::Tree;
pub use value::value;
pub use vectors::vectors;
pub use walk::{walk, walk_through, End, Packs, Room, WalkAnswer};
pub use walking::walking;
pub use write::write;
