//! The numbers of the answers, and the limits.

/// Done.
pub const DONE: usize = 0;
/// Header, all feeds, text, written form, extended value, reference, base or
/// result over [`LIMIT`] octets.
pub const TOO_LONG: usize = 1;
/// The grammar doesn't derive the header, or none that begins so.
pub const MALFORMED: usize = 2;
/// More links than room.
pub const NO_LINK_ROOM: usize = 3;
/// More kept parameters than room.
pub const NO_PARAM_ROOM: usize = 4;
/// The table isn't good.
pub const BAD_TABLE: usize = 5;
/// A link to be written has no `rel`, or one with no relations.
pub const NO_RELATION: usize = 6;
/// The output buffer is shorter than the result, or a gathering one, or what is
/// lent for a walk's resolving, than [`LIMIT`].
pub const NO_OUTPUT_ROOM: usize = 7;
/// The link number, or that of a walk's first pack, isn't below the count.
pub const NO_SUCH_LINK: usize = 8;
/// No such parameter, no link has the relation, or the link has no title.
pub const NOT_FOUND: usize = 9;
/// The number of the edition is none of theirs.
pub const UNKNOWN_EDITION: usize = 10;
/// The extended value is wrong.
pub const BAD_EXTENDED: usize = 11;
/// The base isn't a URI.
pub const BAD_BASE: usize = 12;
/// The reference isn't one.
pub const BAD_REFERENCE: usize = 13;
/// A walk of over [`STEP_LIMIT`] steps, either way.
pub const OUT_OF_RANGE: usize = 14;
/// The text is no catalogue.
pub const BAD_CATALOGUE: usize = 15;

/// The most octets that a header, a text, a written form or an extended value
/// may have, a reference, a base and what they resolve to, and the least of a
/// buffer that gathers a header or that a walk resolves in.
pub const LIMIT: usize = 8192;

/// The most octets of a catalogue.
pub const CATALOGUE_LIMIT: usize = 65_536;
/// The most packs in one.
pub const PACK_LIMIT: usize = 256;
/// The most steps of a walk, either way.
pub const STEP_LIMIT: u32 = 64;
