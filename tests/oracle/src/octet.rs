//! The classes of octets that the grammar names.

/// SP or HTAB.
pub fn blank(octet: u8) -> bool {
    matches!(octet, b' ' | b'\t')
}

/// An octet of a token or a name.
pub fn token(octet: u8) -> bool {
    octet.is_ascii_alphanumeric() || b"!#$%&'*+-.^_`|~".contains(&octet)
}

/// An octet that the older edition allows in bare values beside those of tokens.
pub fn further(octet: u8) -> bool {
    b"()/:<=>?@[]{}".contains(&octet)
}

/// A plain octet of a quoted string.
pub fn plain(octet: u8) -> bool {
    matches!(octet, 9 | 32 | 33 | 35..=91 | 93..=126 | 128..=255)
}

/// An octet that may follow `\` in a quoted string.
pub fn escaped(octet: u8) -> bool {
    matches!(octet, 9 | 32..=126 | 128..=255)
}

/// An octet that stands for itself in a target.
pub fn target(octet: u8) -> bool {
    octet.is_ascii_alphanumeric() || b"-._~:/?#[]@!$&'()*+,;=".contains(&octet)
}

/// A hex digit of either case.
pub fn hex(octet: u8) -> bool {
    octet.is_ascii_hexdigit()
}

/// An octet of the language of an extended value.
pub fn language(octet: u8) -> bool {
    octet.is_ascii_alphanumeric() || octet == b'-'
}

/// An octet that stands for itself in an extended value.
pub fn attribute(octet: u8) -> bool {
    octet.is_ascii_alphanumeric() || b"!#$&+-.^_`|~".contains(&octet)
}

/// An octet that stands for itself everywhere in a reference.
pub fn unreserved(octet: u8) -> bool {
    octet.is_ascii_alphanumeric() || b"-._~".contains(&octet)
}

/// An octet that parts what stands within a part of a reference.
pub fn sub_delim(octet: u8) -> bool {
    b"!$&'()*+,;=".contains(&octet)
}
