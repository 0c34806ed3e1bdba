use crate::{ffi, Refusal};

/// Decodes an extended value (RFC 8187) to the beginning of the output, and hands back the text that
/// it gives.
///
/// The value is `UTF-8` in any case, `'`, a language of letters, digits and hyphens, which may be
/// empty, `'`, and then octets of tokens other than `*`, `'` and `%`, which give themselves, and `%`
/// with two hex digits each, which give one octet. What all of them give is UTF-8, or the value is
/// wrong. The text may hold any characters, also control characters of ASCII such as ESC, LF and NUL,
/// of which a header as written can hold HTAB alone. The backslashes of a quoted string must have been
/// taken out, as [`Param::value`](crate::Param::value) does.
///
/// Refused in this order: too long, bad extended value, no output room. Room for the value itself is
/// always enough.
///
/// ```
/// use capstanbar::{decode, Refusal};
///
/// let mut out = [0; 16];
/// assert_eq!(decode(b"UTF-8'de'letztes%20Kapitel", &mut out)?, "letztes Kapitel");
/// assert_eq!(decode(b"utf-8''", &mut out)?, "");
///
/// // A lone tail, an overlong form, another charset.
/// for wrong in [&b"UTF-8''%a4"[..], b"UTF-8''%c0%af", b"ISO-8859-1''%e4"] {
///     assert_eq!(decode(wrong, &mut out), Err(Refusal::BadExtended));
/// }
/// assert_eq!(decode(b"UTF-8''ab", &mut out[..1]), Err(Refusal::NoOutputRoom));
/// # Ok::<(), Refusal>(())
/// ```
pub fn decode<'o>(value: &[u8], out: &'o mut [u8]) -> Result<&'o str, Refusal> {
    let answer = ffi::decode(value, out);
    Refusal::check(answer.number, 0)?;
    Ok(text(&out[..answer.length]))
}

/// What a right extended value gave, as text.
pub(crate) fn text(octets: &[u8]) -> &str {
    // The library is proved to give nothing else, so this fails with another library only.
    str::from_utf8(octets).expect("a right extended value gives UTF-8")
}
