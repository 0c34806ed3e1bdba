use crate::{ffi, Refusal};

/// Resolves a reference on a base (RFC 3986, sections 5.2, strict, and 5.3) to the beginning of the
/// output, and hands back the result.
///
/// The base must be a URI by the grammar of RFC 3986, with its fragment if it has one, which is then
/// ignored. The reference may be empty: that gives the base without its fragment. Segments `.` and
/// `..` never reach left of the path. The result isn't judged again: `.//c` on `a:/b` gives `a://c`,
/// where `c` stands for a host.
///
/// Refused in this order: too long (the reference or the base), bad base, bad reference, too long (the
/// result), no output room. [`LIMIT`](crate::LIMIT) octets of room are always enough.
///
/// ```
/// use capstanbar::{resolve, Refusal};
///
/// let base = b"http://a/b/c/d;p?q";
/// let mut room = [0; 32];
/// assert_eq!(resolve(b"g;x=1/../y", base, &mut room)?, b"http://a/b/c/y");
/// assert_eq!(resolve(b"../../../g", base, &mut room)?, b"http://a/g");
/// assert_eq!(resolve(b"?y", base, &mut room)?, b"http://a/b/c/d;p?y");
/// assert_eq!(resolve(b"http:g", base, &mut room)?, b"http:g");
///
/// assert_eq!(resolve(b"g", b"/b/c", &mut room), Err(Refusal::BadBase));
/// assert_eq!(resolve(b"1:g", base, &mut room), Err(Refusal::BadReference));
/// assert_eq!(resolve(b"/g", base, &mut room[..9]), Err(Refusal::NoOutputRoom));
/// # Ok::<(), Refusal>(())
/// ```
pub fn resolve<'o>(reference: &[u8], base: &[u8], out: &'o mut [u8]) -> Result<&'o [u8], Refusal> {
    let answer = ffi::resolve(reference, base, out);
    Refusal::check(answer.number, 0)?;
    Ok(&out[..answer.length])
}
