/// The most octets that a header, a table's text, a written form or an extended value may have, a
/// reference and a base that are to be resolved, and the result; and those of a buffer that gathers a
/// header, and of one that a walk resolves in.
///
/// ```
/// use capstanbar::{read, Refusal, LIMIT};
///
/// assert!(read(&[b' '; LIMIT], &mut [], &mut []).is_ok());
/// assert_eq!(read(&[b' '; LIMIT + 1], &mut [], &mut []), Err(Refusal::TooLong));
/// ```
pub const LIMIT: usize = 8192;

/// The most octets of a [`Catalogue`](crate::Catalogue).
///
/// ```
/// use capstanbar::{Catalogue, Refusal, CATALOGUE_LIMIT};
///
/// let mut text = vec![b'b'; CATALOGUE_LIMIT];
/// text[..2].copy_from_slice(b"a:");
/// text[CATALOGUE_LIMIT - 2..].copy_from_slice(b"\t\n");
/// assert!(Catalogue::new(&text).walk(0, 0).is_ok());
/// text.insert(2, b'b');
/// assert_eq!(Catalogue::new(&text).walk(0, 0), Err(Refusal::BadCatalogue));
/// ```
pub const CATALOGUE_LIMIT: usize = 65_536;

/// The most packs in a [`Catalogue`](crate::Catalogue).
///
/// ```
/// use capstanbar::{Catalogue, Refusal, PACK_LIMIT};
///
/// let of = |packs| (0..packs).map(|pack| format!("a:{pack}\t\n")).collect::<String>();
/// assert!(Catalogue::new(of(PACK_LIMIT).as_bytes()).walk(PACK_LIMIT - 1, 0).is_ok());
/// let one_more = of(PACK_LIMIT + 1);
/// assert_eq!(Catalogue::new(one_more.as_bytes()).walk(0, 0), Err(Refusal::BadCatalogue));
/// ```
pub const PACK_LIMIT: usize = 256;

/// The most steps of a walk, either way.
///
/// ```
/// use capstanbar::{Catalogue, End, Refusal, STEP_LIMIT};
///
/// let own = Catalogue::new(b"a:b\t<>; rel=\"next prev\"\n");
/// for steps in [STEP_LIMIT, -STEP_LIMIT] {
///     assert_eq!(own.walk(0, steps)?.end, End::Arrived);
///     assert_eq!(own.walk(0, steps + steps.signum()), Err(Refusal::OutOfRange));
/// }
/// # Ok::<(), Refusal>(())
/// ```
pub const STEP_LIMIT: i32 = 64;

/// How many slots a link takes: target start, target end, number of its first parameter, count of
/// its parameters.
///
/// ```
/// let mut links = [0; 2 * capstanbar::LINK_SLOTS];
/// capstanbar::read(b"<a>;x,<b>", &mut links, &mut [0; capstanbar::PARAM_SLOTS]).unwrap();
/// assert_eq!(links, [1, 2, 0, 1, 7, 8, 1, 0]);
/// ```
pub const LINK_SLOTS: usize = 4;

/// How many slots a parameter takes: name start, name end, value start, value end, form (0 no value,
/// 1 a token, 2 a quoted string, 3 a bare value that is no token), [code](crate::Name::code) of the
/// name (0 if it isn't a known one).
///
/// ```
/// let mut params = [0; 2 * capstanbar::PARAM_SLOTS];
/// capstanbar::read(br#"<a>;x;Rel="z""#, &mut [0; 4], &mut params).unwrap();
/// assert_eq!(params, [4, 5, 5, 5, 0, 0, 6, 9, 11, 12, 2, 1]);
/// ```
pub const PARAM_SLOTS: usize = 6;
