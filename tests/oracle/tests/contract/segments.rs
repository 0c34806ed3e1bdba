//! Resolution in another way: components are cut off at their marks from the
//! right, and a path goes from its last segment to its first.

#[derive(Clone, Copy)]
struct Parts<'t> {
    scheme: Option<&'t str>,
    authority: Option<&'t str>,
    path: &'t str,
    query: Option<&'t str>,
    fragment: Option<&'t str>,
}

/// What stands before the mark, and what behind it, if it is there.
fn cut(text: &str, mark: char) -> (&str, Option<&str>) {
    match text.split_once(mark) {
        Some((before, behind)) => (before, Some(behind)),
        None => (text, None),
    }
}

fn parts(text: &str) -> Parts<'_> {
    let (text, fragment) = cut(text, '#');
    let (text, query) = cut(text, '?');
    let (first, _) = cut(text, '/');
    let (scheme, text) = match first.split_once(':') {
        Some((scheme, _)) => (Some(scheme), &text[scheme.len() + 1..]),
        None => (None, text),
    };
    let (authority, path) = match text.strip_prefix("//") {
        Some(text) => {
            let (authority, _) = cut(text, '/');
            (Some(authority), &text[authority.len()..])
        }
        None => (None, text),
    };
    Parts {
        scheme,
        authority,
        path,
        query,
        fragment,
    }
}

/// What a reference resolves to on a base, both of which are right.
pub fn resolved(reference: &str, base: &str) -> String {
    let (r, base) = (parts(reference), parts(base));
    let is_apart = r.scheme.is_some() || r.authority.is_some();
    let path = match r.path {
        "" if !is_apart => base.path.to_string(),
        path if is_apart || path.starts_with('/') => without_dots(path),
        path => without_dots(&beside(base, path)),
    };
    let takes_path = !is_apart && r.path.is_empty();
    let scheme = r.scheme.or(base.scheme).expect("the base has one");
    let authority = if is_apart {
        r.authority
    } else {
        base.authority
    };
    let query = r.query.or(base.query.filter(|_| takes_path));
    let marked = |mark: &str, part: Option<&str>| part.map(|part| format!("{mark}{part}"));
    let authority = marked("//", authority).unwrap_or_default();
    let query = marked("?", query).unwrap_or_default();
    let fragment = marked("#", r.fragment).unwrap_or_default();
    format!("{scheme}:{authority}{path}{query}{fragment}")
}

/// The path in the folder of the base's.
fn beside(base: Parts, path: &str) -> String {
    match (base.authority, base.path.rsplit_once('/')) {
        (_, Some((folder, _))) => format!("{folder}/{path}"),
        (Some(_), None) => format!("/{path}"),
        (None, None) => path.to_string(),
    }
}

/// A `..` takes away the next segment on its left that has no dots and isn't
/// taken away yet, with the slash before it. Dots in front of the first slash
/// go with all that they could take.
fn without_dots(mut path: &str) -> String {
    while let Some(rest) = ["../", "./"]
        .iter()
        .find_map(|dots| path.strip_prefix(dots))
    {
        path = rest;
    }
    if matches!(path, "." | "..") {
        return String::new();
    }
    let (mut kept, mut waiting) = (vec![], 0);
    let mut end = path.len();
    while end > 0 {
        let start = path[..end].rfind('/').unwrap_or(0);
        match &path[start..end] {
            dots @ ("/." | "/..") => {
                waiting += dots.len() - "/.".len();
                if end == path.len() {
                    kept.push("/");
                }
            }
            _ if waiting > 0 => waiting -= 1,
            segment => kept.push(segment),
        }
        end = start;
    }
    kept.reverse();
    kept.concat()
}
