//! A reference and the base that it is resolved on: RFC 3986, sections 5.2,
//! strict, and 5.3.

/// The five components. One that isn't there is undefined, which isn't empty.
#[derive(Clone, Copy, Debug, PartialEq, Eq)]
struct Components<'t> {
    scheme: Option<&'t [u8]>,
    authority: Option<&'t [u8]>,
    path: &'t [u8],
    query: Option<&'t [u8]>,
    fragment: Option<&'t [u8]>,
}

/// The octets up to the first of the marks, and the rest from there on.
fn run<'t>(text: &'t [u8], marks: &[u8]) -> (&'t [u8], &'t [u8]) {
    let end = text.iter().position(|octet| marks.contains(octet));
    text.split_at(end.unwrap_or(text.len()))
}

impl Components<'_> {
    /// Group by group, as the regular expression of Appendix B takes them.
    fn of(text: &[u8]) -> Components<'_> {
        let (scheme, rest) = match run(text, b":/?#") {
            ([], _) => (None, text),
            (scheme, [b':', rest @ ..]) => (Some(scheme), rest),
            _ => (None, text),
        };
        let (authority, rest) = match rest {
            [b'/', b'/', rest @ ..] => {
                let (authority, rest) = run(rest, b"/?#");
                (Some(authority), rest)
            }
            _ => (None, rest),
        };
        let (path, rest) = run(rest, b"?#");
        let (query, rest) = match rest {
            [b'?', rest @ ..] => {
                let (query, rest) = run(rest, b"#");
                (Some(query), rest)
            }
            _ => (None, rest),
        };
        let fragment = match rest {
            [b'#', fragment @ ..] => Some(fragment),
            _ => None,
        };
        Components {
            scheme,
            authority,
            path,
            query,
            fragment,
        }
    }

    /// Section 5.3: each that is defined, with its mark.
    fn recompose(&self) -> Vec<u8> {
        let mut result = vec![];
        if let Some(scheme) = self.scheme {
            result.extend(scheme);
            result.extend(b":");
        }
        if let Some(authority) = self.authority {
            result.extend(b"//");
            result.extend(authority);
        }
        result.extend(self.path);
        if let Some(query) = self.query {
            result.extend(b"?");
            result.extend(query);
        }
        if let Some(fragment) = self.fragment {
            result.extend(b"#");
            result.extend(fragment);
        }
        result
    }
}

/// Section 5.2.2: the octets of the target. The base is a URI, and the
/// reference a URI-reference.
pub fn target(base: &[u8], reference: &[u8]) -> Vec<u8> {
    let base = Components::of(base);
    let r = Components::of(reference);
    let path: Vec<u8>;
    let (scheme, authority, query);
    if r.scheme.is_some() {
        (scheme, authority, query) = (r.scheme, r.authority, r.query);
        path = remove_dot_segments(r.path);
    } else {
        if r.authority.is_some() {
            (authority, query) = (r.authority, r.query);
            path = remove_dot_segments(r.path);
        } else {
            if r.path.is_empty() {
                path = base.path.to_vec();
                query = r.query.or(base.query);
            } else {
                path = match r.path {
                    [b'/', ..] => remove_dot_segments(r.path),
                    _ => remove_dot_segments(&merge(base, r.path)),
                };
                query = r.query;
            }
            authority = base.authority;
        }
        scheme = base.scheme;
    }
    Components {
        scheme,
        authority,
        path: &path,
        query,
        fragment: r.fragment,
    }
    .recompose()
}

/// Section 5.2.3: the path in place of the last segment of the base's.
fn merge(base: Components, path: &[u8]) -> Vec<u8> {
    if base.authority.is_some() && base.path.is_empty() {
        return [b"/", path].concat();
    }
    let last = base.path.iter().rposition(|&octet| octet == b'/');
    let kept = last.map_or(0, |slash| slash + 1);
    [&base.path[..kept], path].concat()
}

/// Section 5.2.4. The output is a stack of segments, each with the slash
/// before it if it had one in the input.
fn remove_dot_segments(path: &[u8]) -> Vec<u8> {
    let mut input = path;
    let mut output: Vec<&[u8]> = vec![];
    while !input.is_empty() {
        let begins = |text: &[u8]| input.starts_with(text);
        // A
        if begins(b"../") {
            input = &input[3..];
        } else if begins(b"./") {
            input = &input[2..];
        // B
        } else if begins(b"/./") {
            input = &input[2..];
        } else if input == b"/." {
            input = b"/";
        // C
        } else if begins(b"/../") {
            output.pop();
            input = &input[3..];
        } else if input == b"/.." {
            output.pop();
            input = b"/";
        // D
        } else if input == b"." || input == b".." {
            input = b"";
        // E
        } else {
            let (segment, _) = run(&input[1..], b"/");
            let (moved, rest) = input.split_at(1 + segment.len());
            output.push(moved);
            input = rest;
        }
    }
    output.concat()
}

#[cfg(test)]
mod tests {
    use super::*;

    type Parts<'t> = [Option<&'t str>; 5];

    fn assert_parts(text: &str, parts: Parts) {
        let [scheme, authority, path, query, fragment] = parts.map(|part| part.map(str::as_bytes));
        let components = Components {
            scheme,
            authority,
            path: path.unwrap(),
            query,
            fragment,
        };
        assert_eq!(Components::of(text.as_bytes()), components, "{text}");
        assert_eq!(components.recompose(), text.as_bytes());
    }

    #[test]
    fn undefined_is_not_empty() {
        let (none, empty) = (None, Some(""));
        assert_parts("", [none, none, empty, none, none]);
        assert_parts("a:", [Some("a"), none, empty, none, none]);
        assert_parts("//", [none, empty, empty, none, none]);
        assert_parts("?", [none, none, empty, empty, none]);
        assert_parts("#", [none, none, empty, none, empty]);
        assert_parts("a://?#", [Some("a"), empty, empty, empty, empty]);
        assert_parts("/", [none, none, Some("/"), none, none]);
        assert_parts("///", [none, empty, Some("/"), none, none]);
    }

    #[test]
    fn a_mark_counts_where_it_comes_first() {
        let none = None;
        assert_parts("a/b:c", [none, none, Some("a/b:c"), none, none]);
        assert_parts("?a:b", [none, none, Some(""), Some("a:b"), none]);
        assert_parts("a:b:c", [Some("a"), none, Some("b:c"), none, none]);
        assert_parts("a//b", [none, none, Some("a//b"), none, none]);
        assert_parts(
            "//a@b:1?c",
            [none, Some("a@b:1"), Some(""), Some("c"), none],
        );
        assert_parts("a?b?c#d", [none, none, Some("a"), Some("b?c"), Some("d")]);
        assert_parts("a#b?c#d", [none, none, Some("a"), none, Some("b?c#d")]);
        assert_parts(
            "a://b/c//d?//e#//f",
            [
                Some("a"),
                Some("b"),
                Some("/c//d"),
                Some("//e"),
                Some("//f"),
            ],
        );
    }

    fn assert_without_dots(path: &str, result: &str) {
        let without = remove_dot_segments(path.as_bytes());
        assert_eq!(without, result.as_bytes(), "{path}");
    }

    #[test]
    fn dots_are_removed() {
        // the two of section 5.2.4
        assert_without_dots("/a/b/c/./../../g", "/a/g");
        assert_without_dots("mid/content=5/../6", "mid/6");
        for (path, result) in [
            ("", ""),
            (".", ""),
            ("..", ""),
            ("/", "/"),
            ("/.", "/"),
            ("/..", "/"),
            ("...", "..."),
            ("/...", "/..."),
            ("./", ""),
            (".//a", "/a"),
            ("../.", ""),
            ("..//..", "/"),
            ("a/.", "a/"),
            ("a/..", "/"),
            ("a/../b", "/b"),
            ("a/b/../../../c", "/c"),
            ("//..", "/"),
            ("//../a", "/a"),
            ("///..", "//"),
            ("/a//../b", "/a/b"),
            ("/a/.//b", "/a//b"),
            ("/.a/..b/c./d..", "/.a/..b/c./d.."),
            ("/%2e/%2E%2e", "/%2e/%2E%2e"),
        ] {
            assert_without_dots(path, result);
        }
    }
}
