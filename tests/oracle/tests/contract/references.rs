//! Which texts are references: read by hand, compared with another judge, and
//! IP literals of every form.

use crate::components;
use oracle::{is_reference, Tree};
use std::net::Ipv6Addr;

const RIGHT: &[&str] = &[
    // of RFC 3986, sections 1.1.2 and 5.4
    "ftp://ftp.is.co.za/rfc/rfc1808.txt",
    "http://www.ietf.org/rfc/rfc2396.txt",
    "ldap://[2001:db8::7]/c=GB?objectClass?one",
    "mailto:John.Doe@example.com",
    "news:comp.infosystems.www.servers.unix",
    "tel:+1-816-555-1212",
    "telnet://192.0.2.16:80/",
    "urn:oasis:names:specification:docbook:dtd:xml:4.1.2",
    "http://a/b/c/d;p?q",
    "g:h",
    "./g",
    "//g",
    "?y",
    "g;x?y#s",
    "../../../g",
    "g?y/../x",
    "http:g",
    // empty parts
    "",
    "#",
    "?",
    "?#",
    "/",
    "//",
    "///",
    "////",
    "a:",
    "a:/",
    "a://",
    "a:///",
    "//@",
    "//:",
    "//@:",
    "//a:",
    // colons
    "./a:b",
    "a/b:c",
    "/a:b",
    "/:",
    "a::",
    "a:b:c",
    "?:",
    "#:",
    "A1+-.:b",
    // authorities
    "//a:80",
    "//a:b@c",
    "//a:b:c@d:1",
    "//%41:%4f@%C3:44",
    "//a;b=c,d",
    "//999.999.999.999",
    "//1.2.3.4:5",
    "//[::]",
    "//[::]:",
    "//[::]:80/a",
    "//u@[::1]?b",
    "a://[::1]",
    "//[v1.a]",
    "//[VaF.:!~]",
    // marks that a part may have
    "/@:!$&'()*+,;=-._~",
    "?a/b?c@d",
    "#a/b?c@d",
    "@",
    "a@b",
    "%41",
    "%aF%Fa",
];

const WRONG: &[&str] = &[
    "1:a",
    ":",
    ":a",
    "+:a",
    "a_b:c",
    "a%41:b",
    "@:a",
    "(:a",
    "a#b#c",
    "##",
    "#?#",
    "[",
    "]",
    "a[",
    "/]",
    "a:[",
    "?[",
    "?a[0]=1",
    "#]",
    "[::1]",
    "/[::1]",
    "a:[::1]",
    "//a:b",
    "//a:8a",
    "//a:1:2",
    "//a:%31",
    "//a@b@c",
    "//@@",
    "//:@:@",
    "//[",
    "//]",
    "//[]",
    "//[:]",
    "//[:::]",
    "//[::]a",
    "//a[::]",
    "//[::]]",
    "//[[::]]",
    "//[::",
    "//[::/]",
    "//[::]:a",
    "//[::]:1:",
    "//[::]@a",
    "//[v.a]",
    "//[v1.]",
    "//[v1a]",
    "//[vg.a]",
    "//[v1.a@]",
    "//[v1.%41]",
    "//[1.2.3.4]",
    "//[fe80::1%25a]",
    "//[::%31]",
    // no target either
    "%",
    "%4",
    "%4g",
    "a b",
    "<",
    "{a}",
    "a|b",
    "a\\b",
    "a^b",
    "\"",
    "\u{e9}",
];

#[test]
fn references_read_by_hand() {
    for (texts, right) in [(RIGHT, true), (WRONG, false)] {
        for text in texts {
            assert_eq!(is_reference(text.as_bytes()), right, "{text}");
            assert_eq!(components::is_reference(text.as_bytes()), right, "{text}");
        }
    }
}

#[test]
fn every_octet_in_every_part() {
    for octet in 0..=255 {
        for (before, behind) in [
            ("", ""),
            ("", ":"),
            ("a", ":"),
            ("", "/"),
            ("a/", ""),
            ("a:", ""),
            ("//", ""),
            ("//", "@"),
            ("//a:", ""),
            ("//a:", "@"),
            ("//[::", "]"),
            ("//[::1.", ".1.1]"),
            ("//[", "1.a]"),
            ("//[v", ".a]"),
            ("//[v1.", "]"),
            ("//[::]", ""),
            ("?", ""),
            ("#", ""),
            ("%", "0"),
            ("%0", ""),
        ] {
            let text = [before.as_bytes(), &[octet], behind.as_bytes()].concat();
            let right = components::is_reference(&text);
            assert_eq!(is_reference(&text), right, "{}", text.escape_ascii());
        }
    }
}

/// Compares the references that the tree has with the other judge's.
fn compare_every(before: &str, alphabet: &str, most: usize) {
    let alphabet = alphabet.as_bytes();
    let tree = Tree::new(before.as_bytes(), alphabet, most);
    let references = tree.references();
    let mut texts = vec![(tree.root(), before.as_bytes().to_vec())];
    for length in 0..=most {
        let mut longer = vec![];
        for (number, text) in texts {
            let right = components::is_reference(&text);
            let shown = text.escape_ascii();
            assert_eq!(references.contains(&number), right, "{shown}");
            if length < 3 {
                assert_eq!(is_reference(&text), right, "{shown}");
            }
            for (place, &octet) in alphabet.iter().enumerate() {
                longer.push((tree.longer(number, place), [&text[..], &[octet]].concat()));
            }
        }
        texts = longer;
    }
}

#[test]
fn every_short_text_of_the_marks() {
    const MARKS: &str = "a1:/?#[]@%.v";
    compare_every("", MARKS, 5);
    compare_every("//", MARKS, 4);
    compare_every("//[", MARKS, 4);
    compare_every("//[::", ":1.]", 8);
}

/// Every way in which groups make an IPv6 address: without a gap and with one
/// anywhere, and with an IPv4 address for the last two.
fn forms() -> Vec<String> {
    let groups = |count| vec!["1f"; count];
    let mut forms = vec![groups(8).join(":"), groups(6).join(":") + ":1.2.3.4"];
    for before in 0..8 {
        for behind in 0..8 - before {
            let before = groups(before).join(":");
            forms.push(format!("{before}::{}", groups(behind).join(":")));
            if let Some(less) = behind.checked_sub(2) {
                let behind = [groups(less), vec!["1.2.3.4"]].concat().join(":");
                forms.push(format!("{before}::{behind}"));
            }
        }
    }
    forms
}

fn is_address(address: &str) -> bool {
    is_reference(format!("//[{address}]").as_bytes())
}

#[test]
fn an_ipv6_address_has_eight_groups_or_one_gap_and_at_most_seven() {
    let forms = forms();
    assert_eq!(forms.len(), 59);
    for form in &forms {
        assert!(is_address(form), "{form}");
        assert!(!is_address(&format!("{form}:")), "{form}");
        assert!(!is_address(&format!(":{form}")), "{form}");
        assert!(is_address(&form.replace("1f", "aB09")), "{form}");
        assert!(is_address(&form.replace("1f", "0")), "{form}");
        let five = form.replacen("1f", "1f000", 1);
        assert_eq!(is_address(&five), five == *form, "{five}");
    }
    for count in [0, 1, 2, 6, 7, 9] {
        assert!(!is_address(&vec!["1"; count].join(":")), "{count}");
    }
    for wrong in [
        "1::2::3",
        "::1::",
        "1:2:3:4:5:6:7:8::",
        "::1:2:3:4:5:6:7:8",
        "1:2:3:4::5:6:7:8",
        "1:2:3:4:5:6:7:1.2.3.4",
        "1:2:3:4:5:6::1.2.3.4",
        "::1:2:3:4:5:6:1.2.3.4",
        "1.2.3.4::",
        "1.2.3.4:1:2:3:4:5:6",
        "::1.2.3.4:1",
        "1.2.3.4",
    ] {
        assert!(!is_address(wrong), "{wrong}");
    }
}

/// The text with each octet taken out, doubled, or put in for another one.
fn one_off(text: &str) -> Vec<String> {
    let mut all = vec![];
    for at in 0..text.len() {
        let (before, behind) = (&text[..at], &text[at + 1..]);
        let octet = &text[at..=at];
        all.push(format!("{before}{behind}"));
        all.push(format!("{before}{octet}{octet}{behind}"));
        all.extend(
            ":.0f g]"
                .chars()
                .map(|other| format!("{before}{other}{behind}")),
        );
    }
    all
}

#[test]
fn addresses_one_octet_off() {
    for form in forms() {
        for address in one_off(&form) {
            let right = address.parse::<Ipv6Addr>().is_ok();
            assert_eq!(is_address(&address), right, "{address}");
        }
    }
}

#[test]
fn decimal_octets_have_no_leading_zero_and_go_up_to_255() {
    for number in 0..1200 {
        for shown in [
            format!("{number}"),
            format!("{number:02}"),
            format!("{number:03}"),
        ] {
            let right = number <= 255 && shown == number.to_string();
            for place in 0..4 {
                let mut octets = ["0"; 4];
                octets[place] = &shown;
                let address = octets.join(".");
                assert_eq!(is_address(&format!("::{address}")), right, "{address}");
                // A name may be anything of the kind.
                assert!(is_reference(format!("//{address}").as_bytes()));
            }
        }
    }
}
