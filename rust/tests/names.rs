//! The known names of parameters, what is nearly one of them, and lookups by them.

use capstanbar::{ffi, Link, Name, Table, LIMIT, LINK_SLOTS, PARAM_SLOTS};

/// Each name with its code, its octets in small letters, and whether a link keeps only the first.
const ROWS: &[(Name, usize, &[u8], bool)] = &[
    (Name::Rel, 1, b"rel", true),
    (Name::Anchor, 2, b"anchor", true),
    (Name::Media, 3, b"media", true),
    (Name::Title, 4, b"title", true),
    (Name::TitleStar, 5, b"title*", true),
    (Name::Type, 6, b"type", true),
    (Name::Hreflang, 7, b"hreflang", false),
    (Name::Rev, 8, b"rev", false),
];

/// Names that are not known: registered elsewhere, other spellings, or none at all.
const OTHERS: [&[u8]; 10] = [
    b"",
    b"*",
    b"x",
    b"media*",
    b"title**",
    b"href",
    b"relation",
    b"crossorigin",
    b" rel",
    b"rel\0",
];

/// Holds the answers about these octets to the rows, by a comparison of its own.
fn check(octets: &[u8]) {
    let small: Vec<u8> = octets
        .iter()
        .map(|octet| match octet {
            b'A'..=b'Z' => octet + 32,
            _ => *octet,
        })
        .collect();
    let row = ROWS.iter().find(|(_, _, name, _)| *name == small);
    let shown = octets.escape_ascii();
    assert_eq!(Name::of(octets), row.map(|row| row.0), "{shown}");
    assert_eq!(
        ffi::name_code(octets),
        row.map_or(0, |row| row.1),
        "{shown}"
    );
}

/// The name with the letters in capitals whose bits are set.
fn cased(name: &[u8], capitals: usize) -> Vec<u8> {
    let octets = name.iter().enumerate();
    octets
        .map(|(place, octet)| match capitals >> place & 1 {
            1 => octet.to_ascii_uppercase(),
            _ => *octet,
        })
        .collect()
}

/// The name in each mix of case.
fn mixes(name: &[u8]) -> impl Iterator<Item = Vec<u8>> + '_ {
    (0..1 << name.len()).map(|capitals| cased(name, capitals))
}

#[test]
fn rows_agree() {
    assert!(ROWS.iter().map(|row| row.0).eq(Name::ALL.iter().copied()));
    for &(name, code, octets, kept_once) in ROWS {
        assert_eq!(name.code(), code);
        assert_eq!(name.as_bytes(), octets);
        assert_eq!(name.kept_once(), kept_once);
        assert_eq!(Name::of(name.as_bytes()), Some(name));
        assert_eq!(ffi::name_code(octets), code);
    }
}

#[test]
fn each_mix_of_case() {
    for &(name, code, octets, _) in ROWS {
        for mix in mixes(octets) {
            assert_eq!(Name::of(&mix), Some(name), "{}", mix.escape_ascii());
            assert_eq!(ffi::name_code(&mix), code);
        }
    }
}

#[test]
fn one_octet_other() {
    for &(_, _, octets, _) in ROWS {
        for mut near in [octets.to_vec(), octets.to_ascii_uppercase()] {
            for place in 0..near.len() {
                let own = near[place];
                for octet in 0..=u8::MAX {
                    near[place] = octet;
                    check(&near);
                }
                near[place] = own;
            }
        }
    }
}

#[test]
fn one_octet_more_or_fewer() {
    for &(_, _, octets, _) in ROWS {
        for place in 0..=octets.len() {
            let (before, behind) = octets.split_at(place);
            for octet in 0..=u8::MAX {
                check(&[before, &[octet], behind].concat());
            }
            check(&[before, behind.get(1..).unwrap_or_default()].concat());
            check(before);
            check(behind);
        }
    }
}

#[test]
fn other_names_of_any_length() {
    for octets in OTHERS {
        assert_eq!(Name::of(octets), None);
        check(octets);
    }
    for &(_, _, octets, _) in ROWS {
        for length in [255, 256, LIMIT, LIMIT + 1, 1 << 16, 1 << 20] {
            let mut long = octets.repeat(length / octets.len() + 1);
            long.truncate(length);
            check(&long);
            long[octets.len()..].fill(0);
            check(&long);
        }
    }
}

/// Reads parameters of these names, whose values are their places, as one link.
fn with_link(names: &[&[u8]], then: impl FnOnce(Link)) {
    let mut header = b"<a>".to_vec();
    for (place, name) in names.iter().enumerate() {
        header.extend([b"; ", *name, format!("={place}").as_bytes()].concat());
    }
    let (mut links, mut params) = ([0; LINK_SLOTS], [0; 32 * PARAM_SLOTS]);
    let table = Table::read(&header, &mut links, &mut params).unwrap();
    then(table.link(0).unwrap());
}

/// The values found by a name, from the front.
macro_rules! found {
    ($link:expr, $name:expr) => {
        $link
            .find_all($name)
            .map(|param| String::from_utf8_lossy(param.raw_value()).into_owned())
            .collect::<Vec<_>>()
    };
}

#[test]
fn each_or_the_first_is_found() {
    for &(name, _, octets, kept_once) in ROWS {
        let due = if kept_once { vec!["1"] } else { vec!["1", "3"] };
        for mix in mixes(octets) {
            with_link(&[b"x", &mix, b"X", octets, b"y"], |link| {
                assert_eq!(found!(link, name), due);
                assert_eq!(found!(link, octets), due);
                assert_eq!(found!(link, &mix), due);
                let first = link.find(name).unwrap();
                assert_eq!((first.name(), first.known()), (&mix[..], Some(name)));
                assert_eq!(link.find(&mix).unwrap().place(), first.place());
                assert_eq!(found!(link, b"X"), ["0", "2"]);
            });
        }
    }
}

#[test]
fn only_that_name_is_found() {
    let all: Vec<&[u8]> = ROWS.iter().map(|row| row.2).collect();
    with_link(&all, |link| {
        for (place, &(name, _, octets, _)) in ROWS.iter().enumerate() {
            assert_eq!(found!(link, name), [place.to_string()]);
            assert_eq!(found!(link, octets), [place.to_string()]);
        }
        for octets in OTHERS {
            assert_eq!(link.find_all(octets).count(), 0);
        }
        assert!(link
            .params()
            .map(|param| param.known())
            .eq(ROWS.iter().map(|row| Some(row.0))));
    });
    for (missing, &(name, _, octets, _)) in ROWS.iter().enumerate() {
        let mut rest = all.clone();
        rest.remove(missing);
        with_link(&rest, |link| {
            assert!(link.find(name).is_none() && link.find(octets).is_none());
        });
    }
}

#[test]
fn from_both_ends() {
    with_link(&[b"rev", b"x", b"Rev", b"hreflang", b"REV"], |link| {
        let mut revs = link.find_all(Name::Rev);
        assert_eq!(revs.size_hint(), (0, Some(5)));
        assert_eq!(revs.next_back().unwrap().place(), 4);
        assert_eq!(revs.next().unwrap().place(), 0);
        assert_eq!(revs.clone().next().unwrap().place(), 2);
        assert_eq!(revs.next_back().unwrap().place(), 2);
        assert!(revs.next().is_none() && revs.next_back().is_none());
    });
}

#[test]
fn octets_of_any_kind_name_a_parameter() {
    with_link(&[b"Pack"], |link| {
        let vector = b"PACK".to_vec();
        let boxed: Box<[u8]> = vector.clone().into();
        assert!(link.find(b"pack").is_some());
        assert!(link.find(&b"packs"[..4]).is_some());
        assert!(link.find(&vector).is_some());
        assert!(link.find(&boxed).is_some());
        assert!([&b"pack"[..], b"PACK"]
            .iter()
            .all(|name| link.find(name).is_some()));
        assert!(link.find(&[112, 97, 99, 107]).is_some());
        assert!(link.find(&[]).is_none());
    });
}
