//! Walks through catalogues: steps, ends, what is no catalogue, and the order
//! of the refusals.

use oracle::{is_absolute_uri, is_uri, walk, End, Room, WalkAnswer, PARAM_SLOTS};

/// Room for whatever a value may hold.
const ROOM: Room = Room {
    link_slots: 4 * 2731,
    param_slots: PARAM_SLOTS * 4096,
    octets: 8192,
};

fn ended(end: End, pack: usize, steps: usize) -> WalkAnswer {
    let (number, end) = (0, end as usize);
    WalkAnswer {
        number,
        end,
        pack,
        steps,
    }
}

fn refused(number: usize) -> WalkAnswer {
    WalkAnswer {
        number,
        ..WalkAnswer::default()
    }
}

/// Lines of URIs and values.
fn catalogue(packs: &[(&str, &str)]) -> Vec<u8> {
    let lines = packs.iter().map(|(uri, value)| format!("{uri}\t{value}\n"));
    lines.collect::<String>().into_bytes()
}

fn assert_walk(packs: &[(&str, &str)], start: usize, steps: i32, answer: WalkAnswer) {
    let text = catalogue(packs);
    assert_eq!(walk(&text, start, steps, ROOM), answer, "{packs:?}");
}

/// One step from the pack `a:/b/c?d`, which has that value, in a catalogue with
/// `a:/b/e` behind it, which leads nowhere.
fn assert_step(value: &str, steps: i32, end: End) {
    let packs = [("a:/b/c?d", value), ("a:/b/e", "")];
    let answer = match end {
        End::Arrived => ended(end, 1, 1),
        end => ended(end, 0, 0),
    };
    assert_walk(&packs, 0, steps, answer);
}

const CHAPTERS: [(&str, &str); 4] = [
    ("http://a/0", "<1>;rel=next"),
    ("http://a/1", "<0>;rel=prev,<2>;rel=next"),
    ("http://a/2", "<1>;rel=prev,<3>;rel=next"),
    ("http://a/3", "<2>;rel=prev"),
];

#[test]
fn walks_as_far_as_links_lead() {
    for start in 0..4 {
        for steps in -64..=64 {
            let last = (start as i32 + steps).clamp(0, 3);
            let taken = last.abs_diff(start as i32);
            let end = match taken == steps.unsigned_abs() {
                true => End::Arrived,
                false => End::NoLink,
            };
            let answer = ended(end, last as usize, taken as usize);
            assert_walk(&CHAPTERS, start, steps, answer);
        }
    }
}

#[test]
fn a_walk_may_come_round() {
    let round = [
        ("a:0", "<a:1>;rel=next"),
        ("a:1", "<a:2>;rel=next,<a:1>;rel=prev"),
        ("a:2", "<a:0>;rel=next"),
    ];
    for start in 0..3 {
        for steps in 0..=64 {
            let last = (start + steps) % 3;
            assert_walk(
                &round,
                start,
                steps as i32,
                ended(End::Arrived, last, steps),
            );
        }
    }
    assert_walk(&round, 1, -64, ended(End::Arrived, 1, 64));
    assert_walk(&round, 0, -1, ended(End::NoLink, 0, 0));
}

#[test]
fn follows_the_first_link_that_has_the_relation() {
    assert_step("<e>;rel=next", 1, End::Arrived);
    assert_step("<e>;rel=next", -1, End::NoLink);
    assert_step("<e>;rel=prev", -1, End::Arrived);
    assert_step("<e>;rel=\"x\\nEXT NeX\\t\"", 1, End::Arrived);
    assert_step("<e>;rel=previous", -1, End::NoLink);
    assert_step("<e>;rel=first;rel=next", 1, End::NoLink);
    assert_step("<e>;rev=next", 1, End::NoLink);
    assert_step(
        "<x>,<y>;rel=self,<e>;rel=next,<z>;rel=next",
        1,
        End::Arrived,
    );
    assert_step("<z>;rel=next,<e>;rel=next", 1, End::NoPack);
    assert_step("", 1, End::NoLink);
}

#[test]
fn passes_over_links_with_an_anchor() {
    for anchor in [
        "anchor",
        "ANCHOR",
        "anchor=\"\"",
        "anchor=e",
        "x;Anchor=\"a:/b/c?d\"",
    ] {
        let value = format!("<e>;rel=next;{anchor}");
        assert_step(&value, 1, End::NoLink);
        assert_step(&format!("{value},<z>;rel=next"), 1, End::NoPack);
        let first = format!("<z>;rel=next;{anchor},<e>;rel=next");
        assert_step(&first, 1, End::Arrived);
    }
    assert_step("<e>;rel=next;anchors=e;ancho=e", 1, End::Arrived);
}

#[test]
fn looks_for_exactly_what_is_resolved() {
    for target in [
        "e",
        "./e",
        "/b/e",
        "../b/e",
        "x/../e",
        "a:/b/e",
        "a:/x/../b/./e",
    ] {
        assert_step(&format!("<{target}>;rel=next"), 1, End::Arrived);
    }
    for target in [
        "?", "e?", "e#", "e#f", "E", "%65", "A:/b/e", "a:/b/e/", "//b/e", "a:b/e",
    ] {
        assert_step(&format!("<{target}>;rel=next"), 1, End::NoPack);
    }
    let own = [("a:/b/c?d", "<>;rel=next,<#>;rel=prev")];
    assert_walk(&own, 0, 9, ended(End::Arrived, 0, 9));
    assert_walk(&own, 0, -9, ended(End::NoPack, 0, 0));
}

/// Of that length.
fn long(before: &str, length: usize) -> String {
    before.to_string() + &"b".repeat(length - before.len())
}

#[test]
fn a_target_is_resolved_within_the_limit() {
    let next = "<x>;rel=next";
    for (length, end) in [
        (8191, End::NoPack),
        (8192, End::NoPack),
        (8193, End::NoTarget),
    ] {
        let base = long("a:/", length);
        assert_walk(&[(&base, next)], 0, 1, ended(end, 0, 0));
        assert_walk(&[(&base, "")], 0, 1, ended(End::NoLink, 0, 0));
        assert_walk(&[(&base, next)], 0, 0, ended(End::Arrived, 0, 0));
        // One octet is put behind the folder, and it is there.
        let (folder, result) = (
            long("a:/", length - 2) + "/",
            long("a:/", length - 2) + "/x",
        );
        let packs = [(&folder[..], next), (&result, "")];
        let answer = match length {
            8193 => ended(End::NoTarget, 0, 0),
            _ => ended(End::Arrived, 1, 1),
        };
        assert_walk(&packs, 0, 1, answer);
    }
}

#[test]
fn what_is_no_catalogue() {
    let bad = |text: &[u8]| {
        for start in [0, 1] {
            assert_eq!(walk(text, start, 0, ROOM), refused(15), "{text:?}");
        }
    };
    for text in [
        "\n",
        "\n\n",
        "a:\t",
        "a:",
        "a:\n",
        "a:\t\n\n",
        "\na:\t\n",
        "a:\t\nb:",
        "a:\t\nb:\t<c>",
        "\t\n",
        " a:\t\n",
        "a: \t\n",
        "a\t\n",
        "/a\t\n",
        "//a\t\n",
        "1:\t\n",
        "a:#\t\n",
        "a:b#c\t\n",
        "a:[\t\n",
        "a:%4\t\n",
        "a:\r\t\n",
        "a:\t\r\n",
        "a:\t<b\n",
        "a:\t<1:b>\n",
        "a:\t<b>;rel=c/d\n",
        "a:\t<b>;x=\"\n\"\n",
        "a:\t\na:\t\n",
        "a:\t\nb:\t\na:\t<c>\n",
        "a:\t\nb\t\n",
    ] {
        bad(text.as_bytes());
    }
    bad(b"a:\xC3\xA4\t\n");
    bad(b"a:\0\t\n");
    bad(&catalogue(&[("a:", &" ".repeat(8193))]));
}

#[test]
fn what_is_one() {
    let good = |text: &[u8], packs: usize| {
        for start in 0..packs {
            let still = ended(End::Arrived, start, 0);
            assert_eq!(walk(text, start, 0, ROOM), still, "{text:?}");
        }
        for start in [packs, packs + 1, usize::MAX] {
            assert_eq!(walk(text, start, 0, ROOM), refused(8), "{text:?}");
        }
    };
    good(b"", 0);
    for (text, packs) in [
        ("a:\t\n", 1),
        ("a:\t\t\n", 1),
        ("a:\t\t<b>\t;\trel\t=\tnext\t\n", 1),
        ("a:\t<b>;x=\"\t\"\n", 1),
        ("a:\t\nA:\t\n", 2),
        ("a:%41\t\na:%4a\t\na:%4A\t\n", 3),
        ("a:?\t\na:??\t\na://\t\na:///\t\n", 4),
    ] {
        good(text.as_bytes(), packs);
    }
    good(&catalogue(&[("a:", &" ".repeat(8192))]), 1);
}

#[test]
fn octets_and_packs_at_their_limits() {
    for (octets, is_good) in [(65_535, true), (65_536, true), (65_537, false)] {
        let uri = long("a:", octets - 2);
        let text = catalogue(&[(&uri, "")]);
        assert_eq!(text.len(), octets);
        let answer = match is_good {
            true => ended(End::Arrived, 0, 0),
            false => refused(15),
        };
        assert_eq!(walk(&text, 0, 0, ROOM), answer);
    }
    for packs in [255, 256, 257] {
        let lines = (0..packs).map(|number| format!("a:{number}\t<a:{}>;rel=next\n", number + 1));
        let text = lines.collect::<String>().into_bytes();
        let answer = match packs {
            257 => refused(15),
            _ => ended(End::NoPack, packs - 1, 1),
        };
        assert_eq!(walk(&text, packs - 2, 9, ROOM), answer);
    }
}

#[test]
fn each_value_has_all_the_room() {
    let packs = [
        ("a:", "<b>;x,<c>;y"),
        ("b:", "<d>;rel=z;rel=z;x"),
        ("c:", "<>,<>"),
    ];
    let text = catalogue(&packs);
    let number = |link_slots, param_slots| {
        let room = Room {
            link_slots,
            param_slots,
            octets: 8192,
        };
        walk(&text, 0, 0, room).number
    };
    assert_eq!(number(8, 2 * PARAM_SLOTS), 0);
    assert_eq!(number(11, 3 * PARAM_SLOTS - 1), 0);
    assert_eq!(number(7, 2 * PARAM_SLOTS), 15);
    assert_eq!(number(8, 2 * PARAM_SLOTS - 1), 15);
    assert_eq!(number(0, 0), 15);
    let none = Room {
        link_slots: 0,
        param_slots: 0,
        octets: 8192,
    };
    assert_eq!(walk(b"", 0, 0, none), refused(8));
    assert_eq!(walk(b"a:\t ,\n", 0, 0, none), ended(End::Arrived, 0, 0));
}

#[test]
fn numbers_in_order() {
    let good = catalogue(&CHAPTERS);
    for octets in [0, 8191, 8192, 9000] {
        let room = Room { octets, ..ROOM };
        let short = octets < 8192;
        for steps in [65, 66, -65, -66, i32::MAX, i32::MIN, i32::MIN + 1] {
            for text in [&good[..], b"", b"a"] {
                for start in [0, 4, usize::MAX] {
                    assert_eq!(walk(text, start, steps, room), refused(14));
                }
            }
        }
        for steps in [0, 1, -1, 64, -64] {
            for start in [0, 4, usize::MAX] {
                assert_eq!(walk(b"a", start, steps, room), refused(15));
                assert_eq!(walk(b"", start, steps, room), refused(8));
            }
            assert_eq!(walk(&good, 4, steps, room), refused(8));
            assert_eq!(walk(&good, 0, steps, room).number == 7, short);
        }
    }
}

/// Of three packs, each may lead to any of them, to none, or have no link.
#[test]
fn walking_on_ends_as_walking_at_once() {
    let links = [
        "",
        "<a:0>;rel=next",
        "<a:1>;rel=next",
        "<a:2>;rel=next",
        "<a:3>;rel=next",
    ];
    for which in 0..125 {
        let value = |pack: u32| links[which / 5_usize.pow(pack) % 5];
        let text = catalogue(&[("a:0", value(0)), ("a:1", value(1)), ("a:2", value(2))]);
        for start in 0..3 {
            for (m, n) in [(0, 3), (1, 1), (1, 4), (3, 2), (5, 0)] {
                let first = walk(&text, start, m, ROOM);
                let whole = walk(&text, start, m + n, ROOM);
                if first.end != End::Arrived as usize {
                    assert_eq!(whole, first);
                    continue;
                }
                let rest = walk(&text, first.pack, n, ROOM);
                let steps = rest.steps + m as usize;
                assert_eq!(whole, WalkAnswer { steps, ..rest });
            }
        }
    }
}

#[test]
fn an_absolute_uri_is_a_uri_without_a_fragment() {
    for text in [
        "",
        "a",
        "a:",
        "a:b",
        "a:/b?c",
        "a:?",
        "a://[::1]/b?c/?",
        "a:#",
        "a:b#c",
        "a:b?c#d",
        "#a",
        "?a",
        "1:a",
        "a:b#c#d",
        "a:%4",
    ] {
        let due = is_uri(text.as_bytes()) && !text.contains('#');
        assert_eq!(is_absolute_uri(text.as_bytes()), due, "{text}");
    }
}
