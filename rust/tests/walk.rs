//! Walks through catalogues: ends, limits, rooms, and in which order they are refused.

use capstanbar::ffi::{self, WalkAnswer};
use capstanbar::{
    Catalogue, End, Refusal, Walk, CATALOGUE_LIMIT, LIMIT, LINK_SLOTS, PACK_LIMIT, PARAM_SLOTS,
    STEP_LIMIT,
};

/// The sample of the walking program, behind its words.
const SAMPLE: &str = include_str!("../../tests/oracle/data/walk_packs.txt");

fn sample() -> &'static [u8] {
    let (_, catalogue) = SAMPLE.split_once('\n').expect("it has lines");
    catalogue.as_bytes()
}

fn walked(end: End, pack: usize, steps: usize) -> Result<Walk, Refusal> {
    Ok(Walk { end, pack, steps })
}

/// So many packs, each with a link to the next and to the one before it; the first and the last lack
/// one.
fn chapters(packs: usize) -> Vec<u8> {
    let line = |pack: usize| {
        let prev = match pack {
            0 => String::new(),
            _ => format!("<{}>; rel=prev", pack - 1),
        };
        let next = match pack + 1 == packs {
            true => String::new(),
            false => format!("<./{}>; rel=\"chapter next\"", pack + 1),
        };
        format!("http://example.net/{pack}\t{prev}, {next}\n")
    };
    (0..packs).map(line).collect::<String>().into_bytes()
}

#[test]
fn the_sample() {
    let catalogue = Catalogue::new(sample());
    for (start, steps, due) in [
        (0, 0, walked(End::Arrived, 0, 0)),
        (0, 2, walked(End::Arrived, 2, 2)),
        (0, 4, walked(End::Arrived, 4, 4)),
        (0, 5, walked(End::NoPack, 4, 4)),
        (3, -1, walked(End::Arrived, 1, 1)),
        (4, -3, walked(End::Arrived, 0, 3)),
        (4, -4, walked(End::NoLink, 0, 3)),
        (0, -1, walked(End::NoLink, 0, 0)),
        (5, 1, Err(Refusal::NoSuchLink)),
    ] {
        assert_eq!(catalogue.walk(start, steps), due, "{start} {steps}");
    }
}

#[test]
fn every_walk_through_chapters() {
    const PACKS: usize = 5;
    let text = chapters(PACKS);
    let catalogue = Catalogue::new(&text);
    for start in 0..PACKS {
        for steps in -STEP_LIMIT - 2..=STEP_LIMIT + 2 {
            let wanted = start as i32 + steps;
            let last = wanted.clamp(0, PACKS as i32 - 1);
            let end = match last == wanted {
                true => End::Arrived,
                false => End::NoLink,
            };
            let due = match steps.abs() > STEP_LIMIT {
                true => Err(Refusal::OutOfRange),
                false => walked(end, last as usize, last.abs_diff(start as i32) as usize),
            };
            assert_eq!(catalogue.walk(start, steps), due, "{start} {steps}");
        }
    }
    for start in [PACKS, PACKS + 1, PACK_LIMIT, usize::MAX] {
        assert_eq!(catalogue.walk(start, 0), Err(Refusal::NoSuchLink));
    }
}

#[test]
fn the_ends_of_one_step() {
    let long = |length| format!("a:{}/\t<c>; rel=next\n", "b".repeat(length - 3));
    for (text, end) in [
        ("a:b\t<c>; rel=next\na:c\t\n", End::Arrived),
        ("a:b\t<>; rel=next\na:c\t\n", End::Arrived),
        ("a:b\t\n", End::NoLink),
        ("a:b\t<c>; rel=prev\na:c\t\n", End::NoLink),
        ("a:b\t<c>; rel=next; anchor\na:c\t\n", End::NoLink),
        ("a:b\t<c>; rel=next; anchor=\"\"\na:c\t\n", End::NoLink),
        ("a:b\t<c#>; rel=next\na:c\t\n", End::NoPack),
        ("a:b\t<C>; rel=next\na:c\t\n", End::NoPack),
        ("a:b\t<%63>; rel=next\na:c\t\n", End::NoPack),
        (&long(LIMIT - 1), End::NoPack),
        (&long(LIMIT), End::NoTarget),
        (&long(LIMIT + 1), End::NoTarget),
    ] {
        let walk = Catalogue::new(text.as_bytes()).walk(0, 1).unwrap();
        assert_eq!(walk.end, end, "{text}");
        assert_eq!(walk.steps, usize::from(end == End::Arrived), "{text}");
    }
}

#[test]
fn round_a_circle_either_way() {
    let text = b"a:b\t<a:c>; rel=\"prev next\"\na:c\t<a:b>; rel=\"next prev\"\n";
    let catalogue = Catalogue::new(text);
    for steps in 0..=STEP_LIMIT {
        let taken = steps as usize;
        for signed in [steps, -steps] {
            let due = walked(End::Arrived, taken % 2, taken);
            assert_eq!(catalogue.walk(0, signed), due);
        }
    }
}

#[test]
fn what_is_no_catalogue() {
    for text in [
        "\n",
        "a:b",
        "a:b\n",
        "a:b\t",
        "a:b\t\n\n",
        "\na:b\t\n",
        "b\t\n",
        "/b\t\n",
        "a:#\t\n",
        "a:b\t\na:b\t\n",
        "a:b\t<\n",
        "a:b\t<1:c>\n",
        "a:b\t<c>;rel=d/e\n",
        "a:b\t\r\n",
    ] {
        let refused = Catalogue::new(text.as_bytes()).walk(0, 0);
        assert_eq!(refused, Err(Refusal::BadCatalogue), "{text}");
    }
    for packs in [PACK_LIMIT - 1, PACK_LIMIT] {
        let text = chapters(packs);
        let walk = Catalogue::new(&text).walk(packs - 1, 1);
        assert_eq!(walk, walked(End::NoLink, packs - 1, 0));
    }
    let text = chapters(PACK_LIMIT + 1);
    assert_eq!(Catalogue::new(&text).walk(0, 1), Err(Refusal::BadCatalogue));
    for over in [0, 1] {
        let text = format!("a:{}\t\n", "b".repeat(CATALOGUE_LIMIT - 4 + over));
        let due = [walked(End::Arrived, 0, 0), Err(Refusal::BadCatalogue)][over];
        assert_eq!(Catalogue::new(text.as_bytes()).walk(0, 0), due);
    }
}

#[test]
fn rooms_are_those_of_the_value_that_takes_most() {
    let catalogue = Catalogue::new(b"a:b\t<c>,<d>\na:c\t<e>;x;y;z\na:d\t\n");
    let walk = |link_slots, param_slots| {
        let (mut links, mut params) = (vec![7; link_slots], vec![7; param_slots]);
        catalogue.walk_with(2, 0, &mut links, &mut params, &mut [7; LIMIT])
    };
    let (links, params) = (2 * LINK_SLOTS, 3 * PARAM_SLOTS);
    let still = walked(End::Arrived, 2, 0);
    assert_eq!(walk(links, params), still);
    assert_eq!(walk(links + 3, params + 5), still);
    assert_eq!(walk(links - 1, params), Err(Refusal::BadCatalogue));
    assert_eq!(walk(links, params - 1), Err(Refusal::BadCatalogue));
    assert_eq!(walk(0, 0), Err(Refusal::BadCatalogue));
    // What the crate lends by itself.
    let values = [
        ("<>,".repeat(256), true),
        ("<>,".repeat(257), false),
        (format!("<>{}", ";x".repeat(1024)), true),
        (format!("<>{}", ";x".repeat(1025)), false),
    ];
    for (value, is_read) in values {
        let text = format!("a:b\t{value}\n");
        let walk = Catalogue::new(text.as_bytes()).walk(0, 0);
        assert_eq!(walk.is_ok(), is_read);
    }
}

/// Of what can be wrong with a call, in the order of the numbers.
const NUMBERS: [usize; 4] = [14, 15, 8, 7];

#[test]
fn the_first_of_two_refusals_is_told() {
    let good = chapters(3);
    for (first, number) in NUMBERS.into_iter().enumerate() {
        for second in first..NUMBERS.len() {
            let has = |kind| first == kind || second == kind;
            let steps = match has(0) {
                true => [65, -65, i32::MAX, i32::MIN, i32::MIN + 1],
                false => [0, 1, -1, 64, -64],
            };
            let text = &good[..good.len() - usize::from(has(1))];
            let starts = if has(2) { [3, usize::MAX] } else { [0, 2] };
            let octets = if has(3) { LIMIT - 1 } else { LIMIT };
            for (steps, start) in steps
                .into_iter()
                .flat_map(|n| starts.map(|start| (n, start)))
            {
                let (mut links, mut params, mut work) = ([7; 8], [7; 12], vec![7; octets]);
                let answer = ffi::walk(text, start, steps, &mut links, &mut params, &mut work);
                let due = WalkAnswer {
                    number,
                    end: 0,
                    pack: 0,
                    steps: 0,
                };
                assert_eq!(answer, due, "{steps} {start} {octets}");
            }
        }
    }
}

/// Where a walk of m arrives, walking on from there ends as walking at once does.
#[test]
fn walking_on() {
    let text = sample();
    let catalogue = Catalogue::new(text);
    for start in 0..5 {
        for sign in [1, -1] {
            for m in 0..6 {
                for n in 0..6 {
                    let first = catalogue.walk(start, sign * m).unwrap();
                    let whole = catalogue.walk(start, sign * (m + n)).unwrap();
                    if first.end != End::Arrived {
                        assert_eq!(whole, first);
                        continue;
                    }
                    let rest = catalogue.walk(first.pack, sign * n).unwrap();
                    let steps = rest.steps + m as usize;
                    assert_eq!(whole, Walk { steps, ..rest });
                }
            }
        }
    }
}
