//! Catalogues of packs, and walks through them.

use crate::edition::Edition;
use crate::meaning::{links_meanings, LinkMeaning};
use crate::number::{
    BAD_CATALOGUE, CATALOGUE_LIMIT, DONE, LIMIT, NO_OUTPUT_ROOM, NO_SUCH_LINK, OUT_OF_RANGE,
    PACK_LIMIT, STEP_LIMIT,
};
use crate::reading::reading;
use crate::record::PARAM_SLOTS;
use crate::resolution::target;
use crate::targets::is_absolute_uri;
use std::collections::BTreeMap;

/// How a walk ends, by its number.
#[derive(Clone, Copy, Debug, PartialEq, Eq, PartialOrd, Ord)]
pub enum End {
    Arrived = 1,
    /// The pack has no link to follow.
    NoLink = 2,
    /// The link's target can't be resolved.
    NoTarget = 3,
    /// No pack has the URI that the target resolves to.
    NoPack = 4,
}

/// The number, the end's number, the last pack's, and the steps taken.
#[derive(Clone, Copy, Debug, Default, PartialEq, Eq)]
pub struct WalkAnswer {
    pub number: usize,
    pub end: usize,
    pub pack: usize,
    pub steps: usize,
}

/// How many slots and octets are lent for a walk.
#[derive(Clone, Copy, Debug, PartialEq, Eq)]
pub struct Room {
    pub link_slots: usize,
    pub param_slots: usize,
    pub octets: usize,
}

/// Walks so many steps from the pack of that number. Numbers in order: 14, 15,
/// 8, 7.
pub fn walk(catalogue: &[u8], start: usize, steps: i32, room: Room) -> WalkAnswer {
    let packs = Packs::of(catalogue, room);
    walk_through(packs.as_ref(), start, steps, room.octets)
}

/// The same through the packs of a catalogue, none if it is bad, with so many
/// octets for resolving.
pub fn walk_through(packs: Option<&Packs>, start: usize, steps: i32, octets: usize) -> WalkAnswer {
    let refusal = |number| WalkAnswer {
        number,
        ..WalkAnswer::default()
    };
    if steps.unsigned_abs() > STEP_LIMIT {
        return refusal(OUT_OF_RANGE);
    }
    let Some(packs) = packs else {
        return refusal(BAD_CATALOGUE);
    };
    let Some(uri) = packs.uri(start) else {
        return refusal(NO_SUCH_LINK);
    };
    if octets < LIMIT {
        return refusal(NO_OUTPUT_ROOM);
    }
    let (end, trail) = packs.trail(uri, steps);
    let last = &trail[trail.len() - 1];
    WalkAnswer {
        number: DONE,
        end: end as usize,
        pack: packs.0[last].number,
        steps: trail.len() - 1,
    }
}

/// A pack beside its URI: its line in the catalogue, counted from 0, and what
/// the links of its value mean.
#[derive(Clone, Debug)]
struct Pack {
    number: usize,
    links: Vec<LinkMeaning>,
}

/// The packs of a catalogue by their URIs.
#[derive(Clone, Debug)]
pub struct Packs(BTreeMap<Vec<u8>, Pack>);

impl Packs {
    /// None if the text is no catalogue, or a Link value is refused in the room.
    pub fn of(text: &[u8], room: Room) -> Option<Packs> {
        if text.len() > CATALOGUE_LIMIT {
            return None;
        }
        let mut lines: Vec<&[u8]> = text.split(|&octet| octet == b'\n').collect();
        let behind_the_last_lf = lines.pop()?;
        if !behind_the_last_lf.is_empty() || lines.len() > PACK_LIMIT {
            return None;
        }
        let mut packs = BTreeMap::new();
        for (number, line) in lines.into_iter().enumerate() {
            let mut parts = line.splitn(2, |&octet| octet == b'\t');
            let (uri, value) = (parts.next()?, parts.next()?);
            let links = read_by_itself(value, room)?;
            let before = packs.insert(uri.to_vec(), Pack { number, links });
            if before.is_some() || !is_absolute_uri(uri) {
                return None;
            }
        }
        Some(Packs(packs))
    }

    /// The URI of the pack of that number.
    pub fn uri(&self, number: usize) -> Option<&[u8]> {
        let mut packs = self.0.iter();
        let (uri, _) = packs.find(|(_, pack)| pack.number == number)?;
        Some(uri)
    }

    /// The URIs walked over, the first one included, and how that ends.
    fn trail(&self, uri: &[u8], steps: i32) -> (End, Vec<Vec<u8>>) {
        let relation: &[u8] = if steps < 0 { b"prev" } else { b"next" };
        let mut trail = vec![uri.to_vec()];
        for _ in 0..steps.unsigned_abs() {
            match self.step(&trail[trail.len() - 1], relation) {
                Ok(reached) => trail.push(reached),
                Err(end) => return (end, trail),
            }
        }
        (End::Arrived, trail)
    }

    /// The URI that a step leads to. It is known that the pack's own is a URI,
    /// and the target a reference; what is left to refuse are their lengths.
    fn step(&self, uri: &[u8], relation: &[u8]) -> Result<Vec<u8>, End> {
        let has = |link: &&LinkMeaning| link.relations().iter().any(|one| one == relation);
        let links = self.0[uri].links.iter();
        let mut followed = links.filter(|link| !has_anchor(link)).filter(has);
        let link = followed.next().ok_or(End::NoLink)?;
        let reached = target(uri, &link.target);
        if uri.len() > LIMIT || reached.len() > LIMIT {
            return Err(End::NoTarget);
        }
        match self.0.contains_key(&reached) {
            true => Ok(reached),
            false => Err(End::NoPack),
        }
    }
}

fn has_anchor(link: &LinkMeaning) -> bool {
    link.params.iter().any(|param| param.name == b"anchor")
}

/// What the links of a value mean, if reading it in the room refuses nothing.
fn read_by_itself(value: &[u8], room: Room) -> Option<Vec<LinkMeaning>> {
    if value.len() > LIMIT {
        return None;
    }
    let links = reading(Edition::Rfc8288, value)?;
    let params: usize = links.iter().map(|link| link.params.len()).sum();
    let fits = 4 * links.len() <= room.link_slots && PARAM_SLOTS * params <= room.param_slots;
    fits.then(|| links_meanings(value, &links))
}
