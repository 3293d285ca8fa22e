//! What can go wrong with a layout, with its records and with their bytes. A damaged sheet may still be an accepted one.

use crate::frame::LONGEST_BLOB;
use crate::layout::{count, run, Family, Layout, Siblings};
use crate::random::Random;
use crate::write::{bytes, records, Record};

/// Numbers at the edges of the fields and of the sheet's bounds.
const EDGES: [u32; 12] = [0, 1, 2, 255, 256, 65_535, 65_536, 65_537, 1 << 31, (1 << 31) + 1, u32::MAX - 1, u32::MAX];
const COUNTS: [u16; 7] = [0, 1, 2, 16, 17, 256, 65_535];
const KINDS: [u16; 7] = [0, 1, 2, 3, 4, 16, 65_535];
/// The bytes of a family record's body: what a record is, whatever kind it was made to name.
const FAMILY_BODY: usize = 18;
const LENGTHS: [u16; 10] = [0, 2, 4, 6, 8, 18, 19, 20, 22, 65_535];

/// A sheet of the layout that is whole once in five times, and else has a fault or two of any sort.
pub fn damaged(random: &mut Random, mut layout: Layout) -> Vec<u8> {
    let mut faults = [0; 4];
    for _ in 0..random.pick(&[0, 1, 1, 1, 2]) {
        faults[random.pick(&[0, 0, 0, 0, 1, 1, 1, 1, 2, 2])] += 1;
    }
    faults[3] = u32::from(random.below(250) == 0);
    for _ in 0..faults[0] {
        damage_layout(random, &mut layout);
    }
    let mut list = records(&layout);
    for _ in 0..faults[1] {
        damage_records(random, &mut list);
    }
    let mut sheet = bytes(&list);
    for _ in 0..faults[2] {
        damage_bytes(random, &mut sheet);
    }
    for _ in 0..faults[3] {
        lengthen(random, &mut sheet);
    }
    sheet
}

/// Faults that a sheet can still write down.
fn damage_layout(random: &mut Random, layout: &mut Layout) {
    match random.below(12) {
        0 => lose_element(random, layout),
        1 => double_element(random, layout),
        2 => move_leaf(random, layout),
        3 => cancel(random, layout),
        4 => lose_family(random, layout),
        5 => swap_siblings(random, layout),
        6 => crowd_siblings(random, layout),
        7 => pass_bound(random, layout),
        8 | 9 => dig(random, layout),
        _ => add_many(random, layout),
    }
}

fn lose_element(random: &mut Random, layout: &mut Layout) {
    if layout.elements.len() > 1 {
        layout.elements.remove(random.index(layout.elements.len()));
    }
}

/// One element twice: every offset of it overlaps. May make 17 elements.
fn double_element(random: &mut Random, layout: &mut Layout) {
    let element = layout.elements[random.index(layout.elements.len())].clone();
    layout.elements.insert(random.index(layout.elements.len() + 1), element);
}

/// A list of siblings of any level, and the bound of their last bytes.
fn siblings<'a>(random: &mut Random, layout: &'a mut Layout) -> (&'a mut Siblings, u32) {
    let element = random.index(layout.elements.len());
    let mut at = &mut layout.elements[element];
    let mut bound = 65_535;
    while let Some(parents) = nested(at).filter(|_| random.below(3) > 0) {
        let parent = &mut at[random.pick(&parents)];
        bound = parent.r.saturating_sub(parent.l);
        at = &mut parent.children;
    }
    (at, bound)
}

/// The places of the families that have children, if there are any.
fn nested(siblings: &[Family]) -> Option<Vec<usize>> {
    let places: Vec<usize> = (0..siblings.len()).filter(|place| !siblings[*place].children.is_empty()).collect();
    (!places.is_empty()).then_some(places)
}

/// The last byte as far as a field holds it: the family may be damaged already.
fn last(family: &Family) -> u32 {
    if family.r < family.l {
        return family.r;
    }
    u32::try_from(family.last()).unwrap_or(u32::MAX)
}

/// Some family, mostly a leaf.
fn member<'a>(random: &mut Random, layout: &'a mut Layout) -> &'a mut Family {
    let (siblings, _) = siblings(random, layout);
    let place = random.index(siblings.len());
    &mut siblings[place]
}

/// One byte to the left or right, longer or shorter.
fn move_leaf(random: &mut Random, layout: &mut Layout) {
    let family = member(random, layout);
    let left = random.below(2) == 0;
    let step = |number: u32| if left { number.saturating_sub(1) } else { number.saturating_add(1) };
    match random.below(3) {
        0 => family.l = step(family.l),
        1 => family.r = step(family.r),
        _ => (family.l, family.r) = (step(family.l), step(family.r)),
    }
}

/// A byte less here and a byte more there: a hole and an overlap, while the sizes may still add up.
fn cancel(random: &mut Random, layout: &mut Layout) {
    let shorter = member(random, layout);
    shorter.r -= u32::from(shorter.r > shorter.l);
    let longer = member(random, layout);
    longer.l -= u32::from(longer.l > 0);
}

fn lose_family(random: &mut Random, layout: &mut Layout) {
    let (siblings, _) = siblings(random, layout);
    if siblings.len() > 1 {
        siblings.remove(random.index(siblings.len()));
    }
}

fn swap_siblings(random: &mut Random, layout: &mut Layout) {
    let (siblings, _) = siblings(random, layout);
    if siblings.len() > 1 {
        let place = random.index(siblings.len() - 1);
        siblings.swap(place, place + 1);
    }
}

/// A sibling more, at or just behind the last byte of the eldest before it.
fn crowd_siblings(random: &mut Random, layout: &mut Layout) {
    let (siblings, bound) = siblings(random, layout);
    let place = random.index(siblings.len());
    let start = last(&siblings[place]).saturating_add(random.below(2)).min(bound);
    siblings.insert(place + 1, run(start, start.saturating_add(random.below(3)).min(bound)));
}

/// The last byte at the bound or one past it, or far away.
fn pass_bound(random: &mut Random, layout: &mut Layout) {
    let (siblings, bound) = siblings(random, layout);
    let Some(family) = siblings.last_mut() else { return };
    match random.below(4) {
        0 => (family.s, family.n, family.r) = (0, 1, bound),
        1 => (family.s, family.n, family.r) = (0, 1, bound.saturating_add(1)),
        2 => family.n = family.n.saturating_add(random.pick(&EDGES)),
        _ => family.r = family.r.max(random.pick(&EDGES)),
    }
}

/// Children under a family, each covering it: most often down to a fifth level.
fn dig(random: &mut Random, layout: &mut Layout) {
    let mut family = member(random, layout);
    for _ in 0..random.between(2, 5) {
        if family.children.is_empty() {
            let whole = run(0, family.r.saturating_sub(family.l));
            family.children.push(whole);
        }
        family = &mut family.children[0];
    }
}

/// So many families of one byte that the sheet has 256, 257 or more.
fn add_many(random: &mut Random, layout: &mut Layout) {
    let have: usize = layout.elements.iter().map(|families| count(families)).sum();
    let more = (random.between(255, 259) as usize).saturating_sub(have);
    let (siblings, bound) = siblings(random, layout);
    let start = siblings.last().map_or(0, |family| last(family).saturating_add(1));
    siblings.extend((start..=bound).take(more).map(|x| run(x, x)));
}

/// Faults of single fields and of whole records.
fn damage_records(random: &mut Random, records: &mut Vec<Record>) {
    let place = random.index(records.len());
    let record = &mut records[place];
    match random.below(9) {
        0 => record.kind = random.pick(&KINDS),
        1 => record.length = random.pick(&LENGTHS),
        2 => (record.kind, record.length) = (random.pick(&KINDS), random.pick(&LENGTHS)),
        3 => record.set_count(random.pick(&COUNTS)),
        4 => records[0].set_count(random.pick(&COUNTS)),
        5 | 6 => damage_numbers(random, records),
        7 => drop(records.remove(place)),
        _ => {
            let copy = record.clone();
            records.insert(random.index(records.len() + 1), copy);
        }
    }
}

/// One or two numbers of a family at an edge, or next to what they were.
fn damage_numbers(random: &mut Random, records: &mut [Record]) {
    let families: Vec<usize> = (0..records.len()).filter(|place| records[*place].body.len() == FAMILY_BODY).collect();
    if families.is_empty() {
        return;
    }
    let record = &mut records[random.pick(&families)];
    for _ in 0..random.between(1, 2) {
        let at = random.index(4);
        let number = match random.below(4) {
            0 => record.number(at).wrapping_add(1),
            1 => record.number(at).wrapping_sub(1),
            _ => random.pick(&EDGES),
        };
        record.set_number(at, number);
    }
}

/// Faults that know nothing of records.
fn damage_bytes(random: &mut Random, bytes: &mut Vec<u8>) {
    let place = random.index(bytes.len() + 1);
    match random.below(5) {
        0 | 1 => bytes.truncate(place),
        2 => bytes.extend((0..random.between(1, 30)).map(|byte| byte as u8)),
        3 => bytes.insert(place, random.word() as u8),
        _ => {
            if let Some(byte) = bytes.get_mut(place) {
                *byte = random.word() as u8;
            }
        }
    }
}

/// Tens of thousands of bytes more, up to the longest sheet of a frame.
fn lengthen(random: &mut Random, bytes: &mut Vec<u8>) {
    let end = random.between(10_000, LONGEST_BLOB as u32) as usize;
    let byte = random.pick(&[0, 1, 3, 255]);
    if bytes.len() < end {
        bytes.resize(end, byte);
    }
}
