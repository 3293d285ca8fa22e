//! Layouts that 01 accepts, of many shapes: every offset of the pattern is in exactly one element. Chance picks them; the last three are
//! always the same.

use crate::layout::{count, family, layout, repeated, run, Layout, Siblings};
use crate::random::Random;

const MOST_BYTES: u32 = 65_536;
const MOST_ELEMENTS: u32 = 16;
const MOST_FAMILIES: u32 = 256;
const LEVELS: u32 = 4;

/// An accepted layout of a shape that chance picks.
pub fn any(random: &mut Random) -> Layout {
    let mut elements = match random.below(9) {
        0 => rows(random),
        1 => columns(random),
        2 => blocks(random),
        3 => {
            let parts = random.between(1, MOST_ELEMENTS);
            let length = parts * random.between(1, 40);
            cyclic(random, length, parts)
        }
        4 => wrapped(random),
        5 => full(random),
        6 if random.below(4) == 0 => crowded(random),
        _ => mixed(random),
    };
    random.shuffle(&mut elements);
    let displacement = random.word() as u32 >> random.below(32);
    Layout { displacement, elements }
}

/// Whole rows of a grid, dealt out in stretches.
fn rows(random: &mut Random) -> Vec<Siblings> {
    let (height, width) = (random.between(1, 12), random.between(1, 50));
    (0..random.between(1, MOST_ELEMENTS)).map(|e| vec![run(e * height * width, (e + 1) * height * width - 1)]).collect()
}

/// Columns of a grid, like the panel's.
fn columns(random: &mut Random) -> Vec<Siblings> {
    let (parts, width, height) = (random.between(1, MOST_ELEMENTS), random.between(1, 20), random.between(1, 48));
    (0..parts).map(|c| vec![repeated(width * c, width * c + width - 1, width * parts, height)]).collect()
}

/// Blocks of a grid, an element each.
fn blocks(random: &mut Random) -> Vec<Siblings> {
    let (across, down) = (random.between(1, 4), random.between(1, 4));
    let (width, height) = (random.between(1, 20), random.between(1, 12));
    let row = across * width;
    let block = |b: u32| {
        let start = b / across * height * row + b % across * width;
        vec![repeated(start, start + width - 1, row, height)]
    };
    (0..across * down).map(block).collect()
}

/// Stretches of one length dealt out in turn. `parts` divides `length`.
fn cyclic(random: &mut Random, length: u32, parts: u32) -> Vec<Siblings> {
    let stretch = divisor(random, length / parts, 1);
    let turn = stretch * parts;
    (0..parts).map(|e| vec![repeated(e * stretch, e * stretch + stretch - 1, turn, length / turn)]).collect()
}

/// A divisor of `length`, at least `least`.
fn divisor(random: &mut Random, length: u32, least: u32) -> u32 {
    let divisors: Vec<u32> = (least..=length).filter(|d| length.is_multiple_of(*d)).collect();
    random.pick(&divisors)
}

/// Four levels deep: each level is one family around the next, with one segment or more.
fn wrapped(random: &mut Random) -> Vec<Siblings> {
    let parts = random.between(1, MOST_ELEMENTS);
    let mut length = parts * random.between(1, 6);
    let mut elements = cyclic(random, length, parts);
    for _ in 1..LEVELS {
        let times = random.between(1, 5);
        elements = around(elements, length, times);
        length *= times;
    }
    elements
}

/// Each element under a family of `times` segments of the whole pattern.
fn around(elements: Vec<Siblings>, length: u32, times: u32) -> Vec<Siblings> {
    elements.into_iter().map(|families| vec![repeated(0, length - 1, length, times).with(families)]).collect()
}

/// A pattern of 65,536 bytes: the last byte that a sheet may name.
fn full(random: &mut Random) -> Vec<Siblings> {
    let parts = random.pick(&[1, 2, 4, 8, 16]);
    match random.below(3) {
        0 => cyclic(random, MOST_BYTES, parts),
        1 => partition(random, MOST_BYTES, parts, LEVELS, 3),
        _ => runs(random, MOST_BYTES, parts, 40),
    }
}

/// 16 elements and 256 families: the longest sheet there is.
fn crowded(random: &mut Random) -> Vec<Siblings> {
    let length = random.between(MOST_FAMILIES, MOST_BYTES);
    runs(random, length, MOST_ELEMENTS, MOST_FAMILIES)
}

/// Any mixture that a sheet has room for.
fn mixed(random: &mut Random) -> Vec<Siblings> {
    loop {
        let parts = random.between(1, MOST_ELEMENTS);
        let length = parts + random.below(400);
        let elements = partition(random, length, parts, LEVELS, 4);
        if elements.iter().map(|families| count(families)).sum::<usize>() <= MOST_FAMILIES as usize {
            return elements;
        }
    }
}

/// 0 to `length`-1 in `parts` elements, in at most `levels` levels; `steps` limits how often it is cut up.
fn partition(random: &mut Random, length: u32, parts: u32, levels: u32, steps: u32) -> Vec<Siblings> {
    match random.below(5) {
        0 if levels > 1 && steps > 0 => {
            let inner = divisor(random, length, parts);
            around(partition(random, inner, parts, levels - 1, steps - 1), inner, length / inner)
        }
        1 if parts > 1 && steps > 0 => {
            // Some elements have the front, the others the rest.
            let first = random.between(1, parts - 1);
            let cut = random.between(first, length - (parts - first));
            let mut elements = partition(random, cut, first, levels, steps - 1);
            elements.extend(shifted(partition(random, length - cut, parts - first, levels, steps - 1), cut));
            elements
        }
        2 if length >= 2 * parts && steps > 0 => {
            // Every element has a share of the front and one of the rest.
            let cut = random.between(parts, length - parts);
            let front = partition(random, cut, parts, levels, steps - 1);
            let rest = shifted(partition(random, length - cut, parts, levels, steps - 1), cut);
            front.into_iter().zip(rest).map(|(front, rest)| [front, rest].concat()).collect()
        }
        3 if length.is_multiple_of(parts) => cyclic(random, length, parts),
        _ => {
            let most = parts + random.below(10);
            runs(random, length, parts, most)
        }
    }
}

/// The same elements further on: only the top families' offsets count from the start.
fn shifted(mut elements: Vec<Siblings>, by: u32) -> Vec<Siblings> {
    for top in elements.iter_mut().flatten() {
        top.l += by;
        top.r += by;
    }
    elements
}

/// Runs of any length dealt out by chance, at most `most` and at least one an element.
fn runs(random: &mut Random, length: u32, parts: u32, most: u32) -> Vec<Siblings> {
    let many = most.min(length);
    let mut owners: Vec<u32> = (0..many).map(|run| if run < parts { run } else { random.below(parts) }).collect();
    random.shuffle(&mut owners);
    let mut ends: Vec<u32> = (1..length).collect();
    random.shuffle(&mut ends);
    ends.truncate(many as usize - 1);
    ends.push(length);
    ends.sort_unstable();
    let mut elements = vec![Vec::new(); parts as usize];
    let mut start = 0;
    for (owner, end) in owners.into_iter().zip(ends) {
        elements[owner as usize].push(run(start, end - 1));
        start = end;
    }
    elements
}

/// Four levels of two segments each, with a gap behind every segment: elements 0 and 1 have the innermost bytes in turn, and each of the
/// others the gaps of one level.
pub fn four_levels() -> Layout {
    let first = |inside| vec![family(0, 29, 32, 2).with(inside)];
    let second = |inside| first(vec![family(0, 9, 15, 2).with(inside)]);
    let third = |inside| second(vec![family(0, 3, 5, 2).with(inside)]);
    layout(vec![
        third(vec![family(0, 0, 2, 2)]),
        third(vec![family(1, 1, 2, 2)]),
        second(vec![family(4, 4, 5, 2)]),
        first(vec![family(10, 14, 15, 2)]),
        vec![family(30, 31, 32, 2)],
    ])
}

/// 16 elements, in another order in the pattern than in the sheet.
pub fn sixteen() -> Layout {
    let element = |e: u32| {
        let start = 5 * e % 16 * 3;
        vec![family(start, start + 2, 48, 2)]
    };
    layout((0..16).map(element).collect())
}

/// Every bound at once: 16 elements, 256 families, four levels, a pattern of 65,536 bytes, the largest displacement. No text of the listing
/// program is longer: no choice of sizes, families or first offsets has more digits.
pub fn fullest() -> Layout {
    let (mut elements, mut start) = (Vec::new(), 0);
    for index in 0..16 {
        let size = match index {
            0..5 => 10_000,
            5..15 => 1_412,
            _ => 1_416,
        };
        let families = match index {
            0 => 100,
            1..15 => 10,
            _ => 16,
        };
        elements.push(deep(start, size, families));
        start += size;
    }
    Layout { displacement: u32::MAX, elements }
}

/// One stretch in so many families: three around each other, and in those single bytes and one family of all the rest.
fn deep(start: u32, size: u32, families: u32) -> Siblings {
    let last = families - 4;
    let innermost: Siblings = (0..last).map(|x| run(x, x)).chain([run(last, size - 1)]).collect();
    let inside = |children| vec![run(0, size - 1).with(children)];
    vec![run(start, start + size - 1).with(inside(inside(innermost)))]
}
