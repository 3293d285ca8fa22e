//! Sheets at and just past every bound of 01, and sheets with two faults: which of them is named is a rule too.

use crate::figures::{hole, layout_a, layout_f, overlap};
use crate::frame::{Frame, LONGEST_BLOB};
use crate::layout::{family, layout, run, Family, Layout, Siblings};
use crate::sheet::{ELEMENT, FAMILY, HEADER};
use crate::write::{bytes, records, sheet, Record};

const MAX: u32 = u32::MAX;

/// Call 1 of each.
pub fn frames() -> Vec<Frame> {
    let layouts = [segments(), spans(), orders(), depths(), covers(), counts()].concat();
    let damaged = [cuts(), fields(), many(), trailing(), long()].concat();
    layouts.iter().map(sheet).chain(damaged).map(Frame::check).collect()
}

/// A refused sheet for every number but MANY, whose sheets are long, and for both flags: what the other calls are given.
pub fn one_of_each() -> Vec<Vec<u8>> {
    let f = sheet(&layout_f());
    let changed = |place, change: fn(&mut Record)| changed(place, change)[0].clone();
    let layouts = [
        single(family(0, 1, 6, 1)),
        single(run(0, 65_536)),
        element(vec![family(0, 1, 6, 2), family(3, 3, 6, 2)]),
        chain(5, run(0, 3)),
        hole(),
        overlap(),
    ];
    let damaged = vec![
        Vec::new(),
        f[..f.len() - 1].to_vec(),
        changed(1, |record| record.kind = FAMILY),
        changed(2, |record| record.length = 22),
        changed(0, |record| record.set_count(17)),
        [f, vec![0]].concat(),
    ];
    layouts.iter().map(sheet).chain(damaged).collect()
}

fn single(one: Family) -> Layout {
    layout(vec![vec![one]])
}

/// A layout of one element.
fn element(families: Siblings) -> Layout {
    layout(vec![families])
}

/// n of 0, r below l, and strides around a segment's length.
fn segments() -> Vec<Layout> {
    let tops = [
        (0, 0, 0, 0),
        (0, 5, 6, 0),
        (MAX, 0, MAX, 0),
        (1, 0, 0, 1),
        (MAX, 0, 0, 1),
        (5, 4, 2, 2),
        (0, 0, 0, 1),
        (0, 0, 1, 1),
        (0, 0, MAX, 1),
        (0, 3, 4, 1),
        (0, 3, 0, 2),
        (0, 3, 3, 2),
        (0, 3, 4, 2),
        (0, 3, 5, 2),
        (0, MAX, 0, 2),
        (0, MAX, MAX, 2),
        (1, MAX, MAX, 2),
        (0, 3, MAX, 0),
    ];
    let inner = |(l, r, s, n)| single(run(0, 31).with(vec![family(l, r, s, n)]));
    tops.iter().map(|(l, r, s, n)| single(family(*l, *r, *s, *n))).chain(tops.map(inner)).collect()
}

/// Last bytes at the bound, one past it, and where 32 or 64 bits would wrap to a small number.
const TOP_SPANS: [(u32, u32, u32, u32); 22] = [
    (0, 65_535, 0, 1),
    (0, 65_536, 0, 1),
    (65_535, 65_535, 0, 1),
    (65_536, 65_536, 0, 1),
    (0, 0, 1, 65_536),
    (0, 0, 1, 65_537),
    (0, 1, 2, 32_768),
    (1, 2, 2, 32_768),
    (0, 255, 256, 256),
    (0, 255, 256, 257),
    (0, 0, 1 << 31, 3),
    (0, 0, 1 << 16, 65_537),
    (0, 1, 1 << 16, 65_537),
    (MAX, MAX, 0, 1),
    (0, MAX, 0, 1),
    (MAX, MAX, MAX, MAX),
    (0, 0, MAX, MAX),
    (0, 0, MAX, 2),
    (1, 1, MAX, 2),
    (0, 0, 1, MAX),
    (0, 0, 2, 1 << 31),
    (2, 2, MAX, MAX),
];

/// The same under a family whose segments have 8 bytes.
const CHILD_SPANS: [(u32, u32, u32, u32); 12] = [
    (0, 7, 0, 1),
    (0, 8, 0, 1),
    (7, 7, 0, 1),
    (8, 8, 0, 1),
    (0, 0, 7, 2),
    (0, 0, 8, 2),
    (0, 0, 1, 8),
    (0, 0, 1, 9),
    (8, 15, 0, 1),
    (0, 65_535, 0, 1),
    (0, 1, 1 << 31, 3),
    (MAX, MAX, MAX, MAX),
];

fn spans() -> Vec<Layout> {
    let top = |(l, r, s, n)| single(family(l, r, s, n));
    // A child fits one segment, and not the two of its parent, nor what its parent's offsets would leave.
    let inner = |(l, r, s, n)| single(family(0, 7, 8, 2).with(vec![family(l, r, s, n)]));
    let later = |(l, r, s, n)| element(vec![run(0, 7), run(8, 15).with(vec![family(l, r, s, n)])]);
    [TOP_SPANS.map(top).to_vec(), CHILD_SPANS.map(inner).to_vec(), CHILD_SPANS.map(later).to_vec()].concat()
}

/// Siblings that touch, meet, interlace or stand in the wrong order; families that are no siblings.
fn orders() -> Vec<Layout> {
    let parent = || run(0, 31);
    let pairs = [
        (run(0, 3), run(4, 7)),
        (run(0, 3), run(3, 7)),
        (run(4, 7), run(0, 3)),
        (run(0, 3), run(0, 3)),
        (family(0, 1, 4, 2), family(2, 3, 4, 2)),
        (family(0, 1, 4, 2), run(5, 6)),
        (family(0, 1, 4, 2), run(6, 7)),
        (family(0, 0, 2, 4), run(1, 1)),
        (run(0, 3), run(5, 7)),
        // SPAN and ORDER, SEGMENT and SPAN, SEGMENT and ORDER at once.
        (run(0, 3), run(2, 65_536)),
        (run(0, 3), family(4, 65_536, 1, 2)),
        (run(0, 3), family(2, 3, 1, 2)),
        (run(0, 3), run(2, 1)),
    ];
    let under = |(elder, younger): &(Family, Family)| single(parent().with(vec![elder.clone(), younger.clone()]));
    // The elder of a second child is the first child, and not the first child's child.
    let nieces = vec![run(0, 3).with(vec![run(0, 0), run(3, 3)]), run(4, 7).with(vec![run(0, 3)])];
    let mut out: Vec<Layout> = pairs.iter().map(under).collect();
    out.extend(pairs.map(|(elder, younger)| element(vec![elder, younger])));
    out.push(element(nieces));
    // Another element is no sibling.
    out.push(layout(vec![vec![run(4, 7)], vec![run(0, 3)]]));
    out
}

/// `levels` families around each other, each covering the one outside it.
fn chain(levels: u32, innermost: Family) -> Layout {
    single((1..levels).fold(innermost, |inner, _| run(0, inner.r).with(vec![inner])))
}

fn depths() -> Vec<Layout> {
    let mut out: Vec<Layout> = (1..=6).map(|levels| chain(levels, run(0, 3))).collect();
    // In a second element and in the last, in a second top family, and in a second child at every level.
    let deep = chain(5, run(0, 3)).elements.concat();
    let late = element(vec![run(0, 3), run(4, 7).with(chain(4, run(0, 3)).elements.concat())]);
    let last = layout([(4..19).map(|x| vec![run(x, x)]).collect(), vec![deep.clone()]].concat());
    let second = |r, children| vec![run(0, 0), run(1, r).with(children)];
    let seconds = element(second(9, second(8, second(7, second(6, vec![run(0, 0)])))));
    out.extend([layout(vec![vec![run(4, 7)], deep]), late, last, seconds]);
    // A level 4 family with children that breaks another rule too.
    let broken = [family(0, 3, 3, 1), family(0, 3, 2, 2), family(0, 3, 0, 0)];
    out.extend(broken.map(|family| chain(4, family.with(vec![run(0, 0)]))));
    let beyond = run(0, 3).with(vec![run(0, 3).with(vec![run(0, 3).with(vec![run(0, 4).with(vec![run(0, 0)])])])]);
    let unordered = run(0, 3).with(vec![run(0, 3).with(vec![run(0, 3).with(vec![run(0, 1), run(1, 2).with(vec![run(0, 0)])])])]);
    out.extend([single(beyond), single(unordered)]);
    out
}

/// Holes and overlaps at the first, a middle and the last offset that they can have.
fn covers() -> Vec<Layout> {
    let elements = [
        vec![vec![run(1, 1)]],
        vec![vec![run(1, 4)], vec![run(5, 6)]],
        vec![vec![run(0, 2)], vec![run(4, 6)]],
        vec![vec![run(0, 5)], vec![run(7, 7)]],
        vec![vec![run(0, 1)], vec![run(0, 3)]],
        vec![vec![run(0, 3)], vec![run(2, 5)]],
        vec![vec![run(0, 5)], vec![run(5, 5)]],
        // The sizes add up to the last byte + 1, overlap first and hole first.
        vec![vec![run(0, 1)], vec![run(1, 1), run(3, 3)]],
        vec![vec![run(0, 0), run(2, 3)], vec![run(3, 3)]],
        vec![vec![family(0, 0, 2, 4)], vec![family(1, 1, 2, 3), run(6, 6)]],
        // The same bytes in two elements, in three, and in all sixteen.
        vec![vec![run(0, 0)]; 2],
        vec![vec![run(0, 7)]; 3],
        vec![vec![run(0, 65_535)]; 16],
        vec![vec![run(65_535, 65_535)]; 16],
        // Far apart: the hole is found below the sum of the sizes.
        vec![vec![run(0, 0), run(65_535, 65_535)]],
        vec![vec![run(0, 65_534)], vec![run(65_535, 65_535)]],
        vec![vec![run(0, 65_533)], vec![run(65_535, 65_535)]],
        vec![vec![run(0, 65_534)], vec![run(65_534, 65_534)]],
        // Only the children select: a parent without holes can have some.
        vec![vec![run(0, 7).with(vec![run(0, 6)])]],
        vec![vec![run(0, 7).with(vec![run(1, 7)])]],
        vec![vec![family(0, 7, 8, 2).with(vec![run(0, 3)])], vec![family(4, 7, 8, 2)]],
        vec![vec![family(0, 7, 8, 2).with(vec![run(0, 3)])], vec![family(3, 7, 8, 2)]],
    ];
    elements.into_iter().map(layout).collect()
}

/// 1, 15, 16, 17 and 18 elements, a byte each; 256 and 257 families; and family 257 in the last element, as a child, and behind families of
/// four levels.
fn counts() -> Vec<Layout> {
    let bytes = |many: u32| layout((0..many).map(|x| vec![run(x, x)]).collect());
    let ones = |many: u32| element((0..many).map(|x| run(x, x)).collect());
    let sixteen = layout((0..16).map(|e| (0..16).map(|k| run(16 * e + k, 16 * e + k)).collect()).collect());
    let stretched = element((0..256).map(|k| run(256 * k, 256 * k + 255)).collect());
    let nested = single(run(0, 300).with((0..256).map(|x| run(x, x)).collect()));
    let spread = layout((0..16).map(|e| (0..17).map(|k| run(17 * e + k, 17 * e + k)).collect()).collect());
    let children = element((0..16).map(|k| run(16 * k, 16 * k + 15).with((0..16).map(|x| run(x, x)).collect())).collect());
    let inside = |levels| chain(levels, run(0, 0)).elements.concat();
    let chains = element((0..65).map(|x| run(x, x).with(inside(3))).collect());
    let mut out = [1, 15, 16, 17, 18].map(bytes).to_vec();
    out.extend([255, 256, 257].map(ones));
    out.extend([sixteen, stretched, nested, spread, children, chains, Layout { displacement: MAX, ..layout_a() }]);
    out
}

/// Layout F and a nested layout, cut before every byte of them; and every such front with bytes of 255 in place of the rest.
fn cuts() -> Vec<Vec<u8>> {
    let nested = Layout { displacement: 258, ..single(run(0, 3).with(vec![run(0, 1), run(2, 3)])) };
    let mut out = Vec::new();
    for whole in [sheet(&layout_f()), sheet(&nested)] {
        for cut in 0..whole.len() {
            out.push(whole[..cut].to_vec());
            let mut spoilt = whole.clone();
            spoilt[cut..].fill(255);
            out.push(spoilt);
        }
    }
    out
}

/// The sheet of layout A with one record changed: whole, and cut behind the four bytes that name its length and kind.
fn changed(place: usize, change: impl Fn(&mut Record)) -> [Vec<u8>; 2] {
    let mut list = records(&layout_a());
    change(&mut list[place]);
    let whole = bytes(&list);
    let cut = whole[..bytes(&list[..place]).len() + 4].to_vec();
    [whole, cut]
}

/// Each kind of record with other kinds, lengths and counts.
fn fields() -> Vec<Vec<u8>> {
    let mut out = Vec::new();
    for place in 0..3 {
        for kind in [0, HEADER, ELEMENT, FAMILY, 4, 256, 65_535] {
            out.extend(changed(place, |record| record.kind = kind));
            // KIND before LENGTH, also where the length is the named kind's.
            out.extend(changed(place, |record| (record.kind, record.length) = (kind, 8)));
        }
        for length in [0, 2, 4, 8, 19, 20, 21, 65_535] {
            out.extend(changed(place, |record| record.length = length));
        }
        for count in [0, 1, 2, 4, 16, 17, 18, 255, 256, 65_535] {
            out.extend(changed(place, |record| record.set_count(count)));
        }
    }
    for place in 3..7 {
        out.extend(changed(place, |record| record.set_count(0)));
    }
    // A level 4 family that announces children, and nothing follows it: DEPTH.
    for count in [1, 65_535] {
        let mut list = records(&chain(4, run(0, 3)));
        list.last_mut().expect("a chain has families").set_count(count);
        out.push(bytes(&list));
    }
    out
}

/// Family 257: with a fault of its own too, of another kind or length, cut, and missing.
fn many() -> Vec<Vec<u8>> {
    let whole = records(&element((0..257).map(|x| run(x, x)).collect()));
    let last = whole.len() - 1;
    let with = |change: &dyn Fn(&mut Record)| {
        let mut list = whole.clone();
        change(&mut list[last]);
        bytes(&list)
    };
    let cut = |left: usize| bytes(&whole[..last]).into_iter().chain(bytes(&whole[last..]).into_iter().take(left)).collect();
    vec![
        with(&|record| record.set_number(3, 0)),
        with(&|record| record.set_number(2, 1)),
        with(&|record| record.set_number(1, 65_536)),
        with(&|record| record.set_number(0, 0)),
        with(&|record| record.kind = ELEMENT),
        with(&|record| record.length = 22),
        with(&|record| record.set_count(1)),
        cut(21),
        cut(4),
        cut(3),
        cut(0),
    ]
}

/// Bytes after the last record: one, a record of each kind, the sheet again; and before a hole or an overlap.
fn trailing() -> Vec<Vec<u8>> {
    let whole = records(&layout_a());
    let hole = sheet(&layout(vec![vec![run(1, 1)]]));
    let overlap = sheet(&layout(vec![vec![run(0, 0)]; 2]));
    let sound = bytes(&whole);
    let mut out = Vec::new();
    for front in [sound.clone(), hole, overlap] {
        for more in [vec![0], vec![255; 3], bytes(&whole[..1]), bytes(&whole[1..2]), bytes(&whole[2..3]), sound.clone()] {
            out.push([front.clone(), more].concat());
        }
    }
    out
}

/// Sheets up to the longest that a frame holds.
fn long() -> Vec<Vec<u8>> {
    let longest = sheet(&layout((0..16).map(|e| (0..16).map(|k| run(16 * e + k, 16 * e + k)).collect()).collect()));
    let mut followed = longest.clone();
    followed.resize(LONGEST_BLOB, 0);
    // An element that announces 65,535 families, and has thousands of them.
    let mut announced = records(&element((0..2_900).map(|x| run(x, x)).collect()));
    announced[1].set_count(65_535);
    vec![followed, vec![0; LONGEST_BLOB], vec![255; LONGEST_BLOB - 1], bytes(&announced)]
}
