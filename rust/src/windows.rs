//! Call 10 at the edges: windows at the displacements, the patterns' borders and 2^40, lists with just enough room and with a slot or a
//! byte less, and calls with two faults at once. The pairs and windows also serve the moves.

use crate::bounds::one_of_each;
use crate::buffers::{is_sound, Window};
use crate::element::{Element, END};
use crate::figures::{inner_pairs, inner_singles, layout_a, layout_b, layout_c, layout_f, slots, whole_file};
use crate::frame::{Frame, LONGEST_BLOB};
use crate::layout::{family, layout, run, Layout};
use crate::refusal::{BEFORE, FAR, WINDOW};
use crate::runs;
use crate::shapes::{four_levels, fullest, sixteen};
use crate::write::sheet;

/// Two elements, each of a layout of its own.
pub struct Pair {
    pub layouts: [Layout; 2],
    pub elements: [usize; 2],
}

impl Pair {
    pub fn element(&self, side: usize) -> Element {
        Element::of(&self.layouts[side], self.elements[side])
    }

    /// The larger displacement: a window starts there or later.
    pub fn start(&self) -> u64 {
        self.layouts.iter().map(|layout| u64::from(layout.displacement)).fold(0, u64::max)
    }

    /// The runs of a window that is accepted, and none of any other.
    pub fn runs(&self, window: Window) -> u64 {
        if !is_sound(window, self.start()) {
            return 0;
        }
        runs::shared(&self.element(0), &self.element(1), window).len() as u64
    }

    /// Windows that are accepted: empty, short, across either pattern's border, up to one, and up to the file's end. A border is so far on
    /// that nothing before it is BEFORE, even in a pattern of one byte.
    pub fn windows(&self) -> [(u64, u64); 10] {
        let start = self.start();
        let border = |side: usize| {
            let element = self.element(side);
            let into_pattern = (start - element.displacement()) % element.period();
            start - into_pattern + 4 * element.period()
        };
        [
            (start, start),
            (start, start + 1),
            (start, start + 24),
            (start + 1, start + 40),
            (border(0) - 3, border(0) + 5),
            (border(1) - 3, border(1) + 5),
            (border(0) - self.element(0).period().min(30), border(0)),
            (END - 24, END),
            (END - 1, END),
            (END, END),
        ]
    }

    pub fn frame(&self, window: (u64, u64), list: Vec<u8>) -> Frame {
        let [one, two] = &self.layouts;
        Frame::shared_runs([sheet(one), sheet(two)], self.elements.map(|index| index as u64), window, list)
    }
}

pub fn frames() -> Vec<Frame> {
    let pairs = pairs();
    [pairs.iter().flat_map(accepted).collect(), refused(), rooms(), indexes(), refused_sheets(), long_lists(), of_the_fullest()].concat()
}

pub fn pair(one: Layout, two: Layout, elements: [usize; 2]) -> Pair {
    Pair { layouts: [one, two], elements }
}

pub fn from(displacement: u32, layout: Layout) -> Layout {
    Layout { displacement, ..layout }
}

/// The panel's frame by row: six rows an element.
pub fn rows() -> Layout {
    layout((0..4).map(|e| vec![run(480 * e, 480 * e + 479)]).collect())
}

/// Elements of short sheets: of patterns from one byte to 65,536, with displacements from 0 to the largest.
pub fn pairs() -> Vec<Pair> {
    // Element 0 has 0 to 5 in two families and 7, so that in the file it runs on from 7 through the next pattern's 5.
    let touching = layout(vec![vec![run(0, 2), run(3, 5), run(7, 7)], vec![run(6, 6)]]);
    let fifths = layout(vec![vec![run(0, 3)], vec![run(4, 4)]]);
    let odd_and_even = layout(vec![vec![family(0, 0, 2, 32_768)], vec![family(1, 1, 2, 32_768)]]);
    let halves = layout(vec![vec![run(0, 32_766)], vec![run(32_767, 65_534)]]);
    vec![
        pair(layout_a(), layout_b(), [0, 0]),
        pair(layout_f(), layout_b(), [1, 1]),
        pair(from(1, layout_b()), from(5, layout_a()), [0, 2]),
        pair(inner_pairs(), inner_singles(), [0, 0]),
        pair(whole_file(1), whole_file(0), [0, 0]),
        pair(layout_b(), layout_b(), [0, 1]),
        pair(from(3, touching.clone()), whole_file(0), [0, 0]),
        pair(touching, from(2, fifths), [0, 0]),
        pair(layout_c(), rows(), [1, 2]),
        pair(from(7, odd_and_even), from(65_534, halves), [1, 1]),
        pair(from(u32::MAX, layout_a()), from(u32::MAX - 1, layout_a()), [1, 1]),
        pair(from(9, four_levels()), from(30, sixteen()), [1, 5]),
    ]
}

/// Windows that are accepted. Each list has just the room that is needed, then one to three slots or some bytes more.
fn accepted(pair: &Pair) -> Vec<Frame> {
    let list = |place: usize, window| {
        let mut list = slots(4 * pair.runs(window) + place as u64 % 4);
        list.extend(vec![165; place / 4 * 3]);
        list
    };
    pair.windows().iter().enumerate().map(|(place, window)| pair.frame(*window, list(place, *window))).collect()
}

/// A pair whose larger displacement is the second, and the same turned: both refuse all of `REFUSED`.
pub fn late_pairs() -> [Pair; 2] {
    let late = |one, two| pair(from(one, layout_a()), from(two, layout_b()), [0, 0]);
    [late(10, 20), late(20, 10)]
}

/// Windows that are refused, with one fault or two, and the number, where the larger displacement is 20 and the other, if any, is 10.
pub const REFUSED: [((u64, u64), u8); 18] = [
    // BEFORE of one displacement, of both, where nothing is in the window, and where its end is FAR.
    ((19, 30), BEFORE),
    ((10, 30), BEFORE),
    ((9, 30), BEFORE),
    ((19, 19), BEFORE),
    ((0, 0), BEFORE),
    ((19, END + 1), BEFORE),
    ((0, u64::MAX), BEFORE),
    // FAR by one, with nothing in the window, and by far.
    ((20, END + 1), FAR),
    ((END, END + 1), FAR),
    ((END + 1, END + 1), FAR),
    ((20, u64::MAX), FAR),
    ((u64::MAX, u64::MAX), FAR),
    // WINDOW, whatever its ends are.
    ((21, 20), WINDOW),
    ((20, 19), WINDOW),
    ((19, 18), WINDOW),
    ((END + 1, END), WINDOW),
    ((END + 2, END + 1), WINDOW),
    ((u64::MAX, 0), WINDOW),
];

/// A list that is too short changes nothing.
fn refused() -> Vec<Frame> {
    let [late, turned] = late_pairs();
    REFUSED.iter().flat_map(|(window, _)| [late.frame(*window, slots(4)), turned.frame(*window, Vec::new())]).collect()
}

/// Lists with a run's room too little, a slot too little, a byte too little, just enough, and more.
fn rooms() -> Vec<Frame> {
    let mut out = Vec::new();
    let nothing = pair(layout_b(), layout_b(), [0, 1]);
    let many = [(pair(layout_a(), layout_b(), [0, 0]), (0, 12)), (pair(layout_f(), layout_b(), [2, 0]), (3, 40)), (nothing, (0, 50))];
    for (pair, window) in many {
        let need = 32 * pair.runs(window) as usize;
        let fewer = [need, need - need.min(1), need - need.min(8), need - need.min(32), need / 2, 0, 31, 7];
        let more = [1, 7, 8, 17, 24, 31, 32, 33, 100].map(|more| need + more);
        let whole = slots(need as u64 / 8 + 13);
        out.extend(fewer.iter().chain(&more).map(|length| pair.frame(window, whole[..*length].to_vec())));
    }
    out
}

/// Either index or both are none, some of which would be one in 16 or 32 bits; and ELEMENT before what is wrong with the window.
fn indexes() -> Vec<Frame> {
    let sheets = || [sheet(&layout_f()), sheet(&layout_b())];
    let frame = |elements, window| Frame::shared_runs(sheets(), elements, window, slots(9));
    let elements = [[3, 0], [0, 2], [2, 1], [3, 2], [65_536, 0], [0, 65_536], [1 << 32, 1], [1, 1 << 32], [u64::MAX, 0], [0, u64::MAX]];
    let alone = elements.map(|elements| frame(elements, (2, 14)));
    // Index 2 is one of the first sheet, and not of the second.
    let with_more = [(14, 2), (1, 14), (2, END + 1)].map(|window| frame([0, 2], window));
    [&alone[..], &with_more].concat()
}

/// The first sheet is read to its end before the second, and both before the element indexes. Each refused sheet stands first, second, and
/// before each of three others: so number 11 of the first also goes before number 1 of the second.
fn refused_sheets() -> Vec<Frame> {
    let (sound, refused) = (sheet(&layout_f()), one_of_each());
    let mut out = Vec::new();
    for (place, bad) in refused.iter().enumerate() {
        let frame = |one: &[u8], two: &[u8], elements| Frame::shared_runs([one.to_vec(), two.to_vec()], elements, (14, 2), slots(3));
        out.push(frame(bad, &sound, [0, u64::MAX]));
        out.push(frame(&sound, bad, [u64::MAX, 0]));
        out.extend([1, 5, 7].map(|further| frame(bad, &refused[(place + further) % refused.len()], [0, 0])));
    }
    out
}

/// The longest list of all, which a refused call leaves as it was; a long one that is filled, and one that is a run too short.
fn long_lists() -> Vec<Frame> {
    let longest: Vec<u8> = (0..LONGEST_BLOB).map(|byte| (byte % 251) as u8).collect();
    let nothing_else = Frame::shared_runs([Vec::new(), Vec::new()], [0, 0], (0, 0), longest);
    let pair = pair(layout_a(), layout_b(), [0, 0]);
    // One run every 6 bytes.
    vec![
        nothing_else,
        pair.frame((0, 6 * 250), slots(4 * 250 + 3)),
        pair.frame((0, 6 * 41), slots(4 * 40)),
        pair.frame((0, 200_000), slots(8)),
    ]
}

/// A layout at every bound, as the first and the second, each in a window across its pattern's border.
pub fn fullest_pairs() -> [(Pair, (u64, u64)); 2] {
    let border = u64::from(u32::MAX) + 65_536;
    [
        (pair(fullest(), four_levels(), [0, 3]), (border - 20, border + 60)),
        (pair(sixteen(), fullest(), [2, 15]), (border - 50, border + 30)),
    ]
}

fn of_the_fullest() -> Vec<Frame> {
    fullest_pairs().map(|(pair, window)| pair.frame(window, slots(4 * pair.runs(window) + 2))).to_vec()
}
