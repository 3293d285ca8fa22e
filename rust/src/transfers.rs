//! Calls 6 to 9 at the edges: windows at the displacements, the patterns' borders and 2^40, buffers with a byte too many or too few, and
//! calls with two faults at once.

use crate::bounds::one_of_each;
use crate::buffers::{Transfer, Window};
use crate::edges;
use crate::element::END;
use crate::figures::{layout_a, layout_b, layout_c, layout_f, whole_file};
use crate::frame::{has_two_sheets, Frame, GATHER, MOVE, PAIR_MOVE, SCATTER};
use crate::layout::{family, layout, run, Layout};
use crate::shapes::fullest;
use crate::windows::{from, fullest_pairs, late_pairs, pair, pairs, rows, Pair, REFUSED};
use crate::write::sheet;

pub const TRANSFERS: [u8; 4] = [GATHER, SCATTER, MOVE, PAIR_MOVE];

pub fn frames() -> Vec<Frame> {
    let accepted = [accepted(), all_pairs(), long_buffers(), of_the_fullest()];
    let refused = [refused(), lengths(), windows_at_the_end(), indexes(), refused_sheets()];
    accepted.into_iter().chain(refused).flatten().collect()
}

/// What a call carries between the pair's layouts; gather and scatter are of the first element alone.
pub fn transfer(call: u8, pair: &Pair) -> Transfer {
    match call {
        GATHER => Transfer::gather(pair.element(0)),
        SCATTER => Transfer::scatter(pair.element(0)),
        MOVE => Transfer::between(&pair.layouts),
        _ => Transfer::of_pair(&pair.layouts, [pair.element(0), pair.element(1)]),
    }
}

/// A call as it is asked: its sheets, its element indexes, and which of them it uses.
pub fn frame(call: u8, [one, two]: [Vec<u8>; 2], elements: [u64; 2], window: Window, buffers: [Vec<u8>; 2]) -> Frame {
    let [from, into] = buffers;
    match call {
        GATHER => Frame::gather(one, elements[0], window, from, into),
        SCATTER => Frame::scatter(one, elements[0], window, from, into),
        MOVE => Frame::tray_move([one, two], window, [from, into]),
        _ => Frame::pair_move([one, two], elements, window, [from, into]),
    }
}

/// The bytes of buffers of these lengths. Each tells which of the two it stood in, and its place but for multiples of 127: no pattern here
/// has such a size, as it would with 128.
pub fn marked(lengths: [u64; 2]) -> [Vec<u8>; 2] {
    let bytes = |length: u64, first: u8| (0..length).map(|place| first + (place % 127) as u8).collect();
    [bytes(lengths[0], 0), bytes(lengths[1], 128)]
}

fn of_pair(call: u8, pair: &Pair, window: Window, lengths: [u64; 2]) -> Frame {
    frame(call, pair.layouts.each_ref().map(sheet), pair.elements.map(|index| index as u64), window, marked(lengths))
}

/// With buffers of the lengths required.
fn fitting(call: u8, pair: &Pair, window: Window) -> Frame {
    of_pair(call, pair, window, transfer(call, pair).lengths(window))
}

/// A layout with itself, for the calls of one sheet.
pub fn alone(layout: &Layout, element: usize) -> Pair {
    pair(layout.clone(), layout.clone(), [element, element])
}

/// Windows that are accepted: those of `Pair::windows`, one that starts and ends inside a pattern, one of two patterns and some bytes where
/// they are short, and another up to the file's end.
pub fn windows(pair: &Pair) -> Vec<Window> {
    let (start, period) = (pair.start(), pair.element(0).period());
    let inside = start + period / 2;
    let mut windows = pair.windows().to_vec();
    windows.extend([(inside, inside + 9), (start + 1, start + 4 + (2 * period).min(126)), (END - 37, END)]);
    // The two borders of a layout with itself.
    windows.dedup();
    windows
}

fn accepted() -> Vec<Frame> {
    let mut out = Vec::new();
    for call in [GATHER, SCATTER] {
        for layout in edges::layouts() {
            // The elements in turn, window by window.
            let in_turn = |place: usize| alone(&layout, place % layout.elements.len());
            out.extend(windows(&in_turn(0)).iter().enumerate().map(|(place, window)| fitting(call, &in_turn(place), *window)));
        }
    }
    for call in [MOVE, PAIR_MOVE] {
        out.extend(pairs().iter().flat_map(|pair| windows(pair).into_iter().map(move |window| fitting(call, pair, window))));
    }
    out
}

/// Every pair of A and B, some of which share nothing in the windows, and every element alone.
fn all_pairs() -> Vec<Frame> {
    let mut out = Vec::new();
    for window in [(0, 12), (1, 5), (7, 31)] {
        for i in 0..3 {
            let gathered = alone(&layout_a(), i);
            out.extend([GATHER, SCATTER].map(|call| fitting(call, &gathered, window)));
            out.extend([0, 1].map(|j| fitting(PAIR_MOVE, &pair(layout_a(), layout_b(), [i, j]), window)));
        }
        out.extend([pair(layout_b(), layout_a(), [0, 0]), alone(&layout_a(), 0)].map(|pair| fitting(MOVE, &pair, window)));
    }
    out
}

/// Windows that are refused, where the buffers are as long as a short window, and where they would be refused too. The calls of one sheet
/// look at the first displacement only.
fn refused() -> Vec<Frame> {
    let [late, turned] = late_pairs();
    let only = alone(&from(20, layout_b()), 1);
    let lengths = |(a, b): Window| [b.saturating_sub(a).min(24); 2];
    let mut out = Vec::new();
    for (window, _) in REFUSED {
        out.extend(TRANSFERS.map(|call| of_pair(call, &turned, window, [5, 3])));
        out.extend([MOVE, PAIR_MOVE].map(|call| of_pair(call, &late, window, lengths(window))));
        out.extend([GATHER, SCATTER].map(|call| of_pair(call, &only, window, lengths(window))));
    }
    out
}

/// Either buffer or both a byte or more too long or too short, empty, or as long as the other is to be. A pair that shares nothing wants
/// whole trays too, and an empty window empty buffers.
fn lengths() -> Vec<Frame> {
    let some = [
        (pair(layout_f(), layout_b(), [1, 1]), (3, 22)),
        (pair(layout_b(), layout_b(), [0, 1]), (5, 14)),
        (pair(layout_f(), from(1, layout_a()), [0, 1]), (2, 2)),
        // Nothing of element 0 is in the window: the packed buffer is to be empty.
        (pair(layout_a(), layout_f(), [0, 2]), (8, 12)),
    ];
    let mut out = Vec::new();
    for (pair, window) in &some {
        for call in TRANSFERS {
            let [from, into] = transfer(call, pair).lengths(*window);
            let less = |length: u64| length.saturating_sub(1);
            let mut wrong = vec![
                [from + 1, into],
                [from, into + 1],
                [less(from), into],
                [from, less(into)],
                [from + 1, less(into)],
                [0, into],
                [from, 0],
                [into, from],
            ];
            wrong.retain(|lengths| *lengths != [from, into]);
            wrong.sort_unstable();
            wrong.dedup();
            out.extend(wrong.into_iter().map(|lengths| of_pair(call, pair, *window, lengths)));
        }
    }
    out
}

/// Windows that no buffer holds: up to 2^40, and so long that 16 or 32 bits of their lengths are those of the buffers. And short ones at
/// 2^40 with buffers that would do for a window one byte shorter.
fn windows_at_the_end() -> Vec<Frame> {
    let pair = pair(layout_f(), layout_b(), [1, 0]);
    let start = pair.start();
    let mut out = Vec::new();
    for call in TRANSFERS {
        let transfer = transfer(call, &pair);
        for bits in [16, 32] {
            for more in [0, 12] {
                let window = (start, start + (6 << bits) + more);
                out.push(of_pair(call, &pair, window, transfer.lengths(window).map(|length| length % (1 << bits))));
            }
        }
        for lengths in [[0, 0], [24, 24], [24, 8]] {
            out.push(of_pair(call, &pair, (start, END), lengths));
        }
        out.push(of_pair(call, &pair, (END - 13, END), transfer.lengths((END - 12, END))));
        out.extend([13, 1].map(|back| of_pair(call, &pair, (END - back, END + 1), transfer.lengths((END - back, END)))));
    }
    out
}

/// Either index or both are none, some of which would be one in 16 or 32 bits; and ELEMENT before what is wrong with the window or with the
/// buffers. A move has no index.
fn indexes() -> Vec<Frame> {
    let sheets = || [sheet(&layout_f()), sheet(&layout_b())];
    let none = [[3, 0], [0, 2], [3, 2], [65_536, 0], [0, 65_536], [1 << 32, 1], [1, 1 << 32], [u64::MAX, 0], [0, u64::MAX]];
    let mut out = Vec::new();
    for call in [GATHER, SCATTER, PAIR_MOVE] {
        let of_call = |elements: &[u64; 2]| has_two_sheets(call) || elements[0] > 2;
        // Of the lengths that element 0 wants.
        let lengths = transfer(call, &pair(layout_f(), layout_b(), [0, 0])).lengths((2, 14));
        out.extend(none.into_iter().filter(of_call).map(|elements| frame(call, sheets(), elements, (2, 14), marked(lengths))));
        let windows = [(2, 14), (14, 2), (1, 14), (2, END + 1)];
        out.extend(windows.map(|window| frame(call, sheets(), [3, 1], window, marked([1, 2]))));
    }
    out
}

/// The first sheet is read to its end before the second, and both before all else. Each refused sheet stands first, second, and before
/// another.
fn refused_sheets() -> Vec<Frame> {
    let (sound, refused) = (sheet(&layout_f()), one_of_each());
    let mut out = Vec::new();
    for (place, bad) in refused.iter().enumerate() {
        let frame = |call, one: &[u8], two: &[u8]| frame(call, [one.to_vec(), two.to_vec()], [0, u64::MAX], (14, 2), marked([2, 3]));
        out.extend([GATHER, SCATTER].map(|call| frame(call, bad, &[])));
        let another = &refused[(place + 5) % refused.len()];
        for call in [MOVE, PAIR_MOVE] {
            out.extend([frame(call, bad, &sound), frame(call, &sound, bad), frame(call, bad, another)]);
        }
    }
    out
}

/// Some windows of thousands of bytes, few since the frames are kept: a frame of the panel, patterns of more than 2,048 bytes and windows
/// across their borders, and file buffers of many patterns of which little is gathered or scattered.
fn long_buffers() -> Vec<Frame> {
    let panel = pair(layout_c(), rows(), [1, 2]);
    let large = layout((0..3).map(|e| vec![family(1_000 * e, 1_000 * e + 999, 3_000, 2)]).collect());
    let small = layout((0..16).map(|e| vec![family(5 * e, 5 * e + 4, 80, 40)]).collect());
    let large = pair(from(5, large), from(3, small), [1, 4]);
    let seldom = alone(&layout(vec![vec![run(100, 100)], vec![run(0, 99), run(101, 232)]]), 0);
    let doubled = pair(whole_file(9), from(4, layout(vec![vec![family(0, 0, 2, 2_000)], vec![family(1, 1, 2, 2_000)]])), [0, 1]);
    vec![
        fitting(GATHER, &panel, (0, 1_920)),
        fitting(SCATTER, &panel, (1_000, 2_920)),
        fitting(MOVE, &panel, (1_920, 3_840)),
        fitting(PAIR_MOVE, &panel, (0, 1_920)),
        fitting(GATHER, &large, (2_500, 7_300)),
        fitting(SCATTER, &large, (4_000, 6_400)),
        fitting(MOVE, &large, (4_700, 8_900)),
        fitting(PAIR_MOVE, &large, (4_900, 7_100)),
        fitting(GATHER, &seldom, (50, 8_000)),
        fitting(SCATTER, &seldom, (50, 2_500)),
        fitting(MOVE, &doubled, (END - 2_300, END)),
    ]
}

/// A layout at every bound, as the only one, the first and the second.
fn of_the_fullest() -> Vec<Frame> {
    let pairs = fullest_pairs();
    let (_, window) = pairs[1];
    let mut out = vec![fitting(GATHER, &alone(&fullest(), 0), window), fitting(SCATTER, &alone(&fullest(), 15), window)];
    for (pair, window) in &pairs {
        out.extend([MOVE, PAIR_MOVE].map(|call| fitting(call, pair, *window)));
    }
    out
}
