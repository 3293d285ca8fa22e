//! Call 17 at the edges: windows at the displacement, the pattern's borders and 2^40, short ones and those that no buffer holds, and calls
//! with two faults at once.

use crate::bounds::one_of_each;
use crate::buffers::Window;
use crate::edges;
use crate::element::END;
use crate::figures::{layout_b, layout_f};
use crate::frame::Frame;
use crate::layout::Layout;
use crate::shapes::fullest;
use crate::transfers::{self, alone};
use crate::windows::{from, fullest_pairs, REFUSED};
use crate::write::sheet;

pub fn frames() -> Vec<Frame> {
    let layouts = edges::layouts();
    let of_each = |windows: fn(&Layout) -> Vec<Window>| layouts.iter().flat_map(|layout| in_turn(layout, &windows(layout))).collect();
    let refused = in_turn(&from(20, layout_b()), &REFUSED.map(|(window, _)| window));
    [of_each(short), of_each(long), of_each(faulty), refused, indexes(), refused_sheets(), of_the_fullest()].concat()
}

/// The elements in turn, window by window.
fn in_turn(layout: &Layout, windows: &[Window]) -> Vec<Frame> {
    let frame = |(place, window): (usize, &Window)| Frame::packed_length(sheet(layout), (place % layout.elements.len()) as u64, *window);
    windows.iter().enumerate().map(frame).collect()
}

/// Windows that a buffer holds.
fn short(layout: &Layout) -> Vec<Window> {
    transfers::windows(&alone(layout, 0))
}

/// All of the file, all but its first and last byte, its second half; and so many patterns that 16 or 32 bits of the window's length are
/// those of a short one.
fn long(layout: &Layout) -> Vec<Window> {
    let (d, p) = edges::start_and_period(layout);
    let (many, most) = (d + (p << 16), END.min(d + (p << 32) + 7));
    vec![(d, END), (d + 1, END - 1), (END / 2, END), (d, many), (d + 1, many + 5), (d, most)]
}

/// BEFORE and FAR by one, WINDOW, and two of them at once.
fn faulty(layout: &Layout) -> Vec<Window> {
    let d = u64::from(layout.displacement);
    let mut windows = vec![(d, END + 1), (END, END + 1), (END + 1, END + 1), (d + 1, d), (END + 2, END + 1)];
    if d > 0 {
        windows.extend([(d - 1, d + 9), (d - 1, d - 1), (d, d - 1), (d - 1, END + 1)]);
    }
    windows
}

/// Indexes that are none, some of which would be one in 8, 16 or 32 bits; and ELEMENT before what is wrong with the window.
fn indexes() -> Vec<Frame> {
    let frame = |i, window| Frame::packed_length(sheet(&layout_f()), i, window);
    let none = [3, 4, 16, 256, 65_536, 65_537, 1 << 32, (1 << 32) + 1, u64::MAX];
    let alone = [0, 1, 2].into_iter().chain(none).map(|i| frame(i, (2, 15)));
    alone.chain([(15, 2), (1, 15), (2, END + 1), (u64::MAX, 0)].map(|window| frame(3, window))).collect()
}

/// A sheet's refusal goes before all others.
fn refused_sheets() -> Vec<Frame> {
    one_of_each().into_iter().map(|sheet| Frame::packed_length(sheet, u64::MAX, (u64::MAX, 0))).collect()
}

/// Few, since its sheet is long: across a border of its pattern, and up to the file's end.
fn of_the_fullest() -> Vec<Frame> {
    let (layout, [_, (_, across)]) = (fullest(), fullest_pairs());
    let frame = |index, window| Frame::packed_length(sheet(&layout), index, window);
    vec![frame(15, across), frame(8, (u64::from(layout.displacement), END))]
}
