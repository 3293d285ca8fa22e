//! Calls 2 to 5 at the edges of what they accept, and with two faults at once: which of them is named is a rule too.

use crate::bounds::one_of_each;
use crate::element::{Element, END};
use crate::figures::{inner_pairs, layout_b, layout_c, layout_f, whole_file};
use crate::frame::{Frame, EXACT, INVERSE, NEXT};
use crate::layout::{family, layout, run, Layout};
use crate::shapes::{four_levels, fullest, sixteen};
use crate::write::sheet;

pub fn frames() -> Vec<Frame> {
    let layouts = layouts();
    let of_each = |make: fn(&Layout) -> Vec<Frame>| layouts.iter().flat_map(make).collect::<Vec<Frame>>();
    [of_each(mappings), of_each(inverses), of_each(intervals), indexes(), refused_sheets(), of_the_fullest()].concat()
}

/// Layouts of short sheets, their displacements from 0 to the largest, their patterns from one byte to 65,536. But for 0 no displacement
/// is a multiple of its pattern's size: who forgets to subtract it is found out.
pub fn layouts() -> Vec<Layout> {
    let from = |displacement, layout: Layout| Layout { displacement, ..layout };
    vec![
        layout_f(),
        layout_c(),
        whole_file(1),
        from(u32::MAX, layout_b()),
        from(5, inner_pairs()),
        from(7, layout(vec![vec![family(0, 0, 2, 32_768)], vec![family(1, 1, 2, 32_768)]])),
        from(65_534, layout(vec![vec![run(0, 32_766)], vec![run(32_767, 65_534)]])),
        // Element 0 stands last in the pattern: its byte 0 is not at the displacement.
        from(3, layout(vec![vec![run(5, 6)], vec![run(0, 4)]])),
        from(1_000, four_levels()),
        from(77, sixteen()),
    ]
}

/// An element index for each frame of a layout: all of them in turn.
fn in_turn(layout: &Layout, place: usize) -> usize {
    place % layout.elements.len()
}

/// The displacement and the pattern's size.
pub fn start_and_period(layout: &Layout) -> (u64, u64) {
    (u64::from(layout.displacement), Element::of(layout, 0).period())
}

/// Exact and next mapping at and around the displacement, the pattern's borders, 2^32, 2^40 and 2^64. Of many elements only one has an
/// offset: exact mapping asks that one too.
fn mappings(layout: &Layout) -> Vec<Frame> {
    let (d, p) = start_and_period(layout);
    let mut offsets = vec![d, d + 1, d + p - 1, d + p, d + p + 1, d + 7 * p, 1 << 32, END - 1, END, END + 1, u64::MAX];
    if d > 0 {
        offsets.extend([0, d - 1]);
    }
    let frame = |call, index, x| Frame::mapping(call, sheet(layout), index as u64, x);
    let mut out = Vec::new();
    for (place, x) in offsets.into_iter().enumerate() {
        let index = in_turn(layout, place);
        out.extend([EXACT, NEXT].map(|call| frame(call, index, x)));
        let owner = Element::owner(layout, x).filter(|owner| *owner != index && x < END);
        out.extend(owner.map(|owner| frame(EXACT, owner, x)));
    }
    out
}

/// The inverse at the edges of the elements in turn.
fn inverses(layout: &Layout) -> Vec<Frame> {
    let elements = 0..layout.elements.len();
    let bytes: Vec<Vec<u64>> = elements.map(|index| edge_bytes(&Element::of(layout, index))).collect();
    let inverse = |place: usize| {
        let index = in_turn(layout, place);
        Frame::mapping(INVERSE, sheet(layout), index as u64, bytes[index][place])
    };
    (0..bytes[0].len()).map(inverse).collect()
}

/// Bytes at the borders of the pattern, of the file, and of 64 bits.
fn edge_bytes(element: &Element) -> Vec<u64> {
    let (size, past) = (element.size(), element.rank(END));
    vec![0, 1, size - 1, size, size + 1, past - 1, past, past + 1, END - 1, END, 1 << 63, wrapping(element), u64::MAX]
}

/// A byte so far away that its file offset would be a small number again, if 64 bits were all that is kept of it: the first one behind so
/// many whole periods that they make 2^64 bytes or more.
pub fn wrapping(element: &Element) -> u64 {
    let periods = (1_u128 << 64).div_ceil(u128::from(element.period()));
    u64::try_from(periods * u128::from(element.size())).unwrap_or(u64::MAX - element.displacement())
}

/// Intervals of one offset, from border to border, up to the last offset, and with one or two faults.
fn intervals(layout: &Layout) -> Vec<Frame> {
    let (d, p) = start_and_period(layout);
    let mut ends = vec![
        (d, d),
        (d, d + p - 1),
        (d + 1, d + p),
        (d + p - 1, d + 2 * p + 1),
        (d, END - 1),
        (END - 1, END - 1),
        (d, END),
        (END, END),
        (END, END - 1),
        (d + 1, d),
        (d, u64::MAX),
        (u64::MAX, u64::MAX),
        (u64::MAX, 0),
    ];
    if d > 0 {
        ends.extend([(d - 1, d), (d - 1, d - 1), (d, d - 1), (d - 1, END), (0, u64::MAX)]);
    }
    let span = |place: usize| Frame::interval_span(sheet(layout), in_turn(layout, place) as u64, ends[place]);
    (0..ends.len()).map(span).collect()
}

/// The four calls on a sheet, at one element, file offset and subfile offset.
fn each_call(sheet: &[u8], i: u64, x: u64, y: u64) -> Vec<Frame> {
    let mapping = |call, a| Frame::mapping(call, sheet.to_vec(), i, a);
    vec![mapping(EXACT, x), mapping(NEXT, x), mapping(INVERSE, y), Frame::interval_span(sheet.to_vec(), i, (x, x))]
}

/// Indexes that are none, some of which would be one in 8, 16 or 32 bits; and ELEMENT before what is wrong with the offset.
fn indexes() -> Vec<Frame> {
    let f = sheet(&layout_f());
    let none = [3, 4, 16, 256, 65_536, 65_537, 1 << 32, (1 << 32) + 1, u64::MAX];
    let alone = [0, 1, 2].into_iter().chain(none).flat_map(|i| each_call(&f, i, 10, 2));
    let with_more = [0, 1, END, u64::MAX].into_iter().flat_map(|x| each_call(&f, 3, x, u64::MAX));
    let unordered = Frame::interval_span(f.clone(), 3, (11, 10));
    alone.chain(with_more).chain([unordered]).collect()
}

/// A sheet's refusal goes before all others.
fn refused_sheets() -> Vec<Frame> {
    one_of_each().iter().flat_map(|sheet| each_call(sheet, u64::MAX, u64::MAX, u64::MAX)).collect()
}

/// Few, since its sheet is long: in an early pattern, and at the file's end.
fn of_the_fullest() -> Vec<Frame> {
    let (layout, sheet) = (fullest(), sheet(&fullest()));
    let last = Element::of(&layout, 8).rank(END) - 1;
    let early = u64::from(layout.displacement) + 65_536 + 64_125;
    [each_call(&sheet, 15, early, 1_416 + 5), each_call(&sheet, 8, END - 1, last)].concat()
}
