//! Frames by chance: accepted layouts of all shapes, with elements, offsets, windows and lists that are mostly sound and often near an
//! edge, and now and then a sheet that is refused.

use crate::buffers::{is_sound, Window};
use crate::damage::damaged;
use crate::edges::wrapping;
use crate::element::{Element, END};
use crate::frame::{has_two_sheets, Frame, CHECK, EXACT, INTERVAL_SPAN, INVERSE, LISTING, PACKED_LENGTH, SHARED_RUNS};
use crate::layout::Layout;
use crate::listing;
use crate::random::Random;
use crate::shapes;
use crate::transfers::{self, TRANSFERS};
use crate::windows::Pair;
use crate::write::sheet;

pub fn frame(random: &mut Random, call: u8) -> Frame {
    match call {
        CHECK => Frame::check(any_sheet(random)),
        SHARED_RUNS => shared_runs(random),
        LISTING => listing(random),
        PACKED_LENGTH => packed_length(random),
        _ if TRANSFERS.contains(&call) => transfer(random, call),
        _ => of_one_element(random, call),
    }
}

/// A sheet of any length, most often refused.
fn any_sheet(random: &mut Random) -> Vec<u8> {
    let layout = shapes::any(random);
    damaged(random, layout)
}

/// Mostly with room for the text, and then often with no byte more.
fn listing(random: &mut Random) -> Frame {
    // The text of a layout says more than that of a refusal.
    let sheet = if random.once_in(4) { sheet(&shapes::any(random)) } else { any_sheet(random) };
    let text = listing::text(&sheet).len() as u64;
    let length = match random.below(12) {
        0 => text - 1,
        1 => random.long_below(text),
        2..=5 => text,
        _ => text + 1 + random.long_below(40),
    };
    Frame::listing(sheet, random.bytes(length))
}

/// Sheets of so many bytes at most show nearly all that these calls have to show, and the frames are kept: two elements of four levels have
/// room. Now and then there is room for 16 elements, and once in a great while for any sheet.
const BRIEF: usize = 200;
const ROOMY: usize = 500;

/// An accepted layout of any shape, most often with a brief sheet.
pub fn accepted(random: &mut Random) -> Layout {
    let most = if random.once_in(6) { ROOMY } else { BRIEF };
    loop {
        let layout = shapes::any(random);
        if sheet(&layout).len() <= most || random.once_in(300) {
            return layout;
        }
    }
}

/// A sheet that most often is refused.
fn doubtful_sheet(random: &mut Random) -> Vec<u8> {
    loop {
        let layout = accepted(random);
        let sheet = damaged(random, layout);
        if sheet.len() <= ROOMY {
            return sheet;
        }
    }
}

/// The sheet of a call that has one, now and then a doubtful one.
fn only_sheet(random: &mut Random, layout: &Layout) -> Vec<u8> {
    if random.once_in(8) {
        doubtful_sheet(random)
    } else {
        sheet(layout)
    }
}

/// Calls 2 to 5.
fn of_one_element(random: &mut Random, call: u8) -> Frame {
    let layout = accepted(random);
    let index = random.index(layout.elements.len());
    let element = Element::of(&layout, index);
    let x = file_offset(random, &element);
    let i = match call {
        // Of many elements only one has x.
        EXACT if random.once_in(2) => Element::owner(&layout, x).unwrap_or(index) as u64,
        _ => element_index(random, index),
    };
    let sheet = only_sheet(random, &layout);
    match call {
        INVERSE => Frame::mapping(INVERSE, sheet, i, subfile_offset(random, &element)),
        INTERVAL_SPAN => Frame::interval_span(sheet, i, interval(random, &element, x)),
        _ => Frame::mapping(call, sheet, i, x),
    }
}

/// The index itself, but for once in twelve times: then one that is none, even where it has the same low bits.
fn element_index(random: &mut Random, index: usize) -> u64 {
    let index = index as u64;
    if random.once_in(12) {
        random.pick(&[16, 17, index + 16, index + 256, index + 65_536, index + (1 << 32), index + (1 << 63), u64::MAX])
    } else {
        index
    }
}

/// A file offset that is accepted.
pub fn accepted_offset(random: &mut Random, element: &Element) -> u64 {
    loop {
        let x = file_offset(random, element);
        if (element.displacement()..END).contains(&x) {
            return x;
        }
    }
}

/// Mostly an offset that is accepted: near the displacement, near a pattern's border, anywhere, or among the last.
fn file_offset(random: &mut Random, element: &Element) -> u64 {
    let (d, p) = (element.displacement(), element.period());
    let border = d + p * (1 + random.long_below((END - d) / p - 1));
    match random.below(20) {
        // 2^64-1 where the displacement is 0.
        0 => d.wrapping_sub(1),
        1 => random.long_below(d + 1),
        2 => END + random.pick(&[0, 0, 1, 2, d, p, END]),
        3 => u64::MAX - random.long_below(p),
        4 => END - 1 - random.long_below(p),
        5 => END - 1,
        6 => d,
        7..=9 => border - 1 + random.long_below(3),
        10..=13 => d + random.long_below(END - d),
        _ => d + random.long_below(3 * p),
    }
}

/// Mostly a byte below 2^40: of the first patterns, anywhere, or among the last; and those that are too far.
pub fn subfile_offset(random: &mut Random, element: &Element) -> u64 {
    let (size, past) = (element.size(), element.rank(END));
    match random.below(16) {
        0 => past,
        1 => past + random.long_below(2 * size),
        2 => wrapping(element).saturating_add(random.long_below(size)),
        3 => random.word(),
        4 => END - random.long_below(2),
        5 => past - 1,
        6 => past - 1 - random.long_below(size),
        7..=8 => size * (1 + random.long_below(past / size)) - random.long_below(2),
        9..=12 => random.long_below(past),
        _ => random.long_below(3 * size),
    }
}

/// From x on, mostly to a later offset.
fn interval(random: &mut Random, element: &Element, x: u64) -> (u64, u64) {
    let other = file_offset(random, element);
    match random.below(10) {
        0 => (x, other),
        1 => (x, x),
        2 => (x, x.saturating_sub(1)),
        3 => (x, END - random.long_below(2)),
        4..=6 => (x.min(other), x.max(other)),
        _ => (x, x.saturating_add(random.long_below(3 * element.period()))),
    }
}

/// Of windows of all lengths, since nothing is carried: some patterns, up to any offset, and what no buffer holds.
fn packed_length(random: &mut Random) -> Frame {
    let layout = accepted(random);
    let index = random.index(layout.elements.len());
    let element = Element::of(&layout, index);
    let start = element.displacement();
    let window = match random.below(4) {
        0 => long_window(random, start, &element),
        1 => {
            let x = file_offset(random, &element);
            interval(random, &element, x)
        }
        _ => {
            let length = random.long_below(3 * element.period());
            window(random, start, &element, length)
        }
    };
    let i = element_index(random, index);
    Frame::packed_length(only_sheet(random, &layout), i, window)
}

/// An element of each of two accepted layouts.
fn some_pair(random: &mut Random) -> Pair {
    let one = accepted(random);
    // Once in a while the same elements, further on.
    let two = if random.once_in(6) { Layout { displacement: random.below(100), ..one.clone() } } else { accepted(random) };
    let elements = [random.index(one.elements.len()), random.index(two.elements.len())];
    Pair { layouts: [one, two], elements }
}

/// The sheets of a call that has two, now and then doubtful ones.
fn both_sheets(random: &mut Random, pair: &Pair) -> [Vec<u8>; 2] {
    let [one, two] = &pair.layouts;
    let one = if random.once_in(16) { doubtful_sheet(random) } else { sheet(one) };
    let two = if random.once_in(12) { doubtful_sheet(random) } else { sheet(two) };
    [one, two]
}

fn shared_runs(random: &mut Random) -> Frame {
    let pair = some_pair(random);
    let element = pair.element(random.index(2));
    let length = match random.below(8) {
        0 => random.long_below(2),
        1 => random.long_below(4 * element.period()).min(3_000),
        _ => random.long_below(80),
    };
    let window = window(random, pair.start(), &element, length);
    let list = list(random, &pair, window);
    let elements = pair.elements.map(|index| element_index(random, index));
    Frame::shared_runs(both_sheets(random, &pair), elements, window, list)
}

/// Mostly a window of this length that is accepted, from the larger displacement on, and often at a border of the element's pattern. A
/// long one is only made where its end is refused, whatever the sheets turn out to be: nobody walks it.
pub fn window(random: &mut Random, start: u64, element: &Element, length: u64) -> Window {
    let (d, p) = (element.displacement(), element.period());
    // The second border from the start on, or a later one.
    let border = d + p * ((start - d) / p + 2 + random.long_below(3));
    let a = match random.below(8) {
        0 => start,
        1 => END - length,
        2 | 3 => border - random.long_below(length + 1).min(p),
        4 => start + random.long_below(END - length - start),
        _ => start + random.long_below(2 * p),
    };
    match random.below(20) {
        0 => (a + 1 + length, a),
        1 => (start - start.min(1), start + length),
        2 => {
            let early = start - random.long_below(start.min(200) + 1);
            (early, early + length)
        }
        3 => (a, END + 1 + random.long_below(3) * length),
        4 => (END - random.long_below(2), END + random.long_below(3)),
        _ => (a, a + length),
    }
}

/// Mostly with room for the runs of the window: just enough, or one to three slots more, or some bytes; else too small. The longest lists
/// are rare.
fn list(random: &mut Random, pair: &Pair, window: (u64, u64)) -> Vec<u8> {
    let need = 4 * pair.runs(window);
    let slots = match random.below(12) {
        0 => 0,
        1 => need.saturating_sub(1),
        2 => need.saturating_sub(4),
        3 => random.long_below(need + 1),
        4 => need + 4 + random.long_below(8),
        _ => need + random.long_below(4),
    };
    let most = if random.once_in(60) { 1_024 } else { 64 };
    let length = 8 * slots.min(most) + if random.once_in(4) { random.long_below(8) } else { 0 };
    random.bytes(length)
}

/// Calls 6 to 9.
fn transfer(random: &mut Random, call: u8) -> Frame {
    let mut pair = some_pair(random);
    let element = pair.element(if has_two_sheets(call) { random.index(2) } else { 0 });
    let start = if has_two_sheets(call) { pair.start() } else { element.displacement() };
    let window = match random.below(20) {
        0 => long_window(random, start, &element),
        _ => {
            let length = brief_length(random, &element);
            window(random, start, &element, length)
        }
    };
    if random.below(4) > 0 {
        meet(random, &mut pair, window);
    }
    let required = if is_sound(window, start) { transfers::transfer(call, &pair).lengths(window) } else { [7, 5] };
    let buffers = lengths(random, required).map(|length| random.bytes(length));
    let elements = pair.elements.map(|index| element_index(random, index));
    let sheets = if has_two_sheets(call) { both_sheets(random, &pair) } else { [only_sheet(random, &pair.layouts[0]), Vec::new()] };
    transfers::frame(call, sheets, elements, window, buffers)
}

/// What is carried stands in the frame and in the line: mostly some ten bytes, seldom hundreds, and once in a great while thousands.
pub fn brief_length(random: &mut Random, element: &Element) -> u64 {
    let pattern = element.period();
    match random.below(80) {
        0 => 2_000 + random.long_below(2_000),
        1..=8 => random.long_below(4 * pattern).min(400),
        9..=14 => random.long_below(2),
        _ => random.long_below(80),
    }
}

/// Of many elements only few have bytes in a short window: take those of one of its offsets.
fn meet(random: &mut Random, pair: &mut Pair, (a, b): Window) {
    let x = a.saturating_add(random.long_below(b.saturating_sub(a).max(1)));
    for (layout, element) in pair.layouts.iter().zip(&mut pair.elements) {
        *element = Element::owner(layout, x).unwrap_or(*element);
    }
}

/// A window that no buffer holds: to the file's end, or so long that 16 or 32 bits of its length are those of a short one.
fn long_window(random: &mut Random, start: u64, element: &Element) -> Window {
    let a = start + random.long_below(2 * element.period());
    let more = random.long_below(60);
    match random.below(4) {
        0 => (start, END),
        1 => (a, END - more),
        2 => (a, a + (element.period() << 16) + more),
        _ => (a, END.min(a + (element.period() << 32) + more)),
    }
}

/// Mostly those required; else one or both a little wrong.
fn lengths(random: &mut Random, [from, into]: [u64; 2]) -> [u64; 2] {
    let lengths = match random.below(36) {
        0 => [from + 1, into],
        1 => [from, into + 1],
        2 => [from.saturating_sub(1), into],
        3 => [from, into.saturating_sub(1)],
        4 => [into, from],
        5 => [random.long_below(from + 1), into],
        6 => [from, random.long_below(into + 1)],
        _ => [from, into],
    };
    lengths.map(|length| if length > 4_001 { cut_short(random, length) } else { length })
}

/// The low bits of a length that no buffer of these frames has, where they make a short one.
fn cut_short(random: &mut Random, length: u64) -> u64 {
    let low = [length % (1 << 32), length % (1 << 16)];
    low.into_iter().find(|length| *length <= 200).unwrap_or(random.long_below(40))
}
