//! Frames that have something in what their call does not use, where all others have 0 or nothing. The answer is the same.

use crate::figures::{hole, layout_b, layout_f, slots};
use crate::frame::{uses, Frame, Part, EXACT, INVERSE, NEXT};
use crate::write::sheet;

pub fn frames() -> Vec<Frame> {
    let others = others();
    // Each call accepted, and with a first sheet that is refused.
    let asked = asked().into_iter().flat_map(|frame| [Frame { sheet1: Vec::new(), ..frame.clone() }, frame]);
    asked.flat_map(|frame| others.each_ref().map(|other| with_unused(&frame, other))).collect()
}

/// The frame with what its call does not use taken from another; from `Frame::default()` that is 0 or empty.
pub fn with_unused(frame: &Frame, other: &Frame) -> Frame {
    let of = |part| if uses(frame.call, part) { frame } else { other };
    Frame {
        call: frame.call,
        i: of(Part::I).i,
        j: of(Part::J).j,
        a: of(Part::A).a,
        b: of(Part::B).b,
        sheet1: frame.sheet1.clone(),
        sheet2: of(Part::Sheet2).sheet2.clone(),
        from: of(Part::From).from.clone(),
        into: of(Part::Into).into.clone(),
    }
}

/// What is not used: indexes, offsets and a sheet that would be refused, and those that would not.
fn others() -> [Frame; 2] {
    let (i, j, a, b) = (u64::MAX, u64::MAX, u64::MAX, 0);
    let refused = Frame { i, j, a, b, sheet2: sheet(&hole()), from: vec![1, 2, 3], into: vec![4, 5], ..Frame::default() };
    let accepted = Frame { i: 1, j: 1, a: 2, b: 14, sheet2: sheet(&layout_b()), from: vec![6; 12], into: vec![7; 12], ..Frame::default() };
    [refused, accepted]
}

/// An accepted call of each sort but the pair move, which uses everything.
fn asked() -> Vec<Frame> {
    let [f, b] = [layout_f(), layout_b()].map(|layout| sheet(&layout));
    let (window, both) = ((2, 14), [f.clone(), b]);
    let (file, packed) = ((2..14).collect::<Vec<u8>>(), vec![0; 4]);
    vec![
        Frame::check(f.clone()),
        Frame::mapping(EXACT, f.clone(), 1, 10),
        Frame::mapping(NEXT, f.clone(), 1, 6),
        Frame::mapping(INVERSE, f.clone(), 1, 2),
        Frame::interval_span(f.clone(), 1, (4, 11)),
        Frame::gather(f.clone(), 1, window, file.clone(), packed.clone()),
        Frame::scatter(f.clone(), 1, window, packed, file.clone()),
        Frame::tray_move(both.clone(), window, [file, vec![0; 12]]),
        Frame::shared_runs(both, [1, 1], window, slots(9)),
        Frame::listing(f.clone(), vec![0; 130]),
        Frame::packed_length(f, 1, window),
    ]
}
