//! What the kept frames reach of the layouts, windows and offsets that 01 bounds.

use comparison::calls::answer;
use comparison::element::{Element, END};
use comparison::frame::{has_two_sheets, Frame, INVERSE, KNOWN, PACKED_LENGTH, SHARED_RUNS};
use comparison::generate::{frames, KEPT};
use comparison::layout::{count, Family, Layout};
use comparison::listing::text;
use comparison::refusal::{BEFORE, FAR};
use comparison::sheet::read;
use comparison::transfers::TRANSFERS;
use std::sync::OnceLock;

/// A kept frame with sheets that are accepted, the pattern's size of the first, and the number of its answer.
struct Kept {
    frame: Frame,
    layouts: Vec<Layout>,
    period: u64,
    number: u8,
}

fn kept() -> &'static [Kept] {
    static KEPT_FRAMES: OnceLock<Vec<Kept>> = OnceLock::new();
    let of = |frame: Frame| {
        let sheets = [Some(&frame.sheet1), has_two_sheets(frame.call).then_some(&frame.sheet2)];
        let layouts: Vec<Layout> = sheets.into_iter().flatten().map(|sheet| read(sheet).ok()).collect::<Option<_>>()?;
        Some(Kept { period: Element::of(&layouts[0], 0).period(), number: answer(&frame).number, layouts, frame })
    };
    KEPT_FRAMES.get_or_init(|| frames(KEPT.0, KEPT.1).into_iter().filter_map(of).collect())
}

/// How many frames of a call have this number and meet a condition.
fn met(call: u8, number: u8, meets: impl Fn(&Kept) -> bool) -> usize {
    kept().iter().filter(|kept| kept.frame.call == call && kept.number == number && meets(kept)).count()
}

fn levels(siblings: &[Family]) -> usize {
    siblings.iter().map(|family| 1 + levels(&family.children)).max().unwrap_or(0)
}

#[test]
fn every_call_is_accepted_for_layouts_at_every_bound() {
    for call in KNOWN {
        let with = |meets: fn(&Layout) -> bool| met(call, 0, |kept| kept.layouts.iter().any(meets));
        let deep = with(|layout| layout.elements.iter().any(|families| levels(families) == 4));
        let many = with(|layout| layout.elements.len() == 16);
        let crowded = with(|layout| layout.elements.iter().map(|families| count(families)).sum::<usize>() == 256);
        let large = with(|layout| Element::of(layout, 0).period() == 65_536);
        let late = with(|layout| layout.displacement == u32::MAX);
        assert!(deep >= 10 && many >= 5, "call {call}: {deep} of four levels, {many} of 16 elements");
        assert!(crowded >= 1 && large >= 10, "call {call}: {crowded} of 256 families, {large} of 65,536 bytes");
        assert!(late >= 1, "call {call}: no displacement is the largest");
    }
}

/// The larger displacement.
fn start(kept: &Kept) -> u64 {
    kept.layouts.iter().map(|layout| u64::from(layout.displacement)).fold(0, u64::max)
}

/// Whether a pattern of the first sheet that has more than one byte ends right before x.
fn is_border(kept: &Kept, x: u64) -> bool {
    kept.period > 1 && (x - u64::from(kept.layouts[0].displacement)).is_multiple_of(kept.period)
}

#[test]
fn the_windows_of_every_call_lie_at_every_edge() {
    for call in TRANSFERS.into_iter().chain([SHARED_RUNS, PACKED_LENGTH]) {
        let window = |number: u8, meets: fn(&Kept, u64, u64) -> bool| met(call, number, |kept| meets(kept, kept.frame.a, kept.frame.b));
        let edges = [
            ("from the displacement on", window(0, |kept, a, b| a == start(kept) && a < b)),
            ("empty at the displacement", window(0, |kept, a, b| a == start(kept) && a == b)),
            ("from a border on", window(0, |kept, a, b| a > start(kept) && a < b && is_border(kept, a))),
            ("up to a border", window(0, |kept, a, b| a < b && is_border(kept, b))),
            // A border is no further away than a pattern is long.
            ("across a border", window(0, |kept, a, b| (a + 1..b.min(a + 1 + kept.period)).any(|x| is_border(kept, x)))),
            ("up to 2^40", window(0, |_, a, b| a < b && b == END)),
            ("the last byte alone", window(0, |_, a, b| a == END - 1 && b == END)),
            ("empty at 2^40", window(0, |_, a, b| a == END && b == END)),
            ("a byte before the displacement", window(BEFORE, |kept, a, _| a + 1 == start(kept))),
            ("up to 2^40+1", window(FAR, |_, a, b| a < END && b == END + 1)),
            ("from 2^40 to 2^40+1", window(FAR, |_, a, b| a == END && b == END + 1)),
            ("empty at 2^40+1", window(FAR, |_, a, b| a == END + 1 && b == END + 1)),
        ];
        for (edge, met) in edges {
            assert!(met >= 2, "call {call}: {met} windows {edge}");
        }
    }
}

/// Of more bytes than a frame has, of more than 32 bits count, and of all of the file.
#[test]
fn packed_lengths_are_asked_of_windows_that_no_buffer_holds() {
    let longer = |than: u64| met(PACKED_LENGTH, 0, |kept| kept.frame.b - kept.frame.a > than);
    let whole = met(PACKED_LENGTH, 0, |kept| kept.frame.a == start(kept) && kept.frame.b == END);
    assert!(longer(1 << 32) >= 40 && longer(1 << 16) >= 80 && whole >= 15, "{} {} {whole}", longer(1 << 32), longer(1 << 16));
}

#[test]
fn bytes_that_are_far_too_far_are_asked_for() {
    for y in [END, 1 << 63, u64::MAX] {
        let far = met(INVERSE, FAR, |kept| kept.frame.a == y);
        assert!(far >= 5, "byte {y} is asked for {far} times");
    }
}

#[test]
fn no_text_is_longer_than_638_bytes_and_one_is_as_long() {
    assert_eq!(kept().iter().map(|kept| text(&kept.frame.sheet1).len()).max(), Some(638));
}
