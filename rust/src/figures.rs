//! The figures of 01, each with the answer that 01 prints: these are not computed.

use crate::element::END;
use crate::frame::{Answer, Frame, EXACT, INVERSE, NEXT};
use crate::layout::{family, layout, run, Layout};
use crate::refusal::{BEFORE, COVER, FAR, FOREIGN, HOLE, NO_FLAG, ORDER, OVERLAP, ROOM, SEGMENT, SHORT};
use crate::write::sheet;

pub struct Figure {
    pub name: &'static str,
    pub frame: Frame,
    pub answer: Answer,
}

pub fn layout_f() -> Layout {
    Layout { displacement: 2, ..layout_a() }
}

pub fn layout_a() -> Layout {
    layout(vec![vec![run(0, 1)], vec![run(2, 3)], vec![run(4, 5)]])
}

pub fn layout_b() -> Layout {
    layout(vec![vec![family(0, 0, 2, 2)], vec![family(1, 1, 2, 2)]])
}

/// The panel: element c is (20c, 20c+19, 80, 24).
pub fn layout_c() -> Layout {
    layout((0..4).map(|c| vec![family(20 * c, 20 * c + 19, 80, 24)]).collect())
}

/// A layout with the inner family that 01 uses, its other bytes in a second element.
pub fn inner_pairs() -> Layout {
    let picked = family(0, 7, 16, 2).with(vec![family(0, 1, 4, 2)]);
    let others = vec![family(0, 7, 16, 2).with(vec![family(2, 3, 4, 2)]), run(24, 31)];
    // The gap between the two segments, 8 to 15, is an element of its own: siblings may not interlace.
    layout(vec![vec![picked], others, vec![run(8, 15)]])
}

pub fn inner_singles() -> Layout {
    let part = |inner| vec![family(0, 3, 8, 4).with(vec![inner])];
    layout(vec![part(family(0, 0, 2, 2)), part(family(1, 1, 2, 2)), vec![family(4, 7, 8, 4)]])
}

/// {(0,1)}, {(3,3)}: 2 is in no element.
pub fn hole() -> Layout {
    layout(vec![vec![run(0, 1)], vec![run(3, 3)]])
}

/// {(0,1)}, {(1,2)}: 1 is in both.
pub fn overlap() -> Layout {
    layout(vec![vec![run(0, 1)], vec![run(1, 2)]])
}

/// Every byte of the file is in the one element: a byte's file offset is its subfile offset and the displacement.
pub fn whole_file(displacement: u32) -> Layout {
    Layout { displacement, ..layout(vec![vec![run(0, 0)]]) }
}

fn accepted(name: &'static str, layout: &Layout, size: u64) -> Figure {
    let (value2, value3) = (layout.elements.len() as u64, u64::from(layout.displacement));
    let answer = Answer { value: size, value2, value3, ..Answer::default() };
    Figure { name, frame: Frame::check(sheet(layout)), answer }
}

fn refused(name: &'static str, layout: &Layout, number: u8, place: u64, flag: u8) -> Figure {
    Figure { name, frame: Frame::check(sheet(layout)), answer: Answer { number, sheet: 1, place, flag, ..Answer::default() } }
}

/// The place of the first family's record, after a header of 10 bytes and an element record of 6, and of the family after it.
const FIRST: u64 = 10 + 6;
const SECOND: u64 = FIRST + 22;

pub fn figures() -> Vec<Figure> {
    [sheets(), mappings(), trays(), ends(), packed_lengths(), shared_runs(), listings()].into_iter().flatten().collect()
}

/// Call 1.
fn sheets() -> Vec<Figure> {
    let single = |one| layout(vec![vec![one]]);
    let empty = Answer { number: SHORT, sheet: 1, ..Answer::default() };
    vec![
        accepted("layout F", &layout_f(), 6),
        accepted("layout A", &layout_a(), 6),
        accepted("layout B", &layout_b(), 4),
        accepted("layout C, the panel", &layout_c(), 1920),
        accepted("(0,7,16,2,{(0,1,4,2)}) in a pattern of 32", &inner_pairs(), 32),
        accepted("(0,3,8,4,{(0,0,2,2)}) in a pattern of 32", &inner_singles(), 32),
        refused("{(0,1)}, {(3,3)}", &hole(), COVER, 2, HOLE),
        refused("{(0,1)}, {(1,2)}", &overlap(), COVER, 1, OVERLAP),
        accepted("(0,1,2,2) meets the stride rule", &single(family(0, 1, 2, 2)), 4),
        refused("(0,1,1,2)", &single(family(0, 1, 1, 2)), SEGMENT, FIRST, NO_FLAG),
        refused("(0,1,6,1)", &single(family(0, 1, 6, 1)), SEGMENT, FIRST, NO_FLAG),
        refused("(0,1,6,2) then (3,3,6,2)", &layout(vec![vec![family(0, 1, 6, 2), family(3, 3, 6, 2)]]), ORDER, SECOND, NO_FLAG),
        Figure { name: "the empty sheet", frame: Frame::check(Vec::new()), answer: empty },
    ]
}

/// An answer of one value.
fn value(value: u64) -> Answer {
    Answer { value, ..Answer::default() }
}

/// A refusal of 12 to 17: no sheet is at fault, and there is no place.
fn number(number: u8) -> Answer {
    Answer { number, ..Answer::default() }
}

/// Calls 2 to 4.
fn mappings() -> Vec<Figure> {
    let of = |name, call, layout: &Layout, i, a, answer| Figure { name, frame: Frame::mapping(call, sheet(layout), i, a), answer };
    let (f, c) = (layout_f(), layout_c());
    vec![
        of("F, element 1: exact mapping of 10", EXACT, &f, 1, 10, value(2)),
        of("F, element 1: inverse of 2", INVERSE, &f, 1, 2, value(10)),
        of("F, element 1: 6 is FOREIGN", EXACT, &f, 1, 6, number(FOREIGN)),
        of("F, element 1: next mapping of 6", NEXT, &f, 1, 6, value(2)),
        of("F, element 1: 1 is BEFORE", EXACT, &f, 1, 1, number(BEFORE)),
        of("F, element 1: 1 is BEFORE in next mapping too", NEXT, &f, 1, 1, number(BEFORE)),
        of("the panel: 9,864 in element 1", EXACT, &c, 1, 9_864, value(2_464)),
        of("the panel: 2,464 of element 1", INVERSE, &c, 1, 2_464, value(9_864)),
        of("16 has rank 4 in (0,7,16,2,{(0,1,4,2)})", EXACT, &inner_pairs(), 0, 16, value(4)),
        of("16 has rank 4 in (0,3,8,4,{(0,0,2,2)})", EXACT, &inner_singles(), 0, 16, value(4)),
        of("byte 2^64-1 is FAR", INVERSE, &f, 1, u64::MAX, number(FAR)),
        of("the displacement pushes byte 2^40-1 past the end", INVERSE, &whole_file(1), 0, END - 1, number(FAR)),
        of("byte 2^40-2 is the last before the end", INVERSE, &whole_file(1), 0, END - 2, value(END - 1)),
    ]
}

/// 01's trays where every byte is its own offset: A's and B's in [0,12) and in [1,5).
pub const TRAY_A: [u8; 12] = [0, 1, 6, 7, 2, 3, 8, 9, 4, 5, 10, 11];
pub const TRAY_B: [u8; 12] = [0, 2, 4, 6, 8, 10, 1, 3, 5, 7, 9, 11];
pub const LATE_TRAY_A: [u8; 4] = [1, 2, 3, 4];
pub const LATE_TRAY_B: [u8; 4] = [2, 4, 1, 3];

/// Call 8, into a tray of other bytes. The tray of one element of all bytes is in file order: moved from it, they make a layout's tray.
fn trays() -> Vec<Figure> {
    let of = |name, layouts: [&Layout; 2], window, from: &[u8], into: &[u8]| {
        let trays = [from.to_vec(), vec![238; into.len()]];
        Figure { name, frame: Frame::tray_move(layouts.map(sheet), window, trays), answer: Answer { into: into.to_vec(), ..value(0) } }
    };
    let (a, b, file) = (layout_a(), layout_b(), whole_file(0));
    let offsets: Vec<u8> = (0..12).collect();
    vec![
        of("A's tray of [0,12)", [&file, &a], (0, 12), &offsets, &TRAY_A),
        of("B's tray of [0,12)", [&file, &b], (0, 12), &offsets, &TRAY_B),
        of("from A's tray to B's in [0,12)", [&a, &b], (0, 12), &TRAY_A, &TRAY_B),
        of("from B's tray to A's in [0,12)", [&b, &a], (0, 12), &TRAY_B, &TRAY_A),
        of("A's tray of [1,5)", [&file, &a], (1, 5), &offsets[1..5], &LATE_TRAY_A),
        of("B's tray of [1,5)", [&file, &b], (1, 5), &offsets[1..5], &LATE_TRAY_B),
        of("from A's tray to B's in [1,5)", [&a, &b], (1, 5), &LATE_TRAY_A, &LATE_TRAY_B),
        of("from B's tray to A's in [1,5)", [&b, &a], (1, 5), &LATE_TRAY_B, &LATE_TRAY_A),
    ]
}

/// The window ends 2^40 and 2^40+1 of calls 6 to 9, where one element has every byte: whatever is carried is the source.
fn ends() -> Vec<Figure> {
    let file = || sheet(&whole_file(0));
    let of = |end: u64| {
        let (window, from, into) = ((END - 3, end), vec![1, 2, 3], vec![9, 9, 9]);
        let trays = [from.clone(), into.clone()];
        vec![
            Frame::gather(file(), 0, window, from.clone(), into.clone()),
            Frame::scatter(file(), 0, window, from, into),
            Frame::tray_move([file(), file()], window, trays.clone()),
            Frame::pair_move([file(), file()], [0, 0], window, trays),
        ]
    };
    let figure = |name, frame, answer, into: [u8; 3]| Figure { name, frame, answer: Answer { into: into.to_vec(), ..answer } };
    let accepted = of(END).into_iter().map(|frame| figure("the window end 2^40 is accepted", frame, value(0), [1, 2, 3]));
    let far = of(END + 1).into_iter().map(|frame| figure("the window end 2^40+1 is FAR", frame, number(FAR), [9, 9, 9]));
    accepted.chain(far).collect()
}

/// Call 17: how many bytes of 01's trays are each element's, and the same window ends.
fn packed_lengths() -> Vec<Figure> {
    let of = |name, layout: &Layout, i, window, answer| Figure { name, frame: Frame::packed_length(sheet(layout), i, window), answer };
    let (a, b, file) = (layout_a(), layout_b(), whole_file(0));
    vec![
        of("of A's tray of [0,12) element 0 has 0 1 6 7", &a, 0, (0, 12), value(4)),
        of("of B's tray of [0,12) element 1 has 1 3 5 7 9 11", &b, 1, (0, 12), value(6)),
        of("of A's tray of [1,5) element 0 has 1", &a, 0, (1, 5), value(1)),
        of("of A's tray of [1,5) element 1 has 2 3", &a, 1, (1, 5), value(2)),
        of("of A's tray of [1,5) element 2 has 4", &a, 2, (1, 5), value(1)),
        of("of B's tray of [1,5) element 0 has 2 4", &b, 0, (1, 5), value(2)),
        of("the window end 2^40 is accepted", &file, 0, (0, END), value(END)),
        of("the window end 2^40+1 is FAR", &file, 0, (0, END + 1), number(FAR)),
    ]
}

/// A list of so many slots that are no run's: each names itself.
pub fn slots(many: u64) -> Vec<u8> {
    list(&(0..many).map(|slot| !slot).collect::<Vec<u64>>())
}

fn list(slots: &[u64]) -> Vec<u8> {
    slots.iter().flat_map(|slot| slot.to_le_bytes()).collect()
}

/// Call 10, with a list of so many slots, on element 0 of both sheets. Where it answers some slots, those are at the list's front.
fn shared_runs() -> Vec<Figure> {
    let of = |name, [one, two]: [&Layout; 2], window, many, front: &[u64], answer: Answer| {
        let before = slots(many);
        let into = [list(front), before[list(front).len()..].to_vec()].concat();
        Figure { name, frame: Frame::shared_runs([sheet(one), sheet(two)], [0, 0], window, before), answer: Answer { into, ..answer } }
    };
    let (a, b, pairs, singles) = (layout_a(), layout_b(), inner_pairs(), inner_singles());
    let a_with_b = [&a, &b];
    let both = [0, 1, 0, 0, 6, 1, 2, 3];
    let room = Answer { place: 2, ..number(ROOM) };
    vec![
        of("A and B in [0,12): eight slots", a_with_b, (0, 12), 8, &both, value(2)),
        of("A and B in [0,12): seven slots", a_with_b, (0, 12), 7, &[], room),
        of("A and B in [0,12): nine slots, the last stays", a_with_b, (0, 12), 9, &both, value(2)),
        of("the nested families share 0 and 16", [&pairs, &singles], (0, 32), 8, &[0, 1, 0, 0, 16, 1, 4, 4], value(2)),
        of("the window end 2^40 is accepted", a_with_b, (END - 3, END), 4, &[], value(0)),
        of("the window end 2^40+1 is FAR", a_with_b, (END - 3, END + 1), 4, &[], number(FAR)),
    ]
}

pub const LISTING_F: &str = "\
layout displacement 2 size 6 elements 3
0 size 2 families 1 first 0
1 size 2 families 1 first 2
2 size 2 families 1 first 4
";

/// Call 11, with a buffer just as long as the text.
fn listings() -> Vec<Figure> {
    let of = |name, sheet: Vec<u8>, text: &str| {
        let frame = Frame::listing(sheet, vec![238; text.len()]);
        Figure { name, frame, answer: Answer { into: text.into(), ..value(text.len() as u64) } }
    };
    vec![
        of("the listing of F", sheet(&layout_f()), LISTING_F),
        of("the listing of empty input", Vec::new(), "refused 1 at 0\n"),
        of("the listing of a hole", sheet(&hole()), "refused 11 at 2 hole\n"),
        of("the listing of an overlap", sheet(&overlap()), "refused 11 at 1 overlap\n"),
    ]
}
