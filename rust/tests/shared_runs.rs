//! Call 10: 01's figures by hand, the order of the checks, the room of a list, and the errors that look right.

use comparison::calls::answer;
use comparison::element::END;
use comparison::figures::{inner_pairs, inner_singles, layout_a, layout_b, layout_f, slots, whole_file};
use comparison::frame::{Answer, Frame};
use comparison::layout::{layout, run, Layout};
use comparison::refusal::{COVER, ELEMENT, HOLE, ROOM, SHORT, WINDOW};
use comparison::windows::REFUSED;
use comparison::write::sheet;

type Window = (u64, u64);

fn ask(layouts: [&Layout; 2], elements: [u64; 2], window: Window, list: Vec<u8>) -> Answer {
    answer(&Frame::shared_runs(layouts.map(sheet), elements, window, list))
}

/// The runs of a window that is accepted, from a list with more room than it takes.
fn runs(layouts: [&Layout; 2], elements: [u64; 2], window: Window) -> Vec<[u64; 4]> {
    let list = slots(400);
    let given = ask(layouts, elements, window, list.clone());
    let end = 32 * given.value as usize;
    assert_eq!(given, Answer { value: given.value, into: given.into.clone(), ..Answer::default() });
    assert_eq!(given.into[end..], list[end..]);
    let number = |slot: &[u8]| slot.iter().rev().fold(0, |sum, byte| sum << 8 | u64::from(*byte));
    given.into[..end].chunks(32).map(|run| [0, 8, 16, 24].map(|at| number(&run[at..at + 8]))).collect()
}

/// A refusal of 12 to 18, the list as it was.
fn refused(number: u8, place: u64, list: Vec<u8>) -> Answer {
    Answer { number, place, into: list, ..Answer::default() }
}

#[test]
fn a_and_b_share_0_and_6() {
    let (a, b) = (layout_a(), layout_b());
    assert_eq!(runs([&a, &b], [0, 0], (0, 12)), [[0, 1, 0, 0], [6, 1, 2, 3]]);
    assert_eq!(runs([&a, &b], [1, 1], (0, 12)), [[3, 1, 1, 1], [9, 1, 3, 4]]);
    assert_eq!(runs([&b, &a], [0, 0], (0, 12)), [[0, 1, 0, 0], [6, 1, 3, 2]]);
}

/// Not from the window's start, nor from that of a pattern.
#[test]
fn subfile_offsets_count_from_the_displacement() {
    let (a, b) = (layout_a(), layout_b());
    assert_eq!(runs([&a, &b], [0, 0], (12, 24)), [[12, 1, 4, 6], [18, 1, 6, 9]]);
    // 2^40 mod 6 is 4, so the last multiple of 6 is 2^40-4; A has two bytes of six, B one of two.
    let last = [22, 16, 10, 4].map(|back| [END - back, 1, (END - back) / 3, (END - back) / 2]);
    assert_eq!(runs([&a, &b], [0, 0], (END - 24, END)), last);
    assert!(runs([&layout_f(), &a], [0, 0], (2, 14)).is_empty());
    assert_eq!(runs([&layout_f(), &a], [0, 1], (2, 14)), [[2, 2, 0, 0], [8, 2, 2, 2]]);
}

#[test]
fn the_nested_families_share_0_and_16() {
    assert_eq!(runs([&inner_pairs(), &inner_singles()], [0, 0], (0, 32)), [[0, 1, 0, 0], [16, 1, 4, 4]]);
    assert_eq!(runs([&inner_pairs(), &inner_singles()], [0, 0], (1, 49)), [[16, 1, 4, 4], [32, 1, 8, 8], [48, 1, 12, 12]]);
}

#[test]
fn a_run_crosses_the_borders_of_patterns_and_families() {
    assert_eq!(runs([&whole_file(1), &whole_file(0)], [0, 0], (1, 100)), [[1, 99, 0, 1]]);
    // Two families that touch, and a last byte that touches the next pattern's first.
    let touching = layout(vec![vec![run(0, 2), run(3, 5), run(7, 7)], vec![run(6, 6)]]);
    assert_eq!(runs([&touching, &whole_file(0)], [0, 0], (0, 20)), [[0, 6, 0, 0], [7, 7, 6, 7], [15, 5, 13, 15]]);
    // A border of one pattern inside a run of the other: sixes against fours.
    let fours = layout(vec![vec![run(0, 0), run(2, 3)], vec![run(1, 1)]]);
    let sixes = layout(vec![vec![run(0, 4)], vec![run(5, 5)]]);
    assert_eq!(runs([&fours, &sixes], [0, 0], (0, 12)), [[0, 1, 0, 0], [2, 3, 1, 2], [6, 3, 4, 5], [10, 1, 7, 9]]);
}

#[test]
fn a_run_is_cut_at_the_window() {
    let a = layout_a();
    assert_eq!(runs([&a, &a], [1, 1], (3, 9)), [[3, 1, 1, 1], [8, 1, 2, 2]]);
    assert_eq!(runs([&a, &a], [1, 1], (2, 10)), [[2, 2, 0, 0], [8, 2, 2, 2]]);
    assert!(runs([&a, &a], [1, 1], (4, 8)).is_empty());
}

#[test]
fn room_is_whole_runs() {
    let (a, b) = (layout_a(), layout_b());
    let ask = |list: &[u8]| ask([&a, &b], [0, 0], (0, 12), list.to_vec());
    let full = [0_u64, 1, 0, 0, 6, 1, 2, 3].map(u64::to_le_bytes).concat();
    let list = slots(20);
    // Seven slots; eight but for a byte; a single run's; fewer than a run's; none. Not even the runs that fit are written.
    for bytes in [56, 63, 32, 31, 0] {
        assert_eq!(ask(&list[..bytes]), refused(ROOM, 2, list[..bytes].to_vec()), "{bytes} bytes");
    }
    // Eight slots, and what lies behind them stays: slots, or bytes that are none.
    for bytes in [64, 65, 71, 72, 88, 95, 96, 160] {
        let into = [full.clone(), list[64..bytes].to_vec()].concat();
        assert_eq!(ask(&list[..bytes]), Answer { value: 2, into, ..Answer::default() }, "{bytes} bytes");
    }
}

#[test]
fn no_runs_need_no_room() {
    let b = layout_b();
    for window in [(0, 100), (0, 0), (END, END)] {
        assert_eq!(ask([&b, &b], [0, 1], window, Vec::new()), Answer::default());
        assert_eq!(ask([&b, &b], [0, 1], window, slots(3)), Answer { into: slots(3), ..Answer::default() });
    }
}

#[test]
fn windows_are_checked_15_then_13_then_14() {
    let (late, early) = (Layout { displacement: 20, ..layout_a() }, Layout { displacement: 10, ..layout_b() });
    for (window, number) in REFUSED {
        for layouts in [[&late, &early], [&early, &late]] {
            assert_eq!(ask(layouts, [0, 0], window, slots(5)), refused(number, 0, slots(5)), "{window:?}");
        }
    }
    for window in [(20, 20), (END, END), (END - 2, END)] {
        assert_eq!(ask([&late, &early], [0, 0], window, slots(9)).number, 0, "{window:?}");
    }
}

#[test]
fn each_index_is_one_of_its_own_sheet() {
    let (a, b) = (layout_a(), layout_b());
    for elements in [[3, 0], [0, 2], [65_536, 0], [0, 65_537], [u64::MAX, 0], [0, 1 << 32]] {
        // Before whatever is wrong with the window.
        for window in [(0, 12), (12, 0), (0, u64::MAX)] {
            assert_eq!(ask([&a, &b], elements, window, slots(8)), refused(ELEMENT, 0, slots(8)));
        }
    }
    assert_eq!(ask([&a, &b], [2, 1], (0, 12), slots(8)).number, 0);
}

#[test]
fn sheet_1_then_sheet_2_then_the_indexes() {
    let sound = sheet(&layout_a());
    let hole = sheet(&layout(vec![vec![run(0, 1)], vec![run(3, 3)]]));
    let ask = |sheets: [&Vec<u8>; 2], i| answer(&Frame::shared_runs(sheets.map(Vec::clone), [i, 0], (1, 0), slots(2)));
    let at = |number, sheet, place, flag| Answer { number, sheet, place, flag, into: slots(2), ..Answer::default() };
    let empty = Vec::new();
    // Number 11 of the first goes before number 1 of the second.
    assert_eq!(ask([&hole, &empty], 0), at(COVER, 1, 2, HOLE));
    assert_eq!(ask([&empty, &hole], 0), at(SHORT, 1, 0, 0));
    assert_eq!(ask([&sound, &hole], 0), at(COVER, 2, 2, HOLE));
    assert_eq!(ask([&sound, &empty], u64::MAX), at(SHORT, 2, 0, 0));
    assert_eq!(ask([&sound, &sound], u64::MAX), at(ELEMENT, 0, 0, 0));
    assert_eq!(ask([&sound, &sound], 0), at(WINDOW, 0, 0, 0));
}
