//! Calls 6 to 9: 01's figures by hand, what trays and moves are to each other, the order of the checks, and the errors that look right.

use comparison::calls::{answer, places};
use comparison::element::{Element, END};
use comparison::figures::{layout_a, layout_b, layout_c, layout_f, whole_file, LATE_TRAY_A, LATE_TRAY_B, TRAY_A, TRAY_B};
use comparison::frame::{has_two_sheets, Answer, Frame, GATHER, MOVE, PAIR_MOVE, SCATTER};
use comparison::layout::{layout, run, Layout};
use comparison::random::Random;
use comparison::refusal::{BEFORE, BUFFER, COVER, ELEMENT, HOLE, SHORT, WINDOW};
use comparison::shapes;
use comparison::transfers::{self, marked, TRANSFERS};
use comparison::windows::{from, REFUSED};
use comparison::write::sheet;

type Window = (u64, u64);

/// The destination after a call that is accepted.
fn done(frame: &Frame) -> Vec<u8> {
    let given = answer(frame);
    assert_eq!(given, Answer { into: given.into.clone(), ..Answer::default() });
    given.into
}

/// A byte that no buffer of these tests has before.
const OTHER: u8 = 238;

/// How many bytes of the window are the element's, one by one.
fn count(element: &Element, (a, b): Window) -> usize {
    (a..b).filter(|x| element.has(*x)).count()
}

fn gathered(layout: &Layout, index: usize, window: Window, file: &[u8]) -> Vec<u8> {
    let packed = vec![OTHER; count(&Element::of(layout, index), window)];
    done(&Frame::gather(sheet(layout), index as u64, window, file.to_vec(), packed))
}

fn scattered(layout: &Layout, index: usize, window: Window, packed: &[u8], file: &[u8]) -> Vec<u8> {
    done(&Frame::scatter(sheet(layout), index as u64, window, packed.to_vec(), file.to_vec()))
}

fn moved(layouts: [&Layout; 2], window: Window, tray: &[u8]) -> Vec<u8> {
    done(&Frame::tray_move(layouts.map(sheet), window, [tray.to_vec(), vec![OTHER; tray.len()]]))
}

fn pair_moved(layouts: [&Layout; 2], pair: [usize; 2], window: Window, tray: &[u8], into: &[u8]) -> Vec<u8> {
    done(&Frame::pair_move(layouts.map(sheet), pair.map(|index| index as u64), window, [tray.to_vec(), into.to_vec()]))
}

/// The tray as its gathers make it: element 0's, then element 1's, to the last.
fn tray(layout: &Layout, window: Window, file: &[u8]) -> Vec<u8> {
    (0..layout.elements.len()).flat_map(|index| gathered(layout, index, window, file)).collect()
}

/// All pairs of elements of two layouts.
fn pairs(layouts: [&Layout; 2]) -> Vec<[usize; 2]> {
    let [one, two] = layouts.map(|layout| layout.elements.len());
    (0..one).flat_map(|i| (0..two).map(move |j| [i, j])).collect()
}

/// Three layouts, a window of some length from the largest displacement on, and the window's bytes in the file.
struct Case {
    layouts: [Layout; 3],
    window: Window,
    file: Vec<u8>,
}

/// A layout whose pattern is not too long to be looked at again and again.
fn brief(random: &mut Random) -> Layout {
    let brief = |layout: &Layout| Element::of(layout, 0).period() <= 3_000;
    std::iter::repeat_with(|| shapes::any(random)).find(brief).expect("most layouts are brief")
}

fn cases(seed: u64, many: usize) -> Vec<Case> {
    let random = &mut Random::new(seed);
    let case = |_| {
        let layouts = [(); 3].map(|_| brief(random));
        let start = layouts.iter().map(|layout| u64::from(layout.displacement)).fold(0, u64::max);
        let a = start + random.long_below(700);
        let length = random.long_below(500);
        let file = (0..length).map(|_| random.word() as u8).collect();
        Case { layouts, window: (a, a + length), file }
    };
    (0..many).map(case).collect()
}

#[test]
fn the_trays_of_a_and_b() {
    let (a, b) = (layout_a(), layout_b());
    let offsets: Vec<u8> = (0..12).collect();
    let [early, late] = [(0, 12), (1, 5)];
    assert_eq!(tray(&a, early, &offsets), TRAY_A);
    assert_eq!(tray(&b, early, &offsets), TRAY_B);
    assert_eq!(tray(&a, late, &offsets[1..5]), LATE_TRAY_A);
    assert_eq!(tray(&b, late, &offsets[1..5]), LATE_TRAY_B);
}

#[test]
fn the_moves_between_a_and_b() {
    let (a, b) = (layout_a(), layout_b());
    assert_eq!(moved([&a, &b], (0, 12), &TRAY_A), TRAY_B);
    assert_eq!(moved([&b, &a], (0, 12), &TRAY_B), TRAY_A);
    assert_eq!(moved([&a, &b], (1, 5), &LATE_TRAY_A), LATE_TRAY_B);
    assert_eq!(moved([&b, &a], (1, 5), &LATE_TRAY_B), LATE_TRAY_A);
    assert_eq!(moved([&a, &a], (0, 12), &TRAY_A), TRAY_A);
}

/// A's elements 0, 1, 2 have 0 1 6 7, 2 3 8 9, 4 5 10 11; B's elements are the even and the odd offsets.
#[test]
fn a_pair_move_of_a_and_b_by_hand() {
    let (a, b) = (layout_a(), layout_b());
    let before = [OTHER; 12];
    let with = |places: [usize; 2], bytes: [u8; 2]| {
        let mut after = before;
        (after[places[0]], after[places[1]]) = (bytes[0], bytes[1]);
        after
    };
    assert_eq!(pair_moved([&a, &b], [0, 0], (0, 12), &TRAY_A, &before), with([0, 3], [0, 6]));
    assert_eq!(pair_moved([&a, &b], [1, 0], (0, 12), &TRAY_A, &before), with([1, 4], [2, 8]));
    assert_eq!(pair_moved([&a, &b], [2, 1], (0, 12), &TRAY_A, &before), with([8, 11], [5, 11]));
    // The same bytes back, where B's tray is the first.
    assert_eq!(pair_moved([&b, &a], [1, 2], (0, 12), &TRAY_B, &before), with([9, 11], [5, 11]));
}

#[test]
fn gather_and_scatter_of_f_by_hand() {
    let f = layout_f();
    // Element 1 has 4, 5, 10, 11: from a window that starts at 3, places 1, 2, 7, 8.
    let file: Vec<u8> = (3..13).collect();
    assert_eq!(gathered(&f, 1, (3, 13), &file), [4, 5, 10, 11]);
    assert_eq!(gathered(&f, 1, (5, 11), &file[2..8]), [5, 10]);
    assert!(gathered(&f, 1, (6, 10), &file[3..7]).is_empty());
    assert_eq!(scattered(&f, 1, (3, 13), &[50, 60, 70, 80], &file), [3, 50, 60, 6, 7, 8, 9, 70, 80, 12]);
    assert_eq!(scattered(&f, 1, (6, 10), &[], &file[3..7]), [6, 7, 8, 9]);
}

#[test]
fn a_window_up_to_the_end_is_carried_too() {
    let (a, b) = (layout_a(), layout_b());
    let window = (END - 6, END);
    // 2^40 mod 6 is 4, so these are of A's elements 2 2 0 0 1 1, and even and odd in turn.
    let file = [1, 2, 3, 4, 5, 6];
    assert_eq!(tray(&a, window, &file), [3, 4, 5, 6, 1, 2]);
    assert_eq!(tray(&b, window, &file), [1, 3, 5, 2, 4, 6]);
    assert_eq!(moved([&a, &b], window, &[3, 4, 5, 6, 1, 2]), [1, 3, 5, 2, 4, 6]);
}

/// The panel's second controller has 20 bytes of each row of 80.
#[test]
fn a_row_of_the_panel() {
    let file: Vec<u8> = (0..80).collect();
    assert_eq!(gathered(&layout_c(), 1, (160, 240), &file), (20..40).collect::<Vec<u8>>());
}

/// The place is the window's bytes of earlier elements and rank(x) - rank(a): not the absolute subfile offset.
#[test]
fn a_place_in_a_tray_is_counted_from_the_windows_start() {
    for Case { layouts: [one, two, _], window, file } in cases(11, 25) {
        let into = vec![OTHER; file.len()];
        let places = places(&Frame::tray_move([&one, &two].map(sheet), window, [file, into])).expect("the move is accepted");
        let mut earlier = 0;
        for element in Element::all(&two) {
            let of_element = (window.0..window.1).filter(|x| element.has(*x));
            for x in of_element.step_by(5) {
                let rank = element.rank(x) - element.rank(window.0);
                assert_eq!(places[earlier + rank as usize], x);
            }
            earlier += count(&element, window);
        }
    }
}

#[test]
fn gathers_make_the_tray_that_a_move_makes() {
    for Case { layouts: [one, two, _], window, file } in cases(12, 60) {
        assert_eq!(moved([&one, &two], window, &tray(&one, window, &file)), tray(&two, window, &file));
        assert_eq!(moved([&whole_file(0), &one], window, &file), tray(&one, window, &file));
        assert_eq!(moved([&one, &whole_file(0)], window, &tray(&one, window, &file)), file);
    }
}

#[test]
fn scatters_of_the_gathers_restore_the_file() {
    for Case { layouts: [one, ..], window, file } in cases(13, 60) {
        let mut restored = vec![OTHER; file.len()];
        for index in 0..one.elements.len() {
            let packed = gathered(&one, index, window, &file);
            let before = restored.clone();
            restored = scattered(&one, index, window, &packed, &before);
            // Bytes of other elements stay.
            let element = Element::of(&one, index);
            let changed = (0..file.len()).filter(|place| restored[*place] != before[*place]);
            assert!(changed.map(|place| window.0 + place as u64).all(|x| element.has(x)));
        }
        assert_eq!(restored, file);
    }
}

#[test]
fn moves_compose_and_a_chain_back_restores() {
    for Case { layouts: [one, two, three], window, file } in cases(14, 60) {
        // Whatever bytes a tray has.
        let second = moved([&one, &two], window, &file);
        let third = moved([&two, &three], window, &second);
        assert_eq!(third, moved([&one, &three], window, &file));
        assert_eq!(moved([&three, &one], window, &third), file);
    }
}

#[test]
fn all_pair_moves_make_the_move() {
    for Case { layouts: [one, two, _], window, file } in cases(15, 25) {
        let mut pairs = pairs([&one, &two]);
        Random::new(window.0).shuffle(&mut pairs);
        let before = vec![OTHER; file.len()];
        let made = pairs.into_iter().fold(before, |into, pair| pair_moved([&one, &two], pair, window, &file, &into));
        assert_eq!(made, moved([&one, &two], window, &file));
    }
}

#[test]
fn a_pair_move_writes_only_what_the_pair_shares() {
    for Case { layouts: [one, two, _], window, file } in cases(16, 25) {
        // Every place changes that may: no byte of the second tray is as in the moved one.
        let whole = moved([&one, &two], window, &file);
        let before: Vec<u8> = whole.iter().map(|byte| !byte).collect();
        let order = places(&Frame::tray_move([&one, &two].map(sheet), window, [file.clone(), before.clone()])).unwrap();
        for [i, j] in pairs([&one, &two]).into_iter().step_by(7) {
            let after = pair_moved([&one, &two], [i, j], window, &file, &before);
            let (first, second) = (Element::of(&one, i), Element::of(&two, j));
            let shared = |x: &u64| first.has(*x) && second.has(*x);
            for (place, x) in order.iter().enumerate() {
                assert_eq!(after[place], if shared(x) { whole[place] } else { before[place] });
            }
        }
    }
}

/// The calls on F and B, with buffers of these lengths.
fn ask(call: u8, elements: [u64; 2], window: Window, lengths: [u64; 2]) -> Answer {
    answer(&transfers::frame(call, [sheet(&layout_f()), sheet(&layout_b())], elements, window, marked(lengths)))
}

/// A refusal of 12 to 18, which leaves the destination as it was.
fn refused(number: u8, lengths: [u64; 2]) -> Answer {
    let [_, into] = marked(lengths);
    Answer { number, into, ..Answer::default() }
}

/// The lengths required in [2, 14), of which each element of F has four bytes.
fn required(call: u8) -> [u64; 2] {
    match call {
        GATHER => [12, 4],
        SCATTER => [4, 12],
        _ => [12, 12],
    }
}

#[test]
fn a_buffer_has_just_the_length_required() {
    for call in TRANSFERS {
        let [from, into] = required(call);
        assert_eq!(ask(call, [1, 1], (2, 14), [from, into]).number, 0, "call {call}");
        for wrong in [[from + 1, into], [from - 1, into], [from, into + 1], [from, into - 1], [0, into], [from, 0], [0, 0], [2, 14]] {
            assert_eq!(ask(call, [1, 1], (2, 14), wrong), refused(BUFFER, wrong), "call {call}, {wrong:?}");
        }
        for empty in [(2, 2), (END, END), (77, 77)] {
            assert_eq!(ask(call, [0, 1], empty, [0, 0]), Answer::default(), "call {call}");
            assert_eq!(ask(call, [0, 1], empty, [1, 0]), refused(BUFFER, [1, 0]), "call {call}");
            assert_eq!(ask(call, [0, 1], empty, [0, 1]), refused(BUFFER, [0, 1]), "call {call}");
        }
    }
    assert_eq!(ask(GATHER, [1, 0], (2, 14), [4, 12]).number, BUFFER);
    assert_eq!(ask(SCATTER, [1, 0], (2, 14), [12, 4]).number, BUFFER);
}

/// Lengths of more than 32 bits are not cut.
#[test]
fn a_long_window_is_refused_and_not_walked() {
    let windows = [(2, END), (2, 2 + (6 << 32)), (2, 14 + (6 << 32)), (2, 14 + (6 << 16)), (END / 2, END)];
    for call in TRANSFERS {
        for window in windows {
            for lengths in [[0, 0], required(call)] {
                assert_eq!(ask(call, [1, 1], window, lengths), refused(BUFFER, lengths), "call {call}, {window:?}");
            }
        }
    }
}

/// The first sheet starts at 20, the second at 10.
#[test]
fn the_index_then_15_13_14_then_the_buffers() {
    let sheets = [from(20, layout_a()), from(10, layout_b())].map(|layout| sheet(&layout));
    for call in TRANSFERS {
        let ask = |i, window, lengths| answer(&transfers::frame(call, sheets.clone(), [i, 0], window, marked(lengths)));
        for (window, number) in REFUSED.into_iter().chain([((20, 31), BUFFER)]) {
            // Of lengths that no window of 11 bytes wants.
            for lengths in [[1, 3], [12, 12]] {
                assert_eq!(ask(0, window, lengths), refused(number, lengths), "call {call}, {window:?}");
                // A move has no element index.
                let number = if call == MOVE { number } else { ELEMENT };
                for i in [3, 65_536, 1 << 32, u64::MAX] {
                    assert_eq!(ask(i, window, lengths), refused(number, lengths), "call {call}, {window:?}");
                }
            }
        }
    }
}

/// F starts at 2, and has an element 2; B has an element 1.
#[test]
fn each_index_is_held_against_its_own_sheet() {
    for j in [2, 65_536, 1 << 32, u64::MAX] {
        assert_eq!(ask(PAIR_MOVE, [0, j], (2, 14), [12, 12]), refused(ELEMENT, [12, 12]));
        assert_eq!(ask(PAIR_MOVE, [0, j], (1, 14), [12, 12]), refused(ELEMENT, [12, 12]));
    }
    assert_eq!(ask(PAIR_MOVE, [2, 1], (2, 14), [12, 12]).number, 0);
    assert_eq!(ask(PAIR_MOVE, [1, 2], (2, 14), [12, 12]).number, ELEMENT);
}

#[test]
fn the_larger_displacement_counts_on_either_side() {
    let (late, early) = (Layout { displacement: 20, ..layout_a() }, Layout { displacement: 10, ..layout_b() });
    for layouts in [[&late, &early], [&early, &late]] {
        for call in [MOVE, PAIR_MOVE] {
            let ask = |a: u64| answer(&transfers::frame(call, layouts.map(sheet), [0, 0], (a, 30), marked([30 - a; 2])));
            assert_eq!([9, 10, 15, 19].map(|a| ask(a).number), [BEFORE; 4]);
            assert_eq!([20, 21, 30].map(|a| ask(a).number), [0; 3]);
        }
    }
}

#[test]
fn sheet_1_then_sheet_2_then_all_else() {
    let sound = sheet(&layout_a());
    let hole = sheet(&layout(vec![vec![run(0, 1)], vec![run(3, 3)]]));
    let empty = Vec::new();
    let [_, into] = marked([3, 2]);
    let at = |number, sheet, place, flag| Answer { number, sheet, place, flag, into: into.clone(), ..Answer::default() };
    for call in TRANSFERS {
        let ask = |sheets: [&Vec<u8>; 2]| answer(&transfers::frame(call, sheets.map(Vec::clone), [u64::MAX; 2], (1, 0), marked([3, 2])));
        assert_eq!(ask([&hole, &empty]), at(COVER, 1, 2, HOLE));
        assert_eq!(ask([&empty, &hole]), at(SHORT, 1, 0, 0));
        let further = if call == MOVE { WINDOW } else { ELEMENT };
        assert_eq!(ask([&sound, &sound]), at(further, 0, 0, 0));
        if has_two_sheets(call) {
            assert_eq!(ask([&sound, &hole]), at(COVER, 2, 2, HOLE));
            assert_eq!(ask([&sound, &empty]), at(SHORT, 2, 0, 0));
        }
    }
    assert_eq!([GATHER, SCATTER].map(has_two_sheets), [false; 2]);
}
