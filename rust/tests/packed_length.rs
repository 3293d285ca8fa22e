//! Call 17: counts by hand, what it has to do with gather, the order of the checks, and the errors that look right.

use comparison::calls::answer;
use comparison::element::{Element, END};
use comparison::figures::{inner_pairs, layout_a, layout_b, layout_c, layout_f, whole_file};
use comparison::frame::{Answer, Frame, GATHER, PACKED_LENGTH};
use comparison::generate::by_chance;
use comparison::layout::{layout, run, Layout};
use comparison::refusal::{BUFFER, COVER, ELEMENT, HOLE, SHORT};
use comparison::shapes::four_levels;
use comparison::sheet::read;
use comparison::windows::{from, REFUSED};
use comparison::write::sheet;

type Window = (u64, u64);

/// The packed length, or the number of a refusal of 12 to 18.
fn length(layout: &Layout, i: u64, window: Window) -> Result<u64, u8> {
    let given = answer(&Frame::packed_length(sheet(layout), i, window));
    assert_eq!(given, Answer { number: given.number, value: given.value, ..Answer::default() });
    match given.number {
        0 => Ok(given.value),
        number => Err(number),
    }
}

/// Element 1 of F has 4, 5, 10, 11, 16, 17, ..
#[test]
fn f_element_1() {
    let f = layout_f();
    let ends: Vec<Result<u64, u8>> = (2..13).map(|b| length(&f, 1, (2, b))).collect();
    assert_eq!(ends, [0, 0, 0, 1, 2, 2, 2, 2, 2, 3, 4].map(Ok));
    let starts: Vec<Result<u64, u8>> = (2..13).map(|a| length(&f, 1, (a, 12))).collect();
    assert_eq!(starts, [4, 4, 4, 3, 2, 2, 2, 2, 2, 1, 0].map(Ok));
    // Neither end is the element's, and what is counted lies between.
    assert_eq!(length(&f, 1, (6, 10)), Ok(0));
    assert_eq!(length(&f, 1, (6, 16)), Ok(2));
}

/// A controller has 20 bytes of each row of 80, 480 of a frame.
#[test]
fn the_panel() {
    let c = layout_c();
    assert_eq!(length(&c, 1, (0, 1_920)), Ok(480));
    assert_eq!(length(&c, 1, (0, 11_520)), Ok(2_880));
    assert_eq!([(0, 20), (0, 21), (20, 40), (30, 110), (40, 100)].map(|row| length(&c, 1, row)), [0, 1, 20, 20, 0].map(Ok));
}

/// Only what the children select counts: (0,7,16,2,{(0,1,4,2)}) has 0, 1, 4, 5, 16, 17, 20, 21 of each 32.
#[test]
fn children_are_counted_and_not_their_parents() {
    let nested = inner_pairs();
    assert_eq!(length(&nested, 0, (0, 8)), Ok(4));
    assert_eq!(length(&nested, 0, (5, 18)), Ok(3));
    assert_eq!(length(&nested, 0, (1, 65)), Ok(16));
}

#[test]
fn the_displacement_goes_off_before_the_modulus() {
    // 10 and 11 are of element 1 in F, and of element 2 in A.
    assert_eq!([0, 1, 2].map(|i| length(&layout_f(), i, (10, 12))), [Ok(0), Ok(2), Ok(0)]);
    assert_eq!([0, 1, 2].map(|i| length(&layout_a(), i, (10, 12))), [Ok(0), Ok(0), Ok(2)]);
}

/// The elements' packed lengths sum to the window's.
#[test]
fn the_elements_share_the_window() {
    let nested = Layout { displacement: 1_000, ..four_levels() };
    for window in [(1_000, 1_001), (1_003, 1_061), (1_000, END), (END - 77, END), (1 << 33, 1 << 39), (5_000, 5_000)] {
        let lengths = (0..nested.elements.len() as u64).map(|i| length(&nested, i, window).expect("the window is accepted"));
        assert_eq!(lengths.sum::<u64>(), window.1 - window.0, "{window:?}");
    }
}

/// Nothing is walked, and lengths of more than 32 bits are not cut.
#[test]
fn a_window_may_be_all_of_the_file() {
    assert_eq!(length(&whole_file(0), 0, (0, END)), Ok(END));
    assert_eq!(length(&whole_file(1), 0, (1, END)), Ok(END - 1));
    assert_eq!(length(&layout_b(), 1, (0, END)), Ok(END / 2));
    assert_eq!(length(&layout_b(), 1, (1, (1 << 34) + 1)), Ok(1 << 33));
    // 2^40 mod 6 is 4: a third of the whole patterns, and two bytes more of elements 0 and 1.
    assert_eq!([0, 1, 2].map(|i| length(&layout_a(), i, (0, END))), [2, 2, 0].map(|more| Ok((END - 4) / 3 + more)));
}

/// It is the one length of a packed buffer with which a gather is accepted; and what else a gather refuses, it refuses alike.
#[test]
fn a_gather_asks_for_a_buffer_of_that_length() {
    for seed in 0..40 {
        for gather in by_chance(GATHER, seed, 25) {
            let measured = answer(&Frame { call: PACKED_LENGTH, from: Vec::new(), into: Vec::new(), ..gather.clone() });
            let carried = answer(&gather);
            if ![0, BUFFER].contains(&carried.number) {
                assert_eq!(measured, Answer { into: Vec::new(), ..carried });
                continue;
            }
            assert_eq!(measured, Answer { value: measured.value, ..Answer::default() });
            let file = gather.b - gather.a == gather.from.len() as u64;
            assert_eq!(carried.number == 0, file && measured.value == gather.into.len() as u64);
        }
    }
}

/// Counted one by one, for layouts of all shapes.
#[test]
fn every_offset_of_a_short_window_is_counted() {
    let mut counted = 0;
    for frame in (0..40).flat_map(|seed| by_chance(PACKED_LENGTH, seed, 25)) {
        let given = answer(&frame);
        if given.number == 0 && frame.b - frame.a < 10_000 {
            let layout = read(&frame.sheet1).expect("the sheet is accepted");
            let element = Element::of(&layout, frame.i as usize);
            assert_eq!(given.value, (frame.a..frame.b).filter(|x| element.has(*x)).count() as u64);
            counted += 1;
        }
    }
    assert!(counted >= 200, "{counted} windows are short");
}

#[test]
fn the_index_then_15_13_14() {
    let (f, late) = (layout_f(), from(20, layout_a()));
    for (window, number) in REFUSED {
        assert_eq!(length(&late, 2, window), Err(number), "{window:?}");
        for i in [3, 65_536, 1 << 32, u64::MAX] {
            assert_eq!(length(&late, i, window), Err(ELEMENT), "{window:?}");
        }
    }
    for i in [3, 65_536, 65_537, 1 << 32, u64::MAX] {
        assert_eq!(length(&f, i, (2, 14)), Err(ELEMENT));
    }
    for window in [(2, 2), (END, END), (77, 77)] {
        assert_eq!(length(&f, 0, window), Ok(0), "{window:?}");
    }
}

#[test]
fn a_refused_sheet_goes_first() {
    let hole = sheet(&layout(vec![vec![run(0, 1)], vec![run(3, 3)]]));
    let refused = |number, place, flag| Answer { number, sheet: 1, place, flag, ..Answer::default() };
    for (sheet, expected) in [(Vec::new(), refused(SHORT, 0, 0)), (hole, refused(COVER, 2, HOLE))] {
        for (i, window) in [(0, (2, 14)), (u64::MAX, (2, 14)), (u64::MAX, (14, 2)), (0, (2, END + 1))] {
            assert_eq!(answer(&Frame::packed_length(sheet.clone(), i, window)), expected);
        }
    }
}
