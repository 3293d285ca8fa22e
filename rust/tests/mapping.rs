//! Calls 2 to 5: 01's figures by hand, the order of the checks, the edges, and the errors that look right.

use comparison::calls::answer;
use comparison::edges::wrapping;
use comparison::element::{Element, END};
use comparison::figures::{layout_a, layout_b, layout_c, layout_f, whole_file};
use comparison::frame::{Answer, Frame, EXACT, INVERSE, NEXT};
use comparison::layout::{family, layout, run, Layout};
use comparison::refusal::{BEFORE, COVER, ELEMENT, FAR, FOREIGN, ORDER, OVERLAP, TRAILING, WINDOW};
use comparison::write::sheet;

/// The value, or the number of the refusal.
fn told(answer: Answer) -> Result<(u64, u64), u8> {
    match answer.number {
        0 => {
            assert_eq!(answer, Answer { value: answer.value, value2: answer.value2, ..Answer::default() });
            Ok((answer.value, answer.value2))
        }
        number => {
            let sheet = u8::from(number < ELEMENT);
            assert_eq!(answer, Answer { number, sheet, place: answer.place, flag: answer.flag, ..Answer::default() });
            assert!(sheet == 1 || (answer.place == 0 && answer.flag == 0));
            Err(number)
        }
    }
}

fn mapped(call: u8, layout: &Layout, i: u64, a: u64) -> Result<u64, u8> {
    told(answer(&Frame::mapping(call, sheet(layout), i, a))).map(|(value, _)| value)
}

fn span(layout: &Layout, i: u64, a: u64, z: u64) -> Result<(u64, u64), u8> {
    told(answer(&Frame::interval_span(sheet(layout), i, (a, z))))
}

/// Element 1 of F has 4, 5, 10, 11, 16, 17, ..
#[test]
fn f_element_1() {
    let f = layout_f();
    let exact: Vec<Result<u64, u8>> = (0..13).map(|x| mapped(EXACT, &f, 1, x)).collect();
    let (before, foreign) = (Err(BEFORE), Err(FOREIGN));
    let expected = [before, before, foreign, foreign, Ok(0), Ok(1), foreign, foreign, foreign, foreign, Ok(2), Ok(3), foreign];
    assert_eq!(exact, expected);
    let next: Vec<Result<u64, u8>> = (0..13).map(|x| mapped(NEXT, &f, 1, x)).collect();
    let ranks = [0, 0, 0, 1, 2, 2, 2, 2, 2, 3, 4].map(Ok);
    assert_eq!(next, [&[before, before], &ranks[..]].concat());
    let inverse: Vec<Result<u64, u8>> = (0..6).map(|y| mapped(INVERSE, &f, 1, y)).collect();
    assert_eq!(inverse, [4, 5, 10, 11, 16, 17].map(Ok));
}

#[test]
fn the_panel() {
    // Frame 5, row 3, and column 12 of two bytes.
    let x = 5 * 1_920 + 3 * 80 + 2 * 12;
    assert_eq!(x, 9_864);
    assert_eq!(mapped(EXACT, &layout_c(), 1, x), Ok(2_464));
    assert_eq!(mapped(INVERSE, &layout_c(), 1, 2_464), Ok(x));
    assert_eq!(mapped(EXACT, &layout_c(), 0, x), Err(FOREIGN));
}

#[test]
fn the_displacement_goes_off_before_the_modulus() {
    // 10 mod 6 is 4, which element 2 selects; 10 is of element 1, since (10 - 2) mod 6 is 2.
    assert_eq!([0, 1, 2].map(|i| mapped(EXACT, &layout_f(), i, 10)), [Err(FOREIGN), Ok(2), Err(FOREIGN)]);
}

#[test]
fn an_element_index_is_a_number_of_64_bits() {
    let f = layout_f();
    for i in [3, 65_536, 65_537, 1 << 32, (1 << 32) + 1, u64::MAX] {
        for call in [EXACT, NEXT, INVERSE] {
            assert_eq!(mapped(call, &f, i, 10), Err(ELEMENT));
            // Before whatever is wrong with the offset.
            assert_eq!(mapped(call, &f, i, u64::MAX), Err(ELEMENT));
            assert_eq!(mapped(call, &f, i, 0), Err(ELEMENT));
        }
        assert_eq!(span(&f, i, 11, 10), Err(ELEMENT));
    }
    assert_eq!(mapped(NEXT, &f, 2, 10), Ok(2));
}

#[test]
fn the_last_file_offset() {
    let (a, one) = (layout_a(), whole_file(1));
    for call in [EXACT, NEXT] {
        assert_eq!(mapped(call, &one, 0, END - 1), Ok(END - 2));
        for x in [END, END + 1, u64::MAX] {
            assert_eq!(mapped(call, &one, 0, x), Err(FAR));
            // FAR before FOREIGN: 2^40 mod 6 is 4, of element 2.
            assert_eq!(mapped(call, &a, 0, x), Err(FAR));
        }
        assert_eq!(mapped(call, &one, 0, 0), Err(BEFORE));
    }
    // The rank of an offset needs no byte behind it: element 2 has its next one at 2^40 in A, and that byte's inverse is FAR.
    let rank = mapped(NEXT, &a, 2, END - 1);
    assert_eq!(rank, Ok((END - 4) / 3));
    assert_eq!(mapped(INVERSE, &a, 2, (END - 4) / 3), Err(FAR));
    assert_eq!(mapped(INVERSE, &a, 2, (END - 4) / 3 - 1), Ok(END - 5));
}

#[test]
fn the_inverse_of_a_large_byte_is_far() {
    let d1 = whole_file(1);
    assert_eq!(mapped(INVERSE, &d1, 0, END - 2), Ok(END - 1));
    for y in [END - 1, END, u64::MAX - 1, u64::MAX] {
        assert_eq!(mapped(INVERSE, &d1, 0, y), Err(FAR));
    }
    assert_eq!(mapped(INVERSE, &whole_file(0), 0, END - 1), Ok(END - 1));
}

#[test]
fn the_inverse_does_not_wrap() {
    // In 64 bits, so many whole patterns of 6 are 2 bytes, and byte y would be found at 4 + 2.
    let y = wrapping(&Element::of(&layout_f(), 1));
    assert_eq!((y / 2).wrapping_mul(6), 2);
    assert_eq!(mapped(INVERSE, &layout_f(), 1, y), Err(FAR));
    // Past 2^32 nothing is cut off.
    assert_eq!(mapped(INVERSE, &layout_b(), 1, 1 << 32), Ok((1 << 33) + 1));
    assert_eq!(mapped(INVERSE, &Layout { displacement: u32::MAX, ..layout_b() }, 1, 1 << 32), Ok((1 << 33) + (1 << 32)));
}

#[test]
fn a_span_goes_from_rank_to_rank() {
    let f = layout_f();
    assert_eq!(span(&f, 1, 4, 11), Ok((0, 3)));
    assert_eq!(span(&f, 1, 2, 2), Ok((0, 0)));
    // Neither end is of element 1: both ranks are those of the next byte that is.
    assert_eq!(span(&f, 1, 6, 9), Ok((2, 2)));
    // 2^40-1 is the second byte of its pattern, and of element 0: a third of the patterns' bytes lie before it, and one more.
    assert_eq!(span(&f, 0, 2, END - 1), Ok((0, (END - 4) / 3 + 1)));
}

#[test]
fn a_span_checks_15_then_13_then_14() {
    let f = layout_f();
    assert_eq!(span(&f, 1, 5, 4), Err(WINDOW));
    assert_eq!(span(&f, 1, 1, 0), Err(WINDOW));
    assert_eq!(span(&f, 1, u64::MAX, END), Err(WINDOW));
    assert_eq!(span(&f, 1, 1, 4), Err(BEFORE));
    assert_eq!(span(&f, 1, 1, 1), Err(BEFORE));
    assert_eq!(span(&f, 1, 1, u64::MAX), Err(BEFORE));
    assert_eq!(span(&f, 1, 2, END), Err(FAR));
    assert_eq!(span(&f, 1, END, END), Err(FAR));
    assert!(span(&f, 1, END - 1, END - 1).is_ok());
}

/// Every call reads its sheet first: interlaced siblings, sizes that add up over an overlap and a hole, and a byte too many.
#[test]
fn a_refused_sheet_goes_first() {
    let interlaced = sheet(&layout(vec![vec![family(0, 1, 6, 2), family(3, 3, 6, 2)]]));
    let cancelled = sheet(&layout(vec![vec![run(0, 1)], vec![run(1, 1), run(3, 3)]]));
    let whole = sheet(&layout_f());
    let followed = [whole.clone(), vec![0]].concat();
    let refused = |number, place, flag| Answer { number, sheet: 1, place, flag, ..Answer::default() };
    let sheets = [(interlaced, refused(ORDER, 38, 0)), (cancelled, refused(COVER, 1, OVERLAP)), (followed, refused(TRAILING, 94, 0))];
    for (sheet, expected) in sheets {
        for call in [EXACT, NEXT, INVERSE] {
            assert_eq!(answer(&Frame::mapping(call, sheet.clone(), 0, 0)), expected);
            assert_eq!(answer(&Frame::mapping(call, sheet.clone(), u64::MAX, u64::MAX)), expected);
        }
        assert_eq!(answer(&Frame::interval_span(sheet, u64::MAX, (1, 0))), expected);
    }
}
