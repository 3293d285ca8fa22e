//! A difference is told so that a person can see the call, the two lines and where they part.

use comparison::calls::answer;
use comparison::figures::{layout_b, layout_f, slots, LISTING_F};
use comparison::frame::{Answer, Frame, EXACT, INVERSE, NEXT};
use comparison::spelled::difference;
use comparison::write::sheet;

fn told(frame: &Frame) -> String {
    difference(Some(frame), "0 0 0 0 2 0 0 -", Some("16 0 0 0 0 0 0 -"))
}

#[test]
fn a_call_in_the_words_of_01() {
    let f = || sheet(&layout_f());
    let first_line = |frame: &Frame| told(frame).lines().next().map(String::from);
    let lines = [
        (Frame::check(f()), "check"),
        (Frame::mapping(EXACT, f(), 1, 10), "exact mapping of file offset 10 in element 1"),
        (Frame::mapping(NEXT, f(), 1, 6), "next mapping of file offset 6 in element 1"),
        (Frame::mapping(INVERSE, f(), 1, 2), "inverse: the file offset of byte 2 of element 1"),
        (Frame::interval_span(f(), 1, (4, 11)), "interval span from file offset 4 to 11, both meant, in element 1"),
        (Frame::gather(f(), 1, (2, 14), vec![7; 12], vec![0; 4]), "gather of the bytes of element 1 in the window [2, 14)"),
        (Frame::scatter(f(), 2, (2, 14), vec![7; 4], vec![0; 12]), "scatter of the bytes of element 2 in the window [2, 14)"),
        (
            Frame::tray_move([f(), sheet(&layout_b())], (2, 14), [vec![7; 12], vec![0; 12]]),
            "move from the tray of sheet 1 to the tray of sheet 2 in the window [2, 14)",
        ),
        (
            Frame::pair_move([f(), sheet(&layout_b())], [2, 1], (2, 14), [vec![7; 12], vec![0; 12]]),
            "pair move of the bytes shared by element 2 of sheet 1 and element 1 of sheet 2 in the window [2, 14)",
        ),
        (
            Frame::shared_runs([f(), sheet(&layout_b())], [1, 0], (2, 14), slots(9)),
            "shared runs of element 1 of sheet 1 and element 0 of sheet 2 in the window [2, 14), a list of 9 slots",
        ),
        (Frame::listing(f(), vec![0; 130]), "listing, into a buffer of 130 bytes"),
        (Frame::packed_length(f(), 1, (2, 14)), "packed length of element 1 in the window [2, 14)"),
    ];
    for (frame, line) in lines {
        assert_eq!(first_line(&frame).as_deref(), Some(line));
    }
}

#[test]
fn sheets_and_lines_are_shown() {
    let both = told(&Frame::shared_runs([sheet(&layout_f()), sheet(&layout_b())], [1, 0], (2, 14), slots(9)));
    for part in ["sheet 1, 94 bytes", "header, displacement 2, 3 elements", "sheet 2, 66 bytes", "family (1,1,2,2) with 0 children"] {
        assert!(both.contains(part), "{both}");
    }
    assert!(both.contains("'16 0 0 0 0 0 0 -': FOREIGN; sheet 0, place 0, values 0, 0 and 0, no buffer"), "{both}");
    assert!(difference(None, "bad frame", None).contains("nothing: the lines end"));
}

#[test]
fn both_buffers_are_shown_with_their_names() {
    let (f, b) = (sheet(&layout_f()), sheet(&layout_b()));
    let (bytes, zeros) = (|many: usize| vec![171; many], |many: usize| vec![0; many]);
    let shown = [
        (
            Frame::gather(f.clone(), 1, (2, 5), bytes(3), zeros(1)),
            ["  the file buffer, 3 bytes: ab ab ab\n", "  the packed buffer before the call, 1 bytes: 00\n"],
        ),
        (
            Frame::scatter(f.clone(), 1, (2, 5), bytes(1), zeros(3)),
            ["  the packed buffer, 1 bytes: ab\n", "  the file buffer before the call, 3 bytes: 00 00 00\n"],
        ),
        (
            Frame::tray_move([f.clone(), b.clone()], (2, 4), [bytes(2), zeros(2)]),
            ["  the tray of sheet 1, 2 bytes: ab ab\n", "  the tray of sheet 2 before the call, 2 bytes: 00 00\n"],
        ),
        (
            Frame::pair_move([f, b], [0, 0], (2, 4), [bytes(2), zeros(2)]),
            ["sheet 2, 66 bytes", "  the tray of sheet 2 before the call, 2 bytes: 00 00\n"],
        ),
    ];
    for (frame, parts) in shown {
        let told = told(&frame);
        assert!(parts.iter().all(|part| told.contains(part)), "{told}");
    }
}

/// B's tray of [2, 14) has 2 4 6 8 10 12 and then 3 5 ..
#[test]
fn a_byte_that_differs_is_told_with_its_file_offset() {
    let frame = Frame::tray_move([sheet(&layout_f()), sheet(&layout_b())], (2, 14), [(0..12).collect(), vec![0; 12]]);
    let right = answer(&frame);
    let mut wrong = right.clone();
    wrong.into[7] = 255;
    let told_of = |frame: &Frame, printed: &str| difference(Some(frame), &right.line(), Some(printed));
    let told = told_of(&frame, &wrong.line());
    assert!(told.ends_with("the buffers differ at byte 7: file offset 5 is to be 05, and is ff"), "{told}");
    // A buffer that is too short, and one of a call that is refused.
    wrong.into.truncate(7);
    assert!(told_of(&frame, &wrong.line()).ends_with("at byte 7: file offset 5 is to be 05, and is no byte"));
    assert!(told_of(&Frame { b: 13, ..frame }, &wrong.line()).ends_with("at byte 7: it is to be 05, and is no byte"));
}

#[test]
fn a_text_that_differs_is_told_in_words() {
    let frame = Frame::listing(sheet(&layout_f()), vec![238; 130]);
    let right = answer(&frame);
    let told_of = |wrong: &Answer| difference(Some(&frame), &right.line(), Some(&wrong.line()));
    let mut wrong = right.clone();
    // The first offset of element 1, which stands at the end of its line.
    wrong.into[LISTING_F.find("first 2").expect("F has such a line") + 6] = b'4';
    let told = told_of(&wrong);
    assert!(told.contains("the text buffer before the call, 130 bytes: ee ee"), "{told}");
    assert!(told.contains("  the text\n    layout displacement 2 size 6 elements 3\n    0 size 2 families 1 first 0\n"), "{told}");
    assert!(told.ends_with("the text there is to be '1 size 2 families 1 first 2', and is '1 size 2 families 1 first 4'"), "{told}");
    // A text that ends early, and a byte behind the text that did not stay.
    wrong.into.truncate(50);
    assert!(told_of(&wrong).ends_with("is to be '0 size 2 families 1 first 0', and is '0 size 2 f'"), "{}", told_of(&wrong));
    wrong.into = right.into.clone();
    wrong.into[129] = 0;
    assert!(told_of(&wrong)
        .ends_with("at byte 129: the text there is to be '\\xee\\xee\\xee\\xee\\xee\\xee', and is '\\xee\\xee\\xee\\xee\\xee\\x00'"));
}

#[test]
fn long_buffers_are_cut_and_their_difference_is_found() {
    let answer = Answer { value: 2, into: slots(1_000), ..Answer::default() };
    let mut other = answer.clone();
    other.into[8 * 700..8 * 701].copy_from_slice(&5_u64.to_le_bytes());
    let told = difference(None, &answer.line(), Some(&other.line()));
    assert!(told.len() < 1_000);
    assert!(told.contains(&format!("at byte 5600: slot 700 is to be {}, and is 5", !700_u64)), "{told}");
}
