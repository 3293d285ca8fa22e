//! Call 11: 01's lines by hand, every line of a refused sheet, and what stands in the buffer.

use comparison::bounds::one_of_each;
use comparison::calls::answer;
use comparison::figures::{inner_pairs, layout_c, layout_f, LISTING_F};
use comparison::frame::{Answer, Frame};
use comparison::layout::{layout, run, Layout};
use comparison::listing::text;
use comparison::refusal::BUFFER;
use comparison::shapes::fullest;
use comparison::write::sheet;

fn listing(layout: &Layout) -> String {
    text(&sheet(layout))
}

#[test]
fn the_listing_of_the_panel() {
    let lines = [
        "layout displacement 0 size 1920 elements 4\n",
        "0 size 480 families 1 first 0\n",
        "1 size 480 families 1 first 20\n",
        "2 size 480 families 1 first 40\n",
        "3 size 480 families 1 first 60\n",
    ];
    assert_eq!(listing(&layout_c()), lines.concat());
}

#[test]
fn families_are_counted_at_all_levels() {
    let lines = [
        "layout displacement 0 size 32 elements 3\n",
        "0 size 8 families 2 first 0\n",
        "1 size 16 families 3 first 2\n",
        "2 size 8 families 1 first 8\n",
    ];
    assert_eq!(listing(&inner_pairs()), lines.concat());
}

/// The elements stand in the sheet's order, and an offset of the pattern is without the displacement.
#[test]
fn the_first_offset_is_one_of_the_pattern() {
    let turned = Layout { displacement: u32::MAX, ..layout(vec![vec![run(5, 6)], vec![run(0, 4)]]) };
    let lines = ["layout displacement 4294967295 size 7 elements 2\n", "0 size 2 families 1 first 5\n", "1 size 5 families 1 first 0\n"];
    assert_eq!(listing(&turned), lines.concat());
    // What is first is what the children select.
    let inner = layout(vec![vec![run(0, 3).with(vec![run(2, 3)])], vec![run(0, 1)]]);
    assert_eq!(listing(&inner).lines().nth(1), Some("0 size 2 families 2 first 2"));
}

#[test]
fn the_line_of_every_refusal() {
    let lines = [
        "refused 6 at 16\n",
        "refused 7 at 16\n",
        "refused 8 at 38\n",
        "refused 9 at 82\n",
        "refused 11 at 2 hole\n",
        "refused 11 at 1 overlap\n",
        "refused 1 at 0\n",
        "refused 1 at 72\n",
        "refused 2 at 10\n",
        "refused 3 at 16\n",
        "refused 4 at 0\n",
        "refused 10 at 94\n",
    ];
    assert_eq!(one_of_each().iter().map(|sheet| text(sheet)).collect::<Vec<String>>(), lines);
    let many = layout(vec![(0..257).map(|x| run(x, x)).collect()]);
    assert_eq!(listing(&many), "refused 5 at 5648\n");
}

/// 54 bytes for the layout's line, and 24 for the words, spaces and newline of each element's. Of the sixteen, the indexes have 22 digits.
/// The sizes have 69, five times five and eleven times four: they add up to 65,536. The families have 33, three and fifteen times two: they
/// add up to 256. The first offsets have 76: one of them is 0.
#[test]
fn the_longest_text_has_638_bytes() {
    assert_eq!(listing(&fullest()).len(), 54 + 16 * 24 + 22 + 69 + 33 + 76);
    assert_eq!(listing(&fullest()).len(), 638);
    assert_eq!(listing(&fullest()).lines().last(), Some("15 size 1416 families 16 first 64120"));
}

fn ask(sheet: &[u8], buffer: &[u8]) -> Answer {
    answer(&Frame::listing(sheet.to_vec(), buffer.to_vec()))
}

#[test]
fn the_text_stands_at_the_front_and_later_bytes_stay() {
    let f = sheet(&layout_f());
    let before: Vec<u8> = (0..200).collect();
    for more in [0, 1, 2, 50] {
        let length = LISTING_F.len() + more;
        let into = [LISTING_F.as_bytes(), &before[LISTING_F.len()..length]].concat();
        assert_eq!(ask(&f, &before[..length]), Answer { value: LISTING_F.len() as u64, into, ..Answer::default() });
    }
}

#[test]
fn a_refused_sheet_is_no_refused_call() {
    for sheet in one_of_each() {
        let text = text(&sheet).into_bytes();
        let expected = Answer { value: text.len() as u64, into: [&text, &b"stays"[..]].concat(), ..Answer::default() };
        assert_eq!(ask(&sheet, &[vec![0; text.len()], b"stays".to_vec()].concat()), expected);
    }
}

/// BUFFER names no sheet and no place, and nothing is written: also where the sheet is refused.
#[test]
fn a_buffer_that_is_too_short_stays() {
    for sheet in one_of_each().into_iter().chain([sheet(&layout_f()), sheet(&fullest())]) {
        let length = text(&sheet).len();
        for short in [0, 1, length / 2, length - 1] {
            let buffer = vec![238; short];
            assert_eq!(ask(&sheet, &buffer), Answer { number: BUFFER, into: buffer, ..Answer::default() });
        }
    }
}
