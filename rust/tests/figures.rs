//! The figures of 01, and the order in which it names faults, with the answers that the paper gives.

use comparison::calls::answer;
use comparison::figures::{figures, layout_c, layout_f};
use comparison::frame::{Answer, Frame};
use comparison::layout::{family, layout, run, Family, Layout};
use comparison::refusal::{Refusal, COUNT, COVER, DEPTH, HOLE, KIND, LENGTH, MANY, ORDER, OVERLAP, SEGMENT, SHORT, SPAN, TRAILING};
use comparison::sheet::read;
use comparison::write::{bytes, records, sheet, Record};

#[test]
fn every_figure_is_as_printed() {
    for figure in figures() {
        assert_eq!(answer(&figure.frame), figure.answer, "{}", figure.name);
    }
}

/// As in the first line of 01's listing: the pattern's size, how many elements share it, and where it starts.
#[test]
fn check_tells_size_count_and_displacement() {
    let told = |layout: &Layout| answer(&Frame::check(sheet(layout)));
    assert_eq!(told(&layout_f()), Answer { value: 6, value2: 3, value3: 2, ..Answer::default() });
    assert_eq!(told(&layout_c()), Answer { value: 1_920, value2: 4, ..Answer::default() });
    let last = Layout { displacement: u32::MAX, ..layout_f() };
    assert_eq!(told(&last).line(), "0 0 0 0 6 3 4294967295 -");
}

#[test]
fn layout_f_has_94_bytes_and_the_longest_sheet_5738() {
    assert_eq!(sheet(&layout_f()).len(), 94);
    let longest = layout((0..16).map(|e| (0..16).map(|k| run(16 * e + k, 16 * e + k)).collect()).collect());
    assert_eq!(sheet(&longest).len(), 5_738);
    assert_eq!(read(&sheet(&longest)), Ok(longest));
}

fn refused(number: u8, place: usize) -> Result<Layout, Refusal> {
    Err(Refusal::at(number, place))
}

fn of(families: Vec<Family>) -> Result<Layout, Refusal> {
    read(&sheet(&layout(vec![families])))
}

/// The sheet of layout F after a change of its records.
fn changed(change: impl Fn(&mut Vec<Record>)) -> Vec<u8> {
    let mut list = records(&layout_f());
    change(&mut list);
    bytes(&list)
}

#[test]
fn short_then_kind_then_length_then_a_cut_body() {
    // The second family of F starts at 10 + 6 + 22 + 6; its record is the fifth.
    let (at, fifth) = (44, 4);
    let wrong_kind = changed(|list| (list[fifth].kind, list[fifth].length) = (2, 9));
    let wrong_length = changed(|list| list[fifth].length = 9);
    let right = changed(|_| ());
    assert_eq!(read(&wrong_kind), refused(KIND, at));
    assert_eq!(read(&wrong_kind[..at + 3]), refused(SHORT, at));
    assert_eq!(read(&wrong_kind[..at + 4]), refused(KIND, at));
    assert_eq!(read(&wrong_length[..at + 4]), refused(LENGTH, at));
    assert_eq!(read(&right[..at + 21]), refused(SHORT, at));
    assert_eq!(read(&right[..at]), refused(SHORT, at));
}

#[test]
fn four_to_nine_ascending() {
    let bytes_of = |many: u32| (0..many).map(|x| run(x, x)).collect::<Vec<Family>>();
    let family_257 = 10 + 6 + 256 * 22;
    assert_eq!(of(bytes_of(257)), refused(MANY, family_257));
    assert_eq!(of([bytes_of(256), vec![family(0, 0, 0, 0)]].concat()), refused(MANY, family_257));
    assert_eq!(of(vec![family(0, 65_536, 1, 2)]), refused(SEGMENT, 16));
    assert_eq!(of(vec![run(0, 3), run(2, 65_536)]), refused(SPAN, 38));
    assert_eq!(of(vec![run(0, 3), run(3, 5)]), refused(ORDER, 38));
    let deep =
        |innermost: Family| of(vec![run(0, 3).with(vec![run(0, 3).with(vec![run(0, 3).with(vec![innermost.with(vec![run(0, 0)])])])])]);
    assert_eq!(deep(run(0, 3)), refused(DEPTH, 16 + 3 * 22));
    assert_eq!(deep(run(0, 4)), refused(SPAN, 16 + 3 * 22));
    assert_eq!(deep(family(0, 3, 1, 1)), refused(SEGMENT, 16 + 3 * 22));
}

#[test]
fn counts_at_their_record() {
    for count in [0, 17, 65_535] {
        assert_eq!(read(&changed(|list| list[0].set_count(count))), refused(COUNT, 0));
    }
    assert_eq!(read(&changed(|list| list[1].set_count(0))), refused(COUNT, 10));
    // One element fewer than there are: its record is the first byte too many. One more: nothing is there.
    assert_eq!(read(&changed(|list| list[0].set_count(2))), refused(TRAILING, 66));
    assert_eq!(read(&changed(|list| list[0].set_count(4))), refused(SHORT, 94));
}

#[test]
fn trailing_before_hole_and_the_first_fault_alone() {
    let hole = Err(Refusal { number: COVER, place: 1, flag: HOLE });
    let both = sheet(&layout(vec![vec![run(0, 0), run(2, 3)], vec![run(3, 3)]]));
    assert_eq!(read(&both), hole);
    assert_eq!(read(&[both.clone(), vec![0]].concat()), refused(TRAILING, both.len()));
    let overlap = Err(Refusal { number: COVER, place: 0, flag: OVERLAP });
    assert_eq!(read(&sheet(&layout(vec![vec![run(0, 65_535)]; 16]))), overlap);
}
