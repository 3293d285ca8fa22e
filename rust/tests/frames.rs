//! What the frames reach, that a frame can be read back, and that its bad ends are bad.

use comparison::bad;
use comparison::calls::{answer, printed};
use comparison::element::Element;
use comparison::frame::{has_two_sheets, Answer, Frame};
use comparison::frame::{
    CHECK, EXACT, GATHER, INTERVAL_SPAN, INVERSE, KNOWN, LISTING, MOVE, NEXT, PACKED_LENGTH, PAIR_MOVE, SCATTER, SHARED_RUNS,
};
use comparison::generate::{bad_end, by_chance, frames, KEPT};
use comparison::refusal::{BEFORE, BUFFER, COVER, ELEMENT, FAR, FOREIGN, HOLE, NO_FLAG, OVERLAP, ROOM, WINDOW};
use comparison::sheet::read;
use comparison::transfers::TRANSFERS;
use comparison::unused::{self, with_unused};
use std::sync::OnceLock;

/// How often each refusal is to be met, by call 1 in a sheet and by the other calls in what else they check.
const OFTEN: usize = 15;

/// The kept frames, and the answer to each.
fn kept() -> &'static [(Frame, Answer)] {
    static KEPT_FRAMES: OnceLock<Vec<(Frame, Answer)>> = OnceLock::new();
    KEPT_FRAMES.get_or_init(|| frames(KEPT.0, KEPT.1).into_iter().map(answered).collect())
}

fn answered(frame: Frame) -> (Frame, Answer) {
    let answer = answer(&frame);
    (frame, answer)
}

fn answers(call: u8) -> Vec<&'static Answer> {
    kept().iter().filter(|(frame, _)| frame.call == call).map(|(_, answer)| answer).collect()
}

#[test]
fn as_many_frames_by_chance_as_asked_for() {
    let fixed = frames(1, 0).len();
    for count in [1, 2, 3, 10, 77] {
        assert_eq!(frames(1, count).len(), fixed + count);
    }
}

/// Numbers 1 to 18, and both flags of 11, over all calls.
#[test]
fn every_refusal_is_met_often() {
    let unflagged = (1..=18).filter(|number| *number != COVER).map(|number| (number, NO_FLAG));
    for refusal in unflagged.chain([(COVER, HOLE), (COVER, OVERLAP)]) {
        let met = kept().iter().filter(|(_, answer)| (answer.number, answer.flag) == refusal).count();
        assert!(met >= OFTEN, "number {} with flag {} is met {met} times", refusal.0, refusal.1);
    }
}

/// Who prints one of them in another's place, or leaves one out, is found out.
#[test]
fn the_three_values_of_check_can_be_told_apart() {
    let accepted = answers(CHECK).into_iter().filter(|answer| answer.number == 0);
    let apart = |answer: &&Answer| answer.value != answer.value2 && ![0, answer.value, answer.value2].contains(&answer.value3);
    let met = accepted.filter(apart).count();
    assert!(met >= 4 * OFTEN, "{met} answers have three values");
}

#[test]
fn check_meets_every_refusal_of_a_sheet_often() {
    let answers = answers(CHECK);
    let met = |number: u8, flag: u8| answers.iter().filter(|answer| answer.number == number && answer.flag == flag).count();
    for number in 0..=10 {
        assert!(met(number, NO_FLAG) >= OFTEN, "number {number} is met {} times", met(number, NO_FLAG));
    }
    for flag in [HOLE, OVERLAP] {
        assert!(met(11, flag) >= OFTEN, "flag {flag} is met {} times", met(11, flag));
    }
}

#[test]
fn every_other_call_meets_its_own_refusals_often_and_no_others() {
    let own: [(u8, &[u8]); 10] = [
        (EXACT, &[0, ELEMENT, BEFORE, FAR, FOREIGN]),
        (NEXT, &[0, ELEMENT, BEFORE, FAR]),
        (INVERSE, &[0, ELEMENT, FAR]),
        (INTERVAL_SPAN, &[0, ELEMENT, BEFORE, FAR, WINDOW]),
        (GATHER, &[0, ELEMENT, BEFORE, FAR, WINDOW, BUFFER]),
        (SCATTER, &[0, ELEMENT, BEFORE, FAR, WINDOW, BUFFER]),
        // The one call without an element index.
        (MOVE, &[0, BEFORE, FAR, WINDOW, BUFFER]),
        (PAIR_MOVE, &[0, ELEMENT, BEFORE, FAR, WINDOW, BUFFER]),
        (SHARED_RUNS, &[0, ELEMENT, BEFORE, FAR, WINDOW, ROOM]),
        (PACKED_LENGTH, &[0, ELEMENT, BEFORE, FAR, WINDOW]),
    ];
    for (call, own) in own {
        let answers = answers(call);
        let met = |number: u8| answers.iter().filter(|answer| answer.number == number).count();
        for number in own {
            assert!(met(*number) >= OFTEN, "call {call}: number {number} is met {} times", met(*number));
        }
        let sheets = (1..=11).map(met).sum::<usize>();
        assert!(sheets >= OFTEN, "call {call}: {sheets} sheets are refused");
        assert_eq!(own.iter().map(|number| met(*number)).sum::<usize>() + sheets, answers.len(), "call {call}");
    }
}

/// A refused sheet has a text, and so has an accepted one.
#[test]
fn listing_writes_every_line_often_and_refuses_a_buffer_alone() {
    let answers = answers(LISTING);
    let (written, refused): (Vec<&Answer>, Vec<&Answer>) = answers.iter().partition(|answer| answer.number == 0);
    assert!(refused.len() >= OFTEN && refused.iter().all(|answer| answer.number == BUFFER));
    let text = |answer: &Answer| String::from_utf8_lossy(&answer.into[..answer.value as usize]).into_owned();
    let texts: Vec<String> = written.into_iter().map(text).collect();
    let met = |front: &str, end: &str| texts.iter().filter(|text| text.starts_with(front) && text.ends_with(end)).count();
    let numbers = (1..=10).map(|number| (format!("refused {number} at "), "\n"));
    let flags = [" hole\n", " overlap\n"].map(|end| (String::from("refused 11 at "), end));
    for (front, end) in numbers.chain(flags).chain([(String::from("layout displacement "), "\n")]) {
        assert!(met(&front, end) >= 10, "'{front}' is met {} times", met(&front, end));
    }
}

/// But for number 5: a sheet of 257 families is long, and only call 1 has some. A listing refuses no sheet.
#[test]
fn every_call_meets_every_refusal_of_a_sheet() {
    for call in KNOWN.into_iter().filter(|call| *call != LISTING) {
        let answers = answers(call);
        let met = |number: u8, flag: u8, sheet: u8| answers.iter().any(|a| (a.number, a.flag, a.sheet) == (number, flag, sheet));
        for sheet in if has_two_sheets(call) { vec![1, 2] } else { vec![1] } {
            let unflagged = [1, 2, 3, 4, 6, 7, 8, 9, 10].into_iter().all(|number| met(number, NO_FLAG, sheet));
            assert!(unflagged && met(11, HOLE, sheet) && met(11, OVERLAP, sheet), "call {call}, sheet {sheet}");
        }
    }
}

#[test]
fn either_sheet_is_refused_often_and_no_sheet_is_named_where_none_is_at_fault() {
    for call in KNOWN.into_iter().filter(|call| has_two_sheets(*call)) {
        let answers = answers(call);
        for sheet in [1, 2] {
            assert!(answers.iter().filter(|answer| answer.sheet == sheet).count() >= 5, "call {call}");
        }
        assert!(answers.iter().all(|answer| (answer.sheet > 0) == (1..=11).contains(&answer.number)), "call {call}");
    }
}

#[test]
fn runs_are_long_and_many_now_and_then() {
    let answers = answers(SHARED_RUNS);
    let with = |meets: fn(&Answer) -> bool| answers.iter().filter(|answer| meets(answer)).count();
    assert!(with(|answer| answer.number == 0 && answer.value >= 1) >= 4 * OFTEN);
    assert!(with(|answer| answer.number == 0 && answer.value >= 5) >= OFTEN);
    assert!(with(|answer| answer.number == 0 && answer.value == 0 && answer.into.is_empty()) >= 5);
    assert!(with(|answer| answer.into.len() % 8 != 0) >= OFTEN);
    assert!(with(|answer| answer.into.len() > 1_024) <= 10);
}

/// Who answers the window's length, the rank of its end, or what one pattern has of it, is found out.
#[test]
fn a_packed_length_can_be_told_from_other_counts() {
    let accepted = kept().iter().filter(|(frame, answer)| frame.call == PACKED_LENGTH && answer.number == 0);
    let element = |frame: &Frame| Element::of(&read(&frame.sheet1).expect("the sheet is accepted"), frame.i as usize);
    let apart = |frame: &Frame, length: u64| {
        let element = element(frame);
        ![0, frame.b - frame.a, element.rank(frame.b), element.rank(frame.a)].contains(&length) && length > element.size()
    };
    let met = accepted.filter(|(frame, answer)| apart(frame, answer.value)).count();
    assert!(met >= 4 * OFTEN, "{met} packed lengths are no other count");
}

/// The frames of a call that are accepted, with the destination after it.
fn carried(call: u8) -> Vec<(&'static Frame, &'static Vec<u8>)> {
    let accepted = kept().iter().filter(|(frame, answer)| frame.call == call && answer.number == 0);
    accepted.map(|(frame, answer)| (frame, &answer.into)).collect()
}

/// Who copies nothing, or plainly from the source's front, is found out by each call of 6 to 9; and by a pair move, who moves all.
#[test]
fn what_is_carried_can_be_told_from_what_is_not() {
    for call in TRANSFERS {
        let carried = carried(call);
        let with = |meets: &dyn Fn(&Frame, &Vec<u8>) -> bool| carried.iter().filter(|(frame, into)| meets(frame, into)).count();
        let copied = |frame: &Frame, into: &Vec<u8>| frame.from.iter().zip(into).all(|(from, into)| from == into);
        let idle = with(&|frame, into| frame.into == *into && !frame.into.is_empty());
        let works = with(&|frame, into| frame.into != *into && !copied(frame, into));
        assert!(works >= 4 * OFTEN, "call {call}: {works} of {} are no plain copy", carried.len());
        assert!(call != PAIR_MOVE || idle >= OFTEN, "{idle} pairs share nothing");
        let moves_all = |frame: &Frame| answer(&Frame { call: MOVE, i: 0, j: 0, ..frame.clone() }).into;
        let partly = with(&|frame, into| call == PAIR_MOVE && frame.into != *into && moves_all(frame) != *into);
        assert!(call != PAIR_MOVE || partly >= 4 * OFTEN, "{partly} pairs share a part");
        let empty = with(&|frame, _| frame.a == frame.b);
        let at_the_end = with(&|frame, _| frame.b == 1 << 40 && frame.a < frame.b);
        assert!(empty >= OFTEN && at_the_end >= OFTEN, "call {call}: {empty} empty windows, {at_the_end} at the end");
    }
}

/// Buffers are short but for a few, since they stand in the frames and in the lines.
#[test]
fn few_buffers_are_long() {
    for call in TRANSFERS {
        let longest: Vec<usize> = carried(call).iter().map(|(frame, into)| frame.from.len().max(into.len())).collect();
        let above = |length: usize| longest.iter().filter(|longest| **longest > length).count();
        assert!((2..=10).contains(&above(1_500)), "call {call}: {} of more than 1,500 bytes", above(1_500));
        assert!(above(2_048) >= 1, "call {call}: none of more than 2,048 bytes");
        assert!(above(300) <= 25 && above(8_000) == 0, "call {call}: {} of more than 300 bytes", above(300));
    }
}

/// What a call does not use is 0 or empty, but in the few frames that are there to fill it.
#[test]
fn a_frame_has_nothing_that_its_call_does_not_use() {
    let filled = unused::frames();
    assert!(filled.len() <= 50);
    for (frame, _) in kept() {
        assert!(with_unused(frame, &Frame::default()) == *frame || filled.contains(frame));
    }
}

#[test]
fn what_a_call_does_not_use_changes_nothing() {
    let filled = unused::frames();
    for frame in &filled {
        let plain = with_unused(frame, &Frame::default());
        assert_ne!(plain, *frame);
        // A buffer that is not used stays.
        let into = if plain.into.is_empty() { frame.into.clone() } else { answer(&plain).into };
        assert_eq!(answer(frame), Answer { into, ..answer(&plain) });
    }
    for call in KNOWN.into_iter().filter(|call| *call != PAIR_MOVE) {
        let refused = |refused: bool| filled.iter().any(|frame| frame.call == call && (answer(frame).number > 0) == refused);
        assert!(refused(false) && (refused(true) || call == LISTING), "call {call}");
    }
}

#[test]
fn the_kept_frames_are_many_of_every_call() {
    assert!(kept().len() >= 5_500, "{} frames", kept().len());
    for call in KNOWN {
        assert!(answers(call).len() >= 300, "call {call}: {} frames", answers(call).len());
    }
}

#[test]
fn the_kept_frames_are_few_enough_to_keep() {
    let bytes = kept().iter().map(|(frame, _)| frame.bytes().len()).sum::<usize>() + bad_end(KEPT.0).len();
    assert!(bytes < 2_500_000, "{bytes} bytes");
}

/// Of many seeds: two faults in one sheet must not stop the program that makes them, nor a window that is too long the one that answers.
#[test]
fn every_frame_is_read_back_and_answered() {
    let seeds = (0..40).flat_map(|seed| KNOWN.into_iter().flat_map(move |call| by_chance(call, seed, 25)));
    for (frame, answer) in seeds.map(answered).chain(kept().iter().cloned()) {
        let bytes = [frame.bytes(), vec![7]].concat();
        assert_eq!(answer.into.len(), frame.into.len());
        assert_eq!(Frame::read(&bytes), Some((frame, &[7][..])));
    }
}

#[test]
fn a_bad_end_is_no_frame_and_each_is_some_seeds() {
    let ends = bad::ends();
    for (seed, (name, end)) in ends.iter().enumerate() {
        assert_eq!(bad_end(seed as u64), *end);
        assert_eq!(printed(end), "bad frame\n", "{name}");
    }
    // The kept frames' is whole but for its length.
    assert_eq!(ends[(KEPT.0 % ends.len() as u64) as usize].0, "whole-but-a-byte-too-long");
}

#[test]
fn lines_are_as_the_program_prints_them() {
    let some = Answer { number: 18, place: 1 << 39, into: vec![0, 10, 255], ..Answer::default() };
    assert_eq!(some.line(), "18 0 549755813888 0 0 0 0 000aff");
    let none = Answer { value: 6, value2: 3, value3: 2, ..Answer::default() };
    assert_eq!(none.line(), "0 0 0 0 6 3 2 -");
}
