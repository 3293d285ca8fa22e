//! 02's laws: this crate's reading of 01 keeps them, each is broken by a program that seems right to the others, and a program that cannot be
//! asked is told.

use comparison::asking::Program;
use comparison::calls::answer;
use comparison::element::{Element, END};
use comparison::figures::layout_f;
use comparison::frame::{Answer, Frame, GATHER, INVERSE, NEXT, PACKED_LENGTH, SCATTER};
use comparison::laws::{
    try_all, GATHER_THEN_SCATTER, NEXT_AT_MOST, NEXT_AT_MOST_FAR, SCATTERS_IN_EITHER_ORDER, SCATTER_THEN_GATHER, SCATTER_THEN_SCATTER,
};
use comparison::refusal::{BUFFER, FAR};
use comparison::sheet::read;
use comparison::write::sheet;
use std::collections::BTreeMap;

#[test]
fn the_reading_of_01_keeps_the_laws() {
    let mut asked: BTreeMap<u8, usize> = BTreeMap::new();
    let (mut empty, mut last, mut far) = (0, 0, 0);
    let tried = try_all(21, 400, &mut |frame| {
        let given = answer(frame);
        *asked.entry(frame.call).or_default() += 1;
        empty += usize::from(frame.call == GATHER && frame.into.is_empty());
        last += usize::from(frame.call == NEXT && frame.a >= END - 100);
        far += usize::from(frame.call == INVERSE && given.number == FAR);
        Ok(given)
    });
    assert_eq!(tried, Ok(()));
    // Nearly every layout has two elements, and most windows have bytes of them.
    assert!(asked[&GATHER] == 800 && asked[&SCATTER] > 2_200, "{asked:?}");
    assert!((1..200).contains(&empty), "{empty} gathers of nothing");
    // Four cuts a layout, and four marks where none is before the displacement or from 2^40 on; of both many near 2^40.
    assert!(asked[&INVERSE] >= 1_400 && asked[&NEXT] >= 1_200, "{asked:?}");
    assert!(last > 80 && (80..400).contains(&far), "{last} marks among the last offsets, {far} cuts past them");
}

/// The answers of a program that is wrong in its accepted scatters alone: `wrong` changes what a scatter leaves of the bytes of other
/// elements, where it changes any byte at all.
fn with_wrong_scatter(frame: &Frame, wrong: impl Fn(&mut u8)) -> Answer {
    let mut given = answer(frame);
    if frame.call == SCATTER && given.into != frame.into {
        let element = element_of(frame);
        let foreign = given.into.iter_mut().zip(frame.a..).filter(|(_, x)| !element.has(*x));
        foreign.for_each(|(byte, _)| wrong(byte));
    }
    given
}

/// The element that a call is about.
fn element_of(frame: &Frame) -> Element {
    Element::of(&read(&frame.sheet1).expect("it is accepted"), frame.i as usize)
}

/// The answers of a program that is wrong in an accepted call alone: `wrong` gives its value.
fn with_wrong_value(frame: &Frame, call: u8, wrong: impl Fn(u64) -> u64) -> Answer {
    let given = answer(frame);
    if frame.call != call || given.number > 0 {
        return given;
    }
    Answer { value: wrong(given.value), ..given }
}

/// What is told of the law that a program breaks first.
fn broken(mut program: impl FnMut(&Frame) -> Answer) -> String {
    let told = try_all(22, 400, &mut |frame| Ok(program(frame))).expect_err("it breaks a law");
    String::from(told.lines().next().unwrap_or_default())
}

#[test]
fn each_law_is_broken_by_a_program_that_keeps_those_before_it() {
    let leaves_packed = |frame: &Frame| match frame.call {
        GATHER => Answer { into: frame.into.clone(), ..answer(frame) },
        _ => answer(frame),
    };
    let leaves_file = |frame: &Frame| match frame.call {
        SCATTER => Answer { into: frame.into.clone(), ..answer(frame) },
        _ => answer(frame),
    };
    let counts_scatters = |frame: &Frame| with_wrong_scatter(frame, |byte| *byte = byte.wrapping_add(1));
    let clears_others = |frame: &Frame| with_wrong_scatter(frame, |byte| *byte = 0);
    // In the gap before the byte, right behind the one before it.
    let stops_in_the_gap = |frame: &Frame| {
        let behind = |y: u64| element_of(frame).byte(y).map_or(0, |x| x + 1);
        with_wrong_value(frame, INVERSE, |_| frame.a.checked_sub(1).map_or(element_of(frame).displacement(), behind))
    };
    let counts_the_mark_itself = |frame: &Frame| with_wrong_value(frame, NEXT, |rank| rank + u64::from(element_of(frame).has(frame.a)));
    let gives_up_early = |frame: &Frame| match answer(frame) {
        given if frame.call == INVERSE && given.value >= END - 50 => Answer { number: FAR, value: 0, ..given },
        given => given,
    };
    let programs = [
        (broken(leaves_packed), GATHER_THEN_SCATTER),
        (broken(leaves_file), SCATTER_THEN_GATHER),
        (broken(counts_scatters), SCATTER_THEN_SCATTER),
        (broken(clears_others), SCATTERS_IN_EITHER_ORDER),
        (broken(stops_in_the_gap), NEXT_AT_MOST),
        (broken(counts_the_mark_itself), NEXT_AT_MOST),
        (broken(gives_up_early), NEXT_AT_MOST_FAR),
    ];
    for (told, law) in programs {
        assert!(told.starts_with(&format!("it does not hold that {law}: ")), "{told}");
    }
}

#[test]
fn a_call_that_is_refused_is_told() {
    let refuses =
        |call: u8, number: u8| broken(move |frame| if frame.call == call { Answer { number, ..answer(frame) } } else { answer(frame) });
    assert!(refuses(GATHER, FAR).starts_with("a call is refused that has to be accepted: gather of the bytes of element"));
    assert!(refuses(SCATTER, FAR).starts_with(&format!("it does not hold that {GATHER_THEN_SCATTER}: scatter of")));
    assert!(refuses(NEXT, FAR).starts_with("a call is refused that has to be accepted: next mapping of file offset"));
    assert!(refuses(INVERSE, FAR).starts_with(&format!("it does not hold that {NEXT_AT_MOST_FAR}: next mapping of file offset")));
    assert!(refuses(INVERSE, BUFFER).starts_with("a call is refused that has to be accepted: inverse: the file offset of byte"));
    let told = try_all(22, 1, &mut |_| Ok(Answer { number: BUFFER, ..Answer::default() })).expect_err("everything is refused");
    assert!(told.contains("packed length of element") && told.contains("printed  '17 0 0 0 0 0 0 -': BUFFER"), "{told}");
}

/// Before a buffer of that length is made.
#[test]
fn a_length_that_no_window_has_is_told() {
    let boundless =
        broken(|frame| if frame.call == PACKED_LENGTH { Answer { value: u64::MAX, ..Answer::default() } } else { answer(frame) });
    assert!(boundless.starts_with("an element has more bytes than the window: packed length of element"), "{boundless}");
}

/// A command that reads a frame's first number and then goes its own way.
fn asked(script: &str) -> Result<Answer, String> {
    let mut program = Program::start(&["sh", "-c", &format!("head -c 4 >/dev/null; {script}")])?;
    let answer = program.ask(&Frame::check(sheet(&layout_f())))?;
    program.end().map(|()| answer)
}

#[test]
fn a_program_is_asked_and_ends() {
    let right = answer(&Frame::check(sheet(&layout_f())));
    assert_eq!(asked("echo 0 0 0 0 6 3 2 -; cat >/dev/null"), Ok(right));
    let told = |script: &str| asked(script).expect_err(script);
    assert!(told("echo bad frame; cat >/dev/null").starts_with("the program prints 'bad frame\\n', which is no line"));
    assert!(told("exec >&-; cat >/dev/null").starts_with("the program prints '', which is no line"));
    assert!(told("echo 0 0 0 0 6 3 2 -; cat >/dev/null; echo more").starts_with("the program prints 5 bytes more"));
    assert!(told("echo 0 0 0 0 6 3 2 -; cat >/dev/null; exit 3").ends_with("exit status: 3"));
    assert!(Program::start(&[]).is_err() && Program::start(&["./no such program"]).is_err());
}

/// Just those lines that an answer has.
#[test]
fn a_line_is_read_as_it_is_written() {
    for answer in [
        Answer { number: 11, sheet: 2, place: u64::MAX, flag: 1, ..Answer::default() },
        Answer { value: 1, value2: 2, value3: 3, into: vec![0, 10, 255], ..Answer::default() },
    ] {
        assert_eq!(Answer::read(&answer.line()), Some(answer));
    }
    let none = [
        "",
        "-",
        "bad frame",
        "0 0 0 0 1 2 -",
        "0 0 0 0 1 2 3",
        "0 0 0 0 1 2 3 4 -",
        "0 0 0 0 1 2 3 f",
        "0 0 0 0 1 2 3 F0",
        "0 0 0 0 1 2 3 ",
        "256 0 0 0 1 2 3 -",
        "0 0 0 0 01 2 3 -",
        " 0 0 0 0 1 2 3 -",
        "0 0 0 0 +1 2 3 -",
    ];
    assert!(none.iter().all(|line| Answer::read(line).is_none()));
}
