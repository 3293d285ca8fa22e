//! What calls have to do with each other, by 02, whatever the bytes are. The laws are tried on what a program answers: the answer to one
//! call goes into the next, and no answer is worked out here.

use crate::buffers::{is_sound, Window};
use crate::chance;
use crate::element::{Element, END};
use crate::frame::{Answer, Frame, INVERSE, NEXT};
use crate::random::Random;
use crate::refusal::FAR;
use crate::spelled;
use crate::write::sheet;

/// Whoever answers calls: a running program, or this crate's own reading.
pub type Ask<'a> = &'a mut dyn FnMut(&Frame) -> Result<Answer, String>;

pub const GATHER_THEN_SCATTER: &str = "scattering what was just gathered changes nothing";
pub const SCATTER_THEN_GATHER: &str = "gathering what was just scattered gives the packed bytes back";
pub const SCATTER_THEN_SCATTER: &str = "of two scatters to the same element the later alone counts";
pub const SCATTERS_IN_EITHER_ORDER: &str = "scatters to two different elements give the same file buffer in either order";
pub const NEXT_AT_MOST: &str = "next mapping of x is at most y exactly when x is at most the inverse of y";
pub const NEXT_AT_MOST_FAR: &str = "next mapping of x is at most y where the inverse of y is refused";

/// Tries every law on `count` layouts by chance, and tells the first that is broken.
pub fn try_all(seed: u64, count: usize, ask: Ask) -> Result<(), String> {
    let random = &mut Random::new(seed);
    for _ in 0..count {
        gather_and_scatter(random, ask)?;
        marks_and_cuts(random, ask)?;
    }
    Ok(())
}

/// 02's W11, on one layout and window.
fn gather_and_scatter(random: &mut Random, ask: Ask) -> Result<(), String> {
    let Carrying { sheet, window, elements: [i, j] } = carrying(random);
    let gather = |element, file: &[u8], packed: &[u8]| Frame::gather(sheet.clone(), element, window, file.to_vec(), packed.to_vec());
    let scatter = |element, packed: &[u8], file: &[u8]| Frame::scatter(sheet.clone(), element, window, packed.to_vec(), file.to_vec());
    let mut length = |element| packed_length(ask, &Frame::packed_length(sheet.clone(), element, window));
    let (of_i, of_j, whole) = (length(i)?, length(j)?, window.1 - window.0);
    let [held, first, second, other, file] = [of_i, of_i, of_i, of_j, whole].map(|length| random.bytes(length));

    let gathered = accepted(ask, &gather(i, &file, &held))?.into;
    leaves(ask, GATHER_THEN_SCATTER, &scatter(i, &gathered, &file), &file)?;
    let scattered = accepted(ask, &scatter(i, &first, &file))?.into;
    leaves(ask, SCATTER_THEN_GATHER, &gather(i, &scattered, &held), &first)?;
    let alone = accepted(ask, &scatter(i, &second, &file))?.into;
    leaves(ask, SCATTER_THEN_SCATTER, &scatter(i, &second, &scattered), &alone)?;
    if i != j {
        let turned = accepted(ask, &scatter(j, &other, &file))?.into;
        let both = accepted(ask, &scatter(i, &first, &turned))?.into;
        leaves(ask, SCATTERS_IN_EITHER_ORDER, &scatter(j, &other, &scattered), &both)?;
    }
    Ok(())
}

/// 02's W13, on one element of a layout: a mark x and a cut y by chance, and then marks about the cut and cuts about the mark, each with each.
fn marks_and_cuts(random: &mut Random, ask: Ask) -> Result<(), String> {
    let layout = chance::accepted(random);
    let index = random.index(layout.elements.len());
    let element = Element::of(&layout, index);
    let (x, y) = (chance::accepted_offset(random, &element), chance::subfile_offset(random, &element));
    let (sheet, offsets) = (sheet(&layout), element.displacement()..END);
    let next = |x| Frame::mapping(NEXT, sheet.clone(), index as u64, x);
    let inverse = |y| Frame::mapping(INVERSE, sheet.clone(), index as u64, y);
    let mut asked = |frame: Frame, refusal| accepted_or(ask, &frame, refusal).map(|answer| Asked { frame, answer });

    let mut marks = vec![asked(next(x), 0)?];
    let mut cuts = vec![asked(inverse(y), FAR)?];
    for y in about(marks[0].answer.value) {
        cuts.push(asked(inverse(y), FAR)?);
    }
    // A cut that is FAR gives the value 0: a mark about that does as well.
    for x in about(cuts[0].answer.value).filter(|x| offsets.contains(x)) {
        marks.push(asked(next(x), 0)?);
    }
    marks.iter().try_for_each(|mark| cuts.iter().try_for_each(|cut| falls(mark, cut)))
}

/// A call, and what was answered.
struct Asked {
    frame: Frame,
    answer: Answer,
}

/// A number and its neighbours.
fn about(number: u64) -> impl Iterator<Item = u64> {
    number.saturating_sub(1)..=number.saturating_add(1)
}

/// Sees that a mark, the next mapping of x, falls where the law says: up to the cut, the inverse of y, or behind it.
fn falls(mark: &Asked, cut: &Asked) -> Result<(), String> {
    let (x, mapped, y, located) = (mark.frame.a, mark.answer.value, cut.frame.a, cut.answer.value);
    let (law, holds) = match cut.answer.number {
        0 => (NEXT_AT_MOST, (mapped <= y) == (x <= located)),
        _ => (NEXT_AT_MOST_FAR, mapped <= y),
    };
    if !holds {
        let [next, inverse] = [mark, cut].map(|asked| spelled::answered(&asked.frame, &asked.answer.line()));
        return Err(format!("it does not hold that {law}: {next}\n{inverse}"));
    }
    Ok(())
}

/// A sheet and a window that are accepted, and two elements: different ones unless the sheet has but one.
struct Carrying {
    sheet: Vec<u8>,
    window: Window,
    elements: [u64; 2],
}

fn carrying(random: &mut Random) -> Carrying {
    let layout = chance::accepted(random);
    let (first, many) = (Element::of(&layout, 0), layout.elements.len());
    let start = first.displacement();
    let window = loop {
        let length = chance::brief_length(random, &first);
        let window = chance::window(random, start, &first, length);
        // A long one is made where its end is refused.
        if is_sound(window, start) {
            break window;
        }
    };
    // Mostly elements with bytes in the window.
    let mut owner = || Element::owner(&layout, window.0 + random.long_below((window.1 - window.0).max(1))).unwrap_or(0);
    let (i, j) = (owner(), owner());
    let j = if i == j { (i + 1) % many } else { j };
    Carrying { sheet: sheet(&layout), window, elements: [i as u64, j as u64] }
}

/// The answer to a call that is to be accepted.
fn accepted(ask: Ask, frame: &Frame) -> Result<Answer, String> {
    accepted_or(ask, frame, 0)
}

/// The answer to a call that is to be accepted, or else refused with this number.
fn accepted_or(ask: Ask, frame: &Frame, refusal: u8) -> Result<Answer, String> {
    let answer = ask(frame)?;
    if answer.number > 0 && answer.number != refusal {
        return Err(format!("a call is refused that has to be accepted: {}", spelled::answered(frame, &answer.line())));
    }
    Ok(answer)
}

/// The packed length that a program tells: no longer than the window, before a buffer is made of it.
fn packed_length(ask: Ask, frame: &Frame) -> Result<u64, String> {
    let answer = accepted(ask, frame)?;
    if answer.value > frame.b - frame.a {
        return Err(format!("an element has more bytes than the window: {}", spelled::answered(frame, &answer.line())));
    }
    Ok(answer.value)
}

/// Sees that a call is accepted and leaves what a law says.
fn leaves(ask: Ask, law: &str, frame: &Frame, due: &[u8]) -> Result<(), String> {
    let due = Answer { into: due.to_vec(), ..Answer::default() };
    let given = ask(frame)?;
    if given != due {
        return Err(format!("it does not hold that {law}: {}", spelled::difference(Some(frame), &due.line(), Some(&given.line()))));
    }
    Ok(())
}
