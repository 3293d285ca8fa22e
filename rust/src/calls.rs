//! The answer that 01 asks for to each call. The checks stand in 01's order: sheet 1, sheet 2, element indexes, then 15, 13, 14, 16, 17,
//! 18.

use crate::buffers::{Transfer, Window};
use crate::element::{Element, END};
use crate::frame::{
    Answer, Frame, BAD, CHECK, EXACT, GATHER, INTERVAL_SPAN, INVERSE, KNOWN, LISTING, MOVE, NEXT, PACKED_LENGTH, PAIR_MOVE, SCATTER,
    SHARED_RUNS,
};
use crate::layout::Layout;
use crate::listing;
use crate::pattern::Pattern;
use crate::refusal::{Refusal, BEFORE, BUFFER, ELEMENT, FAR, FOREIGN, ROOM, WINDOW};
use crate::runs::{self, Run};
use crate::sheet;

/// The bytes of a slot, and the slots of a run.
const SLOT: usize = 8;
const SLOTS_OF_A_RUN: usize = 4;

/// A refusal and the sheet at fault: 0 for 12 to 18.
struct Refused {
    sheet: u8,
    refusal: Refusal,
}

pub fn answer(frame: &Frame) -> Answer {
    let said = match frame.call {
        CHECK => check(frame),
        EXACT => exact(frame),
        NEXT => next(frame),
        INVERSE => inverse(frame),
        INTERVAL_SPAN => interval_span(frame),
        GATHER | SCATTER | MOVE | PAIR_MOVE => carry(frame),
        SHARED_RUNS => shared_runs(frame),
        LISTING => listing(frame),
        PACKED_LENGTH => packed_length(frame),
        other => unreachable!("no frame of this program has the call {other}"),
    };
    said.unwrap_or_else(|refused| Answer::refused(frame, refused.sheet, refused.refusal))
}

/// What the program `answers` prints for an input: a line for each frame, to the input's end or to what is no frame or no call.
pub fn printed(mut input: &[u8]) -> String {
    let mut lines = String::new();
    while !input.is_empty() {
        let Some((frame, rest)) = Frame::read(input).filter(|(frame, _)| KNOWN.contains(&frame.call)) else {
            return lines + BAD + "\n";
        };
        lines += &answer(&frame).line();
        lines.push('\n');
        input = rest;
    }
    lines
}

/// A sheet of the call, the first or the second.
fn read(bytes: &[u8], sheet: u8) -> Result<Layout, Refused> {
    sheet::read(bytes).map_err(|refusal| Refused { sheet, refusal })
}

/// A refusal of 12 to 18.
fn refused(number: u8, place: usize) -> Refused {
    Refused { sheet: 0, refusal: Refusal::at(number, place) }
}

fn refuse_if(broken: bool, number: u8) -> Result<(), Refused> {
    if broken {
        return Err(refused(number, 0));
    }
    Ok(())
}

/// The index is compared as the 64-bit number that it is: 65,536 is no element, whatever its low bits say.
fn element(layout: &Layout, index: u64) -> Result<Element, Refused> {
    refuse_if(index >= layout.elements.len() as u64, ELEMENT)?;
    Ok(Element::of(layout, index as usize))
}

/// The element of a call with one sheet.
fn only_element(frame: &Frame) -> Result<Element, Refused> {
    element(&read(&frame.sheet1, 1)?, frame.i)
}

/// The layouts of a call with two sheets: the first is read to its end before the second.
fn both_layouts(frame: &Frame) -> Result<[Layout; 2], Refused> {
    Ok([read(&frame.sheet1, 1)?, read(&frame.sheet2, 2)?])
}

/// An element of each layout: i of the first, j of the second.
fn both_elements(frame: &Frame, [one, two]: &[Layout; 2]) -> Result<[Element; 2], Refused> {
    Ok([element(one, frame.i)?, element(two, frame.j)?])
}

/// Of a window, BEFORE looks only at the start, which is not below the larger displacement, and FAR only at the end, which is not in it.
fn window(frame: &Frame, larger_displacement: u64) -> Result<Window, Refused> {
    let (a, b) = (frame.a, frame.b);
    refuse_if(a > b, WINDOW)?;
    refuse_if(a < larger_displacement, BEFORE)?;
    refuse_if(b > END, FAR)?;
    Ok((a, b))
}

fn check(frame: &Frame) -> Result<Answer, Refused> {
    let layout = read(&frame.sheet1, 1)?;
    let (size, elements) = (Pattern::of(&layout).size() as u64, layout.elements.len() as u64);
    Ok(Answer::accepted(frame, &[size, elements, u64::from(layout.displacement)]))
}

/// The rank of x, where x is no offset below the displacement nor one past the file's end.
fn rank(element: &Element, x: u64) -> Result<u64, Refused> {
    refuse_if(x < element.displacement(), BEFORE)?;
    refuse_if(x >= END, FAR)?;
    Ok(element.rank(x))
}

fn exact(frame: &Frame) -> Result<Answer, Refused> {
    let element = only_element(frame)?;
    let rank = rank(&element, frame.a)?;
    refuse_if(!element.has(frame.a), FOREIGN)?;
    Ok(Answer::accepted(frame, &[rank]))
}

fn next(frame: &Frame) -> Result<Answer, Refused> {
    let element = only_element(frame)?;
    Ok(Answer::accepted(frame, &[rank(&element, frame.a)?]))
}

fn inverse(frame: &Frame) -> Result<Answer, Refused> {
    let byte = only_element(frame)?.byte(frame.a).ok_or(refused(FAR, 0))?;
    Ok(Answer::accepted(frame, &[byte]))
}

/// Both ends are offsets of the file, so each may be BEFORE or FAR; BEFORE of either goes before FAR of either.
fn interval_span(frame: &Frame) -> Result<Answer, Refused> {
    let element = only_element(frame)?;
    let (a, z) = (frame.a, frame.b);
    refuse_if(a > z, WINDOW)?;
    refuse_if(a < element.displacement() || z < element.displacement(), BEFORE)?;
    refuse_if(a >= END || z >= END, FAR)?;
    Ok(Answer::accepted(frame, &[element.rank(a), element.rank(z)]))
}

/// What gather refuses, but for its buffers: this call has none.
fn packed_length(frame: &Frame) -> Result<Answer, Refused> {
    let element = only_element(frame)?;
    let window = window(frame, element.displacement())?;
    Ok(Answer::accepted(frame, &[element.packed_length(window)]))
}

/// Calls 6 to 9: what each carries, once its sheets and element indexes are sound.
fn transfer(frame: &Frame) -> Result<Transfer, Refused> {
    Ok(match frame.call {
        GATHER => Transfer::gather(only_element(frame)?),
        SCATTER => Transfer::scatter(only_element(frame)?),
        MOVE => Transfer::between(&both_layouts(frame)?),
        PAIR_MOVE => {
            let layouts = both_layouts(frame)?;
            Transfer::of_pair(&layouts, both_elements(frame, &layouts)?)
        }
        other => unreachable!("call {other} carries nothing"),
    })
}

/// The transfer and window of a call that is not refused. Lengths are compared as 64-bit numbers: a window of 2^32 bytes is no empty one.
fn sound_transfer(frame: &Frame) -> Result<(Transfer, Window), Refused> {
    let transfer = transfer(frame)?;
    let window = window(frame, transfer.start())?;
    let lengths = [&frame.from, &frame.into].map(|buffer| buffer.len() as u64);
    refuse_if(lengths != transfer.lengths(window), BUFFER)?;
    Ok((transfer, window))
}

fn carry(frame: &Frame) -> Result<Answer, Refused> {
    let (transfer, window) = sound_transfer(frame)?;
    Ok(Answer { into: transfer.after(window, &frame.from, &frame.into), ..Answer::accepted(frame, &[]) })
}

/// The file offset of the byte at each place of `into`, where a call of 6 to 9 is accepted: for a person who looks at a difference.
pub fn places(frame: &Frame) -> Option<Vec<u64>> {
    let carries = [GATHER, SCATTER, MOVE, PAIR_MOVE].contains(&frame.call);
    let (transfer, window) = carries.then(|| sound_transfer(frame).ok())??;
    Some(transfer.places(window))
}

fn shared_runs(frame: &Frame) -> Result<Answer, Refused> {
    let [first, second] = both_elements(frame, &both_layouts(frame)?)?;
    let window = window(frame, first.displacement().max(second.displacement()))?;
    let runs = runs::shared(&first, &second, window);
    let room = frame.into.len() / SLOT / SLOTS_OF_A_RUN;
    if runs.len() > room {
        return Err(refused(ROOM, runs.len()));
    }
    let slots: Vec<u8> = runs.iter().flat_map(Run::slots).flat_map(u64::to_le_bytes).collect();
    Ok(Answer { into: written(&slots, &frame.into), ..Answer::accepted(frame, &[runs.len() as u64]) })
}

/// A refused sheet has a text too, so it is no refused call: only a buffer that is too short is.
fn listing(frame: &Frame) -> Result<Answer, Refused> {
    let text = listing::text(&frame.sheet1);
    refuse_if(frame.into.len() < text.len(), BUFFER)?;
    Ok(Answer { into: written(text.as_bytes(), &frame.into), ..Answer::accepted(frame, &[text.len() as u64]) })
}

/// A buffer or list after the call: what is written stands at its front. What lies behind stays, whole slots or not.
fn written(front: &[u8], before: &[u8]) -> Vec<u8> {
    [front, &before[front.len()..]].concat()
}
