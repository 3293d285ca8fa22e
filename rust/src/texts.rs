//! Call 11 at the edges: every line that a text can have, numbers where a digit is added, and buffers of all lengths around the text's.

use crate::bounds::{self, one_of_each};
use crate::edges;
use crate::figures::{inner_singles, layout_b};
use crate::frame::Frame;
use crate::layout::{layout, run, Layout};
use crate::listing::text;
use crate::shapes::fullest;
use crate::sheet::read;
use crate::write::sheet;
use std::collections::BTreeMap;

pub fn frames() -> Vec<Frame> {
    [every_length(), every_refusal(), digits(), longest()].concat()
}

/// For a buffer of this length. None of its bytes is one of a text: who writes nothing, or too much, is found out.
fn listing(sheet: &[u8], length: usize) -> Frame {
    Frame::listing(sheet.to_vec(), (0..length).map(|place| 128 + (place % 127) as u8).collect())
}

/// For a buffer just as long as the text.
fn fitting(sheet: &[u8]) -> Frame {
    listing(sheet, text(sheet).len())
}

/// Buffers just as long as the text, a byte shorter, longer, and empty.
fn every_length() -> Vec<Frame> {
    let accepted = edges::layouts().into_iter().chain([layout_b(), inner_singles()]).map(|layout| sheet(&layout));
    let lengths = |sheet: Vec<u8>| {
        let length = text(&sheet).len();
        [length, length - 1, length + 9, 0].map(|length| listing(&sheet, length))
    };
    accepted.chain(one_of_each()).flat_map(lengths).collect()
}

/// Of the refused sheets that call 1 is asked about, some of each number and flag, from first to last; those that are longer than
/// the listing program reads are left out.
fn every_refusal() -> Vec<Frame> {
    const OF_EACH: usize = 15;
    let mut sheets: BTreeMap<(u8, u8), Vec<Vec<u8>>> = BTreeMap::new();
    for Frame { sheet1, .. } in bounds::frames().into_iter().filter(|frame| frame.sheet1.len() <= 8_192) {
        if let Err(refusal) = read(&sheet1) {
            sheets.entry((refusal.number, refusal.flag)).or_default().push(sheet1);
        }
    }
    let some = sheets.values().flat_map(|sheets| sheets.iter().step_by(sheets.len().div_ceil(OF_EACH)));
    some.map(|sheet| fitting(sheet)).collect()
}

/// Nine, ten, ninety-nine and so on as the displacement, and as far as a pattern goes as a size and a first offset.
fn digits() -> Vec<Frame> {
    let numbers = (1..10).flat_map(|digits| [10_u32.pow(digits) - 1, 10_u32.pow(digits)]);
    let of = |number: u32| {
        let x = number.min(65_535);
        Layout { displacement: number, ..layout(vec![vec![run(x, x)], vec![run(0, x - 1)]]) }
    };
    numbers.map(|number| fitting(&sheet(&of(number)))).collect()
}

/// The longest text of all, and a sheet that is longer than the listing program needs to read.
fn longest() -> Vec<Frame> {
    let fullest = sheet(&fullest());
    let length = text(&fullest).len();
    let mut followed = fullest.clone();
    followed.resize(8_193, 0);
    let mut out = [length, length - 1, length + 300].map(|length| listing(&fullest, length)).to_vec();
    out.push(fitting(&followed));
    out
}
