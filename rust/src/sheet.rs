//! A sheet's bytes to a layout, or the first refusal.

use crate::layout::{Family, Layout, Siblings};
use crate::pattern::Pattern;
use crate::refusal::{Refusal, COUNT, DEPTH, KIND, LENGTH, MANY, ORDER, SEGMENT, SHORT, SPAN, TRAILING};

pub const HEADER: u16 = 1;
pub const ELEMENT: u16 = 2;
pub const FAMILY: u16 = 3;

const MOST_ELEMENTS: u16 = 16;
const MOST_FAMILIES: usize = 256;
const LEVELS: u32 = 4;
const LAST_BYTE: u128 = 65_535;

/// Reads and checks: the records in sheet order, then 10, then 11.
pub fn read(sheet: &[u8]) -> Result<Layout, Refusal> {
    let mut reader = Reader { sheet, at: 0, families: 0 };
    let layout = reader.layout()?;
    if reader.at < sheet.len() {
        return Err(Refusal::at(TRAILING, reader.at));
    }
    match Pattern::of(&layout).fault() {
        Some(refusal) => Err(refusal),
        None => Ok(layout),
    }
}

/// The length field of a kind: the kind's two bytes and the body.
pub fn length(kind: u16) -> u16 {
    match kind {
        HEADER => 8,
        ELEMENT => 4,
        FAMILY => 20,
        _ => unreachable!("only three kinds are ever expected"),
    }
}

fn u16_at(bytes: &[u8], at: usize) -> u16 {
    u16::from_le_bytes([bytes[at], bytes[at + 1]])
}

fn u32_at(bytes: &[u8], at: usize) -> u32 {
    u32::from_le_bytes([bytes[at], bytes[at + 1], bytes[at + 2], bytes[at + 3]])
}

struct Reader<'a> {
    sheet: &'a [u8],
    at: usize,
    /// Families read so far, of all levels and elements.
    families: usize,
}

impl<'a> Reader<'a> {
    /// The record that is expected here: its start and its body.
    fn record(&mut self, kind: u16) -> Result<(usize, &'a [u8]), Refusal> {
        let start = self.at;
        let left = &self.sheet[start..];
        if left.len() < 4 {
            return Err(Refusal::at(SHORT, start));
        }
        if u16_at(left, 2) != kind {
            return Err(Refusal::at(KIND, start));
        }
        if u16_at(left, 0) != length(kind) {
            return Err(Refusal::at(LENGTH, start));
        }
        // The length does not count its own two bytes.
        let end = 2 + usize::from(length(kind));
        if left.len() < end {
            return Err(Refusal::at(SHORT, start));
        }
        self.at = start + end;
        Ok((start, &left[4..end]))
    }

    fn layout(&mut self) -> Result<Layout, Refusal> {
        let (start, body) = self.record(HEADER)?;
        let displacement = u32_at(body, 0);
        let elements = u16_at(body, 4);
        if !(1..=MOST_ELEMENTS).contains(&elements) {
            return Err(Refusal::at(COUNT, start));
        }
        let elements = (0..elements).map(|_| self.element()).collect::<Result<_, _>>()?;
        Ok(Layout { displacement, elements })
    }

    fn element(&mut self) -> Result<Siblings, Refusal> {
        let (start, body) = self.record(ELEMENT)?;
        let tops = u16_at(body, 0);
        if tops == 0 {
            return Err(Refusal::at(COUNT, start));
        }
        self.siblings(tops, 1, LAST_BYTE)
    }

    fn siblings(&mut self, many: u16, level: u32, bound: u128) -> Result<Siblings, Refusal> {
        let mut read: Siblings = Vec::new();
        for _ in 0..many {
            let elder = read.last().map(Family::last);
            read.push(self.family(level, bound, elder)?);
        }
        Ok(read)
    }

    /// One family and what stands under it; `elder` is the last byte of the sibling before it.
    fn family(&mut self, level: u32, bound: u128, elder: Option<u128>) -> Result<Family, Refusal> {
        let (start, body) = self.record(FAMILY)?;
        let refused = |number| Err(Refusal::at(number, start));
        let (l, r, s, n) = (u32_at(body, 0), u32_at(body, 4), u32_at(body, 8), u32_at(body, 12));
        let children = u16_at(body, 16);
        let mut family = Family { l, r, s, n, children: Vec::new() };
        self.families += 1;
        if self.families > MOST_FAMILIES {
            return refused(MANY);
        }
        if n == 0 || r < l || !stride_rule(&family) {
            return refused(SEGMENT);
        }
        if family.last() > bound {
            return refused(SPAN);
        }
        if elder.is_some_and(|last| u128::from(l) <= last) {
            return refused(ORDER);
        }
        if level == LEVELS && children > 0 {
            return refused(DEPTH);
        }
        family.children = self.siblings(children, level + 1, u128::from(r - l))?;
        Ok(family)
    }
}

/// With n = 1 the stride is 0, with n >= 2 at least a segment's length.
fn stride_rule(family: &Family) -> bool {
    if family.n == 1 {
        family.s == 0
    } else {
        u64::from(family.s) >= family.width()
    }
}
