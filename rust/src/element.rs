//! One element over the whole file: which offsets belong to it, how many of them lie before an offset, and which is the y-th.

use crate::layout::Layout;
use crate::pattern::Pattern;

/// File offsets are below 2^40.
pub const END: u64 = 1 << 40;

pub struct Element {
    displacement: u64,
    /// Whether it selects each offset of the pattern, from 0 to P-1.
    selected: Vec<bool>,
}

impl Element {
    /// Element `index` of an accepted layout.
    pub fn of(layout: &Layout, index: usize) -> Element {
        Element { displacement: u64::from(layout.displacement), selected: Pattern::of(layout).selected(index) }
    }

    /// The elements of an accepted layout, in order.
    pub fn all(layout: &Layout) -> Vec<Element> {
        let (displacement, pattern) = (u64::from(layout.displacement), Pattern::of(layout));
        (0..layout.elements.len()).map(|index| Element { displacement, selected: pattern.selected(index) }).collect()
    }

    /// The index of the element that a file offset belongs to; before the displacement there is none.
    pub fn owner(layout: &Layout, x: u64) -> Option<usize> {
        Element::all(layout).iter().position(|element| element.has(x))
    }

    pub fn displacement(&self) -> u64 {
        self.displacement
    }

    /// P, the pattern's size: at least 1.
    pub fn period(&self) -> u64 {
        self.selected.len() as u64
    }

    /// The element's size, in one pattern: at least 1.
    pub fn size(&self) -> u64 {
        selected_among(&self.selected)
    }

    /// The pattern offset of a file offset from the displacement on: (x-d) mod P.
    fn pattern_offset(&self, x: u64) -> usize {
        ((x - self.displacement) % self.period()) as usize
    }

    /// Whether file offset x belongs to the element.
    pub fn has(&self, x: u64) -> bool {
        x >= self.displacement && self.selected[self.pattern_offset(x)]
    }

    /// How many file offsets from the displacement up to but not including x belong to the element: those of the whole periods before x,
    /// and then one by one those of the period that x is in.
    pub fn rank(&self, x: u64) -> u64 {
        let periods = (x - self.displacement) / self.period();
        periods * self.size() + selected_among(&self.selected[..self.pattern_offset(x)])
    }

    /// How many bytes of [a, b) are the element's. They are counted and not walked: a window may have 2^40 bytes.
    pub fn packed_length(&self, (a, b): (u64, u64)) -> u64 {
        self.rank(b) - self.rank(a)
    }

    /// The file offset of byte y, or nothing where that is not below 2^40. It is looked for and not computed, so that no sum can wrap for
    /// a large y: ranks never fall, and the byte is where the rank steps from y to y+1.
    pub fn byte(&self, y: u64) -> Option<u64> {
        let (mut at_most_y, mut above_y) = (self.displacement, END);
        if self.rank(above_y) <= y {
            return None;
        }
        while above_y - at_most_y > 1 {
            let middle = at_most_y + (above_y - at_most_y) / 2;
            if self.rank(middle) <= y {
                at_most_y = middle;
            } else {
                above_y = middle;
            }
        }
        assert!(self.has(at_most_y) && self.rank(at_most_y) == y, "byte {y} is not at {at_most_y}");
        Some(at_most_y)
    }
}

fn selected_among(offsets: &[bool]) -> u64 {
    offsets.iter().filter(|selected| **selected).count() as u64
}
