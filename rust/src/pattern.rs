//! Which offsets each element selects, one by one, and number 11 by looking at every offset.

use crate::layout::{Family, Layout};
use crate::refusal::{Refusal, COVER, HOLE, OVERLAP};

/// For each element, whether it selects an offset; past the end of a list it does not.
pub struct Pattern {
    elements: Vec<Vec<bool>>,
}

impl Pattern {
    /// Of a layout that meets the rules 4 to 9: then no offset is past 65,535.
    pub fn of(layout: &Layout) -> Pattern {
        let elements = layout.elements.iter().map(|families| {
            let mut selected = Vec::new();
            select(families, 0, &mut selected);
            selected
        });
        Pattern { elements: elements.collect() }
    }

    /// P, the sum of the element sizes, an element's size being the number of offsets that it selects.
    pub fn size(&self) -> usize {
        self.elements.iter().flatten().filter(|selected| **selected).count()
    }

    /// Whether an element selects each offset from 0 to P-1.
    pub fn selected(&self, element: usize) -> Vec<bool> {
        (0..self.size()).map(|x| self.elements[element].get(x) == Some(&true)).collect()
    }

    /// How many elements select x.
    fn owners(&self, x: usize) -> usize {
        self.elements.iter().filter(|element| element.get(x) == Some(&true)).count()
    }

    /// The first offset from 0 to P-1 that is not in exactly one element.
    pub fn fault(&self) -> Option<Refusal> {
        let bad = (0..self.size()).find(|x| self.owners(*x) != 1)?;
        let flag = if self.owners(bad) == 0 { HOLE } else { OVERLAP };
        Some(Refusal { number: COVER, place: bad as u64, flag })
    }
}

/// Walks every segment of every family. `base` is the start of the segment that the families' offsets count from.
fn select(families: &[Family], base: usize, selected: &mut Vec<bool>) {
    for family in families {
        for k in 0..family.n as usize {
            let start = base + family.l as usize + k * family.s as usize;
            if family.children.is_empty() {
                let end = start + family.width() as usize;
                if selected.len() < end {
                    selected.resize(end, false);
                }
                selected[start..end].fill(true);
            } else {
                select(&family.children, start, selected);
            }
        }
    }
}
