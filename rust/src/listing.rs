//! The text that 01's listing program prints for a sheet. Each line ends in a newline, that of a refused sheet too.

use crate::layout::{count, Layout};
use crate::pattern::Pattern;
use crate::refusal::{Refusal, FLAGS};
use crate::sheet::read;

pub fn text(sheet: &[u8]) -> String {
    match read(sheet) {
        Ok(layout) => accepted(&layout),
        Err(refusal) => refused(refusal),
    }
}

/// A line for the layout and one for each element.
fn accepted(layout: &Layout) -> String {
    let pattern = Pattern::of(layout);
    let (displacement, elements) = (layout.displacement, layout.elements.len());
    let lines = (0..elements).map(|index| element(layout, &pattern, index));
    format!("layout displacement {displacement} size {} elements {elements}\n", pattern.size()) + &lines.collect::<String>()
}

/// The bytes that the element has in a pattern, its families of all levels, and the first pattern offset that it selects.
fn element(layout: &Layout, pattern: &Pattern, index: usize) -> String {
    let selected = pattern.selected(index);
    let size = selected.iter().filter(|selected| **selected).count();
    let first = selected.iter().position(|selected| *selected).expect("every element selects some offset");
    format!("{index} size {size} families {} first {first}\n", count(&layout.elements[index]))
}

fn refused(Refusal { number, place, flag }: Refusal) -> String {
    format!("refused {number} at {place}{}\n", FLAGS[usize::from(flag)])
}
