//! The runs that two elements share in a window, found by asking of every offset of the window whether it is in both.

use crate::element::Element;

/// Of a longer window only the refusals that come before its runs can be asked here.
const LONGEST_WALK: u64 = 1 << 24;

/// File start, length, and the subfile offset in each element.
#[derive(Clone, Copy, Debug, PartialEq, Eq)]
pub struct Run {
    pub start: u64,
    pub length: u64,
    pub subfile1: u64,
    pub subfile2: u64,
}

impl Run {
    /// The four slots of a list.
    pub fn slots(&self) -> [u64; 4] {
        [self.start, self.length, self.subfile1, self.subfile2]
    }
}

/// The maximal runs of consecutive offsets of [a, b) in both elements, ascending. An offset right behind a run belongs to it, whatever
/// pattern, segment or family it is in. Only for a <= b, and a at or after both displacements.
pub fn shared(first: &Element, second: &Element, (a, b): (u64, u64)) -> Vec<Run> {
    assert!(b - a <= LONGEST_WALK, "a window of {} bytes is too long to walk", b - a);
    let mut runs: Vec<Run> = Vec::new();
    for x in (a..b).filter(|x| first.has(*x) && second.has(*x)) {
        match runs.last_mut() {
            Some(run) if run.start + run.length == x => run.length += 1,
            _ => runs.push(Run { start: x, length: 1, subfile1: first.rank(x), subfile2: second.rank(x) }),
        }
    }
    runs
}
