//! A layout as trees, in the words of 01.

/// n segments; segment k starts at l + k·s and is r-l+1 bytes long. The children's offsets count from a segment's start.
#[derive(Clone, Debug, PartialEq, Eq)]
pub struct Family {
    pub l: u32,
    pub r: u32,
    pub s: u32,
    pub n: u32,
    pub children: Vec<Family>,
}

/// The families of an element, or the children of a family: siblings, in order.
pub type Siblings = Vec<Family>;

#[derive(Clone, Debug, PartialEq, Eq)]
pub struct Layout {
    pub displacement: u32,
    pub elements: Vec<Siblings>,
}

/// A family without children.
pub fn family(l: u32, r: u32, s: u32, n: u32) -> Family {
    Family { l, r, s, n, children: Vec::new() }
}

/// A family of one segment: its stride is 0.
pub fn run(l: u32, r: u32) -> Family {
    family(l, r, 0, 1)
}

/// n segments with the stride that 01 wants: 0 where there is only one.
pub fn repeated(l: u32, r: u32, s: u32, n: u32) -> Family {
    family(l, r, if n == 1 { 0 } else { s }, n)
}

/// A layout without displacement.
pub fn layout(elements: Vec<Siblings>) -> Layout {
    Layout { displacement: 0, elements }
}

impl Family {
    pub fn with(self, children: Siblings) -> Family {
        Family { children, ..self }
    }

    /// The last byte, l + (n-1)·s + (r-l). Only for n >= 1 and r >= l; 128 bits, since 32-bit fields reach nearly 2^64.
    pub fn last(&self) -> u128 {
        u128::from(self.l) + u128::from(self.n - 1) * u128::from(self.s) + u128::from(self.r - self.l)
    }

    /// The length of a segment.
    pub fn width(&self) -> u64 {
        u64::from(self.r) - u64::from(self.l) + 1
    }

    /// Families of all levels.
    pub fn families(&self) -> usize {
        1 + count(&self.children)
    }
}

/// Families of all levels among siblings.
pub fn count(siblings: &[Family]) -> usize {
    siblings.iter().map(Family::families).sum()
}
