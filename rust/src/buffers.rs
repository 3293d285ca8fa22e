//! What stands in the buffers that gather, scatter and the moves are lent, and what a call carries from one to the other: byte by byte,
//! each known by its file offset.

use crate::element::{Element, END};
use crate::frame::LONGEST_BLOB;
use crate::layout::Layout;
use std::collections::BTreeMap;

/// [a, b): a included, b not.
pub type Window = (u64, u64);

/// Whether a call accepts a window, where its layouts have started at `start`.
pub fn is_sound((a, b): Window, start: u64) -> bool {
    start <= a && a <= b && b <= END
}

/// What a lent buffer holds of a window.
pub enum Holds {
    /// A file buffer: byte x at place x-a.
    File,
    /// A packed buffer: one element's bytes, in file order.
    Packed(Element),
    /// The tray of a layout: element 0's bytes, then element 1's, to the last.
    Tray(Vec<Element>),
}

impl Holds {
    fn tray(layout: &Layout) -> Holds {
        Holds::Tray(Element::all(layout))
    }

    /// Where the layout starts; a file buffer has none.
    fn displacement(&self) -> u64 {
        match self {
            Holds::File => 0,
            Holds::Packed(element) => element.displacement(),
            Holds::Tray(elements) => elements.iter().map(Element::displacement).fold(0, u64::max),
        }
    }

    /// The length required.
    pub fn length(&self, window: Window) -> u64 {
        match self {
            Holds::Packed(element) => element.packed_length(window),
            Holds::File | Holds::Tray(_) => window.1 - window.0,
        }
    }

    /// The file offset of the byte at each place. Only for a window that a buffer can hold.
    pub fn order(&self, window: Window) -> Vec<u64> {
        let (a, b) = window;
        assert!(b - a <= LONGEST_WALK, "a window of {} bytes is too long to walk", b - a);
        match self {
            Holds::File => (a..b).collect(),
            Holds::Packed(element) => in_file_order(element, window),
            Holds::Tray(elements) => elements.iter().flat_map(|element| in_file_order(element, window)).collect(),
        }
    }
}

/// Of the two buffers of a call one at least has the window's length, so that no frame has a longer window that is walked.
const LONGEST_WALK: u64 = LONGEST_BLOB as u64;

/// The offsets of the window that belong to the element.
fn in_file_order(element: &Element, (a, b): Window) -> Vec<u64> {
    (a..b).filter(|x| element.has(*x)).collect()
}

/// What one of the calls 6 to 9 carries: the bytes that both buffers hold, and of a pair move only those of both elements.
pub struct Transfer {
    from: Holds,
    into: Holds,
    pair: Option<[Element; 2]>,
}

impl Transfer {
    pub fn gather(element: Element) -> Transfer {
        Transfer { from: Holds::File, into: Holds::Packed(element), pair: None }
    }

    pub fn scatter(element: Element) -> Transfer {
        Transfer { from: Holds::Packed(element), into: Holds::File, pair: None }
    }

    pub fn between([one, two]: &[Layout; 2]) -> Transfer {
        Transfer { from: Holds::tray(one), into: Holds::tray(two), pair: None }
    }

    /// Only the bytes that an element of the first layout shares with one of the second.
    pub fn of_pair(layouts: &[Layout; 2], pair: [Element; 2]) -> Transfer {
        Transfer { pair: Some(pair), ..Transfer::between(layouts) }
    }

    /// The larger displacement: a window starts there or later.
    pub fn start(&self) -> u64 {
        self.from.displacement().max(self.into.displacement())
    }

    /// The lengths required of the source and of the destination.
    pub fn lengths(&self, window: Window) -> [u64; 2] {
        [self.from.length(window), self.into.length(window)]
    }

    /// The file offset of the byte at each place of the destination.
    pub fn places(&self, window: Window) -> Vec<u64> {
        self.into.order(window)
    }

    fn carries(&self, x: u64) -> bool {
        self.pair.iter().flatten().all(|element| element.has(x))
    }

    /// The destination after the call: at each place the source's byte of the file offset that stands there, where that is carried, and
    /// else what stood there before. Only for buffers of the lengths required.
    pub fn after(&self, window: Window, from: &[u8], into: &[u8]) -> Vec<u8> {
        let (sources, places) = (self.from.order(window), self.places(window));
        assert_eq!((sources.len(), places.len()), (from.len(), into.len()), "an order leaves places of its buffer out");
        let carried: BTreeMap<u64, u8> = sources.into_iter().zip(from.iter().copied()).filter(|(x, _)| self.carries(*x)).collect();
        places.iter().zip(into).map(|(x, before)| *carried.get(x).unwrap_or(before)).collect()
    }
}
