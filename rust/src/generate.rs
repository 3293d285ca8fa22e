//! The frames: of each call the figures of 01 and the edges, and as many by chance as are asked for.

use crate::figures::figures;
use crate::frame::{Frame, CHECK, KNOWN};
use crate::random::Random;
use crate::{bad, bounds, chance, edges, lengths, texts, transfers, unused, windows};

/// The seed and count of the frames that are kept beside the program `answers`. The seed also picks their bad end: one that is too long.
pub const KEPT: (u64, usize) = (2014, 2_142);

/// The frames of a seed, call by call. Of each call the first ones do not depend on the seed.
pub fn frames(seed: u64, count: usize) -> Vec<Frame> {
    let fixed = fixed();
    let mut out = Vec::new();
    for call in KNOWN {
        out.extend(fixed.iter().filter(|frame| frame.call == call).cloned());
        out.extend(by_chance(call, seed, share(call, count)));
    }
    out
}

/// The figures and edges of all calls.
fn fixed() -> Vec<Frame> {
    let figures = figures().into_iter().map(|figure| figure.frame);
    let edges = [bounds::frames, edges::frames, windows::frames, transfers::frames, lengths::frames, texts::frames, unused::frames];
    figures.chain(edges.into_iter().flat_map(|frames| frames())).collect()
}

/// How many of `count` frames a call has: the others the same number each, and `CHECK` three times as many and what is left over, since every
/// call reads sheets and they can go wrong in the most ways. So a call that is added, and a share for it, leave all other frames as they were.
fn share(call: u8, count: usize) -> usize {
    let others = KNOWN.len() - 1;
    let each = count / (others + 3);
    match call {
        CHECK => count - others * each,
        _ => each,
    }
}

/// Each call has numbers of its own: they stay the same whatever other calls there are.
pub fn by_chance(call: u8, seed: u64, count: usize) -> Vec<Frame> {
    let random = &mut Random::new(seed ^ u64::from(call - CHECK) << 56);
    (0..count).map(|_| chance::frame(random, call)).collect()
}

/// Bytes that are no frame, and perhaps a frame after them that nobody may answer.
pub fn bad_end(seed: u64) -> Vec<u8> {
    let ends = bad::ends();
    ends[(seed % ends.len() as u64) as usize].1.clone()
}
