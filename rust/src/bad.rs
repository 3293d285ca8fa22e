//! Bytes that are no frame, each sort by its name.

use crate::figures::layout_f;
use crate::frame::{Frame, CHECK, LONGEST_BLOB, MOST};
use crate::random::Random;
use crate::write::sheet;

/// Where a frame has its call and the length of its first sheet.
const CALL: usize = 4;
const LENGTH_1: usize = CALL + 1 + 4 * 8;

/// The frame that the bad ones are made of.
pub fn good() -> Vec<u8> {
    Frame::check(sheet(&layout_f())).bytes()
}

/// What may stand at the end of an input: each is no frame. But for those that are cut, a good frame follows, which nobody may answer.
pub fn ends() -> Vec<(&'static str, Vec<u8>)> {
    let uncut = [parts(), calls(), noise(), lengths()].into_iter().flatten();
    cuts().into_iter().chain(uncut.map(|(name, bad)| (name, [bad, good()].concat()))).collect()
}

/// Input that ends inside a frame.
fn cuts() -> Vec<(&'static str, Vec<u8>)> {
    let cut = |length: usize| good()[..length].to_vec();
    vec![
        ("cut-before-its-last-byte", cut(good().len() - 1)),
        ("cut-in-its-first-number", cut(3)),
        ("cut-behind-its-first-number", cut(CALL)),
        ("cut-among-its-numbers", cut(LENGTH_1 - 11)),
    ]
}

/// The good frame with another 32-bit number at a place.
fn with(at: usize, number: usize) -> Vec<u8> {
    let mut frame = good();
    set(&mut frame, at, number);
    frame
}

fn set(frame: &mut [u8], at: usize, number: usize) {
    frame[at..at + 4].copy_from_slice(&(number as u32).to_le_bytes());
}

/// A sheet that runs past the frame's end, a frame that ends inside its last part, and one with a byte behind it.
fn parts() -> Vec<(&'static str, Vec<u8>)> {
    let length = good().len();
    vec![
        ("sheet-longer-than-its-frame", with(LENGTH_1, length)),
        ("sheet-of-4294967295-bytes", with(LENGTH_1, u32::MAX as usize)),
        ("ends-inside-its-last-part", with(0, length - 5)),
        ("byte-behind-its-last-part", [with(0, length - 3), vec![0]].concat()),
    ]
}

/// Calls beside those that there are.
fn calls() -> Vec<(&'static str, Vec<u8>)> {
    let called = |call: u8| {
        let mut frame = good();
        frame[CALL] = call;
        frame
    };
    vec![("unknown-call-0", called(0)), ("unknown-call-12", called(12)), ("unknown-call-16", called(16)), ("unknown-call-18", called(18))]
}

/// Bytes by chance, and a whole frame's number of them behind a call that is known.
fn noise() -> Vec<(&'static str, Vec<u8>)> {
    let random = &mut Random::new(17);
    let length = good().len();
    let mut called = random.bytes(length as u64);
    set(&mut called, 0, length - 4);
    called[CALL] = CHECK;
    vec![("noise", random.bytes(300)), ("noise-behind-a-known-call", called)]
}

/// Frames that announce no bytes at all, and too many: with few behind the number, with all of them, and with more than any input has.
fn lengths() -> Vec<(&'static str, Vec<u8>)> {
    let mut too_long = [Frame::check(vec![0; LONGEST_BLOB]).bytes(), vec![0]].concat();
    set(&mut too_long, 0, MOST + 1);
    set(&mut too_long, LENGTH_1, LONGEST_BLOB + 1);
    vec![
        ("announces-nothing", with(0, 0)),
        ("announces-too-much", with(0, MOST + 1)),
        ("whole-but-a-byte-too-long", too_long),
        ("announces-4294967295-bytes", with(0, u32::MAX as usize)),
    ]
}
