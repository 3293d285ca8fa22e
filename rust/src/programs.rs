//! What the built programs are run on besides what rt runs them on, and what each must print: sheets and frames that are good, refused, cut,
//! too long or none, and noise.

use crate::bad;
use crate::calls::printed;
use crate::figures::{hole, layout_f, overlap};
use crate::frame::{Frame, LONGEST_BLOB};
use crate::layout::{layout, run, Layout};
use crate::listing::text;
use crate::random::Random;
use crate::shapes::fullest;
use crate::write::sheet;

/// One run of a program.
pub struct Case {
    pub program: &'static str,
    /// Of plain letters, digits and hyphens, and of one case of the program alone.
    pub name: String,
    pub input: Vec<u8>,
    pub output: String,
}

pub fn cases() -> Vec<Case> {
    let listed = sheets().into_iter().map(|(name, input)| Case { program: "listing", name, output: text(&input), input });
    let answered = inputs().into_iter().map(|(name, input)| Case { program: "answers", name, output: printed(&input), input });
    listed.chain(answered).collect()
}

/// The most bytes that `listing` reads. The longest sheet has fewer, so what it leaves changes no answer.
const READ: usize = 8_192;

fn sheets() -> Vec<(String, Vec<u8>)> {
    let f = sheet(&layout_f());
    let cut = |length: usize| f[..length].to_vec();
    let accepted = [("good", f.clone()), ("longest", sheet(&fullest()))];
    let refused = [("hole", hole()), ("overlap", overlap()), ("hole-at-the-last-place", last_hole())].map(|(name, of)| (name, sheet(&of)));
    let cuts = [("empty", cut(0)), ("cut-in-its-header", cut(9)), ("cut-between-records", cut(16)), ("cut-before-its-last-byte", cut(93))];
    let named = accepted.into_iter().chain(refused).chain(cuts).chain(long()).chain(noise());
    named.map(|(name, sheet)| (String::from(name), sheet)).collect()
}

/// 65,534 is in no element, and the pattern has 65,535 bytes.
fn last_hole() -> Layout {
    layout(vec![vec![run(0, 65_533)], vec![run(65_535, 65_535)]])
}

/// Good sheets with bytes behind them, some of them past what is read; and family 257 as late as it can stand, with hundreds behind it.
fn long() -> Vec<(&'static str, Vec<u8>)> {
    let followed = |layout: Layout, length: usize| {
        let mut sheet = sheet(&layout);
        sheet.resize(length, b'\n');
        sheet
    };
    let many = (0..15).map(|x| vec![run(x, x)]).chain([(15..1_000).map(|x| run(x, x)).collect()]);
    vec![
        ("good-and-a-newline", followed(layout_f(), 95)),
        ("good-and-more-to-8192-bytes", followed(layout_f(), READ)),
        ("good-and-more-to-8193-bytes", followed(layout_f(), READ + 1)),
        ("good-and-more-to-200000-bytes", followed(layout_f(), 200_000)),
        ("longest-and-more-to-8193-bytes", followed(fullest(), READ + 1)),
        ("1000-families", sheet(&layout(many.collect()))),
    ]
}

/// Bytes by chance: few, more than are read, and some behind a good header.
fn noise() -> Vec<(&'static str, Vec<u8>)> {
    let random = &mut Random::new(11);
    let header = sheet(&layout_f())[..10].to_vec();
    vec![
        ("noise", random.bytes(300)),
        ("noise-of-20000-bytes", random.bytes(20_000)),
        ("noise-behind-a-header", [header, random.bytes(200)].concat()),
    ]
}

/// No frame at all; each sheet checked, where a frame holds it; and each sort of bad frame, alone and behind a good one.
fn inputs() -> Vec<(String, Vec<u8>)> {
    let checked = sheets().into_iter().filter(|(_, sheet)| sheet.len() <= LONGEST_BLOB);
    let checked = checked.map(|(name, sheet)| (format!("sheet-{name}"), Frame::check(sheet).bytes()));
    let bad = |(name, bad): (&str, Vec<u8>)| {
        let second = [bad::good(), bad.clone()].concat();
        [(String::from(name), bad), (format!("good-then-{name}"), second)]
    };
    [(String::from("nothing"), Vec::new())].into_iter().chain(checked).chain(bad::ends().into_iter().flat_map(bad)).collect()
}
