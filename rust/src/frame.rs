//! Frames and lines: how the program `answers` is asked, and what it prints.

use crate::refusal::Refusal;

/// The calls by their number.
pub const CHECK: u8 = 1;
pub const EXACT: u8 = 2;
pub const NEXT: u8 = 3;
pub const INVERSE: u8 = 4;
pub const INTERVAL_SPAN: u8 = 5;
pub const GATHER: u8 = 6;
pub const SCATTER: u8 = 7;
pub const MOVE: u8 = 8;
pub const PAIR_MOVE: u8 = 9;
pub const SHARED_RUNS: u8 = 10;
pub const LISTING: u8 = 11;
pub const PACKED_LENGTH: u8 = 17;

/// What a frame has besides its call and its first sheet, which every call uses.
#[derive(Clone, Copy, PartialEq, Eq)]
pub enum Part {
    I,
    J,
    A,
    B,
    Sheet2,
    From,
    Into,
}

/// The calls, and what each uses.
const USES: [(u8, &[Part]); 12] = [
    (CHECK, &[]),
    (EXACT, &[Part::I, Part::A]),
    (NEXT, &[Part::I, Part::A]),
    (INVERSE, &[Part::I, Part::A]),
    (INTERVAL_SPAN, &[Part::I, Part::A, Part::B]),
    (GATHER, &[Part::I, Part::A, Part::B, Part::From, Part::Into]),
    (SCATTER, &[Part::I, Part::A, Part::B, Part::From, Part::Into]),
    (MOVE, &[Part::A, Part::B, Part::Sheet2, Part::From, Part::Into]),
    (PAIR_MOVE, &[Part::I, Part::J, Part::A, Part::B, Part::Sheet2, Part::From, Part::Into]),
    (SHARED_RUNS, &[Part::I, Part::J, Part::A, Part::B, Part::Sheet2, Part::Into]),
    (LISTING, &[Part::Into]),
    (PACKED_LENGTH, &[Part::I, Part::A, Part::B]),
];

/// The calls of that table, `CHECK` first.
pub const KNOWN: [u8; USES.len()] = {
    let mut known = [0; USES.len()];
    let mut place = 0;
    while place < known.len() {
        known[place] = USES[place].0;
        place += 1;
    }
    known
};

pub fn uses(call: u8, part: Part) -> bool {
    USES.iter().any(|(known, parts)| *known == call && parts.contains(&part))
}

/// Whether a call has a second sheet.
pub fn has_two_sheets(call: u8) -> bool {
    uses(call, Part::Sheet2)
}

/// The most bytes that may follow a frame's first number.
pub const MOST: usize = 65_532;
/// Those of them that are no blob's: the call, four numbers and four lengths.
const PLAIN: usize = 1 + 4 * 8 + 4 * 4;
/// The longest blob that a frame holds, where its other blobs are empty.
pub const LONGEST_BLOB: usize = MOST - PLAIN;

/// The line for what is no frame.
pub const BAD: &str = "bad frame";

/// One call. What it does not use is 0 or empty.
#[derive(Clone, Debug, PartialEq, Eq, Default)]
pub struct Frame {
    pub call: u8,
    pub i: u64,
    pub j: u64,
    pub a: u64,
    pub b: u64,
    pub sheet1: Vec<u8>,
    pub sheet2: Vec<u8>,
    pub from: Vec<u8>,
    pub into: Vec<u8>,
}

impl Frame {
    pub fn check(sheet: Vec<u8>) -> Frame {
        Frame { call: CHECK, sheet1: sheet, ..Frame::default() }
    }

    /// Exact or next mapping, where `a` is a file offset, or the inverse, where it is a subfile offset.
    pub fn mapping(call: u8, sheet: Vec<u8>, i: u64, a: u64) -> Frame {
        Frame { call, i, a, sheet1: sheet, ..Frame::default() }
    }

    /// The span of an interval with both ends meant.
    pub fn interval_span(sheet: Vec<u8>, i: u64, (a, z): (u64, u64)) -> Frame {
        Frame { call: INTERVAL_SPAN, i, a, b: z, sheet1: sheet, ..Frame::default() }
    }

    /// From a file buffer to a packed one: the bytes of element i in [a, b).
    pub fn gather(sheet: Vec<u8>, i: u64, (a, b): (u64, u64), file: Vec<u8>, packed: Vec<u8>) -> Frame {
        Frame { call: GATHER, i, a, b, sheet1: sheet, from: file, into: packed, ..Frame::default() }
    }

    /// From a packed buffer to a file buffer.
    pub fn scatter(sheet: Vec<u8>, i: u64, (a, b): (u64, u64), packed: Vec<u8>, file: Vec<u8>) -> Frame {
        Frame { call: SCATTER, i, a, b, sheet1: sheet, from: packed, into: file, ..Frame::default() }
    }

    /// The move from the tray of sheet 1 to that of sheet 2. (`move` is Rust's own word.)
    pub fn tray_move(sheets: [Vec<u8>; 2], (a, b): (u64, u64), trays: [Vec<u8>; 2]) -> Frame {
        let ([sheet1, sheet2], [from, into]) = (sheets, trays);
        Frame { call: MOVE, a, b, sheet1, sheet2, from, into, ..Frame::default() }
    }

    /// Of that move only the bytes that element i of sheet 1 shares with j of sheet 2.
    pub fn pair_move(sheets: [Vec<u8>; 2], [i, j]: [u64; 2], window: (u64, u64), trays: [Vec<u8>; 2]) -> Frame {
        Frame { call: PAIR_MOVE, i, j, ..Frame::tray_move(sheets, window, trays) }
    }

    /// The runs that element i of sheet 1 and j of sheet 2 share in [a, b), for a list of 8 bytes a slot.
    pub fn shared_runs(sheets: [Vec<u8>; 2], [i, j]: [u64; 2], (a, b): (u64, u64), list: Vec<u8>) -> Frame {
        let [sheet1, sheet2] = sheets;
        Frame { call: SHARED_RUNS, i, j, a, b, sheet1, sheet2, into: list, ..Frame::default() }
    }

    /// The text of the listing program, for a buffer of at least its length.
    pub fn listing(sheet: Vec<u8>, buffer: Vec<u8>) -> Frame {
        Frame { call: LISTING, sheet1: sheet, into: buffer, ..Frame::default() }
    }

    /// How many bytes of element i are in [a, b).
    pub fn packed_length(sheet: Vec<u8>, i: u64, (a, b): (u64, u64)) -> Frame {
        Frame { call: PACKED_LENGTH, i, a, b, sheet1: sheet, ..Frame::default() }
    }

    pub fn bytes(&self) -> Vec<u8> {
        let blobs = [&self.sheet1, &self.sheet2, &self.from, &self.into];
        let follow = PLAIN + blobs.iter().map(|blob| blob.len()).sum::<usize>();
        assert!(follow <= MOST, "a frame of {follow} bytes");
        let mut out = (follow as u32).to_le_bytes().to_vec();
        out.push(self.call);
        for number in [self.i, self.j, self.a, self.b] {
            out.extend(number.to_le_bytes());
        }
        for blob in blobs {
            out.extend((blob.len() as u32).to_le_bytes());
            out.extend(blob);
        }
        out
    }

    /// The frame that stands at the front, and what follows it. Nothing where it is cut, too long or not filled by its parts.
    pub fn read(bytes: &[u8]) -> Option<(Frame, &[u8])> {
        let (follow, rest) = number(bytes, 4)?;
        let follow = usize::try_from(follow).ok().filter(|follow| *follow <= MOST)?;
        let (body, rest) = rest.split_at_checked(follow)?;
        let (call, body) = number(body, 1)?;
        let (i, body) = number(body, 8)?;
        let (j, body) = number(body, 8)?;
        let (a, body) = number(body, 8)?;
        let (b, body) = number(body, 8)?;
        let (sheet1, body) = blob(body)?;
        let (sheet2, body) = blob(body)?;
        let (from, body) = blob(body)?;
        let (into, body) = blob(body)?;
        let frame = Frame { call: call as u8, i, j, a, b, sheet1, sheet2, from, into };
        body.is_empty().then_some((frame, rest))
    }
}

fn number(bytes: &[u8], width: usize) -> Option<(u64, &[u8])> {
    let (digits, rest) = bytes.split_at_checked(width)?;
    Some((digits.iter().rev().fold(0, |sum, digit| sum << 8 | u64::from(*digit)), rest))
}

fn blob(bytes: &[u8]) -> Option<(Vec<u8>, &[u8])> {
    let (length, rest) = number(bytes, 4)?;
    let (blob, rest) = rest.split_at_checked(usize::try_from(length).ok()?)?;
    Some((blob.to_vec(), rest))
}

/// The bytes of a text of two digits each.
fn bytes_of(digits: &str) -> Option<Vec<u8>> {
    let pair = |at: usize| u8::from_str_radix(digits.get(at..at + 2)?, 16).ok();
    (0..digits.len()).step_by(2).map(pair).collect()
}

/// What a line says. Number 0 is an accepted call; values that a call does not give are 0.
#[derive(Clone, Debug, PartialEq, Eq, Default)]
pub struct Answer {
    pub number: u8,
    pub sheet: u8,
    pub place: u64,
    pub flag: u8,
    pub value: u64,
    pub value2: u64,
    pub value3: u64,
    /// The destination buffer after the call.
    pub into: Vec<u8>,
}

impl Answer {
    /// An accepted call that writes nothing, with the values that it gives: the destination is as it was.
    pub fn accepted(frame: &Frame, values: &[u64]) -> Answer {
        let given = |place: usize| values.get(place).copied().unwrap_or(0);
        Answer { value: given(0), value2: given(1), value3: given(2), into: frame.into.clone(), ..Answer::default() }
    }

    /// A refusal of the sheet named, 0 where no sheet is at fault, with the destination as it was.
    pub fn refused(frame: &Frame, sheet: u8, refusal: Refusal) -> Answer {
        let Refusal { number, place, flag } = refusal;
        Answer { number, sheet, place, flag, into: frame.into.clone(), ..Answer::default() }
    }

    /// What a line says, if it is one that `line` writes.
    pub fn read(line: &str) -> Option<Answer> {
        let (numbers, into) = line.rsplit_once(' ')?;
        let numbers: Vec<u64> = numbers.split(' ').map(|number| number.parse().ok()).collect::<Option<_>>()?;
        let [number, sheet, place, flag, value, value2, value3] = numbers[..] else { return None };
        let into = if into == "-" { Vec::new() } else { bytes_of(into)? };
        let small = |number: u64| u8::try_from(number).ok();
        let answer = Answer { number: small(number)?, sheet: small(sheet)?, place, flag: small(flag)?, value, value2, value3, into };
        (answer.line() == line).then_some(answer)
    }

    pub fn line(&self) -> String {
        let into = match self.into.as_slice() {
            [] => String::from("-"),
            bytes => bytes.iter().map(|byte| format!("{byte:02x}")).collect(),
        };
        let Answer { number, sheet, place, flag, value, value2, value3, .. } = self;
        format!("{number} {sheet} {place} {flag} {value} {value2} {value3} {into}")
    }
}
