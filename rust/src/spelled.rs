//! A frame and a line in words, for a person who looks at a difference.

use crate::calls;
use crate::frame::{
    has_two_sheets, Frame, CHECK, EXACT, GATHER, INTERVAL_SPAN, INVERSE, LISTING, MOVE, NEXT, PACKED_LENGTH, PAIR_MOVE, SCATTER,
    SHARED_RUNS,
};
use crate::listing;
use crate::refusal::{FLAGS, NAMES};
use crate::sheet::{ELEMENT, FAMILY, HEADER};

/// Records of a sheet that are spelled out; the others are only counted in bytes.
const MOST_RECORDS: usize = 40;
/// Characters of a line or bytes of a blob that are shown.
const MOST_SHOWN: usize = 160;
const MOST_BYTES_SHOWN: usize = 48;

/// What was asked, if it was a frame, what was to be printed, and what was, if anything.
pub fn difference(asked: Option<&Frame>, expected: &str, printed: Option<&str>) -> String {
    let question = asked.map_or(String::from("bytes that are no frame\n"), frame);
    let got = printed.map_or(String::from("nothing: the lines end"), line);
    let differing = printed.and_then(|printed| buffers(asked, expected, printed)).map_or(String::new(), |place| format!("\n  {place}"));
    format!("{question}  expected {}\n  printed  {got}{differing}", line(expected))
}

/// What was asked, and what was printed.
pub fn answered(asked: &Frame, printed: &str) -> String {
    format!("{}  printed  {}", frame(asked), line(printed))
}

fn frame(frame: &Frame) -> String {
    let mut out = call(frame) + "\n";
    out += &format!("  sheet 1, {} bytes\n{}", frame.sheet1.len(), sheet(&frame.sheet1));
    if has_two_sheets(frame.call) {
        out += &format!("  sheet 2, {} bytes\n{}", frame.sheet2.len(), sheet(&frame.sheet2));
    }
    let (from, into) = buffer_names(frame.call);
    if let Some(from) = from {
        out += &format!("  {from}, {} bytes: {}\n", frame.from.len(), shown(&frame.from));
    }
    if let Some(into) = into {
        out += &format!("  {into} before the call, {} bytes: {}\n", frame.into.len(), shown(&frame.into));
    }
    if frame.call == LISTING {
        out += "  the text\n";
        out.extend(listing::text(&frame.sheet1).lines().map(|line| format!("    {line}\n")));
    }
    out
}

/// What a call has as source and as destination, if anything.
fn buffer_names(call: u8) -> (Option<&'static str>, Option<&'static str>) {
    match call {
        GATHER => (Some("the file buffer"), Some("the packed buffer")),
        SCATTER => (Some("the packed buffer"), Some("the file buffer")),
        MOVE | PAIR_MOVE => (Some("the tray of sheet 1"), Some("the tray of sheet 2")),
        SHARED_RUNS => (None, Some("the list")),
        LISTING => (None, Some("the text buffer")),
        _ => (None, None),
    }
}

/// What is asked, in the words of 01.
fn call(Frame { call, i, j, a, b, into, .. }: &Frame) -> String {
    match *call {
        CHECK => String::from("check"),
        EXACT => format!("exact mapping of file offset {a} in element {i}"),
        NEXT => format!("next mapping of file offset {a} in element {i}"),
        INVERSE => format!("inverse: the file offset of byte {a} of element {i}"),
        INTERVAL_SPAN => format!("interval span from file offset {a} to {b}, both meant, in element {i}"),
        GATHER => format!("gather of the bytes of element {i} in the window [{a}, {b})"),
        SCATTER => format!("scatter of the bytes of element {i} in the window [{a}, {b})"),
        MOVE => format!("move from the tray of sheet 1 to the tray of sheet 2 in the window [{a}, {b})"),
        PAIR_MOVE => format!("pair move of the bytes shared by element {i} of sheet 1 and element {j} of sheet 2 in the window [{a}, {b})"),
        SHARED_RUNS => {
            let slots = into.len() / 8;
            format!("shared runs of element {i} of sheet 1 and element {j} of sheet 2 in the window [{a}, {b}), a list of {slots} slots")
        }
        LISTING => format!("listing, into a buffer of {} bytes", into.len()),
        PACKED_LENGTH => format!("packed length of element {i} in the window [{a}, {b})"),
        other => format!("call {other}"),
    }
}

fn shown(bytes: &[u8]) -> String {
    let shown: Vec<String> = bytes.iter().take(MOST_BYTES_SHOWN).map(|byte| format!("{byte:02x}")).collect();
    shown.join(" ") + if bytes.len() > MOST_BYTES_SHOWN { " .." } else { "" }
}

/// The records as they follow each other by their length fields, whether they are expected or not.
fn sheet(bytes: &[u8]) -> String {
    let mut out = String::new();
    let mut at = 0;
    for _ in 0..MOST_RECORDS {
        let Some((words, end)) = record(bytes, at) else { break };
        out += &format!("    at {at}: {words}\n");
        at = end;
    }
    let rest = &bytes[at..];
    if !rest.is_empty() {
        out += &format!("    at {at}: {} bytes more, {}\n", rest.len(), shown(rest));
    }
    out
}

/// A record in words, and where it ends. Nothing where it is cut or not as long as its kind.
fn record(bytes: &[u8], at: usize) -> Option<(String, usize)> {
    let u16_at = |place: usize| Some(u16::from_le_bytes(bytes.get(place..place + 2)?.try_into().ok()?));
    let u32_at = |place: usize| Some(u32::from_le_bytes(bytes.get(place..place + 4)?.try_into().ok()?));
    let (length, kind) = (u16_at(at)?, u16_at(at + 2)?);
    let words = match (kind, length) {
        (HEADER, 8) => format!("header, displacement {}, {} elements", u32_at(at + 4)?, u16_at(at + 8)?),
        (ELEMENT, 4) => format!("element of {} top families", u16_at(at + 4)?),
        (FAMILY, 20) => {
            let [l, r, s, n] = [u32_at(at + 4)?, u32_at(at + 8)?, u32_at(at + 12)?, u32_at(at + 16)?];
            format!("family ({l},{r},{s},{n}) with {} children", u16_at(at + 20)?)
        }
        _ => return None,
    };
    Some((words, at + 2 + usize::from(length)))
}

/// A line with the name of its number.
fn line(line: &str) -> String {
    let fields: Vec<&str> = line.split(' ').collect();
    let [number, sheet, place, flag, value, value2, value3, into] = fields[..] else {
        return format!("'{}'", cut(line));
    };
    let named = number.parse::<usize>().ok().and_then(|number| NAMES.get(number));
    let name = named.copied().unwrap_or("a number of no refusal");
    let flagged = flag.parse::<usize>().ok().and_then(|flag| FLAGS.get(flag));
    let flag = flagged.copied().unwrap_or(" with a flag that does not exist");
    let buffer = if into == "-" { String::from("no buffer") } else { format!("a buffer of {} bytes", into.len() / 2) };
    format!("'{}': {name}{flag}; sheet {sheet}, place {place}, values {value}, {value2} and {value3}, {buffer}", cut(line))
}

/// A line may have a hundred thousand digits.
fn cut(line: &str) -> String {
    let mut out: String = line.chars().take(MOST_SHOWN).collect();
    if out.len() < line.len() {
        out += "..";
    }
    out
}

/// Where the buffers of two lines first differ, if they do.
fn buffers(asked: Option<&Frame>, expected: &str, printed: &str) -> Option<String> {
    let (expected, printed) = (buffer(expected)?, buffer(printed)?);
    let digits = expected.len().max(printed.len());
    let byte = (0..digits).find(|place| expected.as_bytes().get(*place) != printed.as_bytes().get(*place))? / 2;
    let what = match asked {
        Some(Frame { call: LISTING, .. }) => differing_text(byte, expected, printed),
        Some(frame) if frame.call != SHARED_RUNS => differing_byte(frame, byte, expected, printed),
        _ => differing_slot(byte / 8, expected, printed),
    };
    Some(format!("the buffers differ at byte {byte}: {what}"))
}

/// The buffer's digits, which stand behind a line's seven numbers.
fn buffer(line: &str) -> Option<&str> {
    line.split(' ').nth(7)
}

/// A byte in either line, and its file offset where the call is accepted.
fn differing_byte(frame: &Frame, byte: usize, expected: &str, printed: &str) -> String {
    let digits = |buffer: &str| buffer.get(2 * byte..2 * byte + 2).map_or(String::from("no byte"), String::from);
    let offset = calls::places(frame).and_then(|places| places.get(byte).map(|x| format!("file offset {x} ")));
    format!("{}is to be {}, and is {}", offset.unwrap_or(String::from("it ")), digits(expected), digits(printed))
}

/// The line of the text that a byte is in, in either line.
fn differing_text(byte: usize, expected: &str, printed: &str) -> String {
    format!("the text there is to be {}, and is {}", text_line(expected, byte), text_line(printed, byte))
}

/// The bytes around one from digits, as far as they are one line of a text.
fn text_line(buffer: &str, byte: usize) -> String {
    let bytes: Vec<u8> = (0..buffer.len()).step_by(2).map_while(|at| u8::from_str_radix(buffer.get(at..at + 2)?, 16).ok()).collect();
    let before = bytes.iter().take(byte).rposition(|byte| *byte == b'\n');
    let line = bytes.iter().skip(before.map_or(0, |newline| newline + 1));
    let line: Vec<u8> = line.take_while(|byte| **byte != b'\n').copied().collect();
    format!("'{}'", cut(&line.escape_ascii().to_string()))
}

/// The number of a slot in either line.
fn differing_slot(slot: usize, expected: &str, printed: &str) -> String {
    format!("slot {slot} is to be {}, and is {}", number(expected, slot), number(printed, slot))
}

/// The number in a slot, from digits that have its lowest byte first.
fn number(buffer: &str, slot: usize) -> String {
    let Some(digits) = buffer.get(16 * slot..16 * slot + 16) else { return String::from("no whole slot") };
    u64::from_str_radix(digits, 16).map_or(format!("'{digits}'"), |number| number.swap_bytes().to_string())
}
