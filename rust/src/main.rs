//! Makes frames with the lines that 01 asks for, compares lines with them, and tries laws on a program's answers.

use comparison::asking::Program;
use comparison::frame::Frame;
use comparison::programs::{self, Case};
use comparison::{calls, generate, laws, spelled};
use std::error::Error;
use std::fs;
use std::path::Path;
use std::process::ExitCode;

const USAGE: &str = "comparison frames SEED COUNT FRAMES-FILE LINES-FILE
    writes the frames of a seed, COUNT of them by chance, and the line expected for each
comparison kept FRAMES-FILE LINES-FILE
    writes those that are kept beside the program `answers`
comparison cases FOLDER
    writes PROGRAM/NAME.in and PROGRAM/NAME.out for each input that a built program is tried on, and what it must print
comparison lines FRAMES-FILE EXPECTED-FILE PRINTED-FILE
    compares the lines that were printed with those expected, and spells the first difference out
comparison laws SEED COUNT PROGRAM ..
    has a program, given with its arguments, answer calls one after the other, on COUNT layouts by chance, and spells the first law of 02
    out that its answers break";

fn main() -> ExitCode {
    let words: Vec<String> = std::env::args().skip(1).collect();
    let words: Vec<&str> = words.iter().map(String::as_str).collect();
    let done = match words[..] {
        ["frames", seed, count, frames, lines] => parsed(seed, count).and_then(|of| write_frames(of, frames, lines)),
        ["kept", frames, lines] => write_frames(generate::KEPT, frames, lines),
        ["cases", folder] => write_cases(Path::new(folder)),
        ["lines", frames, expected, printed] => compare(frames, expected, printed),
        ["laws", seed, count, ref program @ ..] => parsed(seed, count).and_then(|of| try_laws(of, program)),
        _ => Err(USAGE.into()),
    };
    match done {
        Ok(()) => ExitCode::SUCCESS,
        Err(error) => {
            eprintln!("{error}");
            ExitCode::FAILURE
        }
    }
}

type Done<T> = Result<T, Box<dyn Error>>;

fn parsed(seed: &str, count: &str) -> Done<(u64, usize)> {
    Ok((seed.parse()?, count.parse()?))
}

fn write_frames((seed, count): (u64, usize), frames_file: &str, lines_file: &str) -> Done<()> {
    let frames = generate::frames(seed, count);
    let mut bytes: Vec<u8> = frames.iter().flat_map(Frame::bytes).collect();
    bytes.extend(generate::bad_end(seed));
    fs::write(lines_file, calls::printed(&bytes))?;
    fs::write(frames_file, bytes)?;
    Ok(())
}

fn write_cases(folder: &Path) -> Done<()> {
    for Case { program, name, input, output } in programs::cases() {
        let of_program = folder.join(program);
        fs::create_dir_all(&of_program)?;
        fs::write(of_program.join(format!("{name}.in")), input)?;
        fs::write(of_program.join(format!("{name}.out")), output)?;
    }
    Ok(())
}

fn try_laws((seed, count): (u64, usize), program: &[&str]) -> Done<()> {
    let mut program = Program::start(program)?;
    let mut calls = 0;
    laws::try_all(seed, count, &mut |frame| {
        calls += 1;
        program.ask(frame)
    })?;
    program.end()?;
    println!("{calls} calls on {count} layouts, and every law holds");
    Ok(())
}

fn compare(frames_file: &str, expected_file: &str, printed_file: &str) -> Done<()> {
    let frames = fs::read(frames_file)?;
    let expected = fs::read_to_string(expected_file)?;
    let printed = fs::read(printed_file)?;
    let printed = String::from_utf8_lossy(&printed);
    // Split and not `lines`: a newline that is missing at the end is a difference too.
    let (expected, printed): (Vec<&str>, Vec<&str>) = (expected.split('\n').collect(), printed.split('\n').collect());
    let mut rest = frames.as_slice();
    for (index, line) in expected.iter().enumerate() {
        let got = printed.get(index).copied();
        let frame = Frame::read(rest);
        if got != Some(line) {
            let asked = frame.as_ref().map(|(frame, _)| frame);
            return Err(format!("frame {index}: {}", spelled::difference(asked, line, got)).into());
        }
        rest = frame.map_or(rest, |(_, rest)| rest);
    }
    if printed.len() > expected.len() {
        return Err(format!("{} lines more than there are frames", printed.len() - expected.len()).into());
    }
    println!("{} lines compared, no difference", expected.len() - 1);
    Ok(())
}
