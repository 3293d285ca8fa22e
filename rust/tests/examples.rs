//! The sheets that ship in `examples/`: each is that of its text, each view has every node in the element that it is meant to be in, and
//! each slip is refused as its text says.

use comparison::element::Element;
use comparison::layout::{family, Layout, Siblings};
use comparison::refusal::FLAGS;
use comparison::sheet::read;
use comparison::write;
use std::fs;
use std::path::{Path, PathBuf};

/// The files of a folder with an extension, in the order of their names.
fn files(folder: &str, extension: &str) -> Vec<PathBuf> {
    let folder = Path::new(env!("CARGO_MANIFEST_DIR")).join("../examples").join(folder);
    let entries = fs::read_dir(folder).expect("the folder is there");
    let paths = entries.map(|entry| entry.expect("a file can be listed").path());
    let mut files: Vec<PathBuf> = paths.filter(|path| path.extension().is_some_and(|found| found == extension)).collect();
    files.sort();
    files
}

fn names(paths: &[PathBuf]) -> Vec<&str> {
    paths.iter().map(|path| path.file_stem().and_then(|stem| stem.to_str()).expect("a name in plain letters")).collect()
}

fn text(path: &Path) -> String {
    fs::read_to_string(path).expect("a text can be read")
}

/// A text's layout. Families stand four spaces deep for each level; what follows `#` is a comment.
fn layout(text: &str) -> Layout {
    let mut layout = Layout { displacement: 0, elements: Vec::new() };
    for line in text.lines().map(|line| line.split('#').next().unwrap_or("").trim_end()).filter(|line| !line.is_empty()) {
        let words: Vec<&str> = line.split_whitespace().collect();
        match words[..] {
            ["displacement", displacement] => layout.displacement = number(displacement),
            ["element"] => layout.elements.push(Vec::new()),
            [l, r, s, n] => {
                let level = (line.len() - line.trim_start().len()) / 4;
                let element = layout.elements.last_mut().expect("a family stands under an element");
                siblings(element, level).push(family(number(l), number(r), number(s), number(n)));
            }
            _ => panic!("'{line}' is no line of a layout"),
        }
    }
    layout
}

fn number(word: &str) -> u32 {
    word.parse().expect("a number of 32 bits")
}

/// Where the next family of a level belongs: under the newest family of each level above it.
fn siblings(tops: &mut Siblings, level: usize) -> &mut Siblings {
    (1..level).fold(tops, |siblings, _| &mut siblings.last_mut().expect("a child stands under a family").children)
}

#[test]
fn each_sheet_is_that_of_its_text() {
    let (texts, sheets) = (files("", "layout"), files("", "sheet"));
    assert_eq!(names(&texts), names(&sheets));
    for (typed, made) in texts.iter().zip(&sheets) {
        assert_eq!(fs::read(made).expect("a sheet can be read"), write::sheet(&layout(&text(typed))), "{typed:?}");
    }
}

/// A view by its name: what of a frame each element has, in bytes, and the element of the node in a row and a column.
type View = (&'static str, &'static [u64], fn(u64, u64) -> usize);

const VIEWS: [View; 4] = [
    ("by-controller", &[480, 480, 480, 480], |_, column| column as usize / 10),
    ("by-corner-block", &[32, 32, 32, 32, 1_792], |row, column| match (row / 4, column / 4) {
        (0, 0) => 0,
        (0, 9) => 1,
        (5, 0) => 2,
        (5, 9) => 3,
        _ => 4,
    }),
    ("by-edge-node", &[248, 1_672], |row, column| if [0, 23].contains(&row) || [0, 39].contains(&column) { 0 } else { 1 }),
    ("by-row", &[1_920], |_, _| 0),
];

/// A frame is 24 rows of 40 nodes, two bytes a node.
#[test]
fn each_view_has_every_node_where_it_says() {
    let sheets = files("", "sheet");
    assert_eq!(names(&sheets), VIEWS.map(|(view, ..)| view));
    for (path, (view, sizes, element_of)) in sheets.iter().zip(VIEWS) {
        let layout = read(&fs::read(path).expect("a sheet can be read")).expect("a view is accepted");
        let elements = Element::all(&layout);
        assert_eq!((layout.displacement, elements[0].period()), (0, 1_920), "{view}");
        assert_eq!(elements.iter().map(Element::size).collect::<Vec<_>>(), sizes, "{view}");
        for x in 0..1_920 {
            assert!(elements[element_of(x / 80, x % 80 / 2)].has(x), "{view}, byte {x}");
        }
    }
}

/// The first line of a slip is a comment that starts with what the listing prints of it.
#[test]
fn each_slip_is_refused_as_its_text_says() {
    let slips = files("refused", "layout");
    assert_eq!(slips.len(), 7);
    for text in slips.iter().map(|path| text(path)) {
        let refusal = read(&write::sheet(&layout(&text))).expect_err("a slip is refused");
        let flag = FLAGS[usize::from(refusal.flag)];
        let said = format!("# refused {} at {}{flag}: ", refusal.number, refusal.place);
        assert!(text.starts_with(&said), "{said}is what this should say: {text}");
    }
}
