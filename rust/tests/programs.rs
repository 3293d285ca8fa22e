//! What the built programs are tried on: that it is all there, and what must be printed, by hand.

use comparison::bad;
use comparison::calls::printed;
use comparison::programs::{cases, Case};
use std::collections::BTreeSet;

/// What a program must print for the input of this name.
fn output(program: &str, name: &str) -> String {
    let of_name = |case: &&Case| (case.program, case.name.as_str()) == (program, name);
    cases().iter().find(of_name).unwrap_or_else(|| panic!("{program} has no input {name}")).output.clone()
}

#[test]
fn the_lines_of_listing() {
    let lines = [
        ("empty", "refused 1 at 0\n"),
        ("hole", "refused 11 at 2 hole\n"),
        ("overlap", "refused 11 at 1 overlap\n"),
        ("hole-at-the-last-place", "refused 11 at 65534 hole\n"),
        ("cut-in-its-header", "refused 1 at 0\n"),
        ("cut-between-records", "refused 1 at 16\n"),
        ("cut-before-its-last-byte", "refused 1 at 72\n"),
        ("good-and-a-newline", "refused 10 at 94\n"),
        ("good-and-more-to-8192-bytes", "refused 10 at 94\n"),
        ("good-and-more-to-8193-bytes", "refused 10 at 94\n"),
        ("good-and-more-to-200000-bytes", "refused 10 at 94\n"),
        ("longest-and-more-to-8193-bytes", "refused 10 at 5738\n"),
        ("1000-families", "refused 5 at 5738\n"),
        ("noise", "refused 2 at 0\n"),
        ("noise-of-20000-bytes", "refused 2 at 0\n"),
        ("noise-behind-a-header", "refused 2 at 10\n"),
    ];
    for (name, line) in lines {
        assert_eq!(output("listing", name), line, "{name}");
    }
    assert_eq!(output("listing", "good").lines().count(), 4);
    assert_eq!(output("listing", "longest").lines().count(), 17);
}

#[test]
fn the_lines_of_answers() {
    let lines = [
        ("nothing", ""),
        ("sheet-good", "0 0 0 0 6 3 2 -\n"),
        ("sheet-longest", "0 0 0 0 65536 16 4294967295 -\n"),
        ("sheet-empty", "1 1 0 0 0 0 0 -\n"),
        ("sheet-hole", "11 1 2 1 0 0 0 -\n"),
        ("sheet-overlap", "11 1 1 2 0 0 0 -\n"),
        ("sheet-cut-before-its-last-byte", "1 1 72 0 0 0 0 -\n"),
        ("sheet-good-and-more-to-8193-bytes", "10 1 94 0 0 0 0 -\n"),
        ("sheet-1000-families", "5 1 5738 0 0 0 0 -\n"),
        ("sheet-noise", "2 1 0 0 0 0 0 -\n"),
    ];
    for (name, line) in lines {
        assert_eq!(output("answers", name), line, "{name}");
    }
}

/// What follows a bad frame is not answered, though it is a good one.
#[test]
fn a_bad_frame_is_tried_alone_and_behind_a_good_one() {
    let ends = bad::ends();
    assert_eq!(ends.len(), 18);
    for (name, _) in ends {
        assert_eq!(output("answers", name), "bad frame\n", "{name}");
        assert_eq!(output("answers", &format!("good-then-{name}")), "0 0 0 0 6 3 2 -\nbad frame\n", "{name}");
    }
    assert_eq!(printed(&[bad::good(), bad::good()].concat()), "0 0 0 0 6 3 2 -\n".repeat(2));
}

/// A name is a file's, and no two cases of a program share one.
#[test]
fn every_case_has_a_name_of_its_own() {
    let cases = cases();
    let plain = |name: &str| name.chars().all(|letter| letter.is_ascii_alphanumeric() || letter == '-');
    assert!(cases.iter().all(|case| plain(&case.name)));
    assert_eq!(cases.iter().map(|case| (case.program, &case.name)).collect::<BTreeSet<_>>().len(), cases.len());
    let of = |program: &str| cases.iter().filter(|case| case.program == program).count();
    assert_eq!((of("listing"), of("answers")), (18, 54));
}
