//! The answers against 01's definitions at their plainest, for layouts of all shapes: every segment is looked at for every offset, and
//! every offset from the displacement on is counted.

use comparison::element::{Element, END};
use comparison::layout::{layout, Family, Layout};
use comparison::listing::text;
use comparison::random::Random;
use comparison::runs::{shared, Run};
use comparison::shapes;
use comparison::write::{records, sheet};

/// Whether families select an offset: some segment of some family holds it, and the children, if any, select it there.
fn select(families: &[Family], x: u64) -> bool {
    families.iter().any(|family| (0..family.n).any(|k| in_segment(family, u64::from(family.l) + u64::from(k) * u64::from(family.s), x)))
}

fn in_segment(family: &Family, start: u64, x: u64) -> bool {
    x >= start && x < start + family.width() && (family.children.is_empty() || select(&family.children, x - start))
}

/// The longest pattern of which every segment is looked at for every offset.
const SMALL: u64 = 600;

fn some_layouts(seed: u64, many: usize) -> Vec<Layout> {
    let mut random = Random::new(seed);
    let small = |layout: &Layout| Element::of(layout, 0).period() <= SMALL;
    std::iter::repeat_with(|| shapes::any(&mut random)).filter(small).take(many).collect()
}

#[test]
fn rank_and_inverse_are_counts() {
    for layout in some_layouts(1, 60) {
        let d = u64::from(layout.displacement);
        for (index, families) in layout.elements.iter().enumerate() {
            let element = Element::of(&layout, index);
            let mut before = 0;
            for x in d..d + 2 * element.period() + 7 {
                let has = select(families, (x - d) % element.period());
                assert_eq!((element.has(x), element.rank(x)), (has, before));
                if has {
                    assert_eq!(element.byte(before), Some(x));
                    before += 1;
                }
            }
            assert!((0..d.min(20)).all(|x| !element.has(x)));
        }
    }
}

#[test]
fn the_elements_share_every_offset_of_the_file() {
    for layout in some_layouts(2, 60) {
        let d = u64::from(layout.displacement);
        let elements: Vec<Element> = (0..layout.elements.len()).map(|index| Element::of(&layout, index)).collect();
        for x in [d, d + 1, (1 << 32) + 5, END - 1, END] {
            assert_eq!(elements.iter().filter(|element| element.has(x)).count(), 1);
            assert_eq!(elements.iter().map(|element| element.rank(x)).sum::<u64>(), x - d);
        }
    }
}

#[test]
fn the_last_byte_below_the_end_and_the_first_past_it() {
    for layout in some_layouts(3, 60) {
        for index in 0..layout.elements.len() {
            let element = Element::of(&layout, index);
            let bytes = element.rank(END);
            let last = element.byte(bytes - 1).expect("the last byte is below 2^40");
            assert!((last + 1..END).all(|x| !element.has(x)));
            assert_eq!([bytes, bytes + 1, END, u64::MAX].map(|y| element.byte(y)), [None; 4]);
        }
    }
}

/// A list of runs is right exactly when its offsets are those in both, no run touches the next, and the ranks are those of the starts.
#[test]
fn runs_are_maximal_and_hold_what_is_shared() {
    let mut random = Random::new(4);
    for layouts in some_layouts(5, 400).chunks(2) {
        let [first, second] = [0, 1].map(|side| Element::of(&layouts[side], random.index(layouts[side].elements.len())));
        let a = first.displacement().max(second.displacement()) + random.long_below(900);
        let b = a + random.long_below(1_500);
        let runs = shared(&first, &second, (a, b));
        let listed: Vec<u64> = runs.iter().flat_map(|run| run.start..run.start + run.length).collect();
        let expected: Vec<u64> = (a..b).filter(|x| first.has(*x) && second.has(*x)).collect();
        assert_eq!(listed, expected);
        assert!(runs.windows(2).all(|next| next[0].start + next[0].length < next[1].start));
        let ranked = |run: &Run| run.length > 0 && run.subfile1 == first.rank(run.start) && run.subfile2 == second.rank(run.start);
        assert!(runs.iter().all(ranked));
    }
}

#[test]
fn a_listing_counts_offsets_and_records() {
    for some in some_layouts(6, 100) {
        let selected = |families: &[Family]| (0..SMALL).filter(|x| select(families, *x)).collect::<Vec<u64>>();
        let each: Vec<Vec<u64>> = some.elements.iter().map(|families| selected(families)).collect();
        let size: usize = each.iter().map(Vec::len).sum();
        let mut lines = format!("layout displacement {} size {size} elements {}\n", some.displacement, each.len());
        for (index, offsets) in each.iter().enumerate() {
            // A sheet of this element alone has a header, the element's record, and one for each family.
            let families = records(&layout(vec![some.elements[index].clone()])).len() - 2;
            lines += &format!("{index} size {} families {families} first {}\n", offsets.len(), offsets[0]);
        }
        assert_eq!(text(&sheet(&some)), lines);
    }
}
