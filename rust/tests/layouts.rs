//! Writing then reading gives a layout back, for shapes of every sort.

use comparison::layout::{Family, Layout};
use comparison::pattern::Pattern;
use comparison::random::Random;
use comparison::sheet::read;
use comparison::{layout, shapes, write};

fn some_layouts() -> Vec<Layout> {
    let mut random = Random::new(7);
    (0..2_000).map(|_| shapes::any(&mut random)).collect()
}

fn levels(siblings: &[Family]) -> usize {
    siblings.iter().map(|family| 1 + levels(&family.children)).max().unwrap_or(0)
}

#[test]
fn every_shape_is_accepted_and_read_back() {
    for layout in some_layouts() {
        assert_eq!(read(&write::sheet(&layout)), Ok(layout));
    }
}

#[test]
fn the_shapes_reach_every_bound() {
    let layouts = some_layouts();
    let most = |measure: fn(&Layout) -> usize| layouts.iter().map(measure).max();
    assert_eq!(most(|layout| layout.elements.len()), Some(16));
    assert_eq!(most(|layout| layout.elements.iter().map(|families| layout::count(families)).sum()), Some(256));
    assert_eq!(most(|layout| layout.elements.iter().map(|families| levels(families)).max().unwrap_or(0)), Some(4));
    assert_eq!(most(|layout| Pattern::of(layout).size()), Some(65_536));
}

#[test]
fn an_element_selects_what_its_segments_hold() {
    let nested = layout::family(0, 7, 16, 2).with(vec![layout::family(0, 1, 4, 2)]);
    assert_eq!(Pattern::of(&layout::layout(vec![vec![nested]])).size(), 8);
}
