//! Random plan texts for the walk along a level (E3): cables side by side that cross where they are let.
//!
//! Each cable has one vertex on every level, a box on the first and on the last, and its segments join each to the next.
//! Between, a level has vias throughout, boxes throughout, or both. The order of the cables goes on from level to level, so
//! that a crossing is between two levels alone. Boxes that belong to no cable stand anywhere between.

use std::collections::BTreeSet;

use crate::plan::{Draft, Plan, Segment, Vertex};
use crate::random::Random;
use crate::text;

/// How many cables there are at most where a level need not be wide.
pub const FEW: usize = 12;

/// The text of a seed, with at most so many cables, 1 to 64. It passes checks 1 to 5.
pub fn text(seed: u64, most: usize) -> Vec<u8> {
    text::write_form(&draft(&mut Random::new("cables", seed), most))
}

/// What such a text says.
pub(crate) fn draft(random: &mut Random, most: usize) -> Draft {
    let cables = if random.once_in(3) { most } else { 1 + random.below(most) };
    let widest = Plan::MAX_ON_LEVEL.min(cables + random.below(4));
    let tallest = Plan::MAX_LEVELS.min(Plan::MAX_VERTICES / widest);
    let levels = match random.below(8) {
        0 => tallest,
        1 => 2 + random.below(2),
        _ => tallest.min(4 + random.below(4)),
    };
    let crossings = Crossings::choose(random, levels);
    let only_vias = random.once_in(2);
    let mut order: Vec<usize> = (0..cables).collect();
    let mut rows = Vec::new();
    for level in 0..levels {
        if level > 0 && crossings.are_above(random, level) {
            cross(random, &mut order);
        }
        let at_end = level == 0 || level + 1 == levels;
        let boxes = match random.below(4) {
            _ if at_end => Boxes::All,
            _ if only_vias => Boxes::None,
            0 => Boxes::All,
            1 => Boxes::None,
            _ => Boxes::Some,
        };
        rows.push(row(random, &order, boxes, widest));
    }
    joined(random, &rows, cables)
}

/// Between which levels cables change places.
enum Crossings {
    Nowhere,
    /// Above that level.
    Above(usize),
    /// Above any level, as chance has it.
    Anywhere,
}

impl Crossings {
    /// A single crossing is mostly above a level that can have vias below vias.
    fn choose(random: &mut Random, levels: usize) -> Self {
        match random.below(4) {
            0 => Crossings::Nowhere,
            1 => Crossings::Anywhere,
            2 => Crossings::Above(1 + random.below(levels - 1)),
            _ => Crossings::Above(2 + random.below(levels.saturating_sub(3))),
        }
    }

    fn are_above(&self, random: &mut Random, level: usize) -> bool {
        match *self {
            Crossings::Nowhere => false,
            Crossings::Above(only) => level == only,
            Crossings::Anywhere => random.once_in(2),
        }
    }
}

/// Lets cables change places: the first descent is then at the start, at the end or between.
fn cross(random: &mut Random, order: &mut [usize]) {
    let Some(last) = order.len().checked_sub(1).filter(|&last| last > 0) else { return };
    match random.below(6) {
        0 => order.swap(0, 1),
        1 => order.swap(last - 1, last),
        2 => order.rotate_left(1),
        3 => order.rotate_right(1),
        4 => random.shuffle(order),
        _ => {
            let i = random.below(last);
            order.swap(i, i + 1);
        }
    }
}

/// Which cables have boxes on a level; the others have vias.
#[derive(Clone, Copy)]
enum Boxes {
    None,
    Some,
    All,
}

/// What stands at a place of a level.
#[derive(Clone, Copy)]
struct Place {
    /// The cable whose vertex it is.
    cable: Option<usize>,
    is_via: bool,
}

/// A level of cables in that order, with other boxes between up to a size that is chosen.
fn row(random: &mut Random, order: &[usize], boxes: Boxes, widest: usize) -> Vec<Place> {
    let mut is_via = || match boxes {
        Boxes::None => true,
        Boxes::Some => !random.once_in(4),
        Boxes::All => false,
    };
    let mut row: Vec<Place> = order.iter().map(|&cable| Place { cable: Some(cable), is_via: is_via() }).collect();
    for _ in 0..random.below(widest - order.len() + 1) {
        row.insert(random.below(row.len() + 1), Place { cable: None, is_via: false });
    }
    row
}

/// The plan with these levels: the segments of the cables, and some between boxes.
fn joined(random: &mut Random, rows: &[Vec<Place>], cables: usize) -> Draft {
    // The numbers of each cable's vertices from the top down, and of each level's boxes.
    let (mut threads, mut boxes) = (vec![Vec::new(); cables], vec![Vec::new(); rows.len()]);
    let places = rows.iter().enumerate().flat_map(|(level, row)| row.iter().map(move |place| (level, place)));
    for (number, (level, place)) in places.enumerate() {
        if let Some(cable) = place.cable {
            threads[cable].push(number);
        }
        if !place.is_via {
            boxes[level].push(number);
        }
    }
    let ends = |pair: &[usize]| (pair[0], pair[1]);
    let mut segments: BTreeSet<_> = threads.iter().flat_map(|thread| thread.windows(2)).map(ends).collect();
    for pair in boxes.windows(2).filter(|pair| pair.iter().all(|boxes| !boxes.is_empty())) {
        for _ in 0..random.below(4) {
            segments.insert((random.pick(&pair[0]), random.pick(&pair[1])));
        }
    }
    let mut vertex = |place: &Place| if place.is_via { Vertex::via() } else { Vertex::new_box(random.within(1, 9)) };
    Draft {
        levels: rows.len() as i64,
        vertices: rows.iter().flatten().map(&mut vertex).collect(),
        gap: random.within(1, 9),
        spacing: random.within(1, 99),
        sizes: rows.iter().map(Vec::len).collect(),
        segments: segments.into_iter().map(Segment::new).collect(),
    }
}
