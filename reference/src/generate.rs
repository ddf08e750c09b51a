//! Random plan texts, the same for the same kind and seed.
//!
//! A plan has a given number of places on each level; long cables take some of them for their vias, boxes stand on the
//! rest. The cables have one order from left to right, which all levels keep, so that inner segments do not cross; but in
//! some kinds vias change places. Each kind also comes rated: the same plans, their segments with ratings (E5).

use std::collections::BTreeSet;

use crate::damage;
use crate::plan::{Draft, Plan, Segment, Vertex};
use crate::random::Random;
use crate::{ratings, text};

/// The kinds of texts: all are acceptable, except most tangled, crossed and damaged ones. Tangled and crossed ones pass
/// checks 1 to 5.
pub const KINDS: [&str; 20] = [
    "small",
    "medium",
    "wide",
    "deep",
    "vias",
    "max",
    "tangled",
    "crossed",
    "crossed-max",
    "damaged",
    "rated-small",
    "rated-medium",
    "rated-wide",
    "rated-deep",
    "rated-vias",
    "rated-max",
    "rated-tangled",
    "rated-crossed",
    "rated-crossed-max",
    "rated-damaged",
];

/// What the name of a kind with ratings starts with.
const RATED: &str = "rated-";

/// A random text of that kind; none if there is no such kind.
pub fn generate(kind: &str, seed: u64) -> Option<Vec<u8>> {
    let (kind, is_rated) = kind.strip_prefix(RATED).map_or((kind, false), |kind| (kind, true));
    let random = &mut Random::new(kind, seed);
    let shape = match kind {
        "small" => small(random),
        "medium" => medium(random),
        "wide" => wide(random),
        "deep" => deep(random),
        "vias" => vias(random),
        "max" => max(random, seed),
        "tangled" => tangled(random),
        "crossed" => crossed(random),
        "crossed-max" => crossed_max(random, seed),
        "damaged" => return Some(damaged(random, is_rated)),
        _ => return None,
    };
    let mut draft = draft(random, &shape);
    if is_rated {
        ratings::rate(random, &mut draft);
    }
    Some(text::write_form(&draft))
}

fn damaged(random: &mut Random, is_rated: bool) -> Vec<u8> {
    let shape = match random.below(8) {
        0 => vias(random),
        1 => medium(random),
        2 | 3 => tangled(random),
        _ => small(random),
    };
    let mut whole = draft(random, &shape);
    if is_rated {
        ratings::rate(random, &mut whole);
        return damage::damaged_rated(random, whole);
    }
    damage::damaged(random, whole)
}

// ---------------------------------------------------------------------------------------------------------------------
// Shapes

/// Which vias change places on their level, so that inner segments cross.
#[derive(Clone, Copy)]
enum Tangle {
    /// None.
    Never,
    /// Two, on some levels.
    Seldom,
    /// Some neighbours, on every level.
    Near,
    /// All, on every level.
    Anyhow,
}

/// What a random plan is to be like.
struct Shape {
    /// How many vertices stand on each level.
    sizes: Vec<usize>,
    /// How many knots of cables are tried, see [`Cables::tie_knot`].
    knots: usize,
    /// How many cables from the top level to the bottom level are tried.
    through: usize,
    /// How many further long cables are tried.
    cables: usize,
    /// The most vias a cable has.
    reach: usize,
    /// How many segments between boxes are tried.
    segments: usize,
    /// Whether segments are added until there are as many as a plan may have.
    fill: bool,
    tangle: Tangle,
    /// The greatest half-width of a box.
    half_width: i64,
    gap: i64,
    spacing: i64,
}

impl Shape {
    fn new(random: &mut Random, sizes: Vec<usize>) -> Self {
        let places: usize = sizes.iter().sum();
        Shape {
            knots: 0,
            through: 0,
            cables: random.below(places),
            reach: 1 + random.below(sizes.len()),
            segments: random.below(2 * places),
            fill: false,
            tangle: Tangle::Never,
            half_width: random.pick(&[1, 2, 5, 20, Plan::MAX_HALF_WIDTH]),
            gap: random.pick(&[1, 2, 3, 10, Plan::MAX_GAP]),
            spacing: random.pick(&[1, 10, 25, Plan::MAX_SPACING]),
            sizes,
        }
    }
}

fn sizes(random: &mut Random, levels: (i64, i64), size: (i64, i64)) -> Vec<usize> {
    let levels = random.within(levels.0, levels.1);
    (0..levels).map(|_| random.within(size.0, size.1) as usize).collect()
}

fn small(random: &mut Random) -> Shape {
    let sizes = sizes(random, (1, 5), (1, 6));
    Shape::new(random, sizes)
}

fn medium(random: &mut Random) -> Shape {
    let sizes = sizes(random, (3, 12), (2, 14));
    Shape::new(random, sizes)
}

fn wide(random: &mut Random) -> Shape {
    let sizes = sizes(random, (2, 7), (24, 64));
    let mut shape = Shape::new(random, sizes);
    shape.cables /= 8;
    shape.segments += 64;
    shape
}

fn deep(random: &mut Random) -> Shape {
    let sizes = sizes(random, (30, 64), (1, 7));
    let mut shape = Shape::new(random, sizes);
    shape.reach = random.pick(&[3, 10, 62]);
    shape
}

/// Many cables: bounded runs of all sorts, empty, settled, and such as are ready in no pass. Cables that run side by
/// side over many levels leave the boxes between them slack on all levels but the widest.
fn vias(random: &mut Random) -> Shape {
    let most = random.within(6, 18);
    let sizes = sizes(random, (5, 14), (4, most));
    let mut shape = Shape::new(random, sizes);
    shape.knots = random.pick(&[0, 1, 2, 4, 8]);
    shape.cables = random.pick(&[4, 8, 16, 100]);
    shape.reach = random.pick(&[2, 6, 12]);
    shape.half_width = random.pick(&[2, 5, 20, Plan::MAX_HALF_WIDTH]);
    shape.gap = random.pick(&[1, 2, 5]);
    shape
}

/// As many vertices and segments as a plan may have, on 64 levels of about 16, on 16 levels of 64, or crowded on few
/// of 64 levels.
fn max(random: &mut Random, seed: u64) -> Shape {
    let sizes = match seed % 3 {
        0 => spread(random, Plan::MAX_LEVELS, 1),
        1 => vec![Plan::MAX_ON_LEVEL; Plan::MAX_VERTICES / Plan::MAX_ON_LEVEL],
        _ => spread(random, Plan::MAX_LEVELS, 14),
    };
    let mut shape = Shape::new(random, sizes);
    shape.knots = random.below(20);
    shape.cables = random.pick(&[20, 60, 200]);
    shape.reach = random.pick(&[2, 8, 62]);
    shape.segments = 2 * Plan::MAX_SEGMENTS;
    shape.fill = true;
    shape.half_width = Plan::MAX_HALF_WIDTH;
    shape.gap = Plan::MAX_GAP;
    shape
}

/// Sizes that make up all vertices a plan may have, `crowded` levels being full.
fn spread(random: &mut Random, levels: usize, crowded: usize) -> Vec<usize> {
    let mut sizes = vec![1; levels];
    let first = random.below(levels - crowded + 1);
    sizes[first..first + crowded].fill(Plan::MAX_ON_LEVEL);
    let mut rest = Plan::MAX_VERTICES - sizes.iter().sum::<usize>();
    while rest > 0 {
        let level = random.below(levels);
        if sizes[level] < Plan::MAX_ON_LEVEL {
            sizes[level] += 1;
            rest -= 1;
        }
    }
    sizes
}

fn tangled(random: &mut Random) -> Shape {
    let sizes = sizes(random, (4, 10), (3, 10));
    let mut shape = Shape::new(random, sizes);
    shape.cables = random.within(3, 30) as usize;
    shape.reach = random.within(2, 9) as usize;
    shape.tangle = Tangle::Seldom;
    shape
}

/// Long cables that cross on most levels, in plans of all shapes but the largest.
fn crossed(random: &mut Random) -> Shape {
    let mut shape = match random.below(8) {
        0 => wide(random),
        1 => deep(random),
        2 | 3 => vias(random),
        4 => medium(random),
        _ => tangled(random),
    };
    shape.cables = shape.cables.max(random.pick(&[10, 30, 200]));
    shape.reach = shape.reach.max(6);
    shape.through = random.pick(&[0, 2, 4]);
    shape.tangle = random.pick(&[Tangle::Near, Tangle::Anyhow]);
    shape
}

/// The same with as many vertices as a plan may have, at times nearly all of them vias on full levels.
fn crossed_max(random: &mut Random, seed: u64) -> Shape {
    let mut shape = max(random, seed);
    if random.once_in(3) {
        shape.through = Plan::MAX_ON_LEVEL;
    }
    shape.tangle = random.pick(&[Tangle::Near, Tangle::Anyhow]);
    shape
}

// ---------------------------------------------------------------------------------------------------------------------
// Cables

/// A long cable: the levels of the boxes at its ends, its vias standing on all levels between.
#[derive(Clone, Copy)]
struct Cable {
    top: usize,
    bottom: usize,
}

impl Cable {
    fn crosses(&self, level: usize) -> bool {
        self.top < level && level < self.bottom
    }
}

/// The cables chosen so far.
struct Cables {
    /// From left to right.
    row: Vec<Cable>,
    /// How many places of each level are free for vias.
    free: Vec<usize>,
    /// Whether a cable ends on a level; a place for a box is kept there.
    ends: Vec<bool>,
}

impl Cables {
    fn choose(random: &mut Random, shape: &Shape) -> Vec<Cable> {
        let levels = shape.sizes.len();
        let mut cables = Cables { row: Vec::new(), free: shape.sizes.clone(), ends: vec![false; levels] };
        if levels > 4 {
            (0..shape.knots).for_each(|_| cables.tie_knot(random));
        }
        if levels > 2 {
            for _ in 0..shape.through {
                cables.add(0, Cable { top: 0, bottom: levels - 1 });
            }
            for _ in 0..shape.cables {
                let top = random.below(levels - 2);
                let bottom = (top + 2 + random.below(shape.reach)).min(levels - 1);
                let place = random.below(cables.row.len() + 1);
                cables.add(place, Cable { top, bottom });
            }
        }
        cables.row
    }

    /// Four or more cables side by side, each of two vias, that start and end in turn one level higher and one lower.
    /// On their common level all stand close; above and below, boxes stand between every other two. The runs there
    /// wait for each other in passes 1 and 2, and some are left to pass 3.
    fn tie_knot(&mut self, random: &mut Random) {
        let top = random.below(self.free.len() - 4);
        let place = random.below(self.row.len() + 1);
        let late = random.below(2);
        for i in 0..4 + random.below(3) {
            let top = top + (late + i) % 2;
            self.add((place + i).min(self.row.len()), Cable { top, bottom: top + 3 });
        }
    }

    /// Puts a cable at that place of the row, if it finds a place on every level it crosses and a box on the levels
    /// where it ends.
    fn add(&mut self, place: usize, cable: Cable) {
        let Cable { top, bottom } = cable;
        let no_box = |&level: &usize| !self.ends[level] && self.free[level] == 0;
        if [top, bottom].iter().any(no_box) || self.free[top + 1..bottom].contains(&0) {
            return;
        }
        for level in [top, bottom] {
            if !self.ends[level] {
                self.ends[level] = true;
                self.free[level] -= 1;
            }
        }
        self.free[top + 1..bottom].iter_mut().for_each(|free| *free -= 1);
        self.row.insert(place, cable);
    }
}

// ---------------------------------------------------------------------------------------------------------------------
// Plans

/// What stands at a place: a box, or the via of a cable.
#[derive(Clone, Copy, PartialEq)]
enum Item {
    Box,
    Via(usize),
}

fn draft(random: &mut Random, shape: &Shape) -> Draft {
    let cables = Cables::choose(random, shape);
    let levels: Vec<Vec<Item>> = (0..shape.sizes.len()).map(|level| arrange(random, shape, &cables, level)).collect();
    let segments = choose_segments(random, shape, &cables, &levels);
    let vertex = |item: &Item| match item {
        Item::Box => Vertex::new_box(random.within(1, shape.half_width)),
        Item::Via(_) => Vertex::via(),
    };
    Draft {
        levels: levels.len() as i64,
        gap: shape.gap,
        spacing: shape.spacing,
        sizes: shape.sizes.clone(),
        vertices: levels.iter().flatten().map(vertex).collect(),
        segments: segments.into_iter().map(Segment::new).collect(),
    }
}

/// The items of a level from left to right: the vias in the order of their cables, or tangled, boxes anywhere between.
fn arrange(random: &mut Random, shape: &Shape, cables: &[Cable], level: usize) -> Vec<Item> {
    let mut row: Vec<Item> = (0..cables.len()).filter(|&cable| cables[cable].crosses(level)).map(Item::Via).collect();
    tangle(random, shape.tangle, &mut row);
    while row.len() < shape.sizes[level] {
        row.insert(random.below(row.len() + 1), Item::Box);
    }
    row
}

/// Lets vias change places.
fn tangle(random: &mut Random, tangle: Tangle, vias: &mut [Item]) {
    match tangle {
        Tangle::Never => {}
        Tangle::Seldom => {
            if vias.len() > 1 && random.once_in(3) {
                let i = random.below(vias.len());
                let j = random.below(vias.len());
                vias.swap(i, j);
            }
        }
        Tangle::Near => {
            for i in 1..vias.len() {
                if random.once_in(3) {
                    vias.swap(i - 1, i);
                }
            }
        }
        Tangle::Anyhow => random.shuffle(vias),
    }
}

/// The segments of the cables, and random ones between boxes.
fn choose_segments(
    random: &mut Random,
    shape: &Shape,
    cables: &[Cable],
    levels: &[Vec<Item>],
) -> BTreeSet<(usize, usize)> {
    let boxes = boxes_of(levels);
    let mut segments = cable_segments(random, cables, levels, &boxes);
    let room = Plan::MAX_SEGMENTS - segments.len();
    for _ in 0..shape.segments.min(room) {
        if levels.len() > 1 {
            let upper = random.below(levels.len() - 1);
            segments.extend(random_segment(random, &boxes[upper], &boxes[upper + 1]));
        }
    }
    if shape.fill {
        let mut others: Vec<_> = boxes.windows(2).flat_map(|pair| all_pairs(&pair[0], &pair[1])).collect();
        others.retain(|pair| !segments.contains(pair));
        random.shuffle(&mut others);
        others.truncate(Plan::MAX_SEGMENTS - segments.len());
        segments.extend(others);
    }
    segments
}

/// The numbers of the boxes on each level.
fn boxes_of(levels: &[Vec<Item>]) -> Vec<Vec<usize>> {
    let mut number = 0;
    let mut numbered = |item: &Item| {
        number += 1;
        (*item == Item::Box).then_some(number - 1)
    };
    levels.iter().map(|row| row.iter().filter_map(&mut numbered).collect()).collect()
}

fn cable_segments(
    random: &mut Random,
    cables: &[Cable],
    levels: &[Vec<Item>],
    boxes: &[Vec<usize>],
) -> BTreeSet<(usize, usize)> {
    // The vertices of each cable from the top down.
    let mut threads: Vec<Vec<usize>> = cables.iter().map(|cable| vec![random.pick(&boxes[cable.top])]).collect();
    for (number, item) in levels.iter().flatten().enumerate() {
        if let Item::Via(cable) = item {
            threads[*cable].push(number);
        }
    }
    for (thread, cable) in threads.iter_mut().zip(cables) {
        thread.push(random.pick(&boxes[cable.bottom]));
    }
    threads.iter().flat_map(|thread| thread.windows(2)).map(|pair| (pair[0], pair[1])).collect()
}

/// A segment between boxes of two levels, half of them between boxes that stand about one above the other.
fn random_segment(random: &mut Random, upper: &[usize], lower: &[usize]) -> Option<(usize, usize)> {
    if upper.is_empty() || lower.is_empty() {
        return None;
    }
    let i = random.below(upper.len());
    let j = if random.once_in(2) {
        random.below(lower.len())
    } else {
        (i * lower.len() / upper.len() + random.below(2)).min(lower.len() - 1)
    };
    Some((upper[i], lower[j]))
}

fn all_pairs(upper: &[usize], lower: &[usize]) -> Vec<(usize, usize)> {
    upper.iter().flat_map(|&a| lower.iter().map(move |&b| (a, b))).collect()
}
