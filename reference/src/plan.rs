//! A plan: its data, checks 2 to 6, and what can be asked of it.
//!
//! Vertices are numbered from the top level down and from left to right. So a level is a range of numbers, and the
//! siblings of v are v − 1 and v + 1 as far as the level goes.

use std::iter;
use std::ops::{Range, RangeInclusive};

use crate::{refusal, walk, Refusal};

/// A box or a via.
#[derive(Clone, Copy, Debug, PartialEq, Eq)]
pub struct Vertex {
    /// Whether it is a via, where a long cable crosses a level.
    pub is_via: bool,
    /// Half-width in steps; 0 for a via.
    pub half_width: i64,
}

impl Vertex {
    /// A box of that half-width.
    pub fn new_box(half_width: i64) -> Self {
        Vertex { is_via: false, half_width }
    }

    /// A via.
    pub fn via() -> Self {
        Vertex { is_via: true, half_width: 0 }
    }
}

/// A segment as its line says it. Segments are ordered by upper, then by lower end.
#[derive(Clone, Copy, Debug, PartialEq, Eq, PartialOrd, Ord)]
pub struct Segment {
    /// The number of its upper end, A.
    pub upper: usize,
    /// The number of its lower end, B.
    pub lower: usize,
    /// The rating that stands in the line, W, if there is one (E5).
    pub written: Option<i64>,
}

impl Segment {
    /// The rating of a segment without a written one.
    pub const UNRATED: i64 = 1;

    /// A segment without a written rating.
    pub fn new((upper, lower): (usize, usize)) -> Self {
        Segment { upper, lower, written: None }
    }

    /// A segment of that rating, which is written unless it is 1.
    pub fn rated((upper, lower): (usize, usize), rating: i64) -> Self {
        Segment { upper, lower, written: (rating != Segment::UNRATED).then_some(rating) }
    }

    /// Upper and lower end.
    pub fn ends(&self) -> (usize, usize) {
        (self.upper, self.lower)
    }

    /// Its rating: "without one it has rating 1".
    pub fn rating(&self) -> i64 {
        self.written.unwrap_or(Segment::UNRATED)
    }
}

/// What a text in the right form says, before checks 2 to 6.
#[derive(Clone, Debug, PartialEq, Eq)]
pub struct Draft {
    /// K, the number of levels announced.
    pub levels: i64,
    /// G, the gap in steps.
    pub gap: i64,
    /// S, the level spacing in steps.
    pub spacing: i64,
    /// How many vertices each level line has.
    pub sizes: Vec<usize>,
    /// The vertices of all level lines in reading order.
    pub vertices: Vec<Vertex>,
    /// The segments in reading order.
    pub segments: Vec<Segment>,
}

/// The two sides on which a level can precede another.
#[derive(Clone, Copy, Debug, PartialEq, Eq)]
pub enum Side {
    /// The level above.
    Above,
    /// The level below.
    Below,
}

/// A run as a stretch of its level: the boxes `first..end`, between vias or level ends.
#[derive(Clone, Debug, PartialEq, Eq)]
pub struct Stretch {
    /// Its first box.
    pub first: usize,
    /// One past its last box; equal to `first` if the run is empty.
    pub end: usize,
    /// The via directly left of it.
    pub left: Option<usize>,
    /// The via directly right of it.
    pub right: Option<usize>,
}

impl Stretch {
    /// Its boxes.
    pub fn boxes(&self) -> Range<usize> {
        self.first..self.end
    }

    /// Its boxes with the vias that bound it.
    pub fn members(&self) -> Range<usize> {
        self.left.unwrap_or(self.first)..self.right.map_or(self.end, |via| via + 1)
    }

    /// Both vias, if the run is bounded.
    pub fn bounds(&self) -> Option<(usize, usize)> {
        self.left.zip(self.right)
    }

    /// Whether it has no boxes.
    pub fn is_empty(&self) -> bool {
        self.first == self.end
    }
}

/// A plan that passes checks 1 to 6.
#[derive(Clone, Debug, PartialEq, Eq)]
pub struct Plan {
    draft: Draft,
    /// Level l is `level_start[l]..level_start[l + 1]`.
    level_start: Vec<usize>,
    level_of: Vec<usize>,
    above: Links,
    below: Links,
}

impl Plan {
    /// Most levels.
    pub const MAX_LEVELS: usize = 64;
    /// Greatest gap in steps.
    pub const MAX_GAP: i64 = 100;
    /// Greatest level spacing in steps.
    pub const MAX_SPACING: i64 = 10_000;
    /// Greatest half-width of a box in steps.
    pub const MAX_HALF_WIDTH: i64 = 200;
    /// Most vertices on a level.
    pub const MAX_ON_LEVEL: usize = 64;
    /// Most vertices.
    pub const MAX_VERTICES: usize = 1_024;
    /// Most segments.
    pub const MAX_SEGMENTS: usize = 2_048;
    /// Greatest rating of a segment.
    pub const MAX_RATING: i64 = 100;

    /// The plan that the draft describes, if it passes checks 2 to 6. A draft that no text can say is refused with 1.
    pub fn new(draft: Draft) -> Result<Plan, Refusal> {
        let plan = Plan::up_to_check_5(draft)?;
        plan.check_crossings()?;
        Ok(plan)
    }

    /// The same without check 6: inner segments may cross. It is to be rearranged, see [`crate::tangled`], or walked along,
    /// see [`crate::walk`].
    pub(crate) fn up_to_check_5(draft: Draft) -> Result<Plan, Refusal> {
        check_sayable(&draft)?;
        check_limits(&draft)?;
        let level_start = level_starts(&draft.sizes);
        let level_of = levels_of_vertices(&draft.sizes);
        check_ends(&draft.segments, &level_of)?;
        check_rising(&draft.segments)?;
        let vertices = level_of.len();
        let above = Links::new(vertices, draft.segments.iter().map(|s| (s.lower, s.upper, s.rating())));
        let below = Links::new(vertices, draft.segments.iter().map(|s| (s.upper, s.lower, s.rating())));
        let plan = Plan { draft, level_start, level_of, above, below };
        plan.check_vias()?;
        Ok(plan)
    }

    /// Check 5: a via has exactly one segment up and one down.
    fn check_vias(&self) -> Result<(), Refusal> {
        let threaded = |v| self.above.of(v).len() == 1 && self.below.of(v).len() == 1;
        let mut vias = (0..self.vertices()).filter(|&v| self.is_via(v));
        vias.all(threaded).then_some(()).ok_or(refusal::VIA)
    }

    /// Check 6, level after level from the top, up to the first descent.
    fn check_crossings(&self) -> Result<(), Refusal> {
        if (0..self.levels()).any(|level| walk::walk(self, level).is_crossed) {
            return Err(refusal::CROSSING);
        }
        Ok(())
    }

    /// The data as read.
    pub fn draft(&self) -> &Draft {
        &self.draft
    }

    /// How many levels there are.
    pub fn levels(&self) -> usize {
        self.draft.sizes.len()
    }

    /// How many vertices there are.
    pub fn vertices(&self) -> usize {
        self.draft.vertices.len()
    }

    /// The segments in their order.
    pub fn segments(&self) -> &[Segment] {
        &self.draft.segments
    }

    /// The vertices of a level from left to right.
    pub fn level(&self, level: usize) -> Range<usize> {
        self.level_start[level]..self.level_start[level + 1]
    }

    /// The level on which a vertex stands.
    pub fn level_of(&self, v: usize) -> usize {
        self.level_of[v]
    }

    /// How far down a level is drawn, in steps.
    pub fn height(&self, level: usize) -> i64 {
        self.draft.spacing * level as i64
    }

    /// Whether the vertex is a via.
    pub fn is_via(&self, v: usize) -> bool {
        self.draft.vertices[v].is_via
    }

    /// The vertex directly left of v on its level.
    pub fn left_sibling(&self, v: usize) -> Option<usize> {
        (v > self.level(self.level_of[v]).start).then(|| v - 1)
    }

    /// The vertex directly right of v on its level.
    pub fn right_sibling(&self, v: usize) -> Option<usize> {
        (v + 1 < self.level(self.level_of[v]).end).then_some(v + 1)
    }

    /// The distance in steps that siblings v and w have to keep.
    pub fn distance(&self, v: usize, w: usize) -> i64 {
        self.draft.vertices[v].half_width + self.draft.gap + self.draft.vertices[w].half_width
    }

    /// The vertices on that side to which segments join v, from left to right.
    pub fn neighbours(&self, v: usize, side: Side) -> &[usize] {
        match side {
            Side::Above => self.above.of(v),
            Side::Below => self.below.of(v),
        }
    }

    /// The ratings of the segments to these neighbours, in the same order.
    pub fn ratings(&self, v: usize, side: Side) -> &[i64] {
        match side {
            Side::Above => self.above.ratings_of(v),
            Side::Below => self.below.ratings_of(v),
        }
    }

    /// The via on that side to which a segment joins v, if v is a via too (an inner segment).
    pub fn joined_via(&self, v: usize, side: Side) -> Option<usize> {
        if !self.is_via(v) {
            return None;
        }
        self.neighbours(v, side).first().copied().filter(|&w| self.is_via(w))
    }

    /// The runs of a level from left to right, empty ones too: one before each via, one after the last.
    pub fn runs(&self, level: usize) -> impl Iterator<Item = Stretch> + '_ {
        let Range { start, end } = self.level(level);
        let mut next = Some(start);
        iter::from_fn(move || {
            let first = next?;
            let stop = (first..end).find(|&v| self.is_via(v));
            next = stop.map(|via| via + 1);
            let left = (first > start).then(|| first - 1);
            Some(Stretch { first, end: stop.unwrap_or(end), left, right: stop })
        })
    }
}

/// What every text in the form guarantees of its draft.
fn check_sayable(draft: &Draft) -> Result<(), Refusal> {
    let total = draft.sizes.iter().fold(0, |sum: usize, &size| sum.saturating_add(size));
    let sayable = total == draft.vertices.len()
        && draft.sizes.iter().all(|&size| size > 0)
        && draft.vertices.iter().all(|vertex| !vertex.is_via || vertex.half_width == 0);
    sayable.then_some(()).ok_or(refusal::FORM)
}

/// Check 2: every number and count within its limit, and K level lines. A rating of 1 is never written.
fn check_limits(draft: &Draft) -> Result<(), Refusal> {
    let levels: RangeInclusive<i64> = 1..=Plan::MAX_LEVELS as i64;
    let half_widths = 1..=Plan::MAX_HALF_WIDTH;
    let ratings = Segment::UNRATED + 1..=Plan::MAX_RATING;
    let good = levels.contains(&draft.levels)
        && draft.sizes.len() as i64 == draft.levels
        && (1..=Plan::MAX_GAP).contains(&draft.gap)
        && (1..=Plan::MAX_SPACING).contains(&draft.spacing)
        && draft.vertices.iter().all(|vertex| vertex.is_via || half_widths.contains(&vertex.half_width))
        && draft.sizes.iter().all(|&size| size <= Plan::MAX_ON_LEVEL)
        && draft.vertices.len() <= Plan::MAX_VERTICES
        && draft.segments.len() <= Plan::MAX_SEGMENTS
        && draft.segments.iter().all(|segment| segment.written.is_none_or(|rating| ratings.contains(&rating)));
    good.then_some(()).ok_or(refusal::LIMIT)
}

/// Check 3: both ends of every segment are vertices, the second one level below the first.
fn check_ends(segments: &[Segment], level_of: &[usize]) -> Result<(), Refusal> {
    let joins_neighbours = |segment: &Segment| match (level_of.get(segment.upper), level_of.get(segment.lower)) {
        (Some(a), Some(b)) => a + 1 == *b,
        _ => false,
    };
    segments.iter().all(joins_neighbours).then_some(()).ok_or(refusal::ENDS)
}

/// Check 4: segments rise strictly by upper, then by lower end, whatever their ratings.
fn check_rising(segments: &[Segment]) -> Result<(), Refusal> {
    let rising = segments.windows(2).all(|pair| pair[0].ends() < pair[1].ends());
    rising.then_some(()).ok_or(refusal::RISING)
}

fn level_starts(sizes: &[usize]) -> Vec<usize> {
    let mut start = 0;
    let mut starts = vec![0];
    for size in sizes {
        start += size;
        starts.push(start);
    }
    starts
}

fn levels_of_vertices(sizes: &[usize]) -> Vec<usize> {
    sizes.iter().enumerate().flat_map(|(level, &size)| iter::repeat_n(level, size)).collect()
}

/// For each vertex the vertices it is joined to on one side and the ratings of the segments to them, in flat lists.
#[derive(Clone, Debug, PartialEq, Eq)]
struct Links {
    /// The list of v is `others[start[v]..start[v + 1]]`, that of ratings likewise.
    start: Vec<usize>,
    others: Vec<usize>,
    ratings: Vec<i64>,
}

impl Links {
    /// From links (vertex, other, rating); each vertex's lists keep the order of the links.
    fn new(vertices: usize, links: impl Iterator<Item = (usize, usize, i64)> + Clone) -> Self {
        let mut start = vec![0; vertices + 1];
        links.clone().for_each(|(v, ..)| start[v + 1] += 1);
        for v in 0..vertices {
            start[v + 1] += start[v];
        }
        let mut next = start.clone();
        let mut others = vec![0; start[vertices]];
        let mut ratings = vec![0; start[vertices]];
        for (v, other, rating) in links {
            others[next[v]] = other;
            ratings[next[v]] = rating;
            next[v] += 1;
        }
        Links { start, others, ratings }
    }

    fn of(&self, v: usize) -> &[usize] {
        &self.others[self.start[v]..self.start[v + 1]]
    }

    fn ratings_of(&self, v: usize) -> &[i64] {
        &self.ratings[self.start[v]..self.start[v + 1]]
    }
}
