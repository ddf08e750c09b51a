//! What a sheet's record holds beside its stage: a plan, what is remembered of its loading, and a drawing, in arrays of
//! fixed length, one entry for each vertex, segment, placing or listed box that there may be.
//!
//! A record may be handed in, so its contents can be anything. Which entries count is said elsewhere: the stage has the
//! numbers of vertices, segments and placings, the plan that of levels. What lies beyond is no part of plan or drawing;
//! loading and drawing leave it 0.

use crate::passes::{Drawing, Placing};
use crate::place_run::MAX_POSITION;
use crate::plan::{Draft, Plan, Segment, Vertex};
use crate::text;

/// Most placings in a list, and most boxes in all placings of a list.
pub const MAX_PLACINGS: usize = 2_048;

/// A vertex as it is stored. A via may have a half-width here, though no text gives it one.
#[derive(Clone, Copy, Debug, Default, PartialEq, Eq)]
pub struct StoredVertex {
    /// Whether it is a via.
    pub is_via: bool,
    /// Half-width in steps.
    pub half_width: u64,
}

/// A plan in arrays.
#[derive(Clone, Debug, PartialEq, Eq)]
pub struct StoredPlan {
    /// K, the number of levels.
    pub levels: u64,
    /// G, the gap in steps.
    pub gap: u64,
    /// S, the level spacing in steps.
    pub spacing: u64,
    /// How many vertices stand on each level.
    pub sizes: [u64; Plan::MAX_LEVELS],
    /// Kind and half-width of each vertex.
    pub vertices: [StoredVertex; Plan::MAX_VERTICES],
    /// Upper and lower end of each segment.
    pub segments: [(u64, u64); Plan::MAX_SEGMENTS],
    /// The rating of each segment, also where it is 1.
    pub ratings: [u64; Plan::MAX_SEGMENTS],
}

impl StoredPlan {
    /// All 0.
    pub fn empty() -> Self {
        StoredPlan {
            levels: 0,
            gap: 0,
            spacing: 0,
            sizes: [0; Plan::MAX_LEVELS],
            vertices: [StoredVertex::default(); Plan::MAX_VERTICES],
            segments: [(0, 0); Plan::MAX_SEGMENTS],
            ratings: [0; Plan::MAX_SEGMENTS],
        }
    }

    /// A plan as loading stores it.
    pub fn of(plan: &Plan) -> Self {
        let draft = plan.draft();
        let mut stored = StoredPlan::empty();
        stored.levels = draft.levels.unsigned_abs();
        stored.gap = draft.gap.unsigned_abs();
        stored.spacing = draft.spacing.unsigned_abs();
        let vertex =
            |vertex: &Vertex| StoredVertex { is_via: vertex.is_via, half_width: vertex.half_width.unsigned_abs() };
        fill(&mut stored.sizes, draft.sizes.iter().map(|&size| size as u64));
        fill(&mut stored.vertices, draft.vertices.iter().map(vertex));
        fill(&mut stored.segments, draft.segments.iter().map(|segment| (segment.upper as u64, segment.lower as u64)));
        fill(&mut stored.ratings, draft.segments.iter().map(|segment| segment.rating().unsigned_abs()));
        stored
    }

    /// The plan with so many vertices and segments, if it is that of a text which passes checks 1 to 6: the text written
    /// of the data is read again, and must say the same. So data are turned away too that no check has a number for, as a
    /// via with a half-width, or level sizes that do not add up. A rating of 1 is not written.
    pub fn plan(&self, vertices: u64, segments: u64) -> Option<Plan> {
        let data = self.data(vertices, segments)?;
        let plan = text::read(&text::write_form(&data)).ok()?;
        (*plan.draft() == data).then_some(plan)
    }

    /// The plan's data; none if they are more than the record holds, or numbers far beyond what a text can say.
    fn data(&self, vertices: u64, segments: u64) -> Option<Draft> {
        let size = |&size: &u64| usize::try_from(size).ok();
        let vertex = |stored: &StoredVertex| {
            let half_width = i64::try_from(stored.half_width).ok()?;
            Some(Vertex { is_via: stored.is_via, half_width })
        };
        let segment = |(&(upper, lower), &rating): (&(u64, u64), &u64)| {
            let ends = usize::try_from(upper).ok().zip(usize::try_from(lower).ok())?;
            Some(Segment::rated(ends, i64::try_from(rating).ok()?))
        };
        let rated = first(&self.segments, segments)?.iter().zip(&self.ratings);
        Some(Draft {
            levels: i64::try_from(self.levels).ok()?,
            gap: i64::try_from(self.gap).ok()?,
            spacing: i64::try_from(self.spacing).ok()?,
            sizes: first(&self.sizes, self.levels)?.iter().map(size).collect::<Option<_>>()?,
            vertices: first(&self.vertices, vertices)?.iter().map(vertex).collect::<Option<_>>()?,
            segments: rated.map(segment).collect::<Option<_>>()?,
        })
    }
}

/// What a sheet remembers of its loading (E1).
#[derive(Clone, Debug, PartialEq, Eq)]
pub struct StoredLoading {
    /// Whether the plan was loaded by the second way, which takes tangled plans.
    pub tangled: bool,
    /// The number in the text of each vertex.
    pub numbers: [u64; Plan::MAX_VERTICES],
}

impl StoredLoading {
    /// Nothing remembered.
    pub fn empty() -> Self {
        StoredLoading { tangled: false, numbers: [0; Plan::MAX_VERTICES] }
    }

    /// The way and the numbers as loading stores them.
    pub fn of(tangled: bool, numbers: &[usize]) -> Self {
        let mut stored = StoredLoading { tangled, ..StoredLoading::empty() };
        fill(&mut stored.numbers, numbers.iter().map(|&number| number as u64));
        stored
    }

    /// The numbers of this plan's vertices. E1: "Remembered numbers that are not each level's own, once each, are refused
    /// with 13."
    pub fn numbers(&self, plan: &Plan) -> Option<Vec<usize>> {
        let numbers: Vec<u64> = self.numbers[..plan.vertices()].to_vec();
        let own_once_each = |level| {
            let mut sorted = numbers[plan.level(level)].to_vec();
            sorted.sort_unstable();
            plan.level(level).map(|v| v as u64).eq(sorted)
        };
        (0..plan.levels()).all(own_once_each).then(|| numbers.iter().map(|&number| number as usize).collect())
    }
}

/// A placing as it is stored; its boxes follow those of the placings before it.
#[derive(Clone, Copy, Debug, Default, PartialEq, Eq)]
pub struct StoredPlacing {
    /// The pass, from 1.
    pub pass: u64,
    /// The level, from 1.
    pub level: u64,
    /// How many boxes it has.
    pub boxes: u64,
}

/// A listed box as it is stored.
#[derive(Clone, Copy, Debug, Default, PartialEq, Eq)]
pub struct StoredBox {
    /// Its number.
    pub vertex: u64,
    /// Where it stands after the placing, in half steps.
    pub position: i64,
}

/// A drawing in arrays.
#[derive(Clone, Debug, PartialEq, Eq)]
pub struct StoredDrawing {
    /// The preliminary position of each vertex, in half steps.
    pub preliminary: [i64; Plan::MAX_VERTICES],
    /// The final position of each vertex, in half steps.
    pub position: [i64; Plan::MAX_VERTICES],
    /// The list of placings.
    pub placings: [StoredPlacing; MAX_PLACINGS],
    /// The boxes of all placings, one after another.
    pub boxes: [StoredBox; MAX_PLACINGS],
}

impl StoredDrawing {
    /// All 0.
    pub fn empty() -> Self {
        StoredDrawing {
            preliminary: [0; Plan::MAX_VERTICES],
            position: [0; Plan::MAX_VERTICES],
            placings: [StoredPlacing::default(); MAX_PLACINGS],
            boxes: [StoredBox::default(); MAX_PLACINGS],
        }
    }

    /// A drawing as drawing stores it.
    pub fn of(drawing: &Drawing) -> Self {
        let mut stored = StoredDrawing::empty();
        let placing = |placing: &Placing| StoredPlacing {
            pass: u64::from(placing.pass),
            level: placing.level as u64,
            boxes: placing.boxes.len() as u64,
        };
        let listed = |&(v, position): &(usize, i64)| StoredBox { vertex: v as u64, position };
        fill(&mut stored.preliminary, drawing.preliminary.iter().copied());
        fill(&mut stored.position, drawing.position.iter().copied());
        fill(&mut stored.placings, drawing.placings.iter().map(placing));
        fill(&mut stored.boxes, drawing.placed.iter().map(listed));
        stored
    }

    /// The drawing of this plan with so many placings, if nothing in it is wrong as refusal 13 says: every position lies
    /// within ±2^40, every placing has a pass from 1 to 3 and is that of a nonempty run, and the list has room.
    pub fn drawing(&self, plan: &Plan, placings: u64) -> Option<Drawing> {
        let mut drawing = Drawing {
            preliminary: self.preliminary[..plan.vertices()].to_vec(),
            position: self.position[..plan.vertices()].to_vec(),
            placings: Vec::new(),
            placed: Vec::new(),
        };
        for stored in first(&self.placings, placings)? {
            let boxes = first(&self.boxes[drawing.placed.len()..], stored.boxes)?;
            let placing = placing_of(plan, stored, boxes, drawing.placed.len())?;
            drawing.placings.push(placing);
            drawing.placed.extend(boxes.iter().map(|listed| (listed.vertex as usize, listed.position)));
        }
        let listed = drawing.placed.iter().map(|(_, position)| position);
        let mut positions = drawing.preliminary.iter().chain(&drawing.position).chain(listed);
        let good = positions.all(|position| (-MAX_POSITION..=MAX_POSITION).contains(position));
        good.then_some(drawing)
    }

    /// Where the k-th box of a placing stands among all boxes, if the placing has so many.
    pub fn place_of_box(&self, placing: usize, k: u64) -> Option<usize> {
        let boxes = self.placings.get(placing)?.boxes;
        let before = self.placings[..placing].iter().try_fold(0, |sum: u64, other| sum.checked_add(other.boxes))?;
        let place = usize::try_from(before.checked_add(k)?).ok()?;
        (k < boxes && place < self.boxes.len()).then_some(place)
    }
}

/// The placing with these boxes, the first of which is the `first`-th of the list; none if it is no placing of a nonempty
/// run of the plan.
fn placing_of(plan: &Plan, stored: &StoredPlacing, boxes: &[StoredBox], first: usize) -> Option<Placing> {
    let pass = u32::try_from(stored.pass).ok().filter(|pass| (1..=3).contains(pass))?;
    let level = usize::try_from(stored.level).ok().filter(|level| (1..=plan.levels()).contains(level))?;
    let vertices = || boxes.iter().map(|listed| listed.vertex);
    let is_run = plan.runs(level - 1).any(|run| !run.is_empty() && run.boxes().map(|v| v as u64).eq(vertices()));
    is_run.then(|| Placing { pass, level, boxes: first..first + boxes.len() })
}

/// The first `count` entries, if there are so many.
fn first<T>(entries: &[T], count: u64) -> Option<&[T]> {
    entries.get(..usize::try_from(count).ok()?)
}

/// Writes the values to the first entries.
fn fill<T>(entries: &mut [T], values: impl Iterator<Item = T>) {
    entries.iter_mut().zip(values).for_each(|(entry, value)| *entry = value);
}
