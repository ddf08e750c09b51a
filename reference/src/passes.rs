//! The three passes over the levels: which runs are placed, when, and against which level.

use std::ops::Range;

use crate::jumps::Placer;
use crate::place_run::{Run, MAX_BOXES};
use crate::plan::{Plan, Side, Stretch};
use crate::preliminary;

/// A finished drawing with the list of its placings.
#[derive(Clone, Debug, PartialEq, Eq)]
pub struct Drawing {
    /// The preliminary position of each vertex, in half steps.
    pub preliminary: Vec<i64>,
    /// The final position of each vertex, in half steps.
    pub position: Vec<i64>,
    /// The placings in their order, except those of empty runs.
    pub placings: Vec<Placing>,
    /// Box and position after, of all placings one after the other.
    pub placed: Vec<(usize, i64)>,
}

/// One entry of the list of placings.
#[derive(Clone, Debug, PartialEq, Eq)]
pub struct Placing {
    /// The pass, from 1.
    pub pass: u32,
    /// The level, from 1.
    pub level: usize,
    /// Where its boxes stand in [`Drawing::placed`].
    pub boxes: Range<usize>,
}

impl Drawing {
    /// The boxes of a placing, each with its position after.
    pub fn boxes(&self, placing: &Placing) -> &[(usize, i64)] {
        &self.placed[placing.boxes.clone()]
    }
}

/// Draws a plan.
pub fn draw(plan: &Plan) -> Drawing {
    draw_and_count(plan).0
}

/// Draws a plan, and counts the half steps that the definition takes in all its placings.
pub fn draw_and_count(plan: &Plan) -> (Drawing, u64) {
    let mut placer = Placer::new();
    let mut steps = 0;
    let drawing = draw_by(plan, |run, answer| steps += placer.place(run, answer));
    (drawing, steps)
}

/// Draws a plan with any way of placing a run: `place` writes the positions of the run's boxes to its second argument.
pub fn draw_by(plan: &Plan, place: impl FnMut(&Run, &mut [i64])) -> Drawing {
    let mut passes = Passes::new(plan, preliminary::positions(plan), place);
    (0..plan.levels()).for_each(|level| passes.place_ready(1, level, Side::Above));
    (0..plan.levels()).rev().for_each(|level| passes.place_ready(2, level, Side::Below));
    (0..plan.levels()).for_each(|level| passes.place_rest(3, level, Side::Above));
    passes.drawing
}

struct Passes<'a, P> {
    plan: &'a Plan,
    place: P,
    drawing: Drawing,
    /// The distance in force between each vertex and its right sibling.
    distance: Vec<i64>,
    /// Whether a bounded run is settled, and whether it is ready; a bounded run goes by its left via.
    settled: Vec<bool>,
    ready: Vec<bool>,
    /// Working memory: a run's neighbours with their ratings, how many each box has, and the answer.
    neighbours: Vec<i64>,
    ratings: Vec<i64>,
    counts: Vec<usize>,
    answer: [i64; MAX_BOXES],
}

impl<'a, P: FnMut(&Run, &mut [i64])> Passes<'a, P> {
    fn new(plan: &'a Plan, preliminary: Vec<i64>, place: P) -> Self {
        let position = preliminary.clone();
        let mut passes = Passes {
            plan,
            place,
            drawing: Drawing { preliminary, position, placings: Vec::new(), placed: Vec::new() },
            distance: doubled_distances(plan),
            settled: vec![false; plan.vertices()],
            ready: vec![false; plan.vertices()],
            neighbours: Vec::new(),
            ratings: Vec::new(),
            counts: Vec::new(),
            answer: [0; MAX_BOXES],
        };
        (0..plan.levels()).for_each(|level| passes.settle_without_slack(level));
        passes
    }

    /// Bounded runs whose vias are exactly the distance apart are settled from the start.
    fn settle_without_slack(&mut self, level: usize) {
        for (left, right) in self.plan.runs(level).filter_map(|run| run.bounds()) {
            let room = self.drawing.position[right] - self.drawing.position[left];
            self.settled[left] = room == self.distance[left..right].iter().sum();
        }
    }

    /// Passes 1 and 2 on one level: places open runs, and bounded runs that are unsettled and ready.
    fn place_ready(&mut self, pass: u32, level: usize, preceding: Side) {
        self.find_ready(level, preceding);
        let plan = self.plan;
        for run in plan.runs(level) {
            if run.bounds().is_none_or(|(left, _)| self.ready[left] && !self.settled[left]) {
                self.place(pass, level, preceding, &run);
            }
        }
    }

    /// Pass 3 on one level: places the bounded runs that are still unsettled.
    fn place_rest(&mut self, pass: u32, level: usize, preceding: Side) {
        let plan = self.plan;
        for run in plan.runs(level) {
            if run.bounds().is_some_and(|(left, _)| !self.settled[left]) {
                self.place(pass, level, preceding, &run);
            }
        }
    }

    /// Finds the ready runs of a level. Between two vias v₋, v₊ that follow each other among those joined to vias w₋,
    /// w₊ of the preceding level, all bounded runs are ready or none is: it rests with the runs between w₋ and w₊.
    /// Outside of such vias none is ready. Inner segments do not cross, so each preceding run is looked at once.
    fn find_ready(&mut self, level: usize, preceding: Side) {
        let plan = self.plan;
        self.ready[plan.level(level)].fill(false);
        let mut joined = plan.level(level).filter_map(|v| plan.joined_via(v, preceding).map(|w| (v, w)));
        let Some(mut left) = joined.next() else { return };
        for right in joined {
            let settled = (left.1..right.1).all(|w| self.settled[w] || !plan.is_via(w));
            self.ready[left.0..right.0].fill(settled);
            left = right;
        }
    }

    /// Places a run, lists the placing, and settles the run if it is bounded. Of an open run the distances become
    /// those it then has.
    fn place(&mut self, pass: u32, level: usize, preceding: Side, run: &Stretch) {
        if !run.is_empty() {
            self.move_boxes(preceding, run);
            self.list(pass, level, run);
        }
        match run.bounds() {
            Some((left, _)) => self.settled[left] = true,
            None => self.take_on_distances(run),
        }
    }

    fn move_boxes(&mut self, preceding: Side, run: &Stretch) {
        self.gather_neighbours(preceding, run);
        let position = &mut self.drawing.position;
        let members = run.members();
        let answer = &mut self.answer[..run.boxes().len()];
        let task = Run {
            left: run.left.map(|via| position[via]),
            right: run.right.map(|via| position[via]),
            old: &position[run.boxes()],
            distances: &self.distance[members.start..members.end - 1],
            counts: &self.counts,
            neighbours: &self.neighbours,
            ratings: &self.ratings,
        };
        debug_assert!(task.is_acceptable());
        (self.place)(&task, answer);
        position[run.boxes()].copy_from_slice(answer);
    }

    fn gather_neighbours(&mut self, preceding: Side, run: &Stretch) {
        self.neighbours.clear();
        self.ratings.clear();
        self.counts.clear();
        for v in run.boxes() {
            let neighbours = self.plan.neighbours(v, preceding);
            self.counts.push(neighbours.len());
            self.neighbours.extend(neighbours.iter().map(|&w| self.drawing.position[w]));
            self.ratings.extend_from_slice(self.plan.ratings(v, preceding));
        }
    }

    fn list(&mut self, pass: u32, level: usize, run: &Stretch) {
        let drawing = &mut self.drawing;
        let first = drawing.placed.len();
        drawing.placed.extend(run.boxes().map(|v| (v, drawing.position[v])));
        drawing.placings.push(Placing { pass, level: level + 1, boxes: first..drawing.placed.len() });
    }

    fn take_on_distances(&mut self, run: &Stretch) {
        let members = run.members();
        for v in members.start + 1..members.end {
            self.distance[v - 1] = self.drawing.position[v] - self.drawing.position[v - 1];
        }
    }
}

/// The distance in half steps between each vertex and its right sibling; 0 at the end of a level.
fn doubled_distances(plan: &Plan) -> Vec<i64> {
    let to_sibling = |v| plan.right_sibling(v).map_or(0, |sibling| 2 * plan.distance(v, sibling));
    (0..plan.vertices()).map(to_sibling).collect()
}
