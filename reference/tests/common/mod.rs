//! Random runs, owned.

use reference::check::Task;
use reference::place_run::Run;
use reference::random::Random;

pub struct OwnedRun {
    pub left: Option<i64>,
    pub right: Option<i64>,
    pub old: Vec<i64>,
    pub distances: Vec<i64>,
    pub counts: Vec<usize>,
    pub neighbours: Vec<i64>,
    pub ratings: Vec<i64>,
}

/// What random runs are to be like: numbers of boxes, neighbours of each, greatest position, distance and rating.
pub struct Limits {
    pub boxes: (usize, usize),
    pub neighbours: usize,
    pub position: i64,
    pub distance: i64,
    pub rating: i64,
}

impl OwnedRun {
    pub fn random(random: &mut Random, limits: &Limits) -> Self {
        let r = random.within(limits.boxes.0 as i64, limits.boxes.1 as i64) as usize;
        let near = random.within(1, limits.position);
        let mut position = || random.within(-near, near);
        let (mut left, old) = (Some(position()), (0..r).map(|_| position()).collect());
        let counts: Vec<usize> = (0..r).map(|_| random.below(limits.neighbours + 1)).collect();
        let mut neighbours = Vec::new();
        for &count in &counts {
            let mut own: Vec<i64> = (0..count).map(|_| random.within(-near, near)).collect();
            own.sort_unstable();
            neighbours.extend(own);
        }
        let mut distances: Vec<i64> = (0..r + 1).map(|_| random.within(1, limits.distance)).collect();
        let slack = random.pick(&[0, 1, limits.position / 4, limits.position]);
        let mut right = left.map(|left| left + distances.iter().sum::<i64>() + slack);
        let bounds = random.below(4);
        if bounds & 1 == 0 {
            left = None;
            distances.remove(0);
        }
        if bounds & 2 == 0 {
            right = None;
            distances.pop();
        }
        let ratings = neighbours.iter().map(|_| random.within(1, limits.rating)).collect();
        OwnedRun { left, right, old, distances, counts, neighbours, ratings }
    }

    pub fn run(&self) -> Run<'_> {
        Run {
            left: self.left,
            right: self.right,
            old: &self.old,
            distances: &self.distances,
            counts: &self.counts,
            neighbours: &self.neighbours,
            ratings: &self.ratings,
        }
    }

    /// The run as the judge sees it.
    pub fn task(&self) -> Task {
        if self.old.is_empty() {
            return Task { lowest: None, highest: None, distances: vec![], neighbours: vec![] };
        }
        let run = self.run();
        let first = usize::from(self.left.is_some());
        let inner = self.old.len() - 1;
        Task {
            lowest: self.left.map(|left| left + self.distances[0]),
            highest: self.right.map(|right| right - self.distances[self.distances.len() - 1]),
            distances: self.distances[first..first + inner].to_vec(),
            neighbours: run.neighbours_of_boxes().zip(run.ratings_of_boxes()).map(rated).collect(),
        }
    }
}

/// Each neighbour with the rating of the segment to it.
fn rated((neighbours, ratings): (&[i64], &[i64])) -> Vec<(i64, i64)> {
    neighbours.iter().copied().zip(ratings.iter().copied()).collect()
}
