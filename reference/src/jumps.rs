//! Placing one run by jumps, as the report combines two sequences: the changes of resistance are set down in order
//! first, then a and b go from change to change. A join of r boxes with s neighbours takes O((r + s) log(r + s)).

use std::ops::Range;

use crate::place_run::{start_of, Run, MAX_BOXES};

/// Places an acceptable run. Gives positions and half steps like [`crate::half_steps::place`].
pub fn place(run: &Run) -> (Vec<i64>, u64) {
    let mut answer = vec![0; run.boxes()];
    let steps = Placer::new().place(run, &mut answer);
    (answer, steps)
}

/// Places runs by jumps. It keeps its working memory from one run to the next.
///
/// It works in *run coordinates*: from each position and neighbour of box k it takes the sum of the distances before
/// k. Then "at least the distance apart" means "not out of order", each bound is one limit for all boxes, and a box
/// that is pushed stands level with the box that pushes it.
///
/// Joining two halves that overlap (a right of b), resistance is constant between *changes*: a box that begins to be
/// pushed changes it by its own resistance, a neighbour that is passed by twice its rating, since its segment lengthens instead
/// of shortening. Boxes stand in order; the neighbours to be passed are sorted. Then a and b walk from change to change
/// toward each other, all changes at one place counting together. A bound never stops them: where they meet, between
/// b and a, lies within the limits.
pub struct Placer {
    /// The sum of the distances before each box.
    offset: [i64; MAX_BOXES],
    position: [i64; MAX_BOXES],
    /// The neighbours of box k are `neighbours[start[k]..start[k + 1]]`.
    start: [usize; MAX_BOXES + 1],
    neighbours: Vec<Neighbour>,
    /// The sum of the ratings before each neighbour, and of all at the end.
    rated_before: Vec<i64>,
    /// By how much each box changes the resistance when it begins to move.
    own_change: [i64; MAX_BOXES],
    /// The neighbours that boxes of the left half may pass on their way to the left, and those on the right.
    left_passed: Vec<Neighbour>,
    right_passed: Vec<Neighbour>,
    steps: u64,
}

/// A neighbour in run coordinates, and the rating of the segment to it; ordered by position.
#[derive(Clone, Copy, PartialEq, Eq, PartialOrd, Ord)]
struct Neighbour {
    position: i64,
    rating: i64,
}

impl Default for Placer {
    fn default() -> Self {
        Placer::new()
    }
}

impl Placer {
    /// By how many times its rating a neighbour changes the resistance when it is passed.
    const PASSING: i64 = 2;

    /// A placer with empty working memory.
    pub fn new() -> Self {
        Placer {
            offset: [0; MAX_BOXES],
            position: [0; MAX_BOXES],
            start: [0; MAX_BOXES + 1],
            neighbours: Vec::new(),
            rated_before: Vec::new(),
            own_change: [0; MAX_BOXES],
            left_passed: Vec::new(),
            right_passed: Vec::new(),
            steps: 0,
        }
    }

    /// Places an acceptable run, `answer` being as long as it has boxes. Gives the number of half steps that the
    /// definition takes for it.
    pub fn place(&mut self, run: &Run, answer: &mut [i64]) -> u64 {
        let r = run.boxes();
        self.steps = 0;
        if r == 0 {
            return 0;
        }
        self.enter_run_coordinates(run);
        self.start_boxes(run);
        self.join_all(0, r);
        for (k, place) in answer.iter_mut().enumerate() {
            *place = self.position[k] + self.offset[k];
        }
        self.steps
    }

    fn enter_run_coordinates(&mut self, run: &Run) {
        self.neighbours.clear();
        self.neighbours.reserve(run.neighbours.len());
        self.rated_before.clear();
        let mut offset = 0;
        let mut so_far = 0;
        let mut from = 0;
        for (k, &count) in run.counts.iter().enumerate() {
            if k > 0 {
                offset += run.distance_after(k - 1);
            }
            self.offset[k] = offset;
            self.start[k] = from;
            for (&n, &rating) in run.neighbours[from..from + count].iter().zip(&run.ratings[from..from + count]) {
                self.neighbours.push(Neighbour { position: n - offset, rating });
                self.rated_before.push(so_far);
                so_far += rating;
            }
            from += count;
        }
        self.start[run.boxes()] = from;
        self.rated_before.push(so_far);
    }

    /// The sum of the ratings of those neighbours.
    fn rated(&self, neighbours: Range<usize>) -> i64 {
        self.rated_before[neighbours.end] - self.rated_before[neighbours.start]
    }

    /// Puts every box where it stands alone.
    fn start_boxes(&mut self, run: &Run) {
        let last = run.boxes() - 1;
        let lowest = run.lowest(0).unwrap_or(i64::MIN);
        let highest = run.highest(last).map_or(i64::MAX, |highest| highest - self.offset[last]);
        for k in 0..=last {
            let own = self.start[k]..self.start[k + 1];
            let start = start_of(&run.neighbours[own.clone()], &run.ratings[own], run.old[k]);
            self.position[k] = (start - self.offset[k]).max(lowest).min(highest);
        }
    }

    fn join_all(&mut self, lo: usize, hi: usize) {
        if hi - lo < 2 {
            return;
        }
        let cut = lo + (hi - lo) / 2;
        self.join_all(lo, cut);
        self.join_all(cut, hi);
        self.join(lo, cut, hi);
    }

    fn join(&mut self, lo: usize, cut: usize, hi: usize) {
        let (a, b) = (self.position[cut - 1], self.position[cut]);
        if a <= b {
            return;
        }
        self.steps += (a - b) as u64;
        let first = self.collect_left(lo, cut, b);
        let end = self.collect_right(cut, hi, a);
        let meeting = self.meeting_place(first, cut, end);
        for position in &mut self.position[first..cut] {
            *position = (*position).min(meeting);
        }
        for position in &mut self.position[cut..end] {
            *position = (*position).max(meeting);
        }
    }

    /// Sets down the changes of the left half that lie right of b. Gives the first box that can move.
    fn collect_left(&mut self, lo: usize, cut: usize, b: i64) -> usize {
        self.left_passed.clear();
        let mut first = cut;
        while first > lo && self.position[first - 1] > b {
            first -= 1;
            let position = self.position[first];
            let (from, to) = (self.start[first], self.start[first + 1]);
            let own = &self.neighbours[from..to];
            let passable = own.partition_point(|n| n.position < position);
            let beyond = own[..passable].partition_point(|n| n.position <= b);
            self.own_change[first] = self.rated(from..to) - Self::PASSING * self.rated(from..from + passable);
            self.left_passed.extend_from_slice(&own[beyond..passable]);
        }
        self.left_passed.sort_unstable();
        first
    }

    /// Sets down the changes of the right half that lie left of a. Gives the end of the boxes that can move.
    fn collect_right(&mut self, cut: usize, hi: usize, a: i64) -> usize {
        self.right_passed.clear();
        let mut end = cut;
        while end < hi && self.position[end] < a {
            let position = self.position[end];
            let (from, to) = (self.start[end], self.start[end + 1]);
            let own = &self.neighbours[from..to];
            let passable = own.partition_point(|n| n.position <= position);
            let beyond = own.partition_point(|n| n.position < a);
            self.own_change[end] = self.rated(from..to) - Self::PASSING * self.rated(from + passable..to);
            self.right_passed.extend_from_slice(&own[passable..beyond]);
            end += 1;
        }
        self.right_passed.sort_unstable();
        end
    }

    /// Where a, coming from the right, and b, coming from the left, meet. Only boxes first..end can move.
    fn meeting_place(&self, first: usize, cut: usize, end: usize) -> i64 {
        let position = &self.position;
        let (mut a, mut b) = (position[cut - 1], position[cut]);
        // What has not changed the resistance yet: boxes first..i, boxes j..end, and of the neighbours the first n
        // on the left, those from m on on the right.
        let (mut i, mut n) = (cut, self.left_passed.len());
        let (mut j, mut m) = (cut, 0);
        let (mut left, mut right) = (0, 0);
        loop {
            while i > first && position[i - 1] >= a {
                i -= 1;
                left += self.own_change[i];
            }
            while n > 0 && self.left_passed[n - 1].position >= a {
                n -= 1;
                left += Self::PASSING * self.left_passed[n].rating;
            }
            while j < end && position[j] <= b {
                right += self.own_change[j];
                j += 1;
            }
            while m < self.right_passed.len() && self.right_passed[m].position <= b {
                right += Self::PASSING * self.right_passed[m].rating;
                m += 1;
            }
            if a == b {
                return a;
            }
            if left < right {
                let next_box = if i > first { position[i - 1] } else { b };
                let next_passed = if n > 0 { self.left_passed[n - 1].position } else { b };
                a = next_box.max(next_passed).max(b);
            } else {
                let next_box = if j < end { position[j] } else { a };
                let next_passed = self.right_passed.get(m).map_or(a, |n| n.position);
                b = next_box.min(next_passed).min(a);
            }
        }
    }
}
