//! Placing one run by single half steps: document 01's definition, with E4's start and E5's ratings, word for word and slow.

use crate::place_run::{start_of, Run};

/// Resistance against a move that a bound forbids.
const INFINITE: i64 = i64::MAX;

/// Places the boxes of an acceptable run. Gives their positions, and how many half steps all joins took.
pub fn place(run: &Run) -> (Vec<i64>, u64) {
    let neighbours = run.neighbours_of_boxes().collect();
    let ratings = run.ratings_of_boxes().collect();
    let mut state = HalfSteps { run, neighbours, ratings, position: run.old.to_vec(), steps: 0 };
    state.place(0, run.boxes());
    (state.position, state.steps)
}

struct HalfSteps<'a> {
    run: &'a Run<'a>,
    /// The neighbours of each box, and the ratings of the segments to them.
    neighbours: Vec<&'a [i64]>,
    ratings: Vec<&'a [i64]>,
    position: Vec<i64>,
    steps: u64,
}

impl HalfSteps<'_> {
    /// Places the boxes lo..hi as if they were the whole run: cut after the first half, rounded down.
    fn place(&mut self, lo: usize, hi: usize) {
        match hi - lo {
            0 => {}
            1 => self.place_lone(lo),
            r => {
                let cut = lo + r / 2;
                self.place(lo, cut);
                self.place(cut, hi);
                self.join(lo, cut, hi);
            }
        }
    }

    fn place_lone(&mut self, k: usize) {
        let mut position = start_of(self.neighbours[k], self.ratings[k], self.run.old[k]);
        if let Some(lowest) = self.run.lowest(k) {
            position = position.max(lowest);
        }
        if let Some(highest) = self.run.highest(k) {
            position = position.min(highest);
        }
        self.position[k] = position;
    }

    /// Moves the halves lo..cut and cut..hi apart; a and b are the boxes beside the cut.
    fn join(&mut self, lo: usize, cut: usize, hi: usize) {
        let (a, b) = (cut - 1, cut);
        while self.position[b] - self.position[a] < self.run.distance_after(a) {
            let first = self.pushed_left(lo, a);
            let last = self.pushed_right(b, hi);
            if self.resistance(first, a, -1) < self.resistance(b, last, 1) {
                self.position[first..=a].iter_mut().for_each(|position| *position -= 1);
            } else {
                self.position[b..=last].iter_mut().for_each(|position| *position += 1);
            }
            self.steps += 1;
        }
    }

    /// The first box of the left half that moves with a, if a goes one half step to the left.
    fn pushed_left(&self, lo: usize, a: usize) -> usize {
        let mut k = a;
        while k > lo && self.position[k] - 1 - self.position[k - 1] < self.run.distance_after(k - 1) {
            k -= 1;
        }
        k
    }

    /// The last box of the right half that moves with b, if b goes one half step to the right.
    fn pushed_right(&self, b: usize, hi: usize) -> usize {
        let mut k = b;
        while k + 1 < hi && self.position[k + 1] - (self.position[k] + 1) < self.run.distance_after(k) {
            k += 1;
        }
        k
    }

    /// Segments that lengthen less those that shorten, each counted with its rating, if the boxes first..=last all move by `step`.
    fn resistance(&self, first: usize, last: usize, step: i64) -> i64 {
        let mut total = 0;
        for k in first..=last {
            let (from, to) = (self.position[k], self.position[k] + step);
            if self.run.lowest(k).is_some_and(|lowest| to < lowest) {
                return INFINITE;
            }
            if self.run.highest(k).is_some_and(|highest| to > highest) {
                return INFINITE;
            }
            let leads = self.neighbours[k].iter().zip(self.ratings[k]);
            total += leads.map(|(n, rating)| rating * ((to - n).abs() - (from - n).abs())).sum::<i64>();
        }
        total
    }
}
