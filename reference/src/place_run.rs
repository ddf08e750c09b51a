//! Placing one run: what a run is, and the call with its refusal.
//!
//! A run is a row of boxes with an optional bound on either side. Boxes and bounds are its *members*; each two
//! neighbouring members have a distance to keep. Every box has neighbours on one other level, and wants to stand near
//! them, the more so the higher the segment to a neighbour is rated (E5).
//!
//! The outcome is defined by single half steps, see [`crate::half_steps`]; [`crate::jumps`] reaches the same outcome
//! faster.

use crate::jumps::Placer;
use crate::plan::Plan;
use crate::{refusal, Refusal};

/// Most boxes of a run.
pub const MAX_BOXES: usize = 64;
/// Most neighbours of all boxes of a run together.
pub const MAX_NEIGHBOURS: usize = 2_048;
/// Positions handed in lie within ± this.
pub const MAX_POSITION: i64 = 1 << 40;
/// Distances handed in lie within 1 to this.
pub const MAX_DISTANCE: i64 = 1 << 41;

/// The call place-run, for a run of `r` boxes: checks everything that is handed in, then writes the position of each
/// box to `answer`. Refused with 8, nothing is written. An absent bound is `None`, so it has no value to check.
#[allow(clippy::too_many_arguments)]
pub fn place_run(
    r: usize,
    left: Option<i64>,
    right: Option<i64>,
    old: &[i64],
    distances: &[i64],
    counts: &[usize],
    neighbours: &[i64],
    ratings: &[i64],
    answer: &mut [i64],
) -> Result<(), Refusal> {
    let run = Run { left, right, old, distances, counts, neighbours, ratings };
    if old.len() != r || answer.len() != r || !run.is_acceptable() {
        return Err(refusal::RUN);
    }
    Placer::new().place(&run, answer);
    Ok(())
}

/// A run to be placed; all positions in half steps.
#[derive(Clone, Copy, Debug)]
pub struct Run<'a> {
    /// Position of the left bound, if there is one.
    pub left: Option<i64>,
    /// Position of the right bound, if there is one.
    pub right: Option<i64>,
    /// Where each box stands before.
    pub old: &'a [i64],
    /// The distance of each two neighbouring members, from left to right.
    pub distances: &'a [i64],
    /// How many neighbours each box has.
    pub counts: &'a [usize],
    /// The positions of all neighbours, box by box, in nondecreasing order for each.
    pub neighbours: &'a [i64],
    /// The rating of the segment to each neighbour.
    pub ratings: &'a [i64],
}

impl<'a> Run<'a> {
    /// Whether refusal 8 has nothing against the run. Each test may rely on those before it.
    pub fn is_acceptable(&self) -> bool {
        self.lengths_fit() && self.numbers_fit() && self.neighbours_in_order() && self.bounds_leave_room()
    }

    /// How many boxes it has.
    pub fn boxes(&self) -> usize {
        self.old.len()
    }

    /// The neighbours of each box.
    pub fn neighbours_of_boxes(&self) -> impl Iterator<Item = &'a [i64]> {
        self.of_boxes(self.neighbours)
    }

    /// The ratings of the segments to the neighbours of each box.
    pub fn ratings_of_boxes(&self) -> impl Iterator<Item = &'a [i64]> {
        self.of_boxes(self.ratings)
    }

    /// What belongs to each box, of a list with an entry for each neighbour.
    fn of_boxes(&self, list: &'a [i64]) -> impl Iterator<Item = &'a [i64]> {
        let mut rest = list;
        self.counts.iter().map(move |&count| {
            let (own, others) = rest.split_at(count);
            rest = others;
            own
        })
    }

    /// The distance of box k and box k + 1.
    pub fn distance_after(&self, k: usize) -> i64 {
        self.distances[self.members_before() + k]
    }

    /// The least position that the left bound leaves to box k, the distances counted through the boxes between.
    pub fn lowest(&self, k: usize) -> Option<i64> {
        self.left.map(|left| left + self.distances[..=k].iter().sum::<i64>())
    }

    /// The greatest position that the right bound leaves to box k.
    pub fn highest(&self, k: usize) -> Option<i64> {
        self.right.map(|right| right - self.distances[self.members_before() + k..].iter().sum::<i64>())
    }

    /// How many members stand before the first box.
    fn members_before(&self) -> usize {
        usize::from(self.left.is_some())
    }

    fn lengths_fit(&self) -> bool {
        if self.boxes() > MAX_BOXES || self.counts.len() != self.boxes() {
            return false;
        }
        let members = self.members_before() + self.boxes() + usize::from(self.right.is_some());
        let neighbours = self.counts.iter().fold(0, |sum: usize, &count| sum.saturating_add(count));
        self.distances.len() == members.saturating_sub(1)
            && neighbours <= MAX_NEIGHBOURS
            && self.neighbours.len() == neighbours
            && self.ratings.len() == neighbours
    }

    fn numbers_fit(&self) -> bool {
        let fits = |position: &i64| (-MAX_POSITION..=MAX_POSITION).contains(position);
        self.left.iter().all(fits)
            && self.right.iter().all(fits)
            && self.old.iter().all(fits)
            && self.neighbours.iter().all(fits)
            && self.distances.iter().all(|distance| (1..=MAX_DISTANCE).contains(distance))
            && self.ratings.iter().all(|rating| (1..=Plan::MAX_RATING).contains(rating))
    }

    fn neighbours_in_order(&self) -> bool {
        self.neighbours_of_boxes().all(|own| own.is_sorted())
    }

    fn bounds_leave_room(&self) -> bool {
        match (self.left, self.right) {
            (Some(left), Some(right)) => right - left >= self.distances.iter().sum(),
            _ => true,
        }
    }
}

/// Where a lone box starts before its bounds apply: halfway between the lower and the upper middle one of its neighbours, rounded
/// toward minus infinity (document 02, E4 and E5), or where it stood if it has none.
pub(crate) fn start_of(neighbours: &[i64], ratings: &[i64], old: i64) -> i64 {
    let total: i64 = ratings.iter().sum();
    let lower = first_at_which(neighbours, ratings, |twice| twice >= total);
    let upper = first_at_which(neighbours, ratings, |twice| twice > total);
    lower.zip(upper).map_or(old, |(lower, upper)| (lower + upper).div_euclid(2))
}

/// The first neighbour at which twice the ratings so far, its own included, are enough.
fn first_at_which(neighbours: &[i64], ratings: &[i64], is_enough: impl Fn(i64) -> bool) -> Option<i64> {
    let mut so_far = 0;
    let found = neighbours.iter().zip(ratings).find(|(_, rating)| {
        so_far += **rating;
        is_enough(2 * so_far)
    });
    found.map(|(position, _)| *position)
}
