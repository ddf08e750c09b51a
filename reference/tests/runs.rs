//! Place-run: half steps against jumps, both against the exact optimum, and refusal 8.

mod common;

use common::{Limits, OwnedRun};
use reference::check::Task;
use reference::place_run::{place_run, MAX_DISTANCE, MAX_POSITION};
use reference::random::Random;
use reference::{half_steps, jumps};

/// Places a run both ways and holds the outcome against the optimum.
fn agree(owned: &OwnedRun) {
    let run = owned.run();
    assert!(run.is_acceptable());
    let (positions, steps) = half_steps::place(&run);
    assert_eq!((positions.clone(), steps), jumps::place(&run), "{run:?}");
    assert_optimal(&owned.task(), &positions);
}

fn assert_optimal(task: &Task, positions: &[i64]) {
    assert!(task.is_placement(positions), "{task:?} {positions:?}");
    assert_eq!(task.length(positions), task.least_length(), "{task:?} {positions:?}");
}

#[test]
fn half_steps_and_jumps_agree_on_short_runs() {
    let random = &mut Random::new("short runs", 1);
    for rating in [1, 1, 2, 3, 100] {
        let limits = Limits { boxes: (0, 9), neighbours: 5, position: 40, distance: 9, rating };
        (0..40_000).for_each(|_| agree(&OwnedRun::random(random, &limits)));
    }
}

#[test]
fn half_steps_and_jumps_agree_on_crowded_runs() {
    let random = &mut Random::new("crowded runs", 1);
    for rating in [1, 1, 2, 3, 100] {
        let limits = Limits { boxes: (2, 16), neighbours: 8, position: 6, distance: 3, rating };
        (0..8_000).for_each(|_| agree(&OwnedRun::random(random, &limits)));
    }
}

#[test]
fn half_steps_and_jumps_agree_on_the_largest_runs() {
    let random = &mut Random::new("largest runs", 1);
    for rating in [1, 2, 100] {
        let limits = Limits { boxes: (60, 64), neighbours: 32, position: 400, distance: 40, rating };
        (0..12).for_each(|_| agree(&OwnedRun::random(random, &limits)));
    }
}

#[test]
fn jumps_are_optimal_at_the_limits() {
    let random = &mut Random::new("limits", 1);
    for i in 0..200 {
        let rating = if i % 2 == 0 { 1 } else { 100 };
        let limits = Limits { boxes: (2, 64), neighbours: 20, position: MAX_POSITION, distance: MAX_DISTANCE, rating };
        let mut owned = OwnedRun::random(random, &limits);
        if owned.right.is_some_and(|right| right > MAX_POSITION) {
            owned.right = None;
            owned.distances.pop();
        }
        assert!(owned.run().is_acceptable());
        assert_optimal(&owned.task(), &jumps::place(&owned.run()).0);
    }
}

/// The least length of all placements with every box within ±`reach`.
fn least_by_trying(task: &Task, reach: i64, positions: &mut Vec<i64>) -> Option<i128> {
    if positions.len() == task.neighbours.len() {
        return task.is_placement(positions).then(|| task.length(positions));
    }
    let mut least: Option<i128> = None;
    for position in -reach..=reach {
        positions.push(position);
        let found = least_by_trying(task, reach, positions);
        positions.pop();
        least = least.into_iter().chain(found).min();
    }
    least
}

#[test]
fn the_exact_optimum_is_the_least_of_all_placements() {
    let random = &mut Random::new("optimum", 1);
    for i in 0..2_000 {
        let rating = [1, 2, 3, 100][i % 4];
        let limits = Limits { boxes: (1, 3), neighbours: 4, position: 3, distance: 3, rating };
        let task = OwnedRun::random(random, &limits).task();
        assert_eq!(Some(task.least_length()), least_by_trying(&task, 18, &mut Vec::new()), "{task:?}");
    }
}

/// What is handed to place-run, as in case 6 but with two boxes and both bounds.
struct Call {
    r: usize,
    left: Option<i64>,
    right: Option<i64>,
    old: Vec<i64>,
    distances: Vec<i64>,
    counts: Vec<usize>,
    neighbours: Vec<i64>,
    ratings: Vec<i64>,
    answer: Vec<i64>,
}

fn good_call() -> Call {
    Call {
        r: 2,
        left: Some(0),
        right: Some(30),
        old: vec![3, 4],
        distances: vec![6, 10, 5],
        counts: vec![2, 1],
        neighbours: vec![2, 9, 4],
        ratings: vec![1; 3],
        answer: vec![-77; 2],
    }
}

impl Call {
    /// A call for r boxes without bounds and neighbours, all distances 1.
    fn bare(r: usize) -> Self {
        let distances = vec![1; r.saturating_sub(1)];
        let (old, counts, answer) = (vec![0; r], vec![0; r], vec![-77; r]);
        Call { r, left: None, right: None, old, distances, counts, neighbours: vec![], ratings: vec![], answer }
    }

    fn make(&mut self) -> Result<(), u32> {
        let Call { r, left, right, old, distances, counts, neighbours, ratings, answer } = self;
        place_run(*r, *left, *right, old, distances, counts, neighbours, ratings, answer)
    }

    fn accepted(mut self) -> bool {
        let before = self.answer.clone();
        let answer = self.make();
        assert!(answer == Ok(()) || (answer == Err(8) && self.answer == before), "refused, yet changed");
        answer.is_ok()
    }
}

/// Whether the good call is accepted after a change.
fn accepted(change: impl FnOnce(&mut Call)) -> bool {
    let mut call = good_call();
    change(&mut call);
    call.accepted()
}

#[test]
fn place_run_writes_the_answer() {
    let mut call = good_call();
    assert_eq!(call.make(), Ok(()));
    assert_eq!(call.answer, [6, 16]);
}

#[test]
fn place_run_refuses_wrong_lengths() {
    assert!(accepted(|_| ()));
    assert!(!accepted(|call| call.r = 1));
    assert!(!accepted(|call| call.r = 3));
    assert!(!accepted(|call| call.r = usize::MAX));
    assert!(!accepted(|call| call.old.push(0)));
    assert!(!accepted(|call| call.old.truncate(call.old.len() - 1)));
    assert!(!accepted(|call| call.answer.push(0)));
    assert!(!accepted(|call| call.answer.truncate(call.answer.len() - 1)));
    assert!(!accepted(|call| call.counts.push(0)));
    assert!(!accepted(|call| call.counts.truncate(call.counts.len() - 1)));
    assert!(!accepted(|call| call.distances.push(1)));
    assert!(!accepted(|call| call.distances.truncate(call.distances.len() - 1)));
    assert!(!accepted(|call| call.neighbours.push(10)));
    assert!(!accepted(|call| call.neighbours.truncate(call.neighbours.len() - 1)));
    assert!(!accepted(|call| call.left = None));
    assert!(!accepted(|call| call.right = None));
    assert!(!accepted(|call| call.counts = vec![usize::MAX, 4]));
    assert!(!accepted(|call| call.counts = vec![usize::MAX, usize::MAX]));
}

#[test]
fn place_run_refuses_too_many_boxes() {
    assert!(Call::bare(64).accepted());
    assert!(!Call::bare(65).accepted());
    assert!(!Call::bare(5_000).accepted());
}

#[test]
fn place_run_refuses_too_many_neighbours() {
    let with = |first: usize, second: usize| {
        let mut call = Call::bare(2);
        call.counts = vec![first, second];
        call.neighbours = vec![0; first + second];
        call.ratings = vec![1; first + second];
        call.accepted()
    };
    assert!(with(2_048, 0) && with(1_000, 1_048));
    assert!(!with(2_049, 0) && !with(1_000, 1_049));
}

#[test]
fn place_run_refuses_numbers_outside_their_limits() {
    let most = MAX_POSITION;
    let positions = [most, -most, most + 1, -most - 1, i64::MAX, i64::MIN];
    for (i, far) in positions.into_iter().enumerate() {
        let fits = i < 2;
        assert_eq!(accepted(|call| call.old[1] = far), fits);
        assert_eq!(accepted(|call| call.neighbours[2] = far), fits);
    }
    assert!(accepted(|call| call.left = Some(-most)));
    assert!(!accepted(|call| call.left = Some(-most - 1)));
    assert!(!accepted(|call| call.left = Some(i64::MIN)));
    assert!(accepted(|call| call.right = Some(most)));
    assert!(!accepted(|call| call.right = Some(most + 1)));
    assert!(!accepted(|call| call.right = Some(i64::MAX)));
    let distance = |distance| {
        let mut call = Call::bare(2);
        call.distances = vec![distance];
        call.accepted()
    };
    assert!(distance(1) && distance(MAX_DISTANCE));
    assert!(!distance(0) && !distance(-1) && !distance(MAX_DISTANCE + 1));
    assert!(!distance(i64::MAX) && !distance(i64::MIN));
}

/// "Exactly as many, and another length or one outside 1 to 100 is refused with 8."
#[test]
fn place_run_refuses_wrong_ratings() {
    assert!(!accepted(|call| call.ratings.push(1)));
    assert!(!accepted(|call| call.ratings.truncate(2)));
    assert!(!accepted(|call| call.ratings.clear()));
    assert!(!Call { ratings: vec![1], ..Call::bare(1) }.accepted());
    assert!(!Call { ratings: vec![1], ..Call::bare(0) }.accepted());
    for i in 0..3 {
        for rating in [1, 2, 99, 100] {
            assert!(accepted(|call| call.ratings[i] = rating), "{i} {rating}");
        }
        for rating in [0, -1, 101, 257, (1 << 32) + 1, i64::MAX, i64::MIN] {
            assert!(!accepted(|call| call.ratings[i] = rating), "{i} {rating}");
        }
    }
}

#[test]
fn place_run_refuses_neighbours_out_of_order() {
    assert!(accepted(|call| call.neighbours = vec![2, 2, -4]));
    assert!(!accepted(|call| call.neighbours = vec![3, 2, 4]));
}

#[test]
fn place_run_refuses_bounds_nearer_than_their_distance() {
    assert!(accepted(|call| call.right = Some(21)));
    assert!(!accepted(|call| call.right = Some(20)));
    assert!(!accepted(|call| call.right = Some(-1)));
}

#[test]
fn place_run_takes_a_run_without_boxes() {
    let empty = |left, right, distances: &[i64]| {
        let mut call = Call::bare(0);
        (call.left, call.right, call.distances) = (left, right, distances.to_vec());
        call.accepted()
    };
    assert!(empty(None, None, &[]));
    assert!(empty(Some(3), None, &[]));
    assert!(empty(None, Some(3), &[]));
    assert!(empty(Some(3), Some(5), &[2]));
    assert!(!empty(Some(3), Some(5), &[3]));
    assert!(!empty(Some(3), Some(5), &[]));
    assert!(!empty(None, None, &[1]));
}
