//! Random ratings (E5), for plans and for requests for place-run.

use crate::plan::{Draft, Plan, Segment};
use crate::random::Random;

/// Ratings to pick from: few heavy leads, or so few ratings that sums are often equal, or at the limits.
const CHOICES: [&[i64]; 7] = [
    &[1, 1, 1, 1, 1, 1, 1, Plan::MAX_RATING],
    &[1, 2],
    &[1, 1, 2, 3],
    &[2],
    &[1, 2, 3, 4, 5, 6, 7, 8, 9],
    &[1, 2, Plan::MAX_RATING - 1, Plan::MAX_RATING],
    &[Plan::MAX_RATING],
];

/// Ratings to pick from, for one plan or request.
pub(crate) fn choose(random: &mut Random) -> &'static [i64] {
    random.pick(&CHOICES)
}

/// Gives the segments random ratings.
pub(crate) fn rate(random: &mut Random, draft: &mut Draft) {
    let choice = choose(random);
    for segment in &mut draft.segments {
        *segment = Segment::rated(segment.ends(), random.pick(choice));
    }
}
