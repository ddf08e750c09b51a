//! The crossing check between two neighbouring levels: document 02's E3, "one walk along the upper level, stopped by the
//! first descent".
//!
//! The walk takes the inner segments, via to via, from left to right by their upper ends. After check 5 no two of them share
//! an end, so two of them cross exactly if their lower ends stand the other way round; and if any two do, then some two that
//! follow each other.

use crate::plan::{Plan, Side};
use crate::{refusal, text, Refusal};

/// What a walk returns.
#[derive(Clone, Copy, Debug, PartialEq, Eq)]
pub struct Walk {
    /// Whether a descent stopped it: inner segments cross.
    pub is_crossed: bool,
    /// How many inner segments it took from the left: "up to and with the first whose lower end stands left of the one
    /// before's, or all".
    pub taken: usize,
}

/// The walk along a level, counted from 0, over its inner segments to the level below. The last level has none.
pub fn walk(plan: &Plan, upper: usize) -> Walk {
    let mut taken = 0;
    let mut before = None;
    for lower in plan.level(upper).filter_map(|v| plan.joined_via(v, Side::Below)) {
        taken += 1;
        if before.is_some_and(|before| lower < before) {
            return Walk { is_crossed: true, taken };
        }
        before = Some(lower);
    }
    Walk { is_crossed: false, taken }
}

/// The walk along level l of a text, counted from 1, to level l + 1. Refused with 1 to 5, and then with 7 if there are no
/// such two levels; check 6 is not asked.
pub fn of_text(text: &[u8], l: usize) -> Result<Walk, Refusal> {
    let plan = text::read_up_to_check_5(text)?;
    if !(1..plan.levels()).contains(&l) {
        return Err(refusal::NO_SUCH);
    }
    Ok(walk(&plan, l - 1))
}
