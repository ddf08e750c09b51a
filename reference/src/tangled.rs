//! Plans that arrive tangled: document 02's E1, "the downward exchange of source document 004, 2.1".
//!
//! The second way of loading "skips check 6 and then, for each level from the second down, rearranges the vias whose upper
//! end is a via. They share out the places that they held among themselves, in the order of their upper ends. All other
//! vertices keep their places. Vertices are then renumbered, segments sorted anew". The order of upper ends is that in
//! which they stand once their own level is rearranged.

use crate::plan::{Draft, Plan, Segment, Side};
use crate::{text, Refusal};

/// A plan that was loaded, and what is remembered of its text.
#[derive(Clone, Debug, PartialEq, Eq)]
pub struct Loaded {
    /// The plan, rearranged if it was tangled.
    pub plan: Plan,
    /// The number in the text of each vertex.
    pub numbers: Vec<usize>,
}

impl Loaded {
    /// After the first way of loading, which rearranges nothing.
    pub fn in_own_numbers(plan: Plan) -> Self {
        Loaded { numbers: (0..plan.vertices()).collect(), plan }
    }
}

/// Reads a plan text by the second way: checks 1 to 5 in their order, never 6.
pub fn read(text: &[u8]) -> Result<Loaded, Refusal> {
    let crossed = text::read_up_to_check_5(text)?;
    let numbers = order(&crossed);
    let plan = Plan::new(renumbered(crossed.draft(), &numbers)).expect("a rearranged plan passes all checks");
    Ok(Loaded { plan, numbers })
}

/// Which vertex comes to stand at each place: what becomes vertex i is vertex `order[i]` of the text.
fn order(plan: &Plan) -> Vec<usize> {
    let mut order: Vec<usize> = (0..plan.vertices()).collect();
    for level in 1..plan.levels() {
        let place = inverse(&order);
        let with_upper_place = |v| plan.joined_via(v, Side::Above).map(|upper| (place[upper], v));
        let mut vias: Vec<(usize, usize)> = plan.level(level).filter_map(with_upper_place).collect();
        let places: Vec<usize> = vias.iter().map(|&(_, v)| v).collect();
        vias.sort_unstable();
        for (place, (_, via)) in places.into_iter().zip(vias) {
            order[place] = via;
        }
    }
    order
}

/// The same plan in other numbers: vertex `order[i]` becomes vertex i, and segments are sorted anew, by A, then B, each with its
/// rating.
pub fn renumbered(draft: &Draft, order: &[usize]) -> Draft {
    let number = inverse(order);
    let in_numbers = |s: &Segment| Segment { upper: number[s.upper], lower: number[s.lower], ..*s };
    let mut segments: Vec<_> = draft.segments.iter().map(in_numbers).collect();
    segments.sort_unstable();
    Draft { vertices: order.iter().map(|&v| draft.vertices[v]).collect(), segments, ..draft.clone() }
}

/// Where each number stands in an order that has every number once.
pub fn inverse(order: &[usize]) -> Vec<usize> {
    let mut place = vec![0; order.len()];
    order.iter().enumerate().for_each(|(i, &v)| place[v] = i);
    place
}
