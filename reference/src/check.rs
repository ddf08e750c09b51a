//! Demand 3, judged from a plan and its finished drawing with the list of placings.
//!
//! Nothing here follows the method: which runs are to be placed is worked out word for word, and the least sideways
//! length of a run is found by trying all positions worth trying, see [`Task::least_length`]. Only the last part of
//! `made` compares with the method's own drawing.

use std::fmt;
use std::ops::Range;

use crate::passes::{self, Drawing};
use crate::plan::{Plan, Segment, Side, Stretch};

/// Positions of a drawing lie within ± this.
pub const MAX_POSITION: i64 = 1 << 40;
/// Most placings in a list, and most boxes in them.
pub const MAX_LISTED: usize = 2_048;
/// Most bends of a cable.
pub const MAX_BENDS: usize = 2;

/// A promise that a drawing breaks.
#[derive(Clone, Debug, PartialEq, Eq)]
pub struct Failure {
    /// The promise: within, made, order, upright, bends, counts, optimal or lasting.
    pub promise: &'static str,
    /// Where it fails first.
    pub detail: String,
}

impl fmt::Display for Failure {
    fn fmt(&self, out: &mut fmt::Formatter) -> fmt::Result {
        write!(out, "{}: {}", self.promise, self.detail)
    }
}

/// Nothing, or the promise that fails.
type Verdict = Result<(), Failure>;

fn demand(holds: bool, promise: &'static str, detail: impl FnOnce() -> String) -> Verdict {
    if holds {
        Ok(())
    } else {
        Err(Failure { promise, detail: detail() })
    }
}

/// Judges a drawing of the plan: all promises that fail. A drawing that is not within its limits, or whose list holds
/// something else than runs of the plan, is not judged further.
pub fn judge(plan: &Plan, drawing: &Drawing) -> Vec<Failure> {
    let list = match within(plan, drawing).and_then(|()| listed(plan, drawing)) {
        Ok(list) => list,
        Err(failure) => return vec![failure],
    };
    let trace = trace(plan, &drawing.preliminary);
    let verdicts = [
        made(plan, drawing, &list, &trace),
        order(plan, &drawing.position),
        upright(plan, &drawing.position),
        bends(plan, &drawing.position),
        counts(plan, drawing, &list, &trace),
        optimal(plan, drawing, &list),
        lasting(plan, drawing, &list),
    ];
    verdicts.into_iter().filter_map(Result::err).collect()
}

/// `within`: numbers and counts keep their limits, so that nothing below can overflow.
fn within(plan: &Plan, drawing: &Drawing) -> Verdict {
    let vertices = plan.vertices();
    demand(drawing.preliminary.len() == vertices && drawing.position.len() == vertices, "within", || {
        "not as many positions as vertices".to_string()
    })?;
    let listed = drawing.placed.iter().map(|(_, position)| position);
    let far = |position: &&i64| !(-MAX_POSITION..=MAX_POSITION).contains(*position);
    if let Some(position) = drawing.preliminary.iter().chain(&drawing.position).chain(listed).find(far) {
        return demand(false, "within", || format!("position {position}"));
    }
    demand(drawing.placings.len() <= MAX_LISTED, "within", || format!("{} placings", drawing.placings.len()))?;
    demand(drawing.placed.len() <= MAX_LISTED, "within", || format!("{} boxes listed", drawing.placed.len()))
}

// ---------------------------------------------------------------------------------------------------------------------
// The list

/// A placing of a run, as the three passes make it; levels count from 0.
#[derive(Clone, Debug, PartialEq, Eq)]
struct Step {
    pass: u32,
    level: usize,
    run: Stretch,
}

impl Step {
    /// The side of the level against which it places its run.
    fn preceding(&self) -> Side {
        match self.pass {
            2 => Side::Below,
            _ => Side::Above,
        }
    }

    fn is_bounded(&self) -> bool {
        self.run.bounds().is_some()
    }
}

/// A placing of the list, with the positions of its boxes after.
struct Listed {
    step: Step,
    after: Vec<i64>,
}

/// The list, if every entry names a pass and a nonempty run of the plan.
fn listed(plan: &Plan, drawing: &Drawing) -> Result<Vec<Listed>, Failure> {
    let mut list = Vec::new();
    let mut taken = 0;
    for (i, placing) in drawing.placings.iter().enumerate() {
        let in_turn = placing.boxes.start == taken && (taken..=drawing.placed.len()).contains(&placing.boxes.end);
        demand(in_turn, "made", || format!("the boxes of placing {i} do not follow those before"))?;
        taken = placing.boxes.end;
        let entries = drawing.boxes(placing);
        let boxes = || entries.iter().map(|&(v, _)| v);
        let level = placing.level.wrapping_sub(1);
        let run = (level < plan.levels()).then(|| plan.runs(level).find(|run| run.boxes().eq(boxes()))).flatten();
        let run = run.filter(|run| !run.is_empty() && (1..=3).contains(&placing.pass));
        let Some(run) = run else {
            let detail = format!("placing {i}, pass {}, level {}, is of no run", placing.pass, placing.level);
            return Err(Failure { promise: "made", detail });
        };
        let after = entries.iter().map(|&(_, position)| position).collect();
        list.push(Listed { step: Step { pass: placing.pass, level, run }, after });
    }
    demand(taken == drawing.placed.len(), "made", || "boxes without a placing".to_string())?;
    Ok(list)
}

/// The placings that the three passes make, in order, those of empty runs too. They depend on the plan and on where
/// its vias stand.
fn trace(plan: &Plan, preliminary: &[i64]) -> Vec<Step> {
    let mut trace: Vec<Step> = Vec::new();
    let down = || (0..plan.levels()).collect::<Vec<_>>();
    let up = || (0..plan.levels()).rev().collect();
    for (pass, levels) in [(1, down()), (2, up()), (3, down())] {
        for level in levels {
            for run in plan.runs(level) {
                let step = Step { pass, level, run };
                if is_due(plan, preliminary, &trace, &step) {
                    trace.push(step);
                }
            }
        }
    }
    trace
}

/// Whether the passes, after the placings so far, make this one.
fn is_due(plan: &Plan, preliminary: &[i64], so_far: &[Step], step: &Step) -> bool {
    let Some(bounds) = step.run.bounds() else { return step.pass < 3 };
    !is_settled(plan, preliminary, so_far, bounds) && (step.pass == 3 || is_ready(plan, preliminary, so_far, step))
}

/// A bounded run is settled if it has no slack, or once placed.
fn is_settled(plan: &Plan, preliminary: &[i64], so_far: &[Step], bounds: (usize, usize)) -> bool {
    !has_slack(plan, preliminary, bounds) || so_far.iter().any(|step| step.run.bounds() == Some(bounds))
}

/// Whether the vias of a bounded run are farther apart than their distance.
fn has_slack(plan: &Plan, preliminary: &[i64], (left, right): (usize, usize)) -> bool {
    preliminary[right] - preliminary[left] != doubled_distance(plan, left, right)
}

/// The distance of two vertices of a level in half steps, as half-widths and gap give it.
fn doubled_distance(plan: &Plan, left: usize, right: usize) -> i64 {
    (left..right).map(|v| 2 * plan.distance(v, v + 1)).sum()
}

/// A bounded run is ready if on both sides there is a nearest via, at or beyond its bound, joined to a via w of the
/// preceding level, and every bounded run between the two w's is settled.
fn is_ready(plan: &Plan, preliminary: &[i64], so_far: &[Step], step: &Step) -> bool {
    let Some((left, right)) = step.run.bounds() else { return false };
    let row = plan.level(step.level);
    let joined = |v: usize| plan.joined_via(v, step.preceding());
    let Some(w_left) = (row.start..=left).rev().find_map(joined) else { return false };
    let Some(w_right) = (right..row.end).find_map(joined) else { return false };
    let bounded = plan.runs(plan.level_of(w_left)).filter_map(|run| run.bounds());
    let mut between = bounded.filter(|&(l, r)| w_left <= l && r <= w_right);
    between.all(|bounds| is_settled(plan, preliminary, so_far, bounds))
}

/// `made`: the list is the trace without its empty runs, final positions are the preliminary ones overwritten by the
/// list, and every position is the method's.
fn made(plan: &Plan, drawing: &Drawing, list: &[Listed], trace: &[Step]) -> Verdict {
    let mut due = trace.iter().filter(|step| !step.run.is_empty());
    for (i, entry) in list.iter().enumerate() {
        demand(due.next() == Some(&entry.step), "made", || format!("placing {i} is not the one the passes make"))?;
    }
    let missing = due.count();
    demand(missing == 0, "made", || format!("{missing} placings are missing at the end"))?;
    let mut position = drawing.preliminary.clone();
    drawing.placed.iter().for_each(|&(v, after)| position[v] = after);
    demand(position == drawing.position, "made", || "final positions are not those of the list".to_string())?;
    demand(passes::draw(plan) == *drawing, "made", || "the method draws another drawing".to_string())
}

/// `counts`: a bounded run is placed once if it has slack, else never; an open run with boxes twice. Placings of runs
/// with boxes are counted in the list, those of empty runs, which are not listed, in the trace.
fn counts(plan: &Plan, drawing: &Drawing, list: &[Listed], trace: &[Step]) -> Verdict {
    for run in (0..plan.levels()).flat_map(|level| plan.runs(level)) {
        let expected = match run.bounds() {
            Some(bounds) => usize::from(has_slack(plan, &drawing.preliminary, bounds)),
            None if run.is_empty() => continue,
            None => 2,
        };
        let times = if run.is_empty() {
            trace.iter().filter(|step| step.run == run).count()
        } else {
            list.iter().filter(|entry| entry.step.run == run).count()
        };
        demand(times == expected, "counts", || {
            format!("the run of vertices {:?} is placed {times} times instead of {expected}", run.members())
        })?;
    }
    Ok(())
}

// ---------------------------------------------------------------------------------------------------------------------
// The picture

/// `order`: every level keeps its order and distances.
fn order(plan: &Plan, position: &[i64]) -> Verdict {
    for v in 0..plan.vertices() {
        let Some(sibling) = plan.right_sibling(v) else { continue };
        let apart = position[sibling] - position[v];
        let kept = apart >= doubled_distance(plan, v, sibling);
        demand(kept, "order", || format!("vertices {v} and {sibling} are {apart} half steps apart"))?;
    }
    Ok(())
}

/// `upright`: both ends of an inner segment have the same position.
fn upright(plan: &Plan, position: &[i64]) -> Verdict {
    for (upper, lower) in plan.segments().iter().map(Segment::ends) {
        let inner = plan.is_via(upper) && plan.is_via(lower);
        demand(!inner || position[upper] == position[lower], "upright", || format!("segment {upper} {lower}"))?;
    }
    Ok(())
}

/// `bends`: no cable bends more than twice. A strand of vias is followed from its topmost via.
fn bends(plan: &Plan, position: &[i64]) -> Verdict {
    let is_top = |&v: &usize| plan.is_via(v) && plan.joined_via(v, Side::Above).is_none();
    for top in (0..plan.vertices()).filter(is_top) {
        let strand = std::iter::successors(Some(top), |&v| plan.joined_via(v, Side::Below));
        let bends = strand.filter(|&v| is_bend(plan, position, v)).count();
        demand(bends <= MAX_BENDS, "bends", || format!("the cable at vertex {top} bends {bends} times"))?;
    }
    Ok(())
}

/// Whether the segments above and below a via do not lie on one straight line.
fn is_bend(plan: &Plan, position: &[i64], v: usize) -> bool {
    let (above, below) = (plan.neighbours(v, Side::Above)[0], plan.neighbours(v, Side::Below)[0]);
    let x = |v: usize| i128::from(position[v]);
    let y = |v: usize| i128::from(plan.height(plan.level_of(v)));
    (x(v) - x(above)) * (y(below) - y(v)) != (x(below) - x(v)) * (y(v) - y(above))
}

// ---------------------------------------------------------------------------------------------------------------------
// The optimum

/// `optimal`: replays the list. Each placing meets what those before it left; the distances of an open run are those
/// that its placing before gave it.
fn optimal(plan: &Plan, drawing: &Drawing, list: &[Listed]) -> Verdict {
    let mut now = drawing.preliminary.clone();
    let mut distance = doubled_distances(plan);
    for entry in list {
        let run = &entry.step.run;
        Task::new(plan, &entry.step, &distance, &now, &now).judge("optimal", entry)?;
        now[run.boxes()].copy_from_slice(&entry.after);
        if !entry.step.is_bounded() {
            let members = run.members();
            for v in members.start..members.end - 1 {
                distance[v] = now[v + 1] - now[v];
            }
        }
    }
    Ok(())
}

/// `lasting`: what bounded runs got in passes 1 and 2 is best against the finished drawing too. Their bounds are vias,
/// which stay where they were.
fn lasting(plan: &Plan, drawing: &Drawing, list: &[Listed]) -> Verdict {
    let distance = doubled_distances(plan);
    for entry in list.iter().filter(|entry| entry.step.is_bounded() && entry.step.pass < 3) {
        let task = Task::new(plan, &entry.step, &distance, &drawing.preliminary, &drawing.position);
        task.judge("lasting", entry)?;
    }
    Ok(())
}

/// The doubled distance of each vertex to its right sibling; 0 at the end of a level.
fn doubled_distances(plan: &Plan) -> Vec<i64> {
    let to_sibling = |v| plan.right_sibling(v).map_or(0, |sibling| doubled_distance(plan, v, sibling));
    (0..plan.vertices()).map(to_sibling).collect()
}

/// A run with all that decides how long its segments are.
#[derive(Clone, Debug)]
pub struct Task {
    /// Least position of the first box, if there is a left bound.
    pub lowest: Option<i64>,
    /// Greatest position of the last box, if there is a right bound.
    pub highest: Option<i64>,
    /// The distance of each box to the next; one less than the boxes.
    pub distances: Vec<i64>,
    /// For each box the positions of its neighbours on the preceding level, and the ratings of the segments to them.
    pub neighbours: Vec<Vec<(i64, i64)>>,
}

impl Task {
    /// The task of a step, its bounds standing as `then` says and the preceding level as `preceding` says.
    fn new(plan: &Plan, step: &Step, distance: &[i64], then: &[i64], preceding: &[i64]) -> Self {
        let Stretch { first, end, left, right } = step.run;
        Task {
            lowest: left.map(|via| then[via] + distance[via]),
            highest: right.map(|via| then[via] - distance[end - 1]),
            distances: distance[first..end - 1].to_vec(),
            neighbours: neighbours_at(plan, step.run.boxes(), step.preceding(), preceding),
        }
    }

    fn judge(&self, promise: &'static str, entry: &Listed) -> Verdict {
        let Listed { step, after } = entry;
        let name = || format!("pass {}, level {}, positions {after:?}", step.pass, step.level + 1);
        demand(self.is_placement(after), promise, || format!("{}: no placement", name()))?;
        let (length, least) = (self.length(after), self.least_length());
        demand(length == least, promise, || format!("{}: length {length}, least {least}", name()))
    }

    /// Whether all members keep order and distance.
    pub fn is_placement(&self, positions: &[i64]) -> bool {
        positions.len() == self.neighbours.len()
            && positions.windows(2).zip(&self.distances).all(|(pair, &distance)| pair[1] - pair[0] >= distance)
            && self.lowest.is_none_or(|lowest| positions.first().is_none_or(|&first| first >= lowest))
            && self.highest.is_none_or(|highest| positions.last().is_none_or(|&last| last <= highest))
    }

    /// Total sideways length with the boxes at these positions, each segment counted with its rating (E5).
    pub fn length(&self, positions: &[i64]) -> i128 {
        positions.iter().zip(&self.neighbours).map(|(&position, own)| sideways(position, own)).sum()
    }

    /// The least length of any placement, of which there is at least one.
    ///
    /// From positions and neighbours of each box take the sum of the distances before it: a placement is then a
    /// nondecreasing list within two limits. Take a group of boxes that stand together, neither at a limit nor at a
    /// neighbour: it can be moved one way or the other at no cost until it is, or joins another group. So the
    /// neighbours and the limits are all the places worth trying. For each box in turn, and each place, this finds the
    /// least length of the boxes so far with this one there.
    pub fn least_length(&self) -> i128 {
        let wishes = self.wishes();
        let places = self.places_to_try(&wishes);
        let mut least = vec![0; places.len()];
        for own in &wishes {
            let mut least_so_far = i128::MAX;
            for (place, least) in places.iter().zip(&mut least) {
                least_so_far = least_so_far.min(*least);
                *least = least_so_far + sideways(*place, own);
            }
        }
        least.into_iter().min().unwrap_or(0)
    }

    /// The neighbours of each box less the sum of the distances before it.
    fn wishes(&self) -> Vec<Vec<(i64, i64)>> {
        let mut offset = 0;
        let mut wishes = Vec::new();
        for (k, neighbours) in self.neighbours.iter().enumerate() {
            wishes.push(neighbours.iter().map(|&(n, rating)| (n - offset, rating)).collect());
            offset += self.distances.get(k).unwrap_or(&0);
        }
        wishes
    }

    fn places_to_try(&self, wishes: &[Vec<(i64, i64)>]) -> Vec<i64> {
        let low = self.lowest;
        let high = self.highest.map(|highest| highest - self.distances.iter().sum::<i64>());
        let mut places: Vec<i64> = wishes.iter().flatten().map(|&(n, _)| n).chain(low).chain(high).collect();
        places.retain(|&place| low.is_none_or(|low| place >= low) && high.is_none_or(|high| place <= high));
        places.sort_unstable();
        places.dedup();
        places
    }
}

/// How far all of `to` stand sideways from `from`, together, each as often as its rating says.
fn sideways(from: i64, to: &[(i64, i64)]) -> i128 {
    to.iter().map(|&(n, rating)| i128::from(rating) * i128::from((from - n).abs())).sum()
}

/// For each of the boxes where its neighbours on that side stand, with ratings, gathered from the plan's own segments.
fn neighbours_at(plan: &Plan, boxes: Range<usize>, side: Side, position: &[i64]) -> Vec<Vec<(i64, i64)>> {
    let mut neighbours = vec![Vec::new(); boxes.len()];
    for segment in plan.segments() {
        let (own, other) = match side {
            Side::Above => (segment.lower, segment.upper),
            Side::Below => (segment.upper, segment.lower),
        };
        if boxes.contains(&own) {
            neighbours[own - boxes.start].push((position[other], segment.rating()));
        }
    }
    neighbours
}
