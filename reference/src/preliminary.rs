//! Preliminary positions.
//!
//! Twice all strands are pushed together, once toward the left (x₋) and once toward the right (x₊); the preliminary
//! position is the sum of the two, in half steps. A strand is one box or a whole chain of vias, and has one position,
//! so that inner segments stand upright from the start.

use crate::plan::{Plan, Side};

/// The preliminary position of every vertex, in half steps.
pub fn positions(plan: &Plan) -> Vec<i64> {
    let strands = Strands::new(plan);
    let minus = Placement::of(plan, &strands, View::Plain);
    let plus = Placement::of(plan, &strands, View::Mirrored);
    strands.of.iter().map(|&s| minus[s] - plus[s]).collect()
}

/// The strands of a plan, numbered by their topmost vertices.
struct Strands {
    /// The strand of each vertex.
    of: Vec<usize>,
    /// The topmost vertex of each strand.
    top: Vec<usize>,
}

impl Strands {
    fn new(plan: &Plan) -> Self {
        let mut strands = Strands { of: Vec::with_capacity(plan.vertices()), top: Vec::new() };
        for v in 0..plan.vertices() {
            let strand = match plan.joined_via(v, Side::Above) {
                Some(above) => strands.of[above],
                None => {
                    strands.top.push(v);
                    strands.top.len() - 1
                }
            };
            strands.of.push(strand);
        }
        strands
    }

    fn count(&self) -> usize {
        self.top.len()
    }

    /// The vertices of a strand from the top down.
    fn members<'a>(&self, plan: &'a Plan, strand: usize) -> impl Iterator<Item = usize> + 'a {
        std::iter::successors(Some(self.top[strand]), |&v| plan.joined_via(v, Side::Below))
    }
}

/// How the levels are looked at: as they are, or each reversed, left and right having changed places.
#[derive(Clone, Copy, PartialEq)]
enum View {
    Plain,
    Mirrored,
}

impl View {
    fn left_sibling(self, plan: &Plan, v: usize) -> Option<usize> {
        match self {
            View::Plain => plan.left_sibling(v),
            View::Mirrored => plan.right_sibling(v),
        }
    }

    fn right_sibling(self, plan: &Plan, v: usize) -> Option<usize> {
        match self {
            View::Plain => plan.right_sibling(v),
            View::Mirrored => plan.left_sibling(v),
        }
    }

    /// The i-th vertex of a level, seen from its left.
    fn vertex(self, plan: &Plan, level: usize, i: usize) -> usize {
        match self {
            View::Plain => plan.level(level).start + i,
            View::Mirrored => plan.level(level).end - 1 - i,
        }
    }
}

/// All strands pushed to the left, as seen in one view.
struct Placement<'a> {
    plan: &'a Plan,
    strands: &'a Strands,
    view: View,
    /// The class of each strand: the level that gave it.
    class: Vec<usize>,
    /// The position of each strand in steps, if it is placed.
    position: Vec<Option<i64>>,
}

impl<'a> Placement<'a> {
    /// The position of each strand, in steps; those of the mirrored view are not negated yet.
    fn of(plan: &'a Plan, strands: &'a Strands, view: View) -> Vec<i64> {
        let class = classes(plan, strands, view);
        let mut placement = Placement { plan, strands, view, class, position: vec![None; strands.count()] };
        for strand in 0..strands.count() {
            placement.place(strand);
        }
        placement.shift_classes()
    }

    /// Places a strand, unless it is placed already, and gives its position: as far left as its left siblings of the
    /// same class allow, which are placed first. Inner segments do not cross, so it never comes back to itself.
    fn place(&mut self, strand: usize) -> i64 {
        if let Some(position) = self.position[strand] {
            return position;
        }
        let mut greatest = None;
        for v in self.strands.members(self.plan, strand) {
            let Some(sibling) = self.view.left_sibling(self.plan, v) else { continue };
            let other = self.strands.of[sibling];
            if self.class[other] == self.class[strand] {
                let reach = self.place(other) + self.plan.distance(sibling, v);
                greatest = greatest.max(Some(reach));
            }
        }
        let position = greatest.unwrap_or(0);
        self.position[strand] = Some(position);
        position
    }

    /// Shifts the classes, lowest number first, each as a whole.
    fn shift_classes(self) -> Vec<i64> {
        let mut position: Vec<i64> = self.position.iter().map(|placed| placed.unwrap_or(0)).collect();
        let mut members = vec![Vec::new(); self.plan.levels()];
        for strand in 0..self.strands.count() {
            members[self.class[strand]].push(strand);
        }
        for class in members {
            let shift =
                self.shift_to_siblings(&class, &position).or_else(|| self.shift_to_neighbours(&class, &position));
            for strand in class {
                position[strand] += shift.unwrap_or(0);
            }
        }
        position
    }

    /// The least slack between a member of the class and its right sibling of another class, if there are such.
    /// Classes fall to the right, so these siblings have had their shift.
    fn shift_to_siblings(&self, class: &[usize], position: &[i64]) -> Option<i64> {
        let mut least = None;
        for &strand in class {
            for v in self.strands.members(self.plan, strand) {
                let Some(sibling) = self.view.right_sibling(self.plan, v) else { continue };
                let other = self.strands.of[sibling];
                if self.class[other] != self.class[strand] {
                    let slack = position[other] - position[strand] - self.plan.distance(v, sibling);
                    least = Some(least.map_or(slack, |least: i64| least.min(slack)));
                }
            }
        }
        least
    }

    /// The ⌈s/2⌉-th smallest way from a member of the class to a neighbour of a lower class, if there are such. "Class shifts
    /// stay unrated."
    fn shift_to_neighbours(&self, class: &[usize], position: &[i64]) -> Option<i64> {
        let mut ways = Vec::new();
        for &strand in class {
            for v in self.strands.members(self.plan, strand) {
                let neighbours = [Side::Above, Side::Below].into_iter().flat_map(|side| self.plan.neighbours(v, side));
                for other in neighbours.map(|&w| self.strands.of[w]) {
                    if self.class[other] < self.class[strand] {
                        ways.push(position[other] - position[strand]);
                    }
                }
            }
        }
        let middle = ways.len().div_ceil(2).checked_sub(1)?;
        Some(*ways.select_nth_unstable(middle).1)
    }
}

/// The class of each strand. On each level the current number starts as the level's own; a vertex with a class makes
/// that current, one without gives the current number to its whole strand.
fn classes(plan: &Plan, strands: &Strands, view: View) -> Vec<usize> {
    let mut class = vec![None; strands.count()];
    for level in 0..plan.levels() {
        let mut current = level;
        for i in 0..plan.level(level).len() {
            let strand = strands.of[view.vertex(plan, level, i)];
            current = *class[strand].get_or_insert(current);
        }
    }
    class.into_iter().flatten().collect()
}
