//! The marks of a drawing, for a screen.

use crate::passes::Drawing;
use crate::plan::Plan;

/// A point in steps.
#[derive(Clone, Copy, Debug, PartialEq)]
pub struct Point {
    /// To the right.
    pub x: f64,
    /// Down from the top level.
    pub y: f64,
}

/// What is drawn of a vertex or a segment.
#[derive(Clone, Copy, Debug, PartialEq)]
pub enum Mark {
    /// Centre and half-width.
    Box(Point, f64),
    /// One per via.
    Bend(Point),
    /// From the upper end to the lower.
    Line(Point, Point),
}

impl Mark {
    /// Its kind (0 a box, 1 a bend, 2 a line), its point, and a box's half-width or a line's second point.
    pub fn numbers(self) -> [f64; 5] {
        match self {
            Mark::Box(p, half_width) => [0.0, p.x, p.y, half_width, 0.0],
            Mark::Bend(p) => [1.0, p.x, p.y, 0.0, 0.0],
            Mark::Line(p, q) => [2.0, p.x, p.y, q.x, q.y],
        }
    }
}

/// All marks: vertices first, then segments.
pub fn marks(plan: &Plan, drawing: &Drawing) -> Vec<Mark> {
    let point = |v: usize| Point { x: drawing.position[v] as f64 / 2.0, y: plan.height(plan.level_of(v)) as f64 };
    let vertex = |v: usize| {
        if plan.is_via(v) {
            Mark::Bend(point(v))
        } else {
            Mark::Box(point(v), plan.draft().vertices[v].half_width as f64)
        }
    };
    let vertices = (0..plan.vertices()).map(vertex);
    let lines = plan.segments().iter().map(|segment| Mark::Line(point(segment.upper), point(segment.lower)));
    vertices.chain(lines).collect()
}

#[cfg(test)]
mod tests {
    use super::*;
    use crate::{passes, text};

    #[test]
    fn a_cable_of_one_via() {
        let plan =
            b"(plan 3 1 10)\n(level (box 3))\n(level (via))\n(level (box 1) (box 1))\n(seg 0 1)\n(seg 1 3)\n(end)\n";
        let plan = text::read(plan).expect("an acceptable plan");
        let drawing = passes::draw(&plan);
        let marks = marks(&plan, &drawing);
        let x = |v: usize| drawing.position[v] as f64 * 0.5;
        let numbers: Vec<[f64; 5]> = marks.iter().map(|mark| mark.numbers()).collect();
        assert_eq!(
            numbers,
            [
                [0.0, x(0), 0.0, 3.0, 0.0],
                [1.0, x(1), 10.0, 0.0, 0.0],
                [0.0, x(2), 20.0, 1.0, 0.0],
                [0.0, x(3), 20.0, 1.0, 0.0],
                [2.0, x(0), 0.0, x(1), 10.0],
                [2.0, x(1), 10.0, x(3), 20.0],
            ]
        );
    }
}
