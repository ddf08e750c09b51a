//! The picture: a drawing's marks as an SVG 1.1 document.
//!
//! The unit is the step; numbers are decimals, exact to thousandths. Lines come first, so that boxes cover their ends; in each of
//! the three groups marks keep their order, and a vertex has its number as id.

use crate::label::Label;
use crate::names::{self, Names};
use crate::passes::{self, Drawing};
use crate::plan::{Plan, Segment};
use crate::{report, text};

/// The colours by class, for light and dark.
const STYLE: &str = r#"<style>
.drawing{background:#fff;font-family:"DejaVu Sans Mono",Menlo,Consolas,monospace;text-anchor:middle}
.drawing .lines{stroke:#3d6b8e}
.drawing .bends{fill:#3d6b8e}
.drawing .boxes{stroke:#1c2f40;fill:#eef3f7}
.drawing text{stroke:none;fill:#101c26}
@media (prefers-color-scheme:dark){
.drawing{background:#12181e}
.drawing .lines{stroke:#7fb0d3}
.drawing .bends{fill:#7fb0d3}
.drawing .boxes{stroke:#c9d8e4;fill:#22303c}
.drawing text{fill:#eef3f7}
}
</style>
"#;

/// Why there is no picture.
#[derive(Clone, Copy, Debug, PartialEq, Eq)]
pub enum Fault {
    /// The plan's text is refused by this number.
    Plan(crate::Refusal),
    /// The names are refused at this line.
    Names(usize),
}

/// What the program prints for a plan's text and a text of names: the document, or the one line that says why there is none.
pub fn answer(plan_text: &[u8], names_text: &[u8]) -> Vec<u8> {
    picture(plan_text, names_text).unwrap_or_else(|fault| match fault {
        Fault::Plan(number) => report::refused(number),
        Fault::Names(line) => format!("(names refused at line {line})\n").into_bytes(),
    })
}

/// The document of a plan's text and a text of names.
pub fn picture(plan_text: &[u8], names_text: &[u8]) -> Result<Vec<u8>, Fault> {
    let plan = text::read(plan_text).map_err(Fault::Plan)?;
    let names = names::read(&plan, names_text).map_err(Fault::Names)?;
    Ok(document(&plan, &passes::draw(&plan), &names))
}

/// The document of a drawing.
pub fn document(plan: &Plan, drawing: &Drawing, names: &Names) -> Vec<u8> {
    let view = View::new(plan, drawing);
    let [left, top, width, height] = view.frame().map(decimal);
    let pen = decimal(20 * view.unit);
    let mut svg = format!(
        "<svg xmlns=\"http://www.w3.org/2000/svg\" version=\"1.1\" class=\"drawing\" viewBox=\"{left} {top} {width} {height}\">\n"
    );
    svg += STYLE;
    svg += &format!("<g class=\"lines\" stroke-width=\"{pen}\">\n");
    plan.segments().iter().for_each(|segment| svg += &view.line(segment));
    svg += "</g>\n<g class=\"bends\">\n";
    (0..plan.vertices()).filter(|&v| plan.is_via(v)).for_each(|v| svg += &view.bend(v));
    svg += &format!("</g>\n<g class=\"boxes\" stroke-width=\"{pen}\">\n");
    let mut svg = svg.into_bytes();
    (0..plan.vertices()).filter(|&v| !plan.is_via(v)).for_each(|v| view.push_box(&mut svg, v, names[v]));
    svg.extend_from_slice(b"</g>\n</svg>\n");
    svg
}

/// A drawing and its measure.
struct View<'a> {
    plan: &'a Plan,
    drawing: &'a Drawing,
    /// The measure u, in steps: the lesser of the spacing and of the gap with the widest box.
    unit: i64,
}

impl<'a> View<'a> {
    fn new(plan: &'a Plan, drawing: &'a Drawing) -> Self {
        let draft = plan.draft();
        let widest = draft.vertices.iter().map(|vertex| vertex.half_width).max().unwrap_or(0);
        View { plan, drawing, unit: draft.spacing.min(draft.gap + 2 * widest) }
    }

    /// Left, top, width and height of what is shown, in thousandths: all marks, and half a unit around them.
    fn frame(&self) -> [i64; 4] {
        let vertices = || self.plan.draft().vertices.iter().zip(&self.drawing.position);
        let left = vertices().map(|(vertex, x)| x - 2 * vertex.half_width).min().unwrap_or(0);
        let right = vertices().map(|(vertex, x)| x + 2 * vertex.half_width).max().unwrap_or(0);
        let bottom = self.plan.height(self.plan.levels() - 1);
        [
            500 * (left - self.unit),
            -500 * self.unit,
            500 * (right - left) + 1_000 * self.unit,
            1_000 * (bottom + self.unit),
        ]
    }

    /// Where a vertex stands, in thousandths: a position is in half steps.
    fn point(&self, v: usize) -> (i64, i64) {
        (500 * self.drawing.position[v], 1_000 * self.plan.height(self.plan.level_of(v)))
    }

    /// A heavier line has a thicker pen; that of rating 1 is the group's.
    fn line(&self, segment: &Segment) -> String {
        let ((x1, y1), (x2, y2)) = (self.point(segment.upper), self.point(segment.lower));
        let [x1, y1, x2, y2] = [x1, y1, x2, y2].map(decimal);
        let pen = match segment.rating() {
            Segment::UNRATED => String::new(),
            rating => format!(" stroke-width=\"{}\"", decimal((19 + rating) * self.unit)),
        };
        format!("<line x1=\"{x1}\" y1=\"{y1}\" x2=\"{x2}\" y2=\"{y2}\"{pen}/>\n")
    }

    fn bend(&self, v: usize) -> String {
        let (x, y) = self.point(v);
        format!("<circle id=\"v{v}\" cx=\"{}\" cy=\"{}\" r=\"{}\"/>\n", decimal(x), decimal(y), decimal(35 * self.unit))
    }

    fn push_box(&self, svg: &mut Vec<u8>, v: usize, name: Option<&[u8]>) {
        let ((x, y), half_width) = (self.point(v), self.plan.draft().vertices[v].half_width);
        svg.extend_from_slice(format!("<g id=\"v{v}\"><title>{v}").as_bytes());
        if let Some(name) = name {
            svg.push(b' ');
            push_escaped(svg, name);
        }
        let rectangle = [x - 1_000 * half_width, y - 200 * self.unit, 2_000 * half_width, 400 * self.unit];
        let [left, top, width, height] = rectangle.map(decimal);
        let shape = format!("</title><rect x=\"{left}\" y=\"{top}\" width=\"{width}\" height=\"{height}\"/>");
        svg.extend_from_slice(shape.as_bytes());
        let label = match name {
            Some(name) => Label::of_name(name, half_width, self.unit),
            None => Label::of_number(v, half_width, self.unit),
        };
        let (x, y, size) = (decimal(x), decimal(y), decimal(label.size));
        for (row, shift) in label.rows.iter().zip(label.shifts()) {
            let head = format!("<text x=\"{x}\" y=\"{y}\" dy=\"{shift}em\" font-size=\"{size}\">");
            svg.extend_from_slice(head.as_bytes());
            push_escaped(svg, row);
            svg.extend_from_slice(b"</text>");
        }
        svg.extend_from_slice(b"</g>\n");
    }
}

/// A number of thousandths as a decimal, without zeros at its end.
fn decimal(thousandths: i64) -> String {
    let sign = if thousandths < 0 { "-" } else { "" };
    let (whole, fraction) = (thousandths.unsigned_abs() / 1_000, thousandths.unsigned_abs() % 1_000);
    let written = format!("{sign}{whole}.{fraction:03}");
    written.trim_end_matches('0').trim_end_matches('.').to_string()
}

/// A text as it stands in XML.
fn push_escaped(svg: &mut Vec<u8>, text: &[u8]) {
    for byte in text {
        match byte {
            b'&' => svg.extend_from_slice(b"&amp;"),
            b'<' => svg.extend_from_slice(b"&lt;"),
            b'>' => svg.extend_from_slice(b"&gt;"),
            _ => svg.push(*byte),
        }
    }
}

#[cfg(test)]
mod tests {
    use super::*;

    #[test]
    fn decimals() {
        let cases = [
            (0, "0"),
            (500, "0.5"),
            (-2_500, "-2.5"),
            (125, "0.125"),
            (17_000, "17"),
            (-500, "-0.5"),
            (20, "0.02"),
            (1, "0.001"),
        ];
        for (number, written) in cases {
            assert_eq!(decimal(number), written);
        }
        assert_eq!(decimal(10_000_000), "10000");
        assert_eq!(decimal(-100_010), "-100.01");
    }

    #[test]
    fn escapes() {
        let mut svg = Vec::new();
        push_escaped(&mut svg, "a & <b> \"c\" 'd' é &amp;".as_bytes());
        assert_eq!(String::from_utf8_lossy(&svg), "a &amp; &lt;b&gt; \"c\" 'd' é &amp;amp;");
    }

    fn lines(plan: &str, names: &str) -> Vec<String> {
        let svg = String::from_utf8(answer(plan.as_bytes(), names.as_bytes())).expect("UTF-8");
        svg.replace(STYLE, "").lines().map(str::to_string).collect()
    }

    /// Case 1 of document 01, with E4: positions -5, 11, -5, 8 and 1, spacing 10, the measure 2 + 2 × 3.
    #[test]
    fn a_whole_document() {
        let plan = "(plan 3 2 10)\n(level (box 3) (box 3))\n(level (via) (box 3))\n(level (box 3))\n(seg 0 2)\n(seg 1 3)\n(seg 2 4)\n(seg 3 4)\n(end)\n";
        assert_eq!(
            lines(plan, "4 a<b\n"),
            [
                "<svg xmlns=\"http://www.w3.org/2000/svg\" version=\"1.1\" class=\"drawing\" viewBox=\"-9.5 -4 22 28\">",
                "<g class=\"lines\" stroke-width=\"0.16\">",
                "<line x1=\"-2.5\" y1=\"0\" x2=\"-2.5\" y2=\"10\"/>",
                "<line x1=\"5.5\" y1=\"0\" x2=\"4\" y2=\"10\"/>",
                "<line x1=\"-2.5\" y1=\"10\" x2=\"0.5\" y2=\"20\"/>",
                "<line x1=\"4\" y1=\"10\" x2=\"0.5\" y2=\"20\"/>",
                "</g>",
                "<g class=\"bends\">",
                "<circle id=\"v2\" cx=\"-2.5\" cy=\"10\" r=\"0.28\"/>",
                "</g>",
                "<g class=\"boxes\" stroke-width=\"0.16\">",
                "<g id=\"v0\"><title>0</title><rect x=\"-5.5\" y=\"-1.6\" width=\"6\" height=\"3.2\"/>\
                 <text x=\"-2.5\" y=\"0\" dy=\".35em\" font-size=\"1.6\">0</text></g>",
                "<g id=\"v1\"><title>1</title><rect x=\"2.5\" y=\"-1.6\" width=\"6\" height=\"3.2\"/>\
                 <text x=\"5.5\" y=\"0\" dy=\".35em\" font-size=\"1.6\">1</text></g>",
                "<g id=\"v3\"><title>3</title><rect x=\"1\" y=\"8.4\" width=\"6\" height=\"3.2\"/>\
                 <text x=\"4\" y=\"10\" dy=\".35em\" font-size=\"1.6\">3</text></g>",
                "<g id=\"v4\"><title>4 a&lt;b</title><rect x=\"-2.5\" y=\"18.4\" width=\"6\" height=\"3.2\"/>\
                 <text x=\"0.5\" y=\"20\" dy=\".35em\" font-size=\"0.8\">a&lt;b</text></g>",
                "</g>",
                "</svg>",
            ]
        );
    }

    /// The measure is 1 + 2 × 3.
    #[test]
    fn heavy_lines() {
        let plan = "(plan 2 1 10)\n(level (box 3))\n(level (box 3) (box 3) (box 3))\n(seg 0 1)\n(seg 0 2 2)\n(seg 0 3 100)\n(end)\n";
        let svg = lines(plan, "");
        let pens: Vec<&str> = svg.iter().filter_map(|line| line.split_once("y2=\"10\"")).map(|(_, pen)| pen).collect();
        assert_eq!(pens, ["/>", " stroke-width=\"0.147\"/>", " stroke-width=\"0.833\"/>"]);
    }

    #[test]
    fn what_is_shown() {
        let frame = |plan: &str| lines(plan, "")[0].rsplit_once("viewBox=").map(|(_, frame)| frame.to_string());
        let one = |spacing| format!("(plan 1 3 {spacing})\n(level (box 4))\n(end)\n");
        assert_eq!(frame(&one(1)), Some("\"-4.5 -0.5 9 1\">".to_string()));
        assert_eq!(frame(&one(11)), Some("\"-9.5 -5.5 19 11\">".to_string()));
        assert_eq!(frame(&one(10_000)), Some("\"-9.5 -5.5 19 11\">".to_string()));
        let tower = format!("(plan 64 1 10000)\n{}(end)\n", "(level (box 1))\n".repeat(64));
        assert_eq!(frame(&tower), Some("\"-2.5 -1.5 5 630003\">".to_string()));
    }

    #[test]
    fn refusals() {
        let plan = "(plan 1 1 1)\n(level (box 1))\n(end)\n";
        assert_eq!(lines("", ""), ["(refused 1)"]);
        assert_eq!(lines("", "bad"), ["(refused 1)"]);
        assert_eq!(lines("(plan 1 101 1)\n(level (box 1))\n(end)\n", "bad"), ["(refused 2)"]);
        assert_eq!(lines(plan, "0 a\n0 b\n"), ["(names refused at line 2)"]);
        assert_eq!(lines(plan, &"x".repeat(65_537)), ["(names refused at line 0)"]);
        assert!(lines(plan, "0 a\n")[0].starts_with("<svg "));
    }
}
