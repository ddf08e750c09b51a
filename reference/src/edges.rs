//! Plan texts at the edges of checks 1 to 6, each with the outcome that document 01 gives it, or document 02 where it has ratings.

use crate::plan::Plan;
use crate::refusal::{CROSSING, ENDS, FORM, LIMIT, RISING, VIA};
use crate::text::MAX_BYTES;
use crate::Refusal;

/// A text, what it is about, and the number of its refusal, 0 if it is accepted.
pub struct Edge {
    /// What it is about.
    pub name: String,
    /// The text.
    pub text: Vec<u8>,
    /// The number of its refusal, 0 if it is accepted.
    pub refusal: Refusal,
}

const ACCEPTED: Refusal = 0;

/// One level, one box.
const ONE: &str = "(plan 1 1 1)\n(level (box 1))\n(end)\n";

/// Two levels of two boxes.
const BOXES: [&str; 2] = ["(box 1) (box 1)", "(box 1) (box 1)"];

/// Two long cables side by side.
const CABLES: [&str; 4] = ["(box 1) (box 1)", "(via) (via)", "(via) (via)", "(box 1) (box 1)"];

/// All edges. A name says what is tried, and for a pair of checks which fails earlier in the text.
pub fn edges() -> Vec<Edge> {
    let mut edges = Vec::new();
    form(&mut edges);
    numbers(&mut edges);
    bytes(&mut edges);
    lengths(&mut edges);
    limits(&mut edges);
    ends(&mut edges);
    rising(&mut edges);
    vias(&mut edges);
    crossings(&mut edges);
    order(&mut edges);
    ratings(&mut edges);
    edges
}

fn add(edges: &mut Vec<Edge>, refusal: Refusal, name: &str, text: impl Into<Vec<u8>>) {
    edges.push(Edge { name: name.to_string(), text: text.into(), refusal });
}

/// A text with these vertices on its levels and these segments; gap and spacing are 1.
fn text(levels: &[&str], segments: &[(usize, usize)]) -> String {
    with_gap(1, levels, segments)
}

fn with_gap(gap: usize, levels: &[&str], segments: &[(usize, usize)]) -> String {
    let rows: String = levels.iter().map(|row| format!("(level {row})\n")).collect();
    format!("(plan {} {gap} 1)\n{rows}{}(end)\n", levels.len(), lines(segments))
}

fn lines(segments: &[(usize, usize)]) -> String {
    segments.iter().map(|(upper, lower)| format!("(seg {upper} {lower})\n")).collect()
}

fn boxes(count: usize) -> String {
    vec!["(box 1)"; count].join(" ")
}

// ---------------------------------------------------------------------------------------------------------------------
// 1: the form

fn form(edges: &mut Vec<Edge>) {
    add(edges, ACCEPTED, "one box", ONE);
    add(edges, ACCEPTED, "two levels", text(&BOXES, &[(0, 2), (1, 3)]));
    let other_lines = [
        ("only a line end", "\n"),
        ("CR before every LF", "(plan 1 1 1)\r\n(level (box 1))\r\n(end)\r\n"),
        ("CR for LF", "(plan 1 1 1)\r(level (box 1))\r(end)\r"),
        ("a blank line", "(plan 1 1 1)\n\n(level (box 1))\n(end)\n"),
        ("a comment", "; a plan\n(plan 1 1 1)\n(level (box 1))\n(end)\n"),
        ("all on one line", "(plan 1 1 1) (level (box 1)) (end)\n"),
        ("no end", "(plan 1 1 1)\n(level (box 1))\n"),
        ("no plan", "(level (box 1))\n(end)\n"),
        ("the plan twice", "(plan 1 1 1)\n(plan 1 1 1)\n(level (box 1))\n(end)\n"),
        ("a level after a segment", "(plan 2 1 1)\n(level (box 1))\n(seg 0 1)\n(level (box 1))\n(end)\n"),
        ("a segment before the levels", "(plan 2 1 1)\n(seg 0 1)\n(level (box 1))\n(level (box 1))\n(end)\n"),
        ("a word in capitals", "(PLAN 1 1 1)\n(level (box 1))\n(end)\n"),
        ("an unknown vertex", "(plan 1 1 1)\n(level (bus 1))\n(end)\n"),
        ("an unknown line", "(plan 1 1 1)\n(level (box 1))\n(note)\n(end)\n"),
        ("a plan of two numbers", "(plan 1 1)\n(level (box 1))\n(end)\n"),
        ("a plan of four numbers", "(plan 1 1 1 1)\n(level (box 1))\n(end)\n"),
        ("a box without a half-width", "(plan 1 1 1)\n(level (box))\n(end)\n"),
        ("a via with a half-width", "(plan 1 1 1)\n(level (via 0))\n(end)\n"),
        ("a segment of one end", "(plan 1 1 1)\n(level (box 1))\n(seg 0)\n(end)\n"),
        ("a level without a vertex", "(plan 1 1 1)\n(level)\n(end)\n"),
        ("a level without a vertex, with a space", "(plan 1 1 1)\n(level )\n(end)\n"),
        ("a level without a vertex after one with", "(plan 2 1 1)\n(level (box 1))\n(level)\n(end)\n"),
    ];
    for (name, text) in other_lines {
        add(edges, FORM, name, text);
    }
    for after in ["\n", " ", "\0", "(end)\n", "(seg 0 1)\n", "(plan 1 1 1)\n", "x"] {
        add(edges, FORM, &format!("after the end {after:?}"), format!("{ONE}{after}"));
    }
    spaces(edges);
}

/// Each space of a text with boxes, a via and segments doubled, left out or a tab; and spaces where none stand.
fn spaces(edges: &mut Vec<Edge>) {
    let whole = text(&["(box 3)", "(via)", "(box 3)"], &[(0, 1), (1, 2)]);
    add(edges, ACCEPTED, "a via between boxes", whole.as_str());
    for (at, _) in whole.match_indices(' ') {
        for other in ["  ", "", "\t"] {
            let changed = format!("{}{other}{}", &whole[..at], &whole[at + 1..]);
            add(edges, FORM, &format!("{other:?} for the space at {at}"), changed);
        }
    }
    for (at, _) in whole.match_indices([')', '(', '\n']) {
        if !whole[..at].ends_with(' ') {
            add(edges, FORM, &format!("a space more at {at}"), format!("{} {}", &whole[..at], &whole[at..]));
        }
    }
}

/// Every number of a text in every wrong form, and 0 and 99,999, which the form allows.
fn numbers(edges: &mut Vec<Edge>) {
    let places = [
        ("K", "(plan ", " 1 1)\n(level (box 1))\n(level (box 1))\n(seg 0 1)\n(end)\n", LIMIT),
        ("G", "(plan 2 ", " 1)\n(level (box 1))\n(level (box 1))\n(seg 0 1)\n(end)\n", LIMIT),
        ("S", "(plan 2 1 ", ")\n(level (box 1))\n(level (box 1))\n(seg 0 1)\n(end)\n", LIMIT),
        ("a half-width", "(plan 2 1 1)\n(level (box 1))\n(level (box ", "))\n(seg 0 1)\n(end)\n", LIMIT),
        ("A", "(plan 2 1 1)\n(level (box 1))\n(level (box 1))\n(seg ", " 1)\n(end)\n", ENDS),
        ("B", "(plan 2 1 1)\n(level (box 1))\n(level (box 1))\n(seg 0 ", ")\n(end)\n", ENDS),
    ];
    for (name, before, after, outside) in places {
        for number in [
            "",
            "00",
            "01",
            "00001",
            "000000",
            "100000",
            "000001",
            "1000000000000000000000",
            "-1",
            "+1",
            "1.0",
            "0x1",
            "a",
        ] {
            add(edges, FORM, &format!("{name} is {number:?}"), format!("{before}{number}{after}"));
        }
        add(edges, outside, &format!("{name} is 99999"), format!("{before}99999{after}"));
    }
    for (name, before, after, outside) in places {
        if name != "A" {
            add(edges, outside, &format!("{name} is 0"), format!("{before}0{after}"));
        }
    }
}

/// Every part of a text from its start, and every byte of it above 127 or 0.
fn bytes(edges: &mut Vec<Edge>) {
    let whole = text(&["(box 1)", "(box 20)"], &[(0, 1)]);
    for end in 0..whole.len() {
        add(edges, FORM, &format!("the first {end} bytes"), &whole[..end]);
    }
    for at in 0..whole.len() {
        let mut changed = whole.clone().into_bytes();
        changed[at] = if at % 5 == 0 { 0 } else { changed[at] | 0x80 };
        add(edges, FORM, &format!("byte {at} is {}", changed[at]), changed);
    }
    add(edges, FORM, "a byte order mark", format!("\u{feff}{ONE}"));
    add(edges, FORM, "a no-break space", ONE.replace(' ', "\u{a0}"));
    add(edges, FORM, "other digits", ONE.replace('1', "\u{0661}"));
}

/// Texts as long as a text may be, and longer by a byte.
fn lengths(edges: &mut Vec<Edge>) {
    add(edges, LIMIT, "65,536 bytes in the form", of_length(MAX_BYTES));
    add(edges, FORM, "65,537 bytes in the form", of_length(MAX_BYTES + 1));
}

/// A text in the form of that many bytes: lines of ten bytes, and some of eleven.
fn of_length(length: usize) -> String {
    let head = "(plan 2 1 1)\n(level (box 1))\n(level (box 1))\n";
    let room = length - head.len() - "(end)\n".len();
    let longer = room % 10;
    let segments = [vec![(0, 10); longer], vec![(0, 1); room / 10 - longer]].concat();
    format!("{head}{}(end)\n", lines(&segments))
}

// ---------------------------------------------------------------------------------------------------------------------
// 2: the limits

fn limits(edges: &mut Vec<Edge>) {
    let plan = |k: usize, g: usize, s: usize, half: usize| {
        format!("(plan {k} {g} {s})\n{}(end)\n", format!("(level (box {half}))\n").repeat(k))
    };
    let at_and_past = [
        ("64 levels", plan(Plan::MAX_LEVELS, 1, 1, 1), ACCEPTED),
        ("65 levels", plan(Plan::MAX_LEVELS + 1, 1, 1, 1), LIMIT),
        ("gap 100", plan(1, 100, 1, 1), ACCEPTED),
        ("gap 101", plan(1, 101, 1, 1), LIMIT),
        ("spacing 10,000", plan(1, 1, 10_000, 1), ACCEPTED),
        ("spacing 10,001", plan(1, 1, 10_001, 1), LIMIT),
        ("half-width 200", plan(2, 1, 1, 200), ACCEPTED),
        ("half-width 201", plan(2, 1, 1, 201), LIMIT),
        ("all numbers greatest", plan(64, 100, 10_000, 200), ACCEPTED),
        ("64 on a level", text(&[&boxes(64)], &[]), ACCEPTED),
        ("65 on a level", text(&[&boxes(65)], &[]), LIMIT),
        ("65 on the second level", text(&["(box 1)", &boxes(65)], &[]), LIMIT),
        ("1,024 vertices", text(&[boxes(64).as_str(); 16], &[]), ACCEPTED),
        ("1,025 vertices", text(&[vec![boxes(64).as_str(); 16], vec!["(box 1)"]].concat(), &[]), LIMIT),
        ("2,048 segments", many_segments(Plan::MAX_SEGMENTS), ACCEPTED),
        ("2,049 segments", many_segments(Plan::MAX_SEGMENTS + 1), LIMIT),
        ("a level line too many", format!("(plan 1 1 1)\n{}(end)\n", "(level (box 1))\n".repeat(2)), LIMIT),
        ("a level line too few", "(plan 2 1 1)\n(level (box 1))\n(end)\n".to_string(), LIMIT),
        ("no level line for one", "(plan 1 1 1)\n(end)\n".to_string(), LIMIT),
        ("no level line for none", "(plan 0 1 1)\n(end)\n".to_string(), LIMIT),
        ("no level line, a segment", "(plan 1 1 1)\n(seg 0 1)\n(end)\n".to_string(), LIMIT),
        ("65 level lines for 64", plan(65, 1, 1, 1).replace("(plan 65", "(plan 64"), LIMIT),
        ("300 level lines", format!("(plan 64 1 1)\n{}(end)\n", "(level (via))\n".repeat(300)), LIMIT),
        ("1,500 boxes on a level", text(&[&boxes(1_500)], &[]), LIMIT),
    ];
    for (name, text, refusal) in at_and_past {
        add(edges, refusal, name, text);
    }
}

/// Segments in order from the boxes of a full level to those of another.
fn many_segments(count: usize) -> String {
    text(&[&boxes(64), &boxes(64)], &first_pairs(count))
}

fn first_pairs(count: usize) -> Vec<(usize, usize)> {
    (0..count).map(|i| (i / 64, 64 + i % 64)).collect()
}

// ---------------------------------------------------------------------------------------------------------------------
// 3 to 6: the segments

/// What is tried, the segments, and the number of the refusal.
type Case = (&'static str, &'static [(usize, usize)], Refusal);

fn ends(edges: &mut Vec<Edge>) {
    let levels = ["(box 1) (box 1)", "(box 1)", "(box 1) (box 1)"];
    let segments = [
        ((0, 2), ACCEPTED),
        ((2, 4), ACCEPTED),
        ((0, 1), ENDS),
        ((0, 3), ENDS),
        ((0, 0), ENDS),
        ((2, 0), ENDS),
        ((2, 2), ENDS),
        ((3, 4), ENDS),
        ((4, 5), ENDS),
        ((2, 5), ENDS),
        ((5, 6), ENDS),
        ((5, 2), ENDS),
        ((99_999, 2), ENDS),
        ((0, 99_999), ENDS),
        ((99_999, 99_999), ENDS),
        ((0, 65_538), ENDS),
        ((65_536, 2), ENDS),
    ];
    for (segment, refusal) in segments {
        add(edges, refusal, &format!("from {} to {}", segment.0, segment.1), text(&levels, &[segment]));
    }
    let full = boxes(64);
    add(edges, ACCEPTED, "to the last of 1,024", text(&[full.as_str(); 16], &[(959, 1023)]));
    add(edges, ENDS, "past the last of 1,024", text(&[full.as_str(); 16], &[(959, 1024)]));
    add(edges, ENDS, "one level, a segment", text(&["(box 1) (box 1)"], &[(0, 1)]));
}

fn rising(edges: &mut Vec<Edge>) {
    let orders: [Case; 8] = [
        ("all four in order", &[(0, 2), (0, 3), (1, 2), (1, 3)], ACCEPTED),
        ("B falls where A rises", &[(0, 3), (1, 2)], ACCEPTED),
        ("a segment twice", &[(0, 2), (0, 2)], RISING),
        ("the last twice", &[(0, 2), (1, 3), (1, 3)], RISING),
        ("B falls", &[(0, 3), (0, 2)], RISING),
        ("A falls", &[(1, 2), (0, 2)], RISING),
        ("A falls and B rises", &[(1, 2), (0, 3)], RISING),
        ("the same again after another", &[(0, 2), (1, 2), (0, 2)], RISING),
    ];
    for (name, segments, refusal) in orders {
        add(edges, refusal, name, text(&BOXES, segments));
    }
}

fn vias(edges: &mut Vec<Edge>) {
    let through = ["(box 1) (box 1)", "(via)", "(box 1) (box 1)"];
    let segments: [Case; 7] = [
        ("a via with one up and one down", &[(0, 2), (2, 3)], ACCEPTED),
        ("a via with none", &[], VIA),
        ("a via with one up", &[(0, 2)], VIA),
        ("a via with one down", &[(2, 3)], VIA),
        ("a via with two up", &[(0, 2), (1, 2), (2, 3)], VIA),
        ("a via with two down", &[(0, 2), (2, 3), (2, 4)], VIA),
        ("a via with two up and two down", &[(0, 2), (1, 2), (2, 3), (2, 4)], VIA),
    ];
    for (name, segments, refusal) in segments {
        add(edges, refusal, name, text(&through, segments));
    }
    add(edges, VIA, "case 8: a via on the top level", text(&["(via)", "(box 1)"], &[(0, 1)]));
    add(edges, VIA, "a via at the right of the top level", text(&["(box 1) (via)", "(box 1)"], &[(0, 2), (1, 2)]));
    add(edges, VIA, "a via on the bottom level", text(&["(box 1)", "(via)"], &[(0, 1)]));
    add(edges, VIA, "a via alone", text(&["(via)"], &[]));
    add(edges, VIA, "the last via alone", text(&["(box 1)", "(via) (via)", "(box 1)"], &[(0, 1), (1, 3)]));
}

/// The segments of the two long cables: at the top, between the vias, at the bottom.
fn cables(top: [usize; 2], middle: [usize; 2], bottom: [usize; 2]) -> [(usize, usize); 6] {
    [(0, top[0]), (1, top[1]), (2, middle[0]), (3, middle[1]), (4, bottom[0]), (5, bottom[1])]
}

fn crossings(edges: &mut Vec<Edge>) {
    add(edges, ACCEPTED, "two cables side by side", text(&CABLES, &cables([2, 3], [4, 5], [6, 7])));
    add(edges, CROSSING, "a crossing between vias", text(&CABLES, &cables([2, 3], [5, 4], [6, 7])));
    add(edges, ACCEPTED, "a crossing above the vias", text(&CABLES, &cables([3, 2], [4, 5], [6, 7])));
    add(edges, ACCEPTED, "a crossing below the vias", text(&CABLES, &cables([2, 3], [4, 5], [7, 6])));
    add(edges, CROSSING, "a crossing everywhere", text(&CABLES, &cables([3, 2], [5, 4], [7, 6])));
    let mixed = ["(box 1) (box 1)", "(via) (box 1)", "(box 1) (via)", "(box 1) (box 1)"];
    let over = [(0, 2), (1, 3), (2, 5), (3, 4), (5, 7)];
    add(
        edges,
        ACCEPTED,
        "a via's segment over a box's",
        text(&["(box 1) (box 1)", "(via) (box 1)", "(box 1) (box 1)"], &over[..4]),
    );
    add(edges, ACCEPTED, "inner segment over a box's", text(&mixed, &over));
    let three = ["(box 1)", "(via) (via) (via)", "(via) (via) (via)", "(box 1)"];
    for (lowers, refusal) in [
        ([4, 5, 6], ACCEPTED),
        ([4, 6, 5], CROSSING),
        ([5, 4, 6], CROSSING),
        ([5, 6, 4], CROSSING),
        ([6, 4, 5], CROSSING),
        ([6, 5, 4], CROSSING),
    ] {
        let segments = [(0, 1), (0, 2), (0, 3), (1, lowers[0]), (2, lowers[1]), (3, lowers[2]), (4, 7), (5, 7), (6, 7)];
        add(edges, refusal, &format!("three inner segments to {lowers:?}"), text(&three, &segments));
    }
    let apart = ["(box 1)", "(via) (box 1) (via)", "(via) (box 1) (via)", "(box 1)"];
    let crossed = [(0, 1), (0, 3), (1, 6), (2, 5), (3, 4), (4, 7), (6, 7)];
    add(edges, CROSSING, "a crossing with a box's segment between", text(&apart, &crossed));
}

// ---------------------------------------------------------------------------------------------------------------------
// The order of the checks

/// For each two checks a text that fails both; the later check fails nearer to the text's start wherever it can.
fn order(edges: &mut Vec<Edge>) {
    let crossed = cables([2, 3], [5, 4], [6, 7]);
    let loose = &cables([2, 3], [4, 5], [6, 7])[1..];
    let twice = [crossed.as_slice(), &[(5, 7)]].concat();
    let no_end = [crossed.as_slice(), &[(5, 8)]].concat();
    let cut = |text: String| text[..text.len() - 1].to_string();
    add(edges, FORM, "1 after 2", cut(with_gap(101, &BOXES, &[])));
    add(edges, FORM, "1 after 3", cut(text(&BOXES, &[(0, 1)])));
    add(edges, FORM, "1 after 4", cut(text(&BOXES, &[(0, 2), (0, 2)])));
    add(edges, FORM, "1 after 5", cut(text(&CABLES, loose)));
    add(edges, FORM, "1 after 6", cut(text(&CABLES, &crossed)));
    add(edges, FORM, "1 in the last number after 2 in the first", "(plan 0 1 1)\n(level (box 1))\n(seg 0 01)\n(end)\n");
    add(edges, LIMIT, "2 after 3", many_segments(Plan::MAX_SEGMENTS + 1).replacen("(seg 0 64)", "(seg 0 63)", 1));
    add(edges, LIMIT, "2 before 4", with_gap(101, &BOXES, &[(0, 2), (0, 2)]));
    add(edges, LIMIT, "2 before 5", with_gap(0, &CABLES, loose));
    add(edges, LIMIT, "2 before 6", with_gap(101, &CABLES, &crossed));
    add(edges, ENDS, "3 after 4", text(&BOXES, &[(0, 2), (0, 2), (1, 4)]));
    add(edges, ENDS, "3 in the last line after 4 in the first", text(&BOXES, &[(1, 2), (0, 2), (3, 1)]));
    add(edges, ENDS, "3 after 5", text(&CABLES, &[loose, &[(7, 8)]].concat()));
    add(edges, ENDS, "3 after 6", text(&CABLES, &no_end));
    add(edges, RISING, "4 after 5", text(&CABLES, &[loose, &[(5, 7)]].concat()));
    add(edges, RISING, "4 after 6", text(&CABLES, &twice));
    add(edges, VIA, "5 after 6", text(&CABLES, &crossed[..5]));
    add(edges, RISING, "case 9", text(&["(box 1)", "(box 1)"], &[(0, 1), (0, 1)]));
}

// ---------------------------------------------------------------------------------------------------------------------
// Ratings (E5)

/// Two levels of two boxes with these lines of segments.
fn with_lines(lines: &str) -> String {
    text(&BOXES, &[]).replace("(end)", &format!("{lines}(end)"))
}

/// A text with these segments, all of that rating.
fn all_rated(levels: &[&str], segments: &[(usize, usize)], rating: usize) -> String {
    let lines: String = segments.iter().map(|(upper, lower)| format!("(seg {upper} {lower} {rating})\n")).collect();
    text(levels, &[]).replace("(end)", &format!("{lines}(end)"))
}

/// A rating within its limits, outside of them, and in every wrong form.
fn ratings(edges: &mut Vec<Edge>) {
    let written = [
        ("2", ACCEPTED),
        ("3", ACCEPTED),
        ("10", ACCEPTED),
        ("99", ACCEPTED),
        ("100", ACCEPTED),
        ("0", LIMIT),
        ("1", LIMIT),
        ("101", LIMIT),
        ("258", LIMIT),
        ("65538", LIMIT),
        ("99999", LIMIT),
        ("", FORM),
        ("02", FORM),
        ("00", FORM),
        ("000002", FORM),
        ("100000", FORM),
        ("4294967298", FORM),
        ("-2", FORM),
        ("+2", FORM),
        ("2.0", FORM),
        ("x", FORM),
        ("2 ", FORM),
        (" 2", FORM),
        ("2 2", FORM),
        ("2)", FORM),
        ("(2)", FORM),
        ("\t2", FORM),
    ];
    for (rating, refusal) in written {
        add(edges, refusal, &format!("a rating of {rating:?}"), with_lines(&format!("(seg 0 2 {rating})\n")));
    }
    add(edges, FORM, "a rating without a space", with_lines("(seg 0 2(2))\n"));
    add(edges, FORM, "a rating after the bracket", with_lines("(seg 0 2) 2\n"));
    add(edges, FORM, "a rating of a box", text(&["(box 1 2)"], &[]));
    add(edges, FORM, "a rating of the plan", ONE.replace("(plan 1 1 1)", "(plan 1 1 1 2)"));
    rated_segments(edges);
    rated_checks(edges);
}

/// Ratings on some segments of several, and on as many as a plan may have.
fn rated_segments(edges: &mut Vec<Edge>) {
    let lines = [
        ("all rated", "(seg 0 2 2)\n(seg 0 3 3)\n(seg 1 2 4)\n(seg 1 3 5)\n", ACCEPTED),
        ("ratings fall", "(seg 0 2 100)\n(seg 0 3 50)\n(seg 1 2 2)\n", ACCEPTED),
        ("some rated", "(seg 0 2)\n(seg 0 3 100)\n(seg 1 2)\n", ACCEPTED),
        ("the last rated 1", "(seg 0 2)\n(seg 0 3 2)\n(seg 1 2 1)\n", LIMIT),
        ("the first rated 101", "(seg 0 2 101)\n(seg 0 3 2)\n(seg 1 2)\n", LIMIT),
    ];
    for (name, lines, refusal) in lines {
        add(edges, refusal, name, with_lines(lines));
    }
    let (cable, segments) = (["(box 3)", "(via)", "(via)", "(box 3)"], [(0, 1), (1, 2), (2, 3)]);
    add(edges, ACCEPTED, "a rated inner segment", text(&cable, &segments).replace("(seg 1 2)", "(seg 1 2 9)"));
    add(edges, ACCEPTED, "a rated cable", all_rated(&cable, &segments, 100));
    let levels = [boxes(64), boxes(64)];
    for (count, rating, refusal) in
        [(Plan::MAX_SEGMENTS, 100, ACCEPTED), (Plan::MAX_SEGMENTS, 1, LIMIT), (Plan::MAX_SEGMENTS + 1, 2, LIMIT)]
    {
        let rated = all_rated(&[&levels[0], &levels[1]], &first_pairs(count), rating);
        add(edges, refusal, &format!("{count} segments rated {rating}"), rated);
    }
}

/// Check 4 asks for A and B alone; a bad rating, check 2, comes after 1 and before 3 to 6.
fn rated_checks(edges: &mut Vec<Edge>) {
    let lines = [
        ("a segment twice, ratings rise", "(seg 0 2 2)\n(seg 0 2 3)\n", RISING),
        ("a segment twice, ratings fall", "(seg 0 2 3)\n(seg 0 2 2)\n", RISING),
        ("a segment twice, the second rated", "(seg 0 2)\n(seg 0 2 2)\n", RISING),
        ("a segment twice, the first rated", "(seg 0 2 2)\n(seg 0 2)\n", RISING),
        ("B falls, ratings rise", "(seg 0 3 2)\n(seg 0 2 3)\n", RISING),
        ("a bad rating before a wrong form", "(seg 0 2 1)\n(seg 0 3 02)\n", FORM),
        ("a bad rating after a wrong end", "(seg 0 1 2)\n(seg 1 2 1)\n", LIMIT),
        ("a bad rating at a wrong end", "(seg 0 1 101)\n", LIMIT),
        ("a rating at a wrong end", "(seg 0 1 100)\n", ENDS),
        ("a bad rating after a segment twice", "(seg 0 2)\n(seg 0 2)\n(seg 1 2 0)\n", LIMIT),
    ];
    for (name, lines, refusal) in lines {
        add(edges, refusal, name, with_lines(lines));
    }
    let rated = |text: String, rating: &str| text.replace("(seg 0 2)", &format!("(seg 0 2 {rating})"));
    let (straight, crossed) = (cables([2, 3], [4, 5], [6, 7]), cables([2, 3], [5, 4], [6, 7]));
    for (rating, names, refusals) in [
        ("7", ["a rating and a loose via", "a rating and a crossing"], [VIA, CROSSING]),
        ("1", ["a bad rating and a loose via", "a bad rating and a crossing"], [LIMIT, LIMIT]),
    ] {
        add(edges, refusals[0], names[0], rated(text(&CABLES, &straight[..5]), rating));
        add(edges, refusals[1], names[1], rated(text(&CABLES, &crossed), rating));
    }
}
