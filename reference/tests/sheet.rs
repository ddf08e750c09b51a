//! The calls on a sheet by hand: what each does, and each of its refusals, after which sheet and buffer are as before.

use reference::marks::{Mark, Point};
use reference::place_run::MAX_POSITION;
use reference::sheet::{Sheet, Stage};
use reference::stored::{StoredBox, StoredPlacing, StoredVertex, MAX_PLACINGS};

const CASE_1: &[u8] = include_bytes!("vectors/case-1.plan");
const CASE_1_REPORT: &str = include_str!("vectors/case-1.report");

/// Case 1 in steps: 5 vertices, 4 segments, 6 placings with 8 boxes in all; vertex 2 is a via.
const VERTICES: usize = 5;
const SEGMENTS: usize = 4;
const PLACINGS: usize = 6;
const LISTED: usize = 8;

fn loaded() -> Sheet {
    let mut sheet = Sheet::empty();
    sheet.load(CASE_1).expect("case 1");
    sheet
}

fn drawn() -> Sheet {
    let mut sheet = loaded();
    sheet.draw().expect("a plan");
    sheet
}

/// The refusal of a load, which leaves the sheet as it was.
fn load_refused(text: &[u8]) -> u32 {
    let refusals = [Sheet::empty(), loaded(), drawn()].map(|before| {
        let mut sheet = before.clone();
        let refusal = sheet.load(text).expect_err("refused");
        assert!(sheet == before);
        refusal
    });
    assert!(refusals[0] == refusals[1] && refusals[1] == refusals[2]);
    refusals[0]
}

/// The refusal of a draw, which leaves the sheet as it was.
fn draw_refused(before: &Sheet) -> u32 {
    let mut sheet = before.clone();
    let refusal = sheet.draw().expect_err("refused");
    assert!(sheet == *before);
    refusal
}

/// The refusal of a line, which leaves the buffer as it was.
fn line_refused(sheet: &Sheet, n: usize, room: usize) -> u32 {
    let mut buffer = vec![0xaa; room];
    let refusal = sheet.line(n, &mut buffer).expect_err("refused");
    assert_eq!(buffer, vec![0xaa; room]);
    refusal
}

/// What line and mark both answer: their refusal if there is one, no matter which number and buffer.
fn asked(sheet: &Sheet) -> Option<u32> {
    let line = sheet.line(0, &mut [0; 99]).err();
    assert_eq!(line, sheet.mark(0).err());
    if line.is_some() {
        assert_eq!(line, Some(line_refused(sheet, 0, 0)));
        assert_eq!(line, Some(line_refused(sheet, usize::MAX, 99)));
        assert_eq!(line, sheet.mark(usize::MAX).err());
    }
    line
}

#[test]
fn load_is_refused_with_1_to_6() {
    assert_eq!(load_refused(b""), 1);
    assert_eq!(load_refused(b"(plan 1 101 1)\n(level (box 1))\n(end)\n"), 2);
    assert_eq!(load_refused(b"(plan 1 1 1)\n(level (box 1))\n(seg 0 0)\n(end)\n"), 3);
    let twice = b"(plan 2 1 1)\n(level (box 1))\n(level (box 1))\n(seg 0 1)\n(seg 0 1)\n(end)\n";
    assert_eq!(load_refused(twice), 4);
    assert_eq!(load_refused(b"(plan 2 1 1)\n(level (via))\n(level (box 1))\n(seg 0 1)\n(end)\n"), 5);
    let crossed = b"(plan 4 1 1)\n(level (box 1))\n(level (via) (via))\n(level (via) (via))\n(level (box 1))\n\
        (seg 0 1)\n(seg 0 2)\n(seg 1 4)\n(seg 2 3)\n(seg 3 5)\n(seg 4 5)\n(end)\n";
    assert_eq!(load_refused(crossed), 6);
}

#[test]
fn load_replaces_whatever_was_there() {
    let mut sheet = drawn();
    sheet.load(b"(plan 1 1 7)\n(level (box 9))\n(end)\n").expect("a plan");
    let mut expected = Sheet::empty();
    expected.stage = Stage::Loaded { vertices: 1, segments: 0 };
    (expected.plan.levels, expected.plan.gap, expected.plan.spacing) = (1, 1, 7);
    expected.plan.sizes[0] = 1;
    expected.plan.vertices[0] = StoredVertex { is_via: false, half_width: 9 };
    assert!(sheet == expected);
}

#[test]
fn draw_keeps_the_plan_and_may_be_repeated() {
    let mut sheet = drawn();
    assert_eq!(sheet.stage, Stage::Drawn { vertices: 5, segments: 4, placings: 6 });
    assert!(sheet.plan == loaded().plan);
    assert_eq!(sheet.drawing.position[..VERTICES], [-5, 11, -5, 8, 1]);
    assert_eq!(sheet.drawing.placings[1], StoredPlacing { pass: 1, level: 2, boxes: 1 });
    assert_eq!(sheet.drawing.placings[PLACINGS], StoredPlacing::default());
    assert_eq!(sheet.drawing.boxes[LISTED - 1], StoredBox { vertex: 1, position: 11 });
    assert_eq!(sheet.drawing.boxes[LISTED], StoredBox::default());
    let before = sheet.clone();
    sheet.draw().expect("a plan");
    assert!(sheet == before);
}

#[test]
fn lines_are_those_of_the_report() {
    let sheet = drawn();
    for (n, line) in CASE_1_REPORT.split_inclusive('\n').enumerate() {
        let length = line.len();
        let mut buffer = vec![0xaa; length + 3];
        assert_eq!(sheet.line(n, &mut buffer), Ok(length));
        assert_eq!(buffer, [line.as_bytes(), &[0xaa; 3]].concat());
        assert_eq!(sheet.line(n, &mut vec![0; length]), Ok(length));
        assert_eq!(line_refused(&sheet, n, length - 1), 14);
        assert_eq!(line_refused(&sheet, n, 0), 14);
    }
    for n in [VERTICES + PLACINGS + 2, usize::MAX] {
        assert_eq!(line_refused(&sheet, n, 99), 7);
        assert_eq!(line_refused(&sheet, n, 0), 7);
    }
}

#[test]
fn marks_are_vertices_then_segments() {
    let sheet = drawn();
    assert_eq!(sheet.mark(1), Ok(Mark::Box(Point { x: 5.5, y: 0.0 }, 3.0)));
    assert_eq!(sheet.mark(2), Ok(Mark::Bend(Point { x: -2.5, y: 10.0 })));
    assert_eq!(sheet.mark(6), Ok(Mark::Line(Point { x: 5.5, y: 0.0 }, Point { x: 4.0, y: 10.0 })));
    assert_eq!(sheet.marks().map(|marks| marks.len()), Ok(VERTICES + SEGMENTS));
    assert_eq!(sheet.mark(VERTICES + SEGMENTS), Err(7));
    assert_eq!(sheet.mark(usize::MAX), Err(7));
}

#[test]
fn clear_empties() {
    for mut sheet in [Sheet::empty(), loaded(), drawn()] {
        sheet.clear();
        assert!(sheet == Sheet::empty());
    }
}

#[test]
fn an_empty_sheet_is_refused_with_11() {
    // What the record holds beside its stage does not matter.
    let emptied = Sheet { stage: Stage::Empty, ..drawn() };
    for sheet in [Sheet::empty(), emptied] {
        assert_eq!(draw_refused(&sheet), 11);
        assert_eq!(asked(&sheet), Some(11));
    }
}

#[test]
fn a_sheet_not_drawn_is_refused_with_12_before_13() {
    let mut sheet = Sheet { stage: loaded().stage, ..drawn() };
    assert_eq!(asked(&sheet), Some(12));
    sheet.plan.gap = 0;
    assert_eq!(asked(&sheet), Some(12));
    assert_eq!(draw_refused(&sheet), 13);
}

/// Whether a loaded sheet is drawn after a change to its plan. If it is not, it is refused with 13, and so is the changed
/// sheet if it was drawn.
fn drawn_after(change: impl Fn(&mut Sheet)) -> bool {
    let mut sheet = loaded();
    change(&mut sheet);
    let mut changed = drawn();
    change(&mut changed);
    if let Stage::Loaded { vertices, segments } = changed.stage {
        changed.stage = Stage::Drawn { vertices, segments, placings: 0 };
    }
    if sheet.clone().draw().is_ok() {
        return true;
    }
    assert_eq!((draw_refused(&sheet), asked(&changed)), (13, Some(13)));
    false
}

#[test]
fn numbers_outside_their_limits_are_refused_with_13() {
    for (gap, fits) in [(1, true), (100, true), (0, false), (101, false), (100_000, false), (u64::MAX, false)] {
        assert_eq!(drawn_after(|sheet| sheet.plan.gap = gap), fits);
    }
    for (spacing, fits) in [(1, true), (10_000, true), (0, false), (10_001, false), (1 << 63, false)] {
        assert_eq!(drawn_after(|sheet| sheet.plan.spacing = spacing), fits);
    }
    for (half_width, fits) in [(1, true), (200, true), (0, false), (201, false), (1 << 32, false), (u64::MAX, false)] {
        assert_eq!(drawn_after(|sheet| sheet.plan.vertices[0].half_width = half_width), fits);
    }
    for levels in [0, 1, 2, 4, 64, 65, 1 << 32, u64::MAX] {
        assert!(!drawn_after(|sheet| sheet.plan.levels = levels));
    }
}

#[test]
fn counts_that_are_not_the_plans_are_refused_with_13() {
    for vertices in [0, 4, 6, 1_024, 1_025, u64::MAX] {
        assert!(!drawn_after(|sheet| sheet.stage = Stage::Loaded { vertices, segments: 4 }));
    }
    for segments in [0, 2, 5, 2_048, 2_049, u64::MAX] {
        assert!(!drawn_after(|sheet| sheet.stage = Stage::Loaded { vertices: 5, segments }));
    }
    // Without the last segment, which joins boxes, it is a plan.
    assert!(drawn_after(|sheet| sheet.stage = Stage::Loaded { vertices: 5, segments: 3 }));
}

#[test]
fn sizes_that_are_not_the_levels_are_refused_with_13() {
    for sizes in [[2, 2, 0], [2, 2, 2], [2, 3, 1], [0, 4, 1], [u64::MAX, 5, 1], [u64::MAX, 2, 1], [1, 2, 2], [5, 0, 0]]
    {
        assert!(!drawn_after(|sheet| sheet.plan.sizes[..3].copy_from_slice(&sizes)));
    }
}

#[test]
fn a_via_with_a_half_width_is_refused_with_13() {
    for half_width in [1, 50, 200, u64::MAX] {
        assert!(!drawn_after(|sheet| sheet.plan.vertices[2].half_width = half_width));
    }
}

#[test]
fn segments_that_checks_3_to_6_refuse_are_refused_with_13() {
    assert!(drawn_after(|sheet| sheet.plan.segments[1] = (1, 3)));
    for wrong in [(0, 2), (1, 0), (1, 4), (1, 5), (3, 1), (100_000, 3), (1, u64::MAX), (u64::MAX, 3)] {
        assert!(!drawn_after(|sheet| sheet.plan.segments[1] = wrong), "{wrong:?}");
    }
    assert!(!drawn_after(|sheet| sheet.plan.segments.swap(0, 1)));
    assert!(!drawn_after(|sheet| sheet.plan.segments[0] = (0, 3)));
    // A box becomes a via: box 3 has one segment up and one down, box 1 none up.
    let via = StoredVertex { is_via: true, half_width: 0 };
    assert!(drawn_after(|sheet| sheet.plan.vertices[3] = via));
    assert!(!drawn_after(|sheet| sheet.plan.vertices[1] = via));
}

#[test]
fn what_lies_beyond_the_counts_does_not_matter() {
    assert!(drawn_after(|sheet| {
        sheet.plan.sizes[3] = u64::MAX;
        sheet.plan.vertices[VERTICES] = StoredVertex { is_via: true, half_width: u64::MAX };
        sheet.plan.segments[SEGMENTS] = (u64::MAX, 0);
    }));
    assert_eq!(
        asked_after(|sheet| {
            sheet.drawing.preliminary[VERTICES] = i64::MIN;
            sheet.drawing.position[VERTICES] = i64::MAX;
            sheet.drawing.placings[PLACINGS] = StoredPlacing { pass: 9, level: 9, boxes: u64::MAX };
            sheet.drawing.boxes[LISTED] = StoredBox { vertex: u64::MAX, position: i64::MAX };
        }),
        None
    );
}

/// What line and mark answer on a drawn sheet after a change to its drawing; draw minds no drawing.
fn asked_after(change: impl Fn(&mut Sheet)) -> Option<u32> {
    let mut sheet = drawn();
    change(&mut sheet);
    let answer = asked(&sheet);
    sheet.draw().expect("a plan");
    assert_eq!(asked(&sheet), None);
    answer
}

#[test]
fn positions_outside_their_limits_are_refused_with_13() {
    let most = MAX_POSITION;
    let positions = [most, -most, most + 1, -most - 1, i64::MAX, i64::MIN];
    for (i, far) in positions.into_iter().enumerate() {
        let answer = (i >= 2).then_some(13);
        assert_eq!(asked_after(|sheet| sheet.drawing.preliminary[4] = far), answer);
        assert_eq!(asked_after(|sheet| sheet.drawing.position[2] = far), answer);
        assert_eq!(asked_after(|sheet| sheet.drawing.boxes[LISTED - 1].position = far), answer);
    }
}

#[test]
fn passes_other_than_1_to_3_are_refused_with_13() {
    for pass in [1, 2, 3] {
        assert_eq!(asked_after(|sheet| sheet.drawing.placings[5].pass = pass), None);
    }
    for pass in [0, 4, 1 << 32, (1 << 32) + 1, u64::MAX] {
        assert_eq!(asked_after(|sheet| sheet.drawing.placings[5].pass = pass), Some(13));
    }
}

#[test]
fn placings_of_no_run_are_refused_with_13() {
    // Placing 1 is that of box 3, the run right of the via on level 2.
    for level in [0, 1, 3, 4, 64, 65, 1 << 32, u64::MAX] {
        assert_eq!(asked_after(|sheet| sheet.drawing.placings[1].level = level), Some(13));
    }
    for vertex in [0, 1, 2, 4, 5, 1_024, u64::MAX] {
        assert_eq!(asked_after(|sheet| sheet.drawing.boxes[2].vertex = vertex), Some(13));
    }
    // Placing 0 is that of boxes 0 and 1.
    assert_eq!(asked_after(|sheet| sheet.drawing.boxes.swap(0, 1)), Some(13));
    assert_eq!(asked_after(|sheet| sheet.drawing.placings[0].boxes = 1), Some(13));
    assert_eq!(asked_after(|sheet| sheet.drawing.placings[0].boxes = 0), Some(13));
    // The run left of the via on level 2 is empty.
    let empty = StoredPlacing { pass: 1, level: 2, boxes: 0 };
    assert_eq!(asked_after(|sheet| sheet.drawing.placings[5] = empty), Some(13));
    // The same runs in another order are runs all the same.
    assert_eq!(asked_after(|sheet| sheet.drawing.placings.swap(2, 3)), None);
}

fn with_placings(placings: u64) -> impl Fn(&mut Sheet) {
    move |sheet| sheet.stage = Stage::Drawn { vertices: 5, segments: 4, placings }
}

#[test]
fn a_list_of_another_length() {
    for placings in [0, 1, 5] {
        assert_eq!(asked_after(with_placings(placings)), None);
    }
    for placings in [7, 2_048, 2_049, u64::MAX] {
        assert_eq!(asked_after(with_placings(placings)), Some(13));
    }
    let mut sheet = drawn();
    with_placings(1)(&mut sheet);
    let lines: Vec<u8> = sheet.lines().expect("a drawing").concat();
    assert!(lines.starts_with(b"(drawing 5 1)\n") && lines.ends_with(b"20)\n(place 1 1 (0 -8) (1 8))\n(end)\n"));
}

#[test]
fn more_than_2048_placings_or_boxes_are_refused_with_13() {
    let full = |sheet: &mut Sheet| {
        with_placings(MAX_PLACINGS as u64)(sheet);
        sheet.drawing.placings.fill(StoredPlacing { pass: 3, level: 3, boxes: 1 });
        sheet.drawing.boxes.fill(StoredBox { vertex: 4, position: 0 });
    };
    assert_eq!(asked_after(full), None);
    assert_eq!(
        asked_after(|sheet| {
            full(sheet);
            with_placings(MAX_PLACINGS as u64 + 1)(sheet);
        }),
        Some(13)
    );
    for boxes in [2, 2_048, 2_049, u64::MAX] {
        assert_eq!(
            asked_after(|sheet| {
                full(sheet);
                sheet.drawing.placings[MAX_PLACINGS - 1].boxes = boxes;
            }),
            Some(13)
        );
    }
}
