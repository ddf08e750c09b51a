//! Plans that arrive tangled (E1): which vias change places, what a sheet remembers of it, and its lines in the numbers of
//! the text; and the text given back (E2).

use std::fs;
use std::path::Path;

use reference::edges::edges;
use reference::generate::{generate, KINDS};
use reference::passes::{self, Drawing};
use reference::plan::{Draft, Plan, Segment};
use reference::sheet::{Sheet, Stage};
use reference::tangled::{self, inverse, renumbered, Loaded};
use reference::{check, marks, report, text};

/// The text of a plan with these levels and segments.
fn plan_text(levels: &[&str], segments: &[(usize, usize)]) -> Vec<u8> {
    let mut text = format!("(plan {} 1 5)\n", levels.len());
    levels.iter().for_each(|level| text += &format!("(level {level})\n"));
    segments.iter().for_each(|(upper, lower)| text += &format!("(seg {upper} {lower})\n"));
    (text + "(end)\n").into_bytes()
}

const BOXES: &str = "(box 1) (box 2)";
const VIAS: &str = "(via) (via)";

/// Two cables that cross between their vias: vertices 0 and 1, 2 and 3, 4 and 5, 6 and 7.
fn crossed() -> Vec<u8> {
    plan_text(&[BOXES, VIAS, VIAS, BOXES], &[(0, 2), (1, 3), (2, 5), (3, 4), (4, 6), (5, 7)])
}

/// Checks the order in which the vertices of a text come to stand, and their segments in the new numbers.
fn rearranged(text: &[u8], numbers: &[usize], segments: &[(usize, usize)]) {
    let loaded = tangled::read(text).expect("a plan that may be tangled");
    assert_eq!(loaded.numbers, numbers);
    assert!(loaded.plan.segments().iter().map(Segment::ends).eq(segments.iter().copied()));
}

// ---------------------------------------------------------------------------------------------------------------------
// By hand

#[test]
fn one_crossing() {
    rearranged(&crossed(), &[0, 1, 2, 3, 5, 4, 6, 7], &[(0, 2), (1, 3), (2, 4), (3, 5), (4, 7), (5, 6)]);
}

/// The vias 7 and 6 follow 5 and 4, which have changed places; in the text's order above they would stay, and cross.
#[test]
fn a_crossing_goes_down_through_three_levels() {
    let text =
        plan_text(&[BOXES, VIAS, VIAS, VIAS, BOXES], &[(0, 2), (1, 3), (2, 5), (3, 4), (4, 6), (5, 7), (6, 8), (7, 9)]);
    let straight = [(0, 2), (1, 3), (2, 4), (3, 5), (4, 6), (5, 7), (6, 9), (7, 8)];
    rearranged(&text, &[0, 1, 2, 3, 5, 4, 7, 6, 8, 9], &straight);
}

/// The second crossing of two cables takes back the first.
#[test]
fn cables_that_cross_twice_change_places_once() {
    let text =
        plan_text(&[BOXES, VIAS, VIAS, VIAS, BOXES], &[(0, 2), (1, 3), (2, 5), (3, 4), (4, 7), (5, 6), (6, 8), (7, 9)]);
    let straight = [(0, 2), (1, 3), (2, 4), (3, 5), (4, 6), (5, 7), (6, 8), (7, 9)];
    rearranged(&text, &[0, 1, 2, 3, 5, 4, 6, 7, 8, 9], &straight);
}

/// Boxes 4 and 6 stand between vias 5, 7 and 8, whose upper ends are 3, 1 and 2.
#[test]
fn boxes_between_vias_keep_their_places() {
    let text = plan_text(
        &["(box 1)", "(via) (via) (via)", "(box 2) (via) (box 3) (via) (via)", "(box 4)"],
        &[(0, 1), (0, 2), (0, 3), (1, 7), (2, 8), (3, 5), (5, 9), (7, 9), (8, 9)],
    );
    let straight = [(0, 1), (0, 2), (0, 3), (1, 5), (2, 7), (3, 8), (5, 9), (7, 9), (8, 9)];
    rearranged(&text, &[0, 1, 2, 3, 4, 7, 6, 8, 5, 9], &straight);
    let plan = tangled::read(&text).expect("a plan").plan;
    let half_widths: Vec<i64> = plan.draft().vertices.iter().map(|vertex| vertex.half_width).collect();
    assert_eq!(half_widths, [1, 0, 0, 0, 2, 0, 3, 0, 0, 4]);
}

/// Via 5 hangs on box 2, between the vias 4 and 6, which change places.
#[test]
fn a_via_whose_upper_end_is_a_box_keeps_its_place() {
    let text = plan_text(
        &["(box 1)", "(via) (box 1) (via)", "(via) (via) (via)", "(box 1)"],
        &[(0, 1), (0, 3), (1, 6), (2, 5), (3, 4), (4, 7), (5, 7), (6, 7)],
    );
    let straight = [(0, 1), (0, 3), (1, 4), (2, 5), (3, 6), (4, 7), (5, 7), (6, 7)];
    rearranged(&text, &[0, 1, 2, 3, 6, 5, 4, 7], &straight);
}

/// Cables may cross above their first via and below their last.
#[test]
fn crossings_at_boxes_stay() {
    let segments = [(0, 3), (1, 2), (2, 4), (3, 5), (4, 7), (5, 6)];
    rearranged(&plan_text(&[BOXES, VIAS, VIAS, BOXES], &segments), &[0, 1, 2, 3, 4, 5, 6, 7], &segments);
}

/// Box 6 stands under via 4, which is right of via 5; box 7 makes room for it, as at equal resistance the right one does.
#[test]
fn the_report_of_one_crossing() {
    let expected = "\
(drawing 8 4)
(at 0 -4 -1 0)
(at 1 4 7 0)
(at 2 -1 -1 5)
(at 3 1 1 5)
(at 4 1 1 10)
(at 5 -1 -1 10)
(at 6 -4 1 15)
(at 7 4 9 15)
(place 1 1 (0 -4) (1 4))
(place 1 4 (6 1) (7 9))
(place 2 4 (6 1) (7 9))
(place 2 1 (0 -1) (1 7))
(end)
";
    let printed = String::from_utf8(report::answer_tangled(&crossed())).expect("ASCII");
    assert_eq!(printed, expected);
}

#[test]
fn renumbering_by_an_order_and_back() {
    let draft = text::read_form(&crossed()).expect("in the form");
    let order = [1, 0, 3, 2, 4, 5, 7, 6];
    let other = renumbered(&draft, &order);
    assert_eq!(other.segments, [(0, 2), (1, 3), (2, 4), (3, 5), (4, 7), (5, 6)].map(Segment::new));
    assert_eq!((other.vertices[0], other.vertices[1]), (draft.vertices[1], draft.vertices[0]));
    assert_eq!(renumbered(&other, &inverse(&order)), draft);
    assert_eq!(inverse(&[2, 0, 1]), [1, 2, 0]);
}

// ---------------------------------------------------------------------------------------------------------------------
// Which texts are taken

/// The outcome of both ways: the second refuses as the first does, but for 6.
fn read_both_ways(name: &str, text: &[u8]) -> Option<Loaded> {
    let loaded = tangled::read(text);
    match text::read(text) {
        Ok(plan) => assert_eq!(loaded, Ok(Loaded::in_own_numbers(plan)), "{name}"),
        Err(6) => assert!(loaded.as_ref().is_ok_and(|loaded| !loaded.numbers.is_sorted()), "{name}"),
        Err(number) => assert_eq!(loaded, Err(number), "{name}"),
    }
    loaded.ok()
}

#[test]
fn texts_at_the_edges_are_refused_alike_but_for_6() {
    for edge in edges() {
        let loaded = read_both_ways(&edge.name, &edge.text);
        assert_eq!(loaded.is_some(), [0, 6].contains(&edge.refusal), "{}", edge.name);
    }
}

#[test]
fn the_vectors_are_refused_alike_but_for_6() {
    let folder = Path::new(env!("CARGO_MANIFEST_DIR")).join("tests/vectors");
    let files = fs::read_dir(folder).expect("the vectors").map(|entry| entry.expect("a file").path());
    let mut plans = 0;
    for file in files.filter(|file| file.extension().is_some_and(|extension| extension == "plan")) {
        let text = fs::read(&file).expect("a plan");
        let is_drawn_alike =
            || report::answer_tangled(&text) == fs::read(file.with_extension("report")).expect("a report");
        read_both_ways(&file.to_string_lossy(), &text);
        assert!(text::read(&text) == Err(6) || is_drawn_alike(), "{}", file.display());
        plans += 1;
    }
    assert_eq!(plans, 181);
}

// ---------------------------------------------------------------------------------------------------------------------
// Random plans

/// The loaded plans among the first texts of a kind, with what the texts say.
fn plans(kind: &'static str, seeds: u64) -> impl Iterator<Item = (String, Draft, Loaded)> {
    (0..seeds).filter_map(move |seed| {
        let name = format!("{kind} {seed}");
        let text = generate(kind, seed).expect("a kind");
        let loaded = read_both_ways(&name, &text)?;
        Some((name, text::read_form(&text)?, loaded))
    })
}

/// How many texts of each kind are tried.
const TIMES: [(&str, u64); 9] = [
    ("crossed", 2_000),
    ("crossed-max", 60),
    ("tangled", 1_000),
    ("damaged", 1_000),
    ("vias", 300),
    ("small", 500),
    ("rated-crossed", 1_000),
    ("rated-crossed-max", 20),
    ("rated-damaged", 500),
];

fn each_plan(judge: impl Fn(&str, &Draft, &Loaded)) {
    for (kind, times) in TIMES {
        plans(kind, times).for_each(|(name, draft, loaded)| judge(&name, &draft, &loaded));
    }
}

#[test]
fn every_kind_is_refused_alike_but_for_6() {
    for kind in KINDS {
        let seeds = if kind.contains("max") { 10 } else { 200 };
        assert!(plans(kind, seeds).count() > 0, "{kind}");
    }
}

#[test]
fn crossed_plans_pass_checks_1_to_5_and_mostly_cross() {
    for (kind, times, most_uncrossed) in [("crossed", 2_000, 300), ("crossed-max", 60, 0)] {
        assert_eq!(plans(kind, times).count() as u64, times, "{kind}");
        let uncrossed = plans(kind, times).filter(|(_, _, loaded)| loaded.numbers.is_sorted()).count();
        assert!(uncrossed <= most_uncrossed, "{kind} {uncrossed}");
    }
}

#[test]
fn crossed_plans_reach_the_greatest_sizes() {
    let (mut most_levels, mut most_moved, mut most_vias, mut most_segments) = (0, 0, 0, 0);
    for (_, draft, Loaded { plan, numbers }) in plans("crossed-max", 60) {
        assert_eq!(plan.vertices(), Plan::MAX_VERTICES);
        most_segments = most_segments.max(plan.segments().len());
        most_levels = most_levels.max(plan.levels());
        most_moved = most_moved.max(numbers.iter().enumerate().filter(|(v, number)| v != *number).count());
        let vias_of = |level: usize| plan.level(level).filter(|&v| draft.vertices[v].is_via).count();
        most_vias = (0..plan.levels()).map(vias_of).fold(most_vias, usize::max);
    }
    assert_eq!((most_segments, most_levels, most_vias), (Plan::MAX_SEGMENTS, Plan::MAX_LEVELS, Plan::MAX_ON_LEVEL));
    assert!(most_moved > 700, "{most_moved}");
}

/// The rearranged plan passes check 6 too: its text loads by the first way.
#[test]
fn rearranged_plans_load_by_the_first_way() {
    each_plan(|name, _, Loaded { plan, .. }| {
        assert_eq!(text::read(&text::write(plan)).as_ref(), Ok(plan), "{name}");
    });
}

/// The rearranged plan written in the remembered numbers is the input.
#[test]
fn renumbering_back_gives_the_plan() {
    each_plan(|name, draft, Loaded { plan, numbers }| {
        assert_eq!(renumbered(plan.draft(), &inverse(numbers)), *draft, "{name}");
    });
}

/// "All other vertices keep their places", and those that move stay on their level.
#[test]
fn only_vias_whose_upper_end_is_a_via_move() {
    each_plan(|name, draft, Loaded { plan, numbers }| {
        let is_via = |v: usize| draft.vertices[v].is_via;
        let hangs_on_via = |v: usize| draft.segments.iter().any(|s| s.lower == v && is_via(s.upper));
        for (v, &number) in numbers.iter().enumerate().filter(|(v, number)| v != *number) {
            assert!(is_via(v) && hangs_on_via(v) && is_via(number) && hangs_on_via(number), "{name}");
            assert!(plan.level(plan.level_of(v)).contains(&number), "{name}");
        }
    });
}

/// The report's own words, source document 004, 2.1: where inner segments (v1, v2) and (w1, w2) cross, v2 and w2 exchange
/// places; repeated, "traversing the graph downwards level by level".
#[test]
fn exchanges_one_by_one_give_the_same_order() {
    each_plan(|name, draft, loaded| assert_eq!(order_by_exchanges(draft, &loaded.plan), loaded.numbers, "{name}"));
}

fn order_by_exchanges(draft: &Draft, plan: &Plan) -> Vec<usize> {
    let mut place: Vec<usize> = (0..draft.vertices.len()).collect();
    let is_via = |v: usize| draft.vertices[v].is_via;
    for level in 1..draft.sizes.len() {
        let between =
            |&(upper, lower): &(usize, usize)| plan.level_of(lower) == level && is_via(upper) && is_via(lower);
        let inner: Vec<(usize, usize)> = draft.segments.iter().map(Segment::ends).filter(between).collect();
        while exchange_crossed(&inner, &mut place) {}
    }
    inverse(&place)
}

/// Exchanges the lower ends of crossed segments; whether there were any.
fn exchange_crossed(inner: &[(usize, usize)], place: &mut [usize]) -> bool {
    let mut any = false;
    for (i, &(v1, v2)) in inner.iter().enumerate() {
        for &(w1, w2) in &inner[i + 1..] {
            if (place[v1] < place[w1]) != (place[v2] < place[w2]) {
                place.swap(v2, w2);
                any = true;
            }
        }
    }
    any
}

/// "Drawing, optimum and list are judged on the rearranged plan."
#[test]
fn drawings_of_rearranged_plans_keep_demand_3() {
    each_plan(|name, _, Loaded { plan, .. }| {
        assert_eq!(check::judge(plan, &passes::draw(plan)), [], "{name}");
    });
}

/// The report of the rearranged plan with all numbers replaced and at-lines sorted is that of the text.
#[test]
fn reports_are_in_the_numbers_of_the_text() {
    each_plan(|name, draft, loaded| {
        let drawing = passes::draw(&loaded.plan);
        let printed = report::answer_tangled(&text::write_form(draft));
        assert_eq!(String::from_utf8(printed).expect("ASCII"), renamed_report(loaded, &drawing), "{name}");
    });
}

fn renamed_report(Loaded { plan, numbers }: &Loaded, drawing: &Drawing) -> String {
    let mut at: Vec<(usize, String)> = Vec::new();
    for (v, &number) in numbers.iter().enumerate() {
        let height = plan.draft().spacing * plan.level_of(v) as i64;
        at.push((number, format!("(at {number} {} {} {height})\n", drawing.preliminary[v], drawing.position[v])));
    }
    at.sort();
    let place = |placing: &passes::Placing| {
        let boxes = drawing.boxes(placing).iter();
        let boxes: String = boxes.map(|&(v, position)| format!(" ({} {position})", numbers[v])).collect();
        format!("(place {} {}{boxes})\n", placing.pass, placing.level)
    };
    let at: String = at.into_iter().map(|(_, line)| line).collect();
    let places: String = drawing.placings.iter().map(place).collect();
    format!("(drawing {} {})\n{at}{places}(end)\n", plan.vertices(), drawing.placings.len())
}

// ---------------------------------------------------------------------------------------------------------------------
// Sheets

fn loaded(text: &[u8]) -> Sheet {
    let mut sheet = Sheet::empty();
    sheet.load_tangled(text).expect("a plan that may be tangled");
    sheet
}

fn drawn(text: &[u8]) -> Sheet {
    let mut sheet = loaded(text);
    sheet.draw().expect("a plan");
    sheet
}

#[test]
fn a_sheet_remembers_its_way_and_the_numbers() {
    let sheet = loaded(&crossed());
    assert_eq!(sheet.stage, Stage::Loaded { vertices: 8, segments: 6 });
    assert!(sheet.loading.tangled);
    assert_eq!(sheet.loading.numbers[..9], [0, 1, 2, 3, 5, 4, 6, 7, 0]);
    assert_eq!(sheet.plan.segments[..7], [(0, 2), (1, 3), (2, 4), (3, 5), (4, 7), (5, 6), (0, 0)]);
    let mut again = drawn(&crossed());
    assert!(again.loading == sheet.loading && again.plan == sheet.plan);
    again.draw().expect("a plan");
    assert!(again == drawn(&crossed()));
}

/// "A plan without crossings gives the same sheet either way, apart from what it remembers of its loading", the way.
#[test]
fn a_plan_without_crossings_gives_the_same_sheet() {
    for seed in 0..200 {
        let text = generate("vias", seed).expect("a kind");
        let mut first = Sheet::empty();
        first.load(&text).expect("an acceptable plan");
        let mut second = loaded(&text);
        assert!(second.loading.tangled && !first.loading.tangled);
        let own: Vec<u64> = (0..vertices(&first)).collect();
        assert_eq!(first.loading.numbers[..own.len()], own);
        first.draw().expect("a plan");
        second.draw().expect("a plan");
        second.loading.tangled = false;
        assert!(first == second, "{seed}");
    }
}

fn vertices(sheet: &Sheet) -> u64 {
    match sheet.stage {
        Stage::Empty => 0,
        Stage::Loaded { vertices, .. } | Stage::Drawn { vertices, .. } => vertices,
    }
}

#[test]
fn clear_and_the_next_load_forget() {
    let mut sheet = drawn(&crossed());
    sheet.clear();
    assert!(sheet == Sheet::empty());
    let small = b"(plan 1 1 7)\n(level (box 9) (box 8))\n(end)\n";
    let mut first = Sheet::empty();
    first.load(small).expect("a plan");
    let mut sheet = drawn(&crossed());
    sheet.load(small).expect("a plan");
    assert!(sheet == first);
    assert_eq!((sheet.loading.tangled, &sheet.loading.numbers[..3]), (false, &[0, 1, 0][..]));
    sheet.load_tangled(&crossed()).expect("a plan that may be tangled");
    assert!(sheet == loaded(&crossed()));
}

#[test]
fn a_refused_load_changes_nothing() {
    let refused = [
        (1, b"".to_vec()),
        (2, b"(plan 1 101 1)\n(level (box 1))\n(end)\n".to_vec()),
        (3, plan_text(&[BOXES], &[(0, 0)])),
        (4, plan_text(&[BOXES, BOXES], &[(0, 2), (0, 2)])),
        (5, plan_text(&[VIAS, BOXES], &[(0, 2), (1, 3)])),
    ];
    for (number, text) in refused {
        for before in [Sheet::empty(), loaded(&crossed()), drawn(&crossed())] {
            let mut sheet = before.clone();
            assert_eq!(sheet.load_tangled(&text), Err(number));
            assert!(sheet == before);
        }
    }
    let before = drawn(&crossed());
    let mut sheet = before.clone();
    assert_eq!(sheet.load(&crossed()), Err(6));
    assert!(sheet == before);
}

/// Lines go by the remembered numbers, whichever way the plan was loaded; marks by the sheet's own.
#[test]
fn lines_are_in_remembered_numbers_and_marks_in_the_sheets_own() {
    for text in (0..100).map(|seed| generate("crossed", seed).expect("a kind")) {
        let sheet = drawn(&text);
        assert_eq!(sheet.lines().map(|lines| lines.concat()), Ok(report::answer_tangled(&text)));
        let plan = tangled::read(&text).expect("a plan").plan;
        assert_eq!(sheet.marks(), Ok(marks::marks(&plan, &passes::draw(&plan))));
    }
    let mut sheet = Sheet::empty();
    sheet.load(b"(plan 1 1 5)\n(level (box 1) (box 2))\n(end)\n").expect("a plan");
    sheet.draw().expect("a plan");
    let marks = sheet.marks();
    sheet.loading.numbers.swap(0, 1);
    let expected =
        "(drawing 2 2)\n(at 0 4 4 0)\n(at 1 -4 -4 0)\n(place 1 1 (1 -4) (0 4))\n(place 2 1 (1 -4) (0 4))\n(end)\n";
    assert_eq!(sheet.lines().map(|lines| lines.concat()), Ok(expected.as_bytes().to_vec()));
    assert_eq!(sheet.line(1, &mut [0; 13]), Ok(13));
    assert_eq!(sheet.marks(), marks);
}

/// What all calls that test 13 answer on a drawn sheet; draw on the same sheet not drawn.
fn asked(sheet: &Sheet) -> Option<u32> {
    let answer = sheet.lines().err();
    assert_eq!(sheet.marks().err(), answer);
    for n in [0, usize::MAX] {
        let line = sheet.line(n, &mut [0; 99]).err();
        assert_eq!(line, if answer.is_none() && n > 0 { Some(7) } else { answer });
        assert_eq!(sheet.mark(n).err(), line);
    }
    assert_eq!(sheet.line(0, &mut []).err(), answer.or(Some(14)));
    let mut again = sheet.clone();
    assert_eq!(again.draw().err(), answer);
    assert!(again == *sheet);
    answer
}

#[test]
fn numbers_that_are_not_each_levels_own_once_each_are_refused_with_13() {
    let sheet = drawn(&crossed());
    assert_eq!(asked(&sheet), None);
    let after = |changes: &[(usize, u64)]| {
        let mut sheet = sheet.clone();
        changes.iter().for_each(|&(v, number)| sheet.loading.numbers[v] = number);
        asked(&sheet)
    };
    // Those of a level, in any order.
    for changes in [[(0, 1), (1, 0)], [(4, 4), (5, 5)], [(6, 7), (7, 6)]] {
        assert_eq!(after(&changes), None);
    }
    // One of a level twice, all of each level's own.
    for changes in [[(0, 0), (1, 0)], [(4, 4), (5, 4)], [(6, 7), (7, 7)]] {
        assert_eq!(after(&changes), Some(13));
    }
    // Each once, but not each level's own.
    assert_eq!(after(&[(1, 2), (2, 1)]), Some(13));
    assert_eq!(after(&[(0, 2), (1, 3), (2, 0), (3, 1)]), Some(13));
    // No vertex at all.
    for number in [8, 1_023, 1_024, 1 << 32, (1 << 32) + 7, u64::MAX] {
        assert_eq!(after(&[(7, number)]), Some(13));
    }
    // What lies beyond the vertices is not remembered.
    assert_eq!(after(&[(8, u64::MAX), (1_023, 3)]), None);
}

#[test]
fn numbers_are_tested_after_11_and_12() {
    let bad = |stage| {
        let mut sheet = Sheet { stage, ..drawn(&crossed()) };
        sheet.loading.numbers[0] = 1;
        sheet
    };
    let not_drawn = bad(Stage::Loaded { vertices: 8, segments: 6 });
    assert_eq!((not_drawn.lines().err(), not_drawn.marks().err()), (Some(12), Some(12)));
    assert_eq!(not_drawn.clone().draw(), Err(13));
    let empty = bad(Stage::Empty);
    assert_eq!((empty.lines().err(), empty.marks().err(), empty.clone().draw()), (Some(11), Some(11), Err(11)));
}

/// The numbers are judged by the levels that the sheet has now.
#[test]
fn numbers_after_sizes_have_changed() {
    let boxes = b"(plan 2 1 5)\n(level (box 1) (box 1) (box 1))\n(level (box 1))\n(end)\n";
    let mut sheet = drawn(boxes);
    sheet.loading.numbers.swap(1, 2);
    sheet.stage = Stage::Drawn { vertices: 4, segments: 0, placings: 0 };
    assert!(sheet.lines().is_ok());
    sheet.plan.sizes[..2].copy_from_slice(&[2, 2]);
    assert_eq!(sheet.lines().err(), Some(13));
    sheet.plan.sizes[..2].copy_from_slice(&[1, 3]);
    assert!(sheet.lines().is_ok());
}

// ---------------------------------------------------------------------------------------------------------------------
// The text as it was read (E2)

/// All lines of the text, by one call a line in a buffer that just holds the line.
fn given_back(sheet: &Sheet) -> Vec<u8> {
    let lines = sheet.text_lines().expect("a sheet loaded by the second way");
    for (n, line) in lines.iter().enumerate() {
        let mut buffer = vec![b'?'; line.len() + 3];
        assert_eq!(sheet.text_line(n, &mut buffer), Ok(line.len()));
        assert_eq!((&buffer[..line.len()], &buffer[line.len()..]), (&line[..], &b"???"[..]));
        assert_eq!(sheet.text_line(n, &mut buffer[..line.len() - 1]), Err(14));
        assert!(line.ends_with(b"\n") && !line[..line.len() - 1].contains(&b'\n'));
    }
    assert_eq!(sheet.text_line(lines.len(), &mut []), Err(7));
    lines.concat()
}

/// "Loading by E1 and then asking for all lines gives the input again, for every accepted plan", drawn or not.
#[test]
fn the_text_is_given_back() {
    for kind in KINDS {
        for seed in 0..if kind.ends_with("max") { 2 } else { 30 } {
            let text = generate(kind, seed).expect("a kind");
            let mut sheet = Sheet::empty();
            if sheet.load_tangled(&text).is_ok() {
                assert!(given_back(&sheet) == text, "{kind} {seed}");
                sheet.draw().expect("a plan");
                assert!(given_back(&sheet) == text, "{kind} {seed}");
            }
        }
    }
}

/// "Of a sheet handed in, the text is its plan written in its remembered numbers."
#[test]
fn the_text_of_a_sheet_handed_in() {
    let mut sheet = Sheet::empty();
    sheet
        .load(
            b"(plan 2 1 5)\n(level (box 1) (box 2))\n(level (box 3) (box 4))\n(seg 0 2)\n(seg 0 3)\n(seg 1 3)\n(end)\n",
        )
        .expect("a plan");
    sheet.loading.tangled = true;
    sheet.loading.numbers[..4].copy_from_slice(&[1, 0, 3, 2]);
    let text =
        b"(plan 2 1 5)\n(level (box 2) (box 1))\n(level (box 4) (box 3))\n(seg 0 2)\n(seg 1 2)\n(seg 1 3)\n(end)\n";
    assert_eq!(given_back(&sheet), text);
}

/// 11, then 15, then 13, then 7, then 14.
#[test]
fn the_text_is_refused_in_order() {
    let answer = |sheet: &Sheet, n| sheet.text_line(n, &mut []).expect_err("a buffer of no length");
    let after = |change: fn(&mut Sheet)| {
        let mut sheet = drawn(&crossed());
        change(&mut sheet);
        (answer(&sheet, 0), answer(&sheet, 99))
    };
    assert_eq!(after(|_| {}), (14, 7));
    assert_eq!(after(|sheet| sheet.clear()), (11, 11));
    assert_eq!(after(|sheet| sheet.stage = Stage::Empty), (11, 11));
    assert_eq!(after(|sheet| sheet.loading.tangled = false), (15, 15));
    assert_eq!(after(|sheet| sheet.plan.levels = 0), (13, 13));
    assert_eq!(after(|sheet| sheet.loading.numbers[0] = 1), (13, 13));
    assert_eq!(after(|sheet| sheet.drawing.position[0] = i64::MAX), (14, 7));
    assert_eq!(
        after(|sheet| {
            sheet.loading.tangled = false;
            sheet.plan.levels = 0;
        }),
        (15, 15)
    );
    assert_eq!(
        after(|sheet| {
            sheet.loading.tangled = false;
            sheet.stage = Stage::Empty;
        }),
        (11, 11)
    );
    let mut first = Sheet::empty();
    first.load(&generate("small", 0).expect("a kind")).expect("an acceptable plan");
    assert_eq!(answer(&first, 0), 15);
}
