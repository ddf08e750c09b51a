//! Ratings (E5): in the text, at the start of a lone box, in resistance and sideways length, in a sheet's record, and not in
//! class shifts.

mod common;

use common::{Limits, OwnedRun};
use reference::check::{self, Task};
use reference::generate::{generate, KINDS};
use reference::passes;
use reference::place_run::{place_run, Run, MAX_NEIGHBOURS, MAX_POSITION};
use reference::plan::{Draft, Plan, Segment, Side};
use reference::random::Random;
use reference::requests;
use reference::sheet::{Sheet, Stage};
use reference::tangled::{self, inverse, renumbered};
use reference::{half_steps, jumps, preliminary, report, script, text};

// ---------------------------------------------------------------------------------------------------------------------
// The text

/// Boxes 0 and 1 above boxes 2 and 3, with these lines of segments.
fn with_lines(lines: &str) -> String {
    format!("(plan 2 1 5)\n(level (box 1) (box 1))\n(level (box 1) (box 1))\n{lines}(end)\n")
}

fn refusal(lines: &str) -> Option<u32> {
    text::read(with_lines(lines).as_bytes()).err()
}

fn read(lines: &str) -> Plan {
    text::read(with_lines(lines).as_bytes()).expect("acceptable")
}

fn ratings(plan: &Plan) -> Vec<i64> {
    plan.segments().iter().map(Segment::rating).collect()
}

#[test]
fn a_rating_is_from_2_to_100() {
    for rating in 0..=200 {
        let expected = if (2..=100).contains(&rating) { None } else { Some(2) };
        assert_eq!(refusal(&format!("(seg 0 2 {rating})\n")), expected, "{rating}");
    }
    for rating in ["99999", "65538", "258"] {
        assert_eq!(refusal(&format!("(seg 0 2 {rating})\n")), Some(2), "{rating}");
    }
    for rating in ["", "02", "00", "100000", "000002", "-2", "+2", "2 ", " 2", "2 2", "2)", "x"] {
        assert_eq!(refusal(&format!("(seg 0 2 {rating})\n")), Some(1), "{rating:?}");
    }
}

#[test]
fn a_segment_without_a_rating_has_1() {
    let lines = "(seg 0 2)\n(seg 0 3 2)\n(seg 1 2 100)\n(seg 1 3)\n";
    let plan = read(lines);
    assert_eq!(ratings(&plan), [1, 2, 100, 1]);
    assert_eq!(text::write(&plan), with_lines(lines).into_bytes());
    assert_eq!((plan.ratings(2, Side::Above), plan.ratings(3, Side::Above)), (&[1, 100][..], &[2, 1][..]));
    assert_eq!((plan.ratings(0, Side::Below), plan.ratings(1, Side::Below)), (&[1, 2][..], &[100, 1][..]));
    assert!(plan.ratings(0, Side::Above).is_empty() && plan.ratings(3, Side::Below).is_empty());
}

/// A rating is no part of the order, neither the first part nor the last.
#[test]
fn segments_rise_by_their_ends_alone() {
    assert_eq!(refusal("(seg 0 2 9)\n(seg 0 3 2)\n(seg 1 2)\n"), None);
    for twice in ["(seg 0 2 2)\n(seg 0 2 3)\n", "(seg 0 2 3)\n(seg 0 2 2)\n", "(seg 0 2)\n(seg 0 2 2)\n"] {
        assert_eq!(refusal(twice), Some(4), "{twice}");
    }
    assert_eq!(refusal("(seg 0 3 2)\n(seg 0 2 3)\n"), Some(4));
}

#[test]
fn a_bad_rating_comes_after_1_and_before_3() {
    assert_eq!(refusal("(seg 0 2 101)\n(seg 1 2 02)\n"), Some(1));
    assert_eq!(refusal("(seg 0 1)\n(seg 0 1)\n(seg 1 2 1)\n"), Some(2));
    assert_eq!(refusal("(seg 0 1 100)\n"), Some(3));
}

/// As long as an acceptable text can be: the longest one without ratings, each of its segments rated 100.
#[test]
fn the_longest_text() {
    let unrated = include_bytes!("vectors/longest.plan");
    let mut draft = text::read_form(unrated).expect("in the form");
    draft.segments.iter_mut().for_each(|segment| segment.written = Some(100));
    let longest = text::write_form(&draft);
    assert_eq!((unrated.len(), longest.len()), (41_130, 49_322));
    assert_eq!(text::read(&longest).map(|plan| text::write(&plan) == longest), Ok(true));
}

// ---------------------------------------------------------------------------------------------------------------------
// Placing one run

/// The neighbours of a box, each with the rating of the segment to it.
type Near<'a> = &'a [(i64, i64)];

/// Places a run by the call and by half steps, which must agree; the outcome is of least length.
fn placed_between(left: Option<i64>, right: Option<i64>, old: &[i64], distances: &[i64], near: &[Near]) -> Vec<i64> {
    let owned = OwnedRun {
        left,
        right,
        old: old.to_vec(),
        distances: distances.to_vec(),
        counts: near.iter().map(|own| own.len()).collect(),
        neighbours: near.concat().iter().map(|&(n, _)| n).collect(),
        ratings: near.concat().iter().map(|&(_, rating)| rating).collect(),
    };
    let Run { counts, neighbours, ratings, .. } = owned.run();
    let mut answer = vec![0; old.len()];
    place_run(old.len(), left, right, old, distances, counts, neighbours, ratings, &mut answer).expect("acceptable");
    assert_eq!(half_steps::place(&owned.run()).0, answer);
    let task = owned.task();
    assert!(task.is_placement(&answer) && task.length(&answer) == task.least_length(), "{answer:?}");
    answer
}

/// The same without bounds, all boxes away from where they are to stand.
fn placed(distances: &[i64], near: &[Near]) -> Vec<i64> {
    placed_between(None, None, &vec![777; near.len()], distances, near)
}

fn lone(near: Near) -> i64 {
    placed(&[], &[near])[0]
}

/// The middle one by ratings, wherever the middle one by number is.
#[test]
fn a_lone_box_stands_at_the_middle_by_ratings() {
    assert_eq!(lone(&[(4, 1), (10, 2)]), 10);
    assert_eq!(lone(&[(4, 2), (10, 1)]), 4);
    assert_eq!(lone(&[(4, 100), (10, 99)]), 4);
    assert_eq!(lone(&[(0, 1), (1, 1), (2, 1), (100, 4)]), 100);
    assert_eq!(lone(&[(0, 5), (1, 1), (2, 1), (100, 1)]), 0);
    assert_eq!(lone(&[(0, 2), (10, 3), (20, 4)]), 10);
    assert_eq!(lone(&[(-7, 100)]), -7);
}

/// Twice the ratings so far reach the total at the lower middle one and do not exceed it: the upper middle one is the next.
#[test]
fn halfway_where_twice_the_ratings_reach_the_total() {
    assert_eq!(lone(&[(4, 2), (10, 2)]), 7);
    assert_eq!(lone(&[(4, 100), (10, 100)]), 7);
    assert_eq!(lone(&[(0, 1), (10, 1), (20, 2)]), 15);
    assert_eq!(lone(&[(0, 2), (10, 1), (20, 1)]), 5);
    assert_eq!(lone(&[(0, 1), (10, 2), (20, 3)]), 15);
    assert_eq!(lone(&[(0, 3), (10, 1), (20, 2)]), 5);
    assert_eq!(lone(&[(0, 50), (1, 50), (30, 100)]), 15);
    assert_eq!(lone(&[(5, 1), (5, 1), (9, 2)]), 7);
    assert_eq!(lone(&[(5, 1), (9, 1), (9, 1), (9, 3)]), 9);
    // One more or less of a rating, and it is one of the two.
    assert_eq!((lone(&[(4, 3), (10, 2)]), lone(&[(4, 2), (10, 3)])), (4, 10));
    assert_eq!((lone(&[(0, 50), (1, 51), (30, 100)]), lone(&[(0, 50), (1, 49), (30, 100)])), (1, 30));
}

#[test]
fn half_a_negative_sum() {
    assert_eq!(lone(&[(-5, 3), (2, 3)]), -2);
    assert_eq!(lone(&[(-5, 3), (2, 1), (9, 2)]), -2);
    assert_eq!(lone(&[(-9, 2), (-4, 1), (7, 1)]), -7);
    assert_eq!(lone(&[(-20, 1), (-1, 2), (0, 2), (30, 1)]), -1);
    let most = MAX_POSITION;
    assert_eq!(lone(&[(-most, 7), (most - 1, 7)]), -1);
    assert_eq!(lone(&[(most - 1, 100), (most, 100)]), most - 1);
    assert_eq!(lone(&[(-most, 100), (1 - most, 100)]), -most);
}

#[test]
fn as_many_neighbours_as_there_may_be() {
    let rated =
        |heavy: i64| (0..MAX_NEIGHBOURS as i64).map(|n| (n, if n < 1_000 { 100 } else { heavy })).collect::<Vec<_>>();
    assert_eq!(lone(&rated(100)), 1_023);
    assert_eq!(lone(&rated(1)), 505);
    assert_eq!(lone(&rated(2)), 510);
}

#[test]
fn bounds_apply_to_the_start() {
    let near: Near = &[(-5, 3), (2, 1), (9, 2)];
    let held = |left, right, distances: &[i64]| placed_between(left, right, &[777], distances, &[near]);
    assert_eq!(held(Some(-4), None, &[2]), [-2]);
    assert_eq!(held(Some(-3), None, &[2]), [-1]);
    assert_eq!(held(None, Some(0), &[2]), [-2]);
    assert_eq!(held(None, Some(-1), &[2]), [-3]);
    assert_eq!(held(Some(-9), Some(-3), &[2, 3]), [-6]);
}

#[test]
fn the_lighter_box_moves() {
    assert_eq!(placed(&[4], &[&[(0, 1)], &[(0, 3)]]), [-4, 0]);
    assert_eq!(placed(&[4], &[&[(0, 3)], &[(0, 1)]]), [0, 4]);
    assert_eq!(placed(&[4], &[&[(0, 99)], &[(0, 100)]]), [-4, 0]);
}

/// "a to the left if its resistance is strictly less, else b to the right."
#[test]
fn at_equal_rated_resistance_the_right_one_moves() {
    assert_eq!(placed(&[4], &[&[(0, 2)], &[(0, 2)]]), [0, 4]);
    assert_eq!(placed(&[4], &[&[(0, 3)], &[(0, 1), (0, 1), (0, 1)]]), [0, 4]);
    assert_eq!(placed(&[4], &[&[(0, 1), (0, 1)], &[(0, 3)]]), [-4, 0]);
}

/// Both segments of the first box lengthen, 4 against 5; by number it would be 2 against 1. The other one first gains 2 and loses 3,
/// up to 0, where it loses 5 as the second box does.
#[test]
fn resistance_sums_ratings() {
    assert_eq!(placed(&[4], &[&[(0, 2), (1, 2)], &[(0, 5)]]), [-4, 0]);
    assert_eq!(placed(&[4], &[&[(0, 2), (1, 3)], &[(1, 5)]]), [0, 4]);
}

/// The first box gains 2 and loses 3 up to -2, and loses 5 beyond; the second loses 2.
#[test]
fn a_neighbour_that_is_passed_counts_with_its_rating() {
    assert_eq!(placed(&[6], &[&[(-2, 2), (0, 3)], &[(0, 2)]]), [-2, 4]);
    assert_eq!(placed(&[6], &[&[(-2, 2), (0, 3)], &[(0, 1)]]), [0, 6]);
    assert_eq!(placed(&[6], &[&[(0, 2)], &[(0, 3), (2, 2)]]), [-4, 2]);
}

/// Case 7 with its thrice repeated neighbours as one segment of rating 3 each.
#[test]
fn case_7_with_ratings() {
    let near: [Near; 4] = [&[(0, 3)], &[(0, 1)], &[(12, 3)], &[]];
    assert_eq!(placed_between(None, None, &[0, 0, 0, 100], &[10, 10, 10], &near), [-8, 2, 12, 100]);
}

/// A segment of rating W is as W segments to the same place, for every run.
#[test]
fn a_rating_is_a_number_of_segments() {
    let random = &mut Random::new("as many segments", 1);
    for _ in 0..20_000 {
        let limits = Limits { boxes: (0, 7), neighbours: 4, position: 20, distance: 7, rating: 4 };
        let rated = OwnedRun::random(random, &limits);
        let mut many = OwnedRun { counts: vec![], neighbours: vec![], ratings: vec![], ..clone(&rated) };
        for (own, ratings) in rated.run().neighbours_of_boxes().zip(rated.run().ratings_of_boxes()) {
            let repeated = own.iter().zip(ratings).flat_map(|(&n, &rating)| vec![n; rating as usize]);
            let before = many.neighbours.len();
            many.neighbours.extend(repeated);
            many.counts.push(many.neighbours.len() - before);
        }
        many.ratings = vec![1; many.neighbours.len()];
        assert_eq!(jumps::place(&rated.run()), jumps::place(&many.run()), "{:?}", rated.run());
        assert_eq!(half_steps::place(&rated.run()), half_steps::place(&many.run()), "{:?}", rated.run());
        assert_eq!(rated.task().least_length(), many.task().least_length(), "{:?}", rated.run());
    }
}

fn clone(run: &OwnedRun) -> OwnedRun {
    OwnedRun {
        left: run.left,
        right: run.right,
        old: run.old.clone(),
        distances: run.distances.clone(),
        counts: run.counts.clone(),
        neighbours: run.neighbours.clone(),
        ratings: run.ratings.clone(),
    }
}

/// How often ratings move a box, and how often what is best with ratings is not best without, and the other way round.
#[test]
fn ratings_decide() {
    let random = &mut Random::new("ratings decide", 1);
    let (mut moved, mut dearer, mut dearer_without) = (0, 0, 0);
    for _ in 0..2_000 {
        let limits = Limits { boxes: (1, 6), neighbours: 4, position: 20, distance: 7, rating: 5 };
        let rated = OwnedRun::random(random, &limits);
        let unrated = OwnedRun { ratings: vec![1; rated.ratings.len()], ..clone(&rated) };
        let (with, without) = (jumps::place(&rated.run()).0, jumps::place(&unrated.run()).0);
        let is_dearer = |task: Task, positions: &[i64]| task.length(positions) > task.least_length();
        moved += u32::from(with != without);
        dearer += u32::from(is_dearer(rated.task(), &without));
        dearer_without += u32::from(is_dearer(unrated.task(), &with));
    }
    assert!(moved > 400 && dearer > 300 && dearer_without > 200, "{moved} {dearer} {dearer_without}");
}

/// The lines of the gate: the cases of documents 01 and 02, and what they give.
#[test]
fn the_cases_as_requests() {
    let outcomes: Vec<String> = requests::cases().iter().map(|request| request.outcome_line()).collect();
    let expected = [
        "0 7",
        "0 10",
        "0 7",
        "0 6",
        "0 -8 2 12 100",
        "0 6",
        "0 -2",
        "0 10",
        "0 4",
        "0 -2",
        "0 -2",
        "0 20",
        "0 -4 0",
        "0 0 4",
    ];
    assert_eq!(outcomes, expected);
    let first_rated = requests::cases()[7].to_string();
    assert_eq!(first_rated, "1 0 0 0 0 1 0 0 1 2 2 4 10 2 1 2 1 0");
}

// ---------------------------------------------------------------------------------------------------------------------
// Drawings

/// Case 1, its battery lead from 3 to 4 rated 5: vertex 4 stands under vertex 3, where document 02 without ratings has 1. Box 3
/// hangs on 1 and 4 as before, and 1 on 3.
#[test]
fn case_1_with_a_heavy_lead() {
    let plan = "\
(plan 3 2 10)
(level (box 3) (box 3))
(level (via) (box 3))
(level (box 3))
(seg 0 2)
(seg 1 3)
(seg 2 4)
(seg 3 4 5)
(end)
";
    let expected = "\
(drawing 5 6)
(at 0 -8 -5 0)
(at 1 8 11 0)
(at 2 -5 -5 10)
(at 3 5 8 10)
(at 4 0 8 20)
(place 1 1 (0 -8) (1 8))
(place 1 2 (3 8))
(place 1 3 (4 8))
(place 2 3 (4 8))
(place 2 2 (3 8))
(place 2 1 (0 -5) (1 11))
(end)
";
    assert_eq!(String::from_utf8_lossy(&report::answer(plan.as_bytes())), expected);
}

/// In pass 2 the ratings are those of the segments below: box 0 hangs on 1 and 2, heavier on 2.
#[test]
fn pass_2_counts_the_segments_below() {
    let drawn = |first: &str, second: &str| {
        let plan = format!(
            "(plan 2 1 5)\n(level (box 1))\n(level (box 1) (box 1))\n(seg 0 1{first})\n(seg 0 2{second})\n(end)\n"
        );
        let drawing = passes::draw(&text::read(plan.as_bytes()).expect("acceptable"));
        (drawing.position[0] - drawing.position[1], drawing.position[2] - drawing.position[0])
    };
    assert_eq!(drawn("", ""), (3, 3));
    assert_eq!(drawn("", " 2"), (6, 0));
    assert_eq!(drawn(" 100", " 99"), (0, 6));
}

/// The draft of a kind, without ratings and with.
fn drafts(kind: &str, seed: u64) -> (Draft, Draft) {
    let form = |kind: &str| text::read_form(&generate(kind, seed).expect("a kind")).expect("in the form");
    (form(kind), form(&format!("rated-{kind}")))
}

/// Kinds whose texts all pass checks 1 to 5.
const WHOLE: [&str; 9] = ["small", "medium", "wide", "deep", "vias", "max", "tangled", "crossed", "crossed-max"];

fn seeds(kind: &str) -> u64 {
    if kind.contains("max") {
        6
    } else {
        80
    }
}

#[test]
fn rated_kinds_are_the_plans_of_their_kinds_with_ratings() {
    assert!(KINDS[10..].iter().zip(&KINDS[..10]).all(|(rated, kind)| *rated == format!("rated-{kind}")));
    assert_eq!((generate("rated-rated-small", 1), generate("rated-", 1), generate("rated", 1)), (None, None, None));
    let mut rated_segments = [0; 2];
    for kind in WHOLE {
        for seed in 0..seeds(kind) {
            let (unrated, mut rated) = drafts(kind, seed);
            for segment in &mut rated.segments {
                rated_segments[usize::from(segment.written.is_some())] += 1;
                segment.written = None;
            }
            assert_eq!(unrated, rated, "{kind} {seed}");
        }
    }
    assert!(rated_segments.iter().all(|&count| count > 10_000), "{rated_segments:?}");
}

/// "Class shifts stay unrated": preliminary positions are those without ratings, and so are vias.
#[test]
fn preliminary_positions_know_no_ratings() {
    let mut moved = 0;
    for kind in ["small", "medium", "wide", "deep", "vias", "max"] {
        for seed in 0..seeds(kind) {
            let (unrated, rated) = drafts(kind, seed);
            let [unrated, rated] = [unrated, rated].map(|draft| Plan::new(draft).expect("acceptable"));
            assert_eq!(preliminary::positions(&unrated), preliminary::positions(&rated), "{kind} {seed}");
            let [without, with] = [&unrated, &rated].map(passes::draw);
            assert!((0..rated.vertices()).all(|v| !rated.is_via(v) || without.position[v] == with.position[v]));
            let steps = |drawing: &passes::Drawing| {
                drawing.placings.iter().map(|placing| (placing.pass, placing.level)).collect::<Vec<_>>()
            };
            assert_eq!(steps(&without), steps(&with), "{kind} {seed}");
            moved += u32::from(without.position != with.position);
        }
    }
    assert!(moved > 150, "{moved}");
}

/// The plan of `class_shifts_keep_their_rule`, the segment that a class shift would follow rated 100: the second smallest of the
/// four counts, as before.
#[test]
fn class_shifts_stay_unrated() {
    let plan = |rating: &str| {
        format!(
            "(plan 4 1 1)\n(level (box 1))\n(level (via) (box 1) (via) (box 1))\n(level (via) (box 5) (via))\n\
             (level (box 1))\n(seg 0 1{rating})\n(seg 0 2)\n(seg 0 3)\n(seg 0 4)\n(seg 1 5)\n(seg 3 7)\n(seg 5 8)\n\
             (seg 7 8)\n(end)\n"
        )
    };
    for rating in ["", " 2", " 100"] {
        let plan = text::read(plan(rating).as_bytes()).expect("acceptable");
        assert_eq!(preliminary::positions(&plan), [0, -22, -10, 2, 6, -22, -10, 2, -10], "{rating:?}");
    }
}

/// Where all ratings are the same, the drawing is that without ratings.
#[test]
fn equal_ratings_change_nothing() {
    for kind in ["small", "medium", "vias"] {
        for seed in 0..100 {
            let (unrated, _) = drafts(kind, seed);
            let drawing = passes::draw(&Plan::new(unrated.clone()).expect("acceptable"));
            for rating in [2, 7, 100] {
                let mut rated = unrated.clone();
                rated.segments.iter_mut().for_each(|segment| segment.written = Some(rating));
                assert_eq!(passes::draw(&Plan::new(rated).expect("acceptable")), drawing, "{kind} {seed}");
            }
        }
    }
}

/// The judge counts ratings: drawn without them a plan is mostly not of least length with them, nor the other way round.
#[test]
fn the_optimum_is_judged_with_ratings() {
    let mut found = [0; 2];
    for seed in 0..300 {
        let (unrated, rated) = drafts("medium", seed);
        let [unrated, rated] = [unrated, rated].map(|draft| Plan::new(draft).expect("acceptable"));
        let is_found = |plan: &Plan, other: &Plan| {
            check::judge(plan, &passes::draw(other)).iter().any(|failure| failure.promise == "optimal")
        };
        found[0] += u32::from(is_found(&rated, &unrated));
        found[1] += u32::from(is_found(&unrated, &rated));
    }
    assert!(found.iter().all(|&count| count > 100), "{found:?}");
}

/// How many of the first damaged texts with ratings are refused with each number, those with 0 accepted; and how many of those
/// refused with 2 and 4 are so for a rating alone.
#[test]
fn damaged_rated_texts_are_refused_in_every_way() {
    let (mut counts, mut by_rating, mut by_repeat) = ([0; 7], 0, 0);
    for seed in 0..2_000 {
        let text = generate("rated-damaged", seed).expect("a kind");
        let number = text::read(&text).err().unwrap_or(0);
        counts[number as usize] += 1;
        let Some(mut draft) = text::read_form(&text) else { continue };
        draft.segments.iter_mut().for_each(|segment| segment.written = None);
        by_rating += u32::from(number == 2 && Plan::new(draft.clone()) != Err(2));
        draft.segments.dedup();
        by_repeat += u32::from(number == 4 && Plan::new(draft).is_ok());
    }
    assert!(counts.iter().all(|&count| count >= 40), "{counts:?}");
    assert!(by_rating > 100 && by_repeat > 40, "{by_rating} {by_repeat}");
}

// ---------------------------------------------------------------------------------------------------------------------
// Renumbering

/// Two cables that cross between their vias, each segment with a rating of its own; `(seg 3 4)` has 1.
const CROSSED: &str = "\
(plan 4 1 5)
(level (box 1) (box 2))
(level (via) (via))
(level (via) (via))
(level (box 1) (box 2))
(seg 0 2 2)
(seg 1 3 3)
(seg 2 5 4)
(seg 3 4)
(seg 4 6 6)
(seg 5 7 7)
(end)
";

/// Vias 4 and 5 change places, and their segments go with their ratings: what was `(seg 4 6 6)` is `(seg 5 6 6)`, now the last.
#[test]
fn ratings_go_with_their_segments() {
    let loaded = tangled::read(CROSSED.as_bytes()).expect("a plan that may be tangled");
    let segments: Vec<_> = loaded.plan.segments().iter().map(|segment| (segment.ends(), segment.rating())).collect();
    let expected = [((0, 2), 2), ((1, 3), 3), ((2, 4), 4), ((3, 5), 1), ((4, 7), 7), ((5, 6), 6)];
    assert_eq!(segments, expected);
}

#[test]
fn renumbering_back_gives_the_ratings() {
    for kind in ["rated-crossed", "rated-tangled", "rated-crossed-max"] {
        for seed in 0..seeds(kind) {
            let draft = text::read_form(&generate(kind, seed).expect("a kind")).expect("in the form");
            let loaded = tangled::read(&text::write_form(&draft)).expect("a plan that may be tangled");
            assert_eq!(renumbered(loaded.plan.draft(), &inverse(&loaded.numbers)), draft, "{kind} {seed}");
            let mut ratings_before: Vec<i64> = draft.segments.iter().map(Segment::rating).collect();
            let mut ratings_after = ratings(&loaded.plan);
            ratings_before.sort_unstable();
            ratings_after.sort_unstable();
            assert_eq!(ratings_before, ratings_after, "{kind} {seed}");
        }
    }
}

#[test]
fn the_text_is_given_back_with_ratings() {
    let mut sheet = Sheet::empty();
    sheet.load_tangled(CROSSED.as_bytes()).expect("a plan that may be tangled");
    assert_eq!(sheet.text_lines().map(|lines| lines.concat()), Ok(CROSSED.as_bytes().to_vec()));
    assert_eq!(sheet.text_line(7, &mut [0; 12]), Ok(12));
    assert_eq!(sheet.text_line(7, &mut [0; 11]), Err(14));
    for rating in [0, 101] {
        let mut sheet = sheet.clone();
        sheet.plan.ratings[5] = rating;
        assert_eq!(sheet.text_lines(), Err(13));
    }
}

// ---------------------------------------------------------------------------------------------------------------------
// A sheet's record

fn drawn(lines: &str) -> Sheet {
    let mut sheet = Sheet::empty();
    sheet.load_tangled(with_lines(lines).as_bytes()).expect("acceptable");
    sheet.draw().expect("a plan");
    sheet
}

const LINES: &str = "(seg 0 2)\n(seg 0 3 2)\n(seg 1 2 100)\n(seg 1 3)\n";

#[test]
fn a_record_keeps_a_rating_for_each_segment() {
    let sheet = drawn(LINES);
    assert_eq!(sheet.plan.ratings[..5], [1, 2, 100, 1, 0]);
    assert!(sheet.plan.ratings[5..].iter().all(|&rating| rating == 0));
    let mut cleared = sheet.clone();
    cleared.clear();
    assert!(cleared == Sheet::empty() && cleared.plan.ratings == [0; Plan::MAX_SEGMENTS]);
    let mut shorter = sheet;
    shorter.load(with_lines("(seg 0 2 7)\n").as_bytes()).expect("acceptable");
    assert_eq!(shorter.plan.ratings[..3], [7, 0, 0]);
}

/// A rating outside 1 to 100 makes the record no text's plan; what lies beyond the segments is no part of it.
#[test]
fn a_stored_rating_outside_1_to_100_is_refused_with_13() {
    let sheet = drawn(LINES);
    let answers = |i: usize, rating: u64| {
        let mut changed = sheet.clone();
        changed.plan.ratings[i] = rating;
        let answers = [changed.lines().err(), changed.marks().err(), changed.text_lines().err()];
        let mut again = changed.clone();
        let drawn = again.draw().err();
        assert!(drawn.is_none() || again == changed);
        assert!(answers.iter().all(|answer| *answer == drawn), "{i} {rating}");
        drawn
    };
    for rating in [0, 101, 255, 257, 65_537, (1 << 32) + 1, 1 << 63, u64::MAX] {
        assert!((0..4).all(|i| answers(i, rating) == Some(13)), "{rating}");
        assert_eq!((answers(4, rating), answers(2_047, rating)), (None, None), "{rating}");
    }
    for rating in [1, 2, 99, 100] {
        assert!((0..4).all(|i| answers(i, rating).is_none()), "{rating}");
    }
}

/// 11 and 12 before 13, and 15 before it for lines of the text.
#[test]
fn ratings_are_tested_with_the_plan() {
    let bad = |stage, is_tangled| {
        let mut sheet = Sheet { stage, ..drawn(LINES) };
        sheet.plan.ratings[0] = 0;
        sheet.loading.tangled = is_tangled;
        (sheet.lines().err(), sheet.text_lines().err(), sheet.draw().err())
    };
    let loaded = Stage::Loaded { vertices: 4, segments: 4 };
    assert_eq!(bad(Stage::Empty, true), (Some(11), Some(11), Some(11)));
    assert_eq!(bad(loaded, true), (Some(12), Some(13), Some(13)));
    assert_eq!(bad(loaded, false), (Some(12), Some(15), Some(13)));
}

/// A stored rating is drawn with, and written unless it is 1.
#[test]
fn a_stored_rating_is_that_of_its_segment() {
    let mut sheet = drawn(LINES);
    sheet.plan.ratings[..4].copy_from_slice(&[9, 1, 1, 50]);
    let other = drawn("(seg 0 2 9)\n(seg 0 3)\n(seg 1 2)\n(seg 1 3 50)\n");
    assert_eq!(sheet.text_lines(), other.text_lines());
    assert_ne!(sheet.lines(), other.lines());
    sheet.draw().expect("a plan");
    assert!(sheet == other);
}

// ---------------------------------------------------------------------------------------------------------------------
// Scripts

/// Checks a script, each command with its answers, as one after the other.
fn answered(lines: &[(&str, &str)]) {
    let script: String = lines.iter().map(|(command, _)| format!("{command}\n")).collect();
    let expected: String = lines.iter().map(|(_, answer)| format!("{answer}\n")).collect();
    assert_eq!(String::from_utf8(script::answers(script.as_bytes())).expect("ASCII"), expected);
}

/// Without a rating a poke makes it 1, whatever it was.
#[test]
fn pokes_of_ratings() {
    let plan = "load 1 tangled (plan 2 1 5)\\n(level (box 1))\\n(level (box 1))\\n(seg 0 1 7)\\n(end)\\n";
    answered(&[
        (plan, "ok"),
        ("text 1 3", "ok 12 (seg 0 1 7)"),
        ("poke 1 seg 0 0 1 100", "ok"),
        ("text 1 3", "ok 14 (seg 0 1 100)"),
        ("poke 1 seg 0 0 1 101", "ok"),
        ("text 1 3", "refused 13"),
        ("draw 1", "refused 13"),
        ("poke 1 seg 0 0 1", "ok"),
        ("text 1 3", "ok 10 (seg 0 1)"),
        ("poke 1 seg 0 0 1 0", "ok"),
        ("draw 1", "refused 13"),
        ("poke 1 seg 0 0 1 18446744073709551615", "ok"),
        ("draw 1", "refused 13"),
        ("poke 1 seg 0 0 1 1", "ok"),
        ("draw 1", "ok"),
        ("text 1 3", "ok 10 (seg 0 1)"),
        ("poke 1 seg 0 0 1 2 2", "unknown"),
        ("poke 1 seg 0 0 1 -2", "unknown"),
        ("poke 1 seg 0 7 1 x", "unknown"),
        ("poke 1 seg 2048 0 1 2", "unknown"),
        ("text 1 3", "ok 10 (seg 0 1)"),
    ]);
}

/// Beyond the segments that were loaded the record has rating 0, until a poke makes it 1.
#[test]
fn a_segment_added_by_a_poke_has_rating_1() {
    let plan = "load 1 strict (plan 2 1 5)\\n(level (box 1))\\n(level (box 1))\\n(end)\\n";
    answered(&[
        (plan, "ok"),
        ("poke 1 stage loaded 2 1", "ok"),
        ("draw 1", "refused 13"),
        ("poke 1 seg 0 0 1", "ok"),
        ("draw 1", "ok"),
        ("poke 1 seg 0 0 1 0", "ok"),
        ("draw 1", "refused 13"),
    ]);
}

#[test]
fn runs_with_ratings() {
    let run = |ratings: &str| format!("placerun r=1 old=0 counts=2 nbrs=4,10 dist={ratings}");
    answered(&[
        (&run(""), "ok 7"),
        (&run(" ratings=1,1"), "ok 7"),
        (&run(" ratings=1,2"), "ok 10"),
        (&run(" ratings=100,99"), "ok 4"),
        (&run(" ratings=100,99 answer=1"), "ok 4"),
        (&run(" ratings=100,99 answer=2"), "refused 8"),
        (&run(" ratings="), "refused 8"),
        (&run(" ratings=1"), "refused 8"),
        (&run(" ratings=1,1,1"), "refused 8"),
        (&run(" ratings=0,1"), "refused 8"),
        (&run(" ratings=1,101"), "refused 8"),
        (&run(" ratings=1,4294967297"), "refused 8"),
        (&run(" ratings=1,18446744073709551615"), "refused 8"),
        (&run(" ratings=1,18446744073709551616"), "unknown"),
        (&run(" ratings=1,"), "unknown"),
        (&run(" ratings=1, 1"), "unknown"),
        (&run(" ratings"), "unknown"),
        (&run(" ratings=1,1 ratings=1,1"), "unknown"),
        ("placerun ratings=1,2 dist= nbrs=4,10 counts=2 old=0 r=1", "ok 10"),
        ("placerun r=0 old= counts= nbrs= dist= ratings=", "ok"),
        ("placerun r=0 old= counts= nbrs= dist= ratings=1", "refused 8"),
    ]);
}
