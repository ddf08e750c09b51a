//! The cases and edges of document 01, cases 1 and 3 as document 02 has them with E4, more of E4, and the text's form. In cases
//! 3 to 7 all ratings are 1; other ratings are in `ratings.rs`.

use reference::place_run::{place_run, Run, MAX_POSITION};
use reference::{half_steps, preliminary, report, text};

fn answer(text: &str) -> String {
    String::from_utf8(report::answer(text.as_bytes())).expect("a report is ASCII")
}

fn refusal(text: &str) -> Option<u32> {
    text::read(text.as_bytes()).err()
}

const CASE_1: &str = "\
(plan 3 2 10)
(level (box 3) (box 3))
(level (via) (box 3))
(level (box 3))
(seg 0 2)
(seg 1 3)
(seg 2 4)
(seg 3 4)
(end)
";

#[test]
fn case_1() {
    let expected = "\
(drawing 5 6)
(at 0 -8 -5 0)
(at 1 8 11 0)
(at 2 -5 -5 10)
(at 3 5 8 10)
(at 4 0 1 20)
(place 1 1 (0 -8) (1 8))
(place 1 2 (3 8))
(place 1 3 (4 1))
(place 2 3 (4 1))
(place 2 2 (3 8))
(place 2 1 (0 -5) (1 11))
(end)
";
    assert_eq!(answer(CASE_1), expected);
}

#[test]
fn case_2() {
    let expected = "(drawing 1 2)\n(at 0 0 0 0)\n(place 1 1 (0 0))\n(place 2 1 (0 0))\n(end)\n";
    assert_eq!(answer("(plan 1 1 1)\n(level (box 1))\n(end)\n"), expected);
}

/// Places a run by the call and by half steps; they must agree.
fn placed_between(
    left: Option<i64>,
    right: Option<i64>,
    old: &[i64],
    distances: &[i64],
    neighbours: &[&[i64]],
) -> Vec<i64> {
    let counts: Vec<usize> = neighbours.iter().map(|own| own.len()).collect();
    let flat = neighbours.concat();
    let ratings = vec![1; flat.len()];
    let mut answer = vec![0; old.len()];
    place_run(old.len(), left, right, old, distances, &counts, &flat, &ratings, &mut answer).expect("acceptable");
    let run = Run { left, right, old, distances, counts: &counts, neighbours: &flat, ratings: &ratings };
    assert_eq!(half_steps::place(&run).0, answer);
    answer
}

/// The same without a right bound.
fn placed(left: Option<i64>, old: &[i64], distances: &[i64], neighbours: &[&[i64]]) -> Vec<i64> {
    placed_between(left, None, old, distances, neighbours)
}

#[test]
fn case_3() {
    assert_eq!(placed(None, &[0], &[], &[&[4, 10]]), [7]);
}

#[test]
fn case_4() {
    assert_eq!(placed(None, &[0], &[], &[&[4, 10, 11]]), [10]);
}

#[test]
fn case_5() {
    assert_eq!(placed(None, &[7], &[], &[&[]]), [7]);
}

#[test]
fn case_6() {
    assert_eq!(placed(Some(0), &[0], &[6], &[&[2]]), [6]);
}

#[test]
fn case_7() {
    let neighbours: [&[i64]; 4] = [&[0, 0, 0], &[0], &[12, 12, 12], &[]];
    assert_eq!(placed(None, &[0, 0, 0, 100], &[10, 10, 10], &neighbours), [-8, 2, 12, 100]);
}

#[test]
fn case_8() {
    assert_eq!(answer("(plan 2 1 1)\n(level (via))\n(level (box 1))\n(seg 0 1)\n(end)\n"), "(refused 5)\n");
}

#[test]
fn case_9() {
    let text = "(plan 2 1 1)\n(level (box 1))\n(level (box 1))\n(seg 0 1)\n(seg 0 1)\n(end)\n";
    assert_eq!(answer(text), "(refused 4)\n");
}

/// Where a lone box without bounds stands, away from where it stood.
fn lone(neighbours: &[i64]) -> i64 {
    placed(None, &[777], &[], &[neighbours])[0]
}

#[test]
fn a_lone_box_between_two_feeds_stands_halfway() {
    assert_eq!(lone(&[4, 9]), 6);
    assert_eq!(lone(&[-5, 2]), -2);
    assert_eq!(lone(&[-9, -4]), -7);
    assert_eq!(lone(&[-10, -4]), -7);
    assert_eq!(lone(&[-3, 3]), 0);
    assert_eq!(lone(&[-1, 0]), -1);
    assert_eq!(lone(&[0, 1]), 0);
    assert_eq!(lone(&[-6, -6]), -6);
}

#[test]
fn of_more_neighbours_only_the_middle_two_count() {
    assert_eq!(lone(&[-1_000, 4, 9, 10]), 6);
    assert_eq!(lone(&[-6, -5, 2, 1_000]), -2);
    assert_eq!(lone(&[-100, -90, -8, -3, 0, 1]), -6);
    assert_eq!(lone(&[0, 0, 0, 1, 1, 1]), 0);
}

#[test]
fn an_odd_number_of_neighbours_has_one_in_the_middle() {
    assert_eq!(lone(&[-3]), -3);
    assert_eq!(lone(&[-5, 2, 9]), 2);
    assert_eq!(lone(&[-9, -8, -7, 100, 101]), -7);
}

#[test]
fn halfway_at_the_largest_positions() {
    let most = MAX_POSITION;
    assert_eq!(lone(&[most, most]), most);
    assert_eq!(lone(&[-most, -most]), -most);
    assert_eq!(lone(&[most - 1, most]), most - 1);
    assert_eq!(lone(&[-most, 1 - most]), -most);
    assert_eq!(lone(&[-most, most]), 0);
    assert_eq!(lone(&[-most, most - 1]), -1);
}

/// A box with neighbours -5 and 2 starts at -2, one with 0 and 20 at 10. The bounds hold the start, not the neighbours
/// that it comes from.
#[test]
fn bounds_apply_to_the_start() {
    let held =
        |left, right, distances: &[i64], near: [i64; 2]| placed_between(left, right, &[777], distances, &[&near]);
    assert_eq!(held(Some(-4), None, &[2], [-5, 2]), [-2]);
    assert_eq!(held(Some(-3), None, &[2], [-5, 2]), [-1]);
    assert_eq!(held(None, Some(0), &[2], [-5, 2]), [-2]);
    assert_eq!(held(None, Some(-1), &[2], [-5, 2]), [-3]);
    assert_eq!(held(Some(-9), Some(9), &[2, 3], [-5, 2]), [-2]);
    assert_eq!(held(Some(-9), Some(-3), &[2, 3], [-5, 2]), [-6]);
    assert_eq!(held(Some(-3), Some(9), &[2, 3], [-5, 2]), [-1]);
    assert_eq!(held(Some(4), Some(40), &[2, 3], [0, 20]), [10]);
    assert_eq!(held(Some(-40), Some(16), &[2, 3], [0, 20]), [10]);
}

/// Runs of three have one box in the left half and two in the right one, which is cut again. In the last run the first box
/// goes from -2 to its neighbour at -5 at no cost; the half step that is missing then is the others'.
#[test]
fn a_lone_box_that_is_a_half_starts_halfway_too() {
    assert_eq!(placed(None, &[0, 0], &[4], &[&[0, 10], &[0, 10]]), [5, 9]);
    assert_eq!(placed(None, &[0; 3], &[1, 1], &[&[-5, 2], &[0, 3], &[1, 4]]), [-2, 1, 2]);
    assert_eq!(placed(Some(-8), &[0; 3], &[2, 2, 9], &[&[-5, 2], &[-9, -4], &[0, 11]]), [-5, -3, 6]);
}

/// The class of level 2 has four segments to the box of level 1. The wide box of level 3 holds the two cables 12 steps
/// apart, so the middle two of the four, 2 and 3, are 10 steps apart where all is pushed to the left, and 2 where all is
/// pushed to the right: halving would shift the class elsewhere.
#[test]
fn class_shifts_keep_their_rule() {
    let text = "\
(plan 4 1 1)
(level (box 1))
(level (via) (box 1) (via) (box 1))
(level (via) (box 5) (via))
(level (box 1))
(seg 0 1)
(seg 0 2)
(seg 0 3)
(seg 0 4)
(seg 1 5)
(seg 3 7)
(seg 5 8)
(seg 7 8)
(end)
";
    let plan = text::read(text.as_bytes()).expect("acceptable");
    assert_eq!(preliminary::positions(&plan), [0, -22, -10, 2, 6, -22, -10, 2, -10]);
}

fn one_level(head: &str, boxes: usize) -> String {
    format!("({head})\n(level{})\n(end)\n", " (box 1)".repeat(boxes))
}

#[test]
fn edges_of_the_gap() {
    assert_eq!(refusal(&one_level("plan 1 100 1", 1)), None);
    assert_eq!(refusal(&one_level("plan 1 101 1", 1)), Some(2));
    assert_eq!(refusal(&one_level("plan 1 0 1", 1)), Some(2));
}

#[test]
fn edges_of_a_level() {
    assert_eq!(refusal(&one_level("plan 1 1 1", 64)), None);
    assert_eq!(refusal(&one_level("plan 1 1 1", 65)), Some(2));
}

#[test]
fn edges_of_spacing_and_half_width() {
    assert_eq!(refusal(&one_level("plan 1 1 10000", 1)), None);
    assert_eq!(refusal(&one_level("plan 1 1 10001", 1)), Some(2));
    assert_eq!(refusal(&one_level("plan 1 1 0", 1)), Some(2));
    for (half_width, refused) in [("0", Some(2)), ("1", None), ("200", None), ("201", Some(2)), ("99999", Some(2))] {
        assert_eq!(refusal(&format!("(plan 1 1 1)\n(level (box {half_width}))\n(end)\n")), refused);
    }
}

#[test]
fn edges_of_the_counts() {
    let levels = |k: usize, size: usize| {
        format!("(plan {k} 1 1)\n{}(end)\n", format!("(level{})\n", " (box 1)".repeat(size)).repeat(k))
    };
    assert_eq!(refusal(&levels(64, 16)), None);
    assert_eq!(refusal(&levels(65, 1)), Some(2));
    assert_eq!(refusal(&levels(16, 64)), None);
    assert_eq!(refusal(&levels(25, 41)), Some(2));
    let all_pairs = |count: usize| {
        let mut text = levels(2, 64).replace("(end)\n", "");
        let pairs = (0..64).flat_map(|a| (64..128).map(move |b| (a, b)));
        pairs.take(count).for_each(|(a, b)| text += &format!("(seg {a} {b})\n"));
        text + "(end)\n"
    };
    assert_eq!(refusal(&all_pairs(2_048)), None);
    assert_eq!(refusal(&all_pairs(2_049)), Some(2));
}

/// Two cables, from boxes to vias to vias to boxes; the segments between the levels are given.
fn two_cables(segments: &[(usize, usize)]) -> String {
    let mut text = "(plan 4 1 1)\n(level (box 1) (box 1))\n(level (via) (via))\n".to_string();
    text += "(level (via) (via))\n(level (box 1) (box 1))\n";
    segments.iter().for_each(|(a, b)| text += &format!("(seg {a} {b})\n"));
    text + "(end)\n"
}

#[test]
fn edges_of_crossings() {
    assert_eq!(refusal(&two_cables(&[(0, 2), (1, 3), (2, 4), (3, 5), (4, 6), (5, 7)])), None);
    assert_eq!(refusal(&two_cables(&[(0, 3), (1, 2), (2, 4), (3, 5), (4, 6), (5, 7)])), None);
    assert_eq!(refusal(&two_cables(&[(0, 2), (1, 3), (2, 4), (3, 5), (4, 7), (5, 6)])), None);
    assert_eq!(refusal(&two_cables(&[(0, 2), (1, 3), (2, 5), (3, 4), (4, 6), (5, 7)])), Some(6));
}

#[test]
fn vias_without_exactly_one_segment_up_and_one_down() {
    assert_eq!(refusal(&two_cables(&[(0, 2), (2, 4), (3, 5), (4, 6), (5, 7)])), Some(5));
    assert_eq!(refusal(&two_cables(&[(0, 2), (1, 3), (2, 4), (3, 5), (4, 6)])), Some(5));
    assert_eq!(refusal(&two_cables(&[(0, 2), (1, 2), (1, 3), (2, 4), (3, 5), (4, 6), (5, 7)])), Some(5));
    assert_eq!(refusal(&two_cables(&[(0, 2), (1, 3), (2, 4), (3, 5), (4, 6), (4, 7), (5, 7)])), Some(5));
}

#[test]
fn wrong_ends() {
    for wrong in ["8 9", "0 8", "99999 2", "0 1", "0 4", "2 0", "0 0"] {
        let text = format!(
            "(plan 3 1 1)\n(level (box 1) (box 1))\n(level (box 1) (box 1))\n(level (box 1))\n(seg {wrong})\n(end)\n"
        );
        assert_eq!(refusal(&text), Some(3), "{wrong}");
    }
}

#[test]
fn each_check_goes_over_the_whole_text_before_the_next() {
    let levels = "(level (box 1))\n(level (box 1))\n";
    let with = |head: &str, segments: &str| refusal(&format!("{head}\n{levels}{segments}(end)\n"));
    assert_eq!(with("(plan 2 1 1)", "(seg 0 1)\n(seg 0 1)\n(seg 0 7)\n"), Some(3));
    assert_eq!(with("(plan 3 1 1)", "(seg 0 7)\n"), Some(2));
    assert_eq!(with("(plan 3 1 1)", "(seg 0 7) \n"), Some(1));
}

#[test]
fn numbers_have_one_to_five_digits_and_no_leading_zero() {
    for (number, refused) in [("5", None), ("0", Some(2)), ("99999", Some(2)), ("00", Some(1)), ("01", Some(1))] {
        assert_eq!(refusal(&one_level(&format!("plan 1 {number} 1"), 1)), refused, "{number}");
    }
    for number in ["100000", "", "-1", "+1", "1.", "1a", " 1", "1 ", "00000000000000000000000000000001"] {
        assert_eq!(refusal(&one_level(&format!("plan 1 {number} 1"), 1)), Some(1), "{number}");
    }
}

#[test]
fn texts_not_in_the_form() {
    let good = "(plan 2 1 1)\n(level (box 1) (via))\n(level (via))\n(seg 0 1)\n(end)\n";
    assert_ne!(refusal(good), Some(1));
    let wrong = [
        ("(end)\n", "(end)"),
        ("(end)\n", "(end)\n\n"),
        ("(end)\n", "(end)\n(end)\n"),
        ("(end)\n", ""),
        ("\n(end)", "\r\n(end)"),
        ("(seg 0 1)\n(end)", "(end)\n(seg 0 1)"),
        ("(level (via))\n(seg 0 1)", "(seg 0 1)\n(level (via))"),
        ("(level (via))", "(level)"),
        ("(level (via))", "(level )"),
        ("(level (via))", "(level(via))"),
        ("(level (via))", "(level (via) )"),
        ("(level (via))", "(level  (via))"),
        ("(level (via))", "(level (via 0))"),
        ("(level (via))", "(level (box))"),
        ("(level (via))", "(level (Via))"),
        ("(seg 0 1)", "(seg 0)"),
        ("(seg 0 1)", "(seg 0 1 2 2)"),
        ("(seg 0 1)", "(seg 0\t1)"),
        ("(plan 2 1 1)\n", ""),
        ("(plan 2 1 1)\n", "(plan 2 1 1)\n\n"),
        ("(plan 2 1 1)\n", "(plan 2 1)\n"),
        ("(plan 2 1 1)\n", " (plan 2 1 1)\n"),
        ("(plan 2 1 1)\n", "\u{feff}(plan 2 1 1)\n"),
    ];
    for (part, other) in wrong {
        let text = good.replacen(part, other, 1);
        assert_eq!(refusal(&text), Some(1), "{text}");
    }
    assert_eq!(refusal(""), Some(1));
}

#[test]
fn level_lines_not_k() {
    assert_eq!(refusal("(plan 1 1 1)\n(end)\n"), Some(2));
    assert_eq!(refusal("(plan 0 1 1)\n(end)\n"), Some(2));
    assert_eq!(refusal("(plan 2 1 1)\n(level (box 1))\n(end)\n"), Some(2));
    assert_eq!(refusal("(plan 1 1 1)\n(level (box 1))\n(level (box 1))\n(end)\n"), Some(2));
}

#[test]
fn a_text_over_65536_bytes_is_refused_with_1() {
    // In the form, with too many segments: refused with 2 up to the limit, with 1 above it.
    let text = |long_segments: usize| {
        let segments = "(seg 0 1)\n".repeat(6_550 - long_segments) + &"(seg 0 10)\n".repeat(long_segments);
        format!("(plan 1 1 1)\n(level (box 1))\n{segments}(end)\n")
    };
    assert_eq!((text(1).len(), refusal(&text(1))), (65_536, Some(2)));
    assert_eq!((text(2).len(), refusal(&text(2))), (65_537, Some(1)));
}

#[test]
fn rereading_gives_the_text_again() {
    let plan = text::read(CASE_1.as_bytes()).expect("acceptable");
    assert_eq!(text::write(&plan), CASE_1.as_bytes());
}
