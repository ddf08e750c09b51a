//! The walk along a level (E3): answer and count by hand, the order of its refusals, and check 6 by walks against its
//! definition, which speaks of any two inner segments.

use std::collections::BTreeMap;
use std::iter;

use reference::cables;
use reference::edges::edges;
use reference::generate::generate;
use reference::plan::{Draft, Plan, Segment};
use reference::walk::{of_text, Walk};
use reference::{tangled, text};

fn clear(taken: usize) -> Result<Walk, u32> {
    Ok(Walk { is_crossed: false, taken })
}

fn crossed(taken: usize) -> Result<Walk, u32> {
    Ok(Walk { is_crossed: true, taken })
}

/// The text of a plan with these levels and segments.
fn plan_text(levels: &[&str], segments: &[(usize, usize)]) -> Vec<u8> {
    let mut text = format!("(plan {} 1 5)\n", levels.len());
    levels.iter().for_each(|level| text += &format!("(level {level})\n"));
    segments.iter().for_each(|(upper, lower)| text += &format!("(seg {upper} {lower})\n"));
    (text + "(end)\n").into_bytes()
}

/// Four levels of as many vertices, boxes, vias, vias and boxes: the i-th via of level 2 is joined to the one at `places[i]`
/// of level 3, and all else stands one below the other.
fn with_cables(places: &[usize]) -> Vec<u8> {
    let n = places.len();
    let row = |vertex: &str| vec![vertex; n].join(" ");
    let (boxes, vias) = (row("(box 1)"), row("(via)"));
    let straight = |level: usize| (0..n).map(move |i| (level * n + i, (level + 1) * n + i));
    let between = places.iter().enumerate().map(|(i, place)| (n + i, 2 * n + place));
    let segments: Vec<_> = straight(0).chain(between).chain(straight(2)).collect();
    plan_text(&[&boxes, &vias, &vias, &boxes], &segments)
}

// ---------------------------------------------------------------------------------------------------------------------
// By hand

#[test]
fn no_inner_segment_and_none_is_taken() {
    let boxes = plan_text(&["(box 1) (box 1)", "(box 1) (box 1)"], &[(0, 3), (1, 2)]);
    assert_eq!(of_text(&boxes, 1), clear(0));
    assert_eq!(of_text(&plan_text(&["(box 1)", "(box 1)"], &[]), 1), clear(0));
    let one_via = plan_text(&["(box 1)", "(via)", "(box 1)"], &[(0, 1), (1, 2)]);
    assert_eq!([1, 2].map(|l| of_text(&one_via, l)), [clear(0); 2]);
}

#[test]
fn a_descent_at_the_second_and_two_are_taken() {
    assert_eq!(of_text(&with_cables(&[1, 0]), 2), crossed(2));
    assert_eq!(of_text(&with_cables(&[0, 1]), 2), clear(2));
    assert_eq!(of_text(&with_cables(&[0]), 2), clear(1));
}

#[test]
fn three_inner_segments() {
    let walks = [
        ([0, 1, 2], clear(3)),
        ([0, 2, 1], crossed(3)),
        ([1, 0, 2], crossed(2)),
        ([1, 2, 0], crossed(3)),
        ([2, 0, 1], crossed(2)),
        ([2, 1, 0], crossed(2)),
    ];
    for (places, expected) in walks {
        assert_eq!(of_text(&with_cables(&places), 2), expected, "{places:?}");
    }
}

#[test]
fn the_first_of_several_descents_stops_the_walk() {
    assert_eq!(of_text(&with_cables(&[1, 0, 3, 2, 5, 4]), 2), crossed(2));
    assert_eq!(of_text(&with_cables(&[0, 1, 3, 2, 5, 4]), 2), crossed(4));
    assert_eq!(of_text(&with_cables(&[0, 2, 4, 5, 3, 1]), 2), crossed(5));
}

#[test]
fn a_full_level() {
    let straight: Vec<usize> = (0..Plan::MAX_ON_LEVEL).collect();
    assert_eq!(of_text(&with_cables(&straight), 2), clear(64));
    for i in 0..63 {
        let mut places = straight.clone();
        places.swap(i, i + 1);
        assert_eq!(of_text(&with_cables(&places), 2), crossed(i + 2));
    }
    let mut last_first = straight.clone();
    last_first.rotate_left(1);
    assert_eq!(of_text(&with_cables(&last_first), 2), crossed(64));
    let mut first_last = straight;
    first_last.rotate_right(1);
    assert_eq!(of_text(&with_cables(&first_last), 2), crossed(2));
}

/// Between levels 2 and 3 vias 1, 4 and 5 are joined to vias 7, 8 and 10. Via 2, which stands among them, is joined to box 6,
/// left of all; box 3 to boxes 9 and 11 and to via 12, right of all.
#[test]
fn segments_to_boxes_are_not_counted() {
    let levels =
        ["(box 1)", "(via) (via) (box 1) (via) (via)", "(box 1) (via) (via) (box 1) (via) (box 1) (via)", "(box 1)"];
    let top = [(0, 1), (0, 2), (0, 4), (0, 5)];
    let bottom = [(6, 13), (7, 13), (8, 13), (9, 13), (10, 13), (12, 13)];
    let between =
        |middle: [usize; 3]| [(1, middle[0]), (2, 6), (3, 9), (3, 11), (3, 12), (4, middle[1]), (5, middle[2])];
    let plan = |middle| plan_text(&levels, &[&top[..], &between(middle), &bottom].concat());
    assert_eq!([1, 2, 3].map(|l| of_text(&plan([7, 8, 10]), l)), [clear(0), clear(3), clear(0)]);
    assert_eq!([1, 2, 3].map(|l| of_text(&plan([7, 10, 8]), l)), [clear(0), crossed(3), clear(0)]);
    assert_eq!([1, 2, 3].map(|l| of_text(&plan([10, 7, 8]), l)), [clear(0), crossed(2), clear(0)]);
}

/// Three cables over five levels; the first two cross below level 2, all three below level 3.
#[test]
fn each_two_levels_have_their_own_walk() {
    let vias = "(via) (via) (via)";
    let cross =
        [[(0, 1), (0, 2), (0, 3)], [(1, 5), (2, 4), (3, 6)], [(4, 8), (5, 9), (6, 7)], [(7, 10), (8, 10), (9, 10)]];
    let text = plan_text(&["(box 1)", vias, vias, vias, "(box 1)"], &cross.concat());
    assert_eq!([1, 2, 3, 4].map(|l| of_text(&text, l)), [clear(0), crossed(2), crossed(3), clear(0)]);
    assert_eq!(text::read(&text), Err(6));
}

// ---------------------------------------------------------------------------------------------------------------------
// Refusals

#[test]
fn no_such_two_levels() {
    let one_level = plan_text(&["(box 1)"], &[]);
    for l in [0, 1, 2, usize::MAX] {
        assert_eq!(of_text(&one_level, l), Err(7), "{l}");
    }
    for text in [with_cables(&[0, 1]), with_cables(&[1, 0])] {
        for l in [0, 4, 5, 257, 65_537, (1 << 32) + 1, usize::MAX - 1, usize::MAX] {
            assert_eq!(of_text(&text, l), Err(7), "{l}");
        }
    }
}

/// 1 to 5 before 7, whichever level is asked for; 6 is not asked.
#[test]
fn texts_at_the_edges_of_the_checks() {
    for edge in edges() {
        let expected = if edge.refusal == 6 { 0 } else { edge.refusal };
        for l in [0, 1, 2, 65, usize::MAX] {
            let outcome = of_text(&edge.text, l);
            match expected {
                0 => assert!(outcome.is_ok() || outcome == Err(7), "{} {l}", edge.name),
                number => assert_eq!(outcome, Err(number), "{} {l}", edge.name),
            }
        }
        assert!(expected != 0 || of_text(&edge.text, 0) == Err(7), "{}", edge.name);
    }
}

// ---------------------------------------------------------------------------------------------------------------------
// Random plans, against the definitions

/// The inner segments from each level to the next, by their upper ends from left to right.
fn inner_segments(draft: &Draft) -> Vec<Vec<(usize, usize)>> {
    let sizes = draft.sizes.iter().enumerate();
    let level_of: Vec<usize> = sizes.flat_map(|(level, &size)| iter::repeat_n(level, size)).collect();
    let mut inner = vec![Vec::new(); draft.sizes.len() - 1];
    for (upper, lower) in draft.segments.iter().map(Segment::ends) {
        if draft.vertices[upper].is_via && draft.vertices[lower].is_via {
            inner[level_of[upper]].push((upper, lower));
        }
    }
    inner
}

/// Check 6: "Two inner segments (via to via) between the same levels whose ends stand in opposite orders."
fn have_a_crossing(inner: &[(usize, usize)]) -> bool {
    let crosses = |(a, b): (usize, usize), (c, d): (usize, usize)| (a < c && b > d) || (a > c && b < d);
    inner.iter().any(|&one| inner.iter().any(|&other| crosses(one, other)))
}

/// E3: "up to and with the first whose lower end stands left of the one before's, or all".
fn to_be_taken(inner: &[(usize, usize)]) -> usize {
    (1..inner.len()).find(|&i| inner[i].1 < inner[i - 1].1).map_or(inner.len(), |i| i + 1)
}

/// What the walks of a text met, by the number of inner segments between the two levels, and what they answered.
type Met = BTreeMap<(usize, bool, usize), usize>;

/// Holds every walk of a text against the definitions; whether the text passes checks 1 to 5.
fn judge(name: &str, text: &[u8], met: &mut Met) -> bool {
    if let Err(number) = tangled::read(text) {
        for l in [0, 1, 2, usize::MAX] {
            assert_eq!(of_text(text, l), Err(number), "{name} {l}");
        }
        return false;
    }
    let inner = inner_segments(&text::read_form(text).expect("in the form"));
    for (i, inner) in inner.iter().enumerate() {
        let expected = Walk { is_crossed: have_a_crossing(inner), taken: to_be_taken(inner) };
        assert_eq!(of_text(text, i + 1), Ok(expected), "{name} {i}");
        assert!(expected.is_crossed || expected.taken == inner.len(), "{name} {i}");
        *met.entry((inner.len(), expected.is_crossed, expected.taken)).or_default() += 1;
    }
    let refusal = text::read(text).err();
    let expected = inner.iter().any(|inner| have_a_crossing(inner)).then_some(6);
    assert_eq!(refusal, expected, "{name}");
    for l in [0, inner.len() + 1, inner.len() + 2] {
        assert_eq!(of_text(text, l), Err(7), "{name} {l}");
    }
    true
}

#[test]
fn random_texts_of_every_kind() {
    let kinds = [
        ("small", 2_000),
        ("medium", 300),
        ("wide", 40),
        ("deep", 100),
        ("vias", 600),
        ("max", 10),
        ("tangled", 2_000),
        ("crossed", 1_000),
        ("crossed-max", 30),
        ("damaged", 2_000),
        ("rated-crossed", 500),
        ("rated-damaged", 2_000),
    ];
    for (kind, times) in kinds {
        let mut met = Met::new();
        let judge_seed =
            |seed: &u64| judge(&format!("{kind} {seed}"), &generate(kind, *seed).expect("a kind"), &mut met);
        let passed = (0..times).filter(judge_seed).count() as u64;
        let some = passed > 300 && passed < times;
        assert!(if kind.ends_with("damaged") { some } else { passed == times }, "{kind} {passed}");
        let crossed: usize = met.iter().filter(|((_, is_crossed, _), _)| *is_crossed).map(|(_, times)| times).sum();
        let crosses = ["tangled", "crossed", "crossed-max", "damaged"].contains(&kind.trim_start_matches("rated-"));
        assert_eq!(crossed > 0, crosses, "{kind} {crossed}");
    }
}

/// Levels with none, few and as many inner segments as there may be, and the first descent at the start, at the end and
/// everywhere between.
#[test]
fn random_cables_side_by_side() {
    let mut met = Met::new();
    for (most, times) in [(cables::FEW, 4_000), (Plan::MAX_ON_LEVEL, 1_500)] {
        assert!((0..times).all(|seed| judge(&format!("cables {seed}"), &cables::text(seed, most), &mut met)));
    }
    let times =
        |inner: usize, is_crossed: bool, taken: usize| met.get(&(inner, is_crossed, taken)).copied().unwrap_or(0);
    for inner in [0, 1, 2, 12, 64] {
        assert!(times(inner, false, inner) > 50, "{inner}");
    }
    for inner in [2, 12, 64] {
        assert!(times(inner, true, 2) > 20 && times(inner, true, inner) > 20, "{inner}");
    }
    let between: Vec<usize> = (3..64).map(|taken| times(64, true, taken)).collect();
    assert!(between.iter().filter(|&&times| times > 0).count() > 30, "{between:?}");
}

/// How many of these texts have crossings between one pair of levels, and between several.
#[test]
fn crossings_between_one_pair_of_levels_and_between_several() {
    let mut counts = [0; 3];
    for seed in 0..1_000 {
        let draft = text::read_form(&cables::text(seed, cables::FEW)).expect("in the form");
        let crossed = inner_segments(&draft).iter().filter(|inner| have_a_crossing(inner)).count();
        counts[crossed.min(2)] += 1;
    }
    assert!(counts.iter().all(|&count| count > 50), "{counts:?}");
}
