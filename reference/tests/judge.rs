//! The judge of demand 3 can say no: drawings damaged on purpose, and the promises that then fail.

use reference::check::judge;
use reference::generate::generate;
use reference::passes::{draw, Drawing, Placing};
use reference::plan::Plan;
use reference::random::Random;
use reference::text;

/// Two long cables with boxes between them, which have slack on all levels but the second.
///
/// ```text
/// level 1        0
/// level 2    1   2   3
/// level 3    4   5   6
/// level 4    7   8   9
/// level 5   10  11  12
/// level 6       13
/// ```
const CABLES: &str = "\
(plan 6 1 10)
(level (box 9))
(level (via) (box 9) (via))
(level (via) (box 2) (via))
(level (via) (box 2) (via))
(level (via) (box 2) (via))
(level (box 1))
(seg 0 1)
(seg 0 3)
(seg 1 4)
(seg 2 5)
(seg 3 6)
(seg 4 7)
(seg 5 8)
(seg 6 9)
(seg 7 10)
(seg 8 11)
(seg 9 12)
(seg 10 13)
(seg 12 13)
(end)
";

fn cables() -> (Plan, Drawing) {
    let plan = text::read(CABLES.as_bytes()).expect("acceptable");
    let drawing = draw(&plan);
    (plan, drawing)
}

/// A list entry by itself: pass, level, boxes with positions.
type Entry = (u32, usize, Vec<(usize, i64)>);

fn entries(drawing: &Drawing) -> Vec<Entry> {
    drawing.placings.iter().map(|entry| (entry.pass, entry.level, drawing.boxes(entry).to_vec())).collect()
}

fn with_entries(drawing: &Drawing, entries: Vec<Entry>) -> Drawing {
    let mut other = Drawing { placings: Vec::new(), placed: Vec::new(), ..drawing.clone() };
    for (pass, level, boxes) in entries {
        let first = other.placed.len();
        other.placed.extend(boxes);
        other.placings.push(Placing { pass, level, boxes: first..other.placed.len() });
    }
    other
}

/// Moves a vertex in the finished drawing, and in its last placing.
fn move_box(drawing: &mut Drawing, v: usize, by: i64) {
    drawing.position[v] += by;
    if let Some(entry) = drawing.placed.iter_mut().rev().find(|(box_, _)| *box_ == v) {
        entry.1 += by;
    }
}

/// Moves a via, where it stood from the start.
fn move_via(drawing: &mut Drawing, v: usize, by: i64) {
    drawing.position[v] += by;
    drawing.preliminary[v] += by;
}

/// The promises that fail after a change, in the judge's order.
fn failing(change: impl FnOnce(&mut Drawing)) -> Vec<&'static str> {
    let (plan, mut drawing) = cables();
    change(&mut drawing);
    judge(&plan, &drawing).iter().map(|failure| failure.promise).collect()
}

fn failing_list(change: impl FnOnce(&mut Vec<Entry>)) -> Vec<&'static str> {
    failing(|drawing| {
        let mut list = entries(drawing);
        change(&mut list);
        *drawing = with_entries(drawing, list);
    })
}

#[test]
fn the_drawing_itself_keeps_demand_3() {
    assert!(failing(|_| ()).is_empty());
    let (_, drawing) = cables();
    let bounded_in_pass_1 = entries(&drawing).iter().filter(|(pass, level, _)| *pass == 1 && *level == 3).count();
    assert_eq!(bounded_in_pass_1, 1);
}

#[test]
fn a_final_position_that_the_list_does_not_give() {
    assert_eq!(failing(|drawing| drawing.position[13] += 1), ["made"]);
}

#[test]
fn a_box_moved_in_drawing_and_list() {
    let failing = failing(|drawing| move_box(drawing, 13, 1));
    assert!(failing.contains(&"made"));
}

#[test]
fn a_box_moved_away_from_its_neighbours() {
    let failing = failing(|drawing| move_box(drawing, 0, 1_000));
    assert_eq!(failing, ["made", "optimal"]);
}

#[test]
fn a_box_too_near_its_sibling() {
    let failing = failing(|drawing| {
        let (box_, via) = (drawing.position[11], drawing.position[12]);
        move_box(drawing, 11, via - box_ - 5);
    });
    assert_eq!(failing, ["made", "order", "optimal", "lasting"]);
}

/// Via 12 halfway between via 9 and box 13: the cable slants straight through it, and still bends twice only.
#[test]
fn a_via_out_of_line() {
    let failing = failing(|drawing| move_via(drawing, 12, (drawing.position[13] - drawing.position[9]) / 2));
    assert!(failing.contains(&"upright") && !failing.contains(&"bends"), "{failing:?}");
}

#[test]
fn a_cable_that_bends_too_often() {
    let failing = failing(|drawing| {
        move_via(drawing, 6, 1);
        move_via(drawing, 9, -1);
    });
    assert!(failing.contains(&"upright") && failing.contains(&"bends"), "{failing:?}");
}

#[test]
fn a_placing_left_out() {
    assert!(failing_list(|list| drop(list.pop())).starts_with(&["made"]));
    let failing = failing_list(|list| drop(list.remove(0)));
    assert!(failing.contains(&"made") && failing.contains(&"counts"), "{failing:?}");
}

#[test]
fn a_placing_made_twice() {
    let bounded = |list: &Vec<Entry>| list.iter().position(|(_, level, _)| *level == 3).expect("a bounded run");
    let failing = failing_list(|list| list.insert(bounded(list), list[bounded(list)].clone()));
    assert_eq!(failing, ["made", "counts"]);
}

#[test]
fn placings_in_another_order() {
    assert!(failing_list(|list| list.swap(0, 1)).contains(&"made"));
}

#[test]
fn a_placing_in_another_pass() {
    let of_level = |list: &mut Vec<Entry>| list.iter().position(|(_, level, _)| *level == 3).expect("a bounded run");
    assert!(failing_list(|list| {
        let i = of_level(list);
        list[i].0 = 3;
    })
    .contains(&"made"));
}

#[test]
fn placings_of_no_run() {
    assert_eq!(failing_list(|list| list[0].0 = 0), ["made"]);
    assert_eq!(failing_list(|list| list[0].0 = 4), ["made"]);
    assert_eq!(failing_list(|list| list[0].1 = 0), ["made"]);
    assert_eq!(failing_list(|list| list[0].1 = 2), ["made"]);
    assert_eq!(failing_list(|list| list[0].1 = usize::MAX), ["made"]);
    assert_eq!(failing_list(|list| list[0].2[0].0 = 1), ["made"]);
    assert_eq!(failing_list(|list| list[0].2[0].0 = usize::MAX), ["made"]);
    assert_eq!(failing_list(|list| list[0].2.clear()), ["made"]);
    assert_eq!(failing_list(|list| list[0].2.push((1, 0))), ["made"]);
}

#[test]
fn a_list_that_is_not_laid_out_in_turn() {
    assert_eq!(failing(|drawing| drawing.placings[0].boxes.end = usize::MAX), ["made"]);
    assert_eq!(failing(|drawing| drawing.placings[1].boxes.start = 0), ["made"]);
    assert_eq!(failing(|drawing| drawing.placed.push((0, 0))), ["made"]);
}

#[test]
fn a_neighbour_that_moves_after_a_bounded_run_was_placed() {
    let (_, drawing) = cables();
    let (upper, lower) = (drawing.position[2], drawing.position[5]);
    assert_eq!(upper, lower, "the box of level 3 stands under its neighbour");
    assert_eq!(failing(|drawing| drawing.position[2] += 1), ["made", "order", "lasting"]);
}

#[test]
fn a_drawing_moved_as_a_whole_is_not_the_methods() {
    let failing = failing(|drawing| {
        drawing.preliminary.iter_mut().chain(&mut drawing.position).for_each(|position| *position += 1);
        drawing.placed.iter_mut().for_each(|(_, position)| *position += 1);
    });
    assert_eq!(failing, ["made"]);
}

#[test]
fn numbers_outside_their_limits() {
    let far = (1 << 40) + 1;
    assert_eq!(failing(|drawing| drawing.position[0] = far), ["within"]);
    assert_eq!(failing(|drawing| drawing.preliminary[0] = -far), ["within"]);
    assert_eq!(failing(|drawing| drawing.placed[0].1 = i64::MIN), ["within"]);
    assert_eq!(failing(|drawing| drop(drawing.position.split_off(3))), ["within"]);
    assert_eq!(failing(|drawing| drawing.placed = vec![(0, 0); 2_049]), ["within"]);
    assert_eq!(failing(|drawing| drawing.placings = vec![drawing.placings[0].clone(); 2_049]), ["within"]);
}

/// Whatever number of a random drawing is changed, the judge says no.
#[test]
fn every_changed_number_is_found() {
    let random = &mut Random::new("judge", 1);
    for seed in 0..400 {
        let plan = text::read(&generate("vias", seed).expect("a known kind")).expect("acceptable");
        let mut drawing = draw(&plan);
        let by = random.pick(&[-1, 1, -20, 20]);
        let v = random.below(plan.vertices());
        match random.below(4) {
            0 => drawing.position[v] += by,
            1 => drawing.preliminary[v] += by,
            2 => move_box(&mut drawing, v, by),
            _ => {
                let i = random.below(drawing.placed.len());
                drawing.placed[i].1 += by;
            }
        }
        assert!(!judge(&plan, &drawing).is_empty(), "seed {seed}");
    }
}
