//! Random plans of every kind: drawings keep demand 3, half steps and jumps agree, and the kinds are what they say.

use reference::generate::{generate, KINDS};
use reference::passes::{self, Drawing};
use reference::plan::{Plan, Stretch};
use reference::{check, half_steps, report, text};

fn text_of(kind: &str, seed: u64) -> Vec<u8> {
    generate(kind, seed).expect("a known kind")
}

/// The acceptable plans among the first seeds of a kind.
fn plans(kind: &'static str, seeds: u64) -> impl Iterator<Item = (u64, Plan)> {
    (0..seeds).filter_map(move |seed| Some((seed, text::read(&text_of(kind, seed)).ok()?)))
}

/// Draws a plan and holds its printed report against demand 3.
fn drawn_and_judged(kind: &str, seed: u64, plan: &Plan) -> (Drawing, u64) {
    let (drawing, steps) = passes::draw_and_count(plan);
    let read = report::read(plan, &report::lines(plan, &drawing));
    assert_eq!(read.as_ref(), Some(&drawing), "{kind} {seed}");
    assert_eq!(check::judge(plan, &drawing), [], "{kind} {seed}");
    (drawing, steps)
}

/// Judges the drawings of a kind, and makes them again by half steps where that does not take too long.
fn judge_kind(kind: &'static str, seeds: u64) {
    for (seed, plan) in plans(kind, seeds) {
        assert_eq!(text::write(&plan), text_of(kind, seed), "{kind} {seed}");
        let (drawing, steps) = drawn_and_judged(kind, seed, &plan);
        if steps < 300_000 {
            assert_eq!(drawn_by_half_steps(&plan), (drawing, steps), "{kind} {seed}");
        }
    }
}

fn drawn_by_half_steps(plan: &Plan) -> (Drawing, u64) {
    let mut counted = 0;
    let drawing = passes::draw_by(plan, |run, answer| {
        let (positions, steps) = half_steps::place(run);
        answer.copy_from_slice(&positions);
        counted += steps;
    });
    (drawing, counted)
}

#[test]
fn small_plans() {
    judge_kind("small", 3_000);
}

#[test]
fn medium_plans() {
    judge_kind("medium", 1_000);
}

#[test]
fn wide_plans() {
    judge_kind("wide", 200);
}

#[test]
fn deep_plans() {
    judge_kind("deep", 300);
}

#[test]
fn vias_plans() {
    judge_kind("vias", 1_500);
}

#[test]
fn max_plans() {
    judge_kind("max", 40);
}

#[test]
fn tangled_plans() {
    judge_kind("tangled", 1_000);
}

#[test]
fn damaged_plans() {
    judge_kind("damaged", 2_000);
}

#[test]
fn rated_plans() {
    judge_kind("rated-small", 3_000);
    judge_kind("rated-medium", 800);
    judge_kind("rated-deep", 100);
    judge_kind("rated-vias", 800);
    judge_kind("rated-tangled", 500);
    judge_kind("rated-damaged", 1_500);
}

#[test]
fn large_rated_plans() {
    judge_kind("rated-wide", 100);
    judge_kind("rated-max", 20);
}

#[test]
fn equal_seeds_give_equal_texts_and_other_kinds_give_none() {
    for kind in KINDS {
        assert_eq!(text_of(kind, 5), text_of(kind, 5));
        assert_ne!(text_of(kind, 5), text_of(kind, 6));
        assert!(generate(kind, u64::MAX).is_some());
    }
    assert_eq!(generate("", 1), None);
    assert_eq!(generate("Small", 1), None);
}

#[test]
fn whole_kinds_are_always_accepted() {
    for kind in ["small", "medium", "wide", "deep", "vias", "max", "rated-small", "rated-vias", "rated-max"] {
        assert_eq!(plans(kind, 50).count(), 50, "{kind}");
    }
    let tangled = plans("tangled", 200).count();
    assert!((1..200).contains(&tangled), "{tangled}");
}

/// How many of the first damaged texts are refused with each number; those with 0 are accepted.
#[test]
fn damaged_texts_are_refused_in_every_way() {
    let mut counts = [0; 7];
    for seed in 0..2_000 {
        let number = text::read(&text_of("damaged", seed)).err().unwrap_or(0);
        counts[number as usize] += 1;
    }
    assert!(counts.iter().all(|&count| count >= 40), "{counts:?}");
}

#[test]
fn max_plans_are_at_the_limits() {
    let (mut most_levels, mut most_on_level) = (0, 0);
    for (_, plan) in plans("max", 6) {
        assert_eq!((plan.vertices(), plan.segments().len()), (Plan::MAX_VERTICES, Plan::MAX_SEGMENTS));
        most_levels = most_levels.max(plan.levels());
        most_on_level = (0..plan.levels()).map(|level| plan.level(level).len()).fold(most_on_level, usize::max);
    }
    assert_eq!((most_levels, most_on_level), (Plan::MAX_LEVELS, Plan::MAX_ON_LEVEL));
}

#[test]
fn vias_plans_have_bounded_runs_of_all_sorts() {
    let (mut with_boxes, mut empty, mut settled, mut by_pass) = (0, 0, 0, [0; 4]);
    for (_, plan) in plans("vias", 300) {
        let drawing = passes::draw(&plan);
        for run in runs(&plan) {
            let Some((left, right)) = run.bounds() else { continue };
            if run.is_empty() {
                empty += 1;
            } else {
                with_boxes += 1;
            }
            let distance: i64 = (left..right).map(|v| 2 * plan.distance(v, v + 1)).sum();
            settled += u32::from(drawing.position[right] - drawing.position[left] == distance);
        }
        for placing in &drawing.placings {
            let first = drawing.boxes(placing)[0].0;
            let is_bounded = runs(&plan).any(|run| run.first == first && run.bounds().is_some());
            by_pass[placing.pass as usize] += u32::from(is_bounded);
        }
    }
    assert!(with_boxes > 1_000 && empty > 1_000 && settled > 500, "{with_boxes} {empty} {settled}");
    assert!(by_pass[1] > 100 && by_pass[2] > 100 && by_pass[3] > 30, "{by_pass:?}");
}

fn runs(plan: &Plan) -> impl Iterator<Item = Stretch> + '_ {
    (0..plan.levels()).flat_map(|level| plan.runs(level))
}

/// Runs and vias in turn give each level back.
#[test]
fn runs_and_vias_make_up_each_level() {
    for (_, plan) in plans("vias", 100) {
        for level in 0..plan.levels() {
            let mut members = Vec::new();
            for run in plan.runs(level) {
                assert!(
                    run.boxes().all(|v| !plan.is_via(v))
                        && run.left.into_iter().chain(run.right).all(|v| plan.is_via(v))
                );
                members.extend(run.boxes().chain(run.right));
            }
            assert!(plan.level(level).eq(members));
        }
    }
}

/// Reading never panics, whatever the bytes.
#[test]
fn any_bytes_get_an_answer() {
    let whole = text_of("small", 3);
    for i in 0..whole.len() {
        for byte in 0..=255 {
            let mut text = whole.clone();
            text[i] = byte;
            let answer = report::answer(&text);
            assert!(answer.starts_with(b"(drawing ") || answer.starts_with(b"(refused "));
        }
        assert_eq!(report::answer(&whole[..i]), b"(refused 1)\n");
    }
}
