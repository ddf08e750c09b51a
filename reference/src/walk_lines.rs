//! Random commands for the walk along a level (E3), see [`crate::script`].

use crate::generate::generate;
use crate::plan::Plan;
use crate::random::Random;
use crate::walk::{walk, Walk};
use crate::words::escaped;
use crate::{cables, damage, ratings, text};

/// Most bytes in a text that is walked along level after level.
const MOST_WITH_ALL_LEVELS: usize = 800;

/// Most bytes in the text of a line.
const MOST_IN_LINE: usize = 200_000;

/// Lines that are no walks.
const NO_WALKS: [&str; 18] = [
    "walk",
    "walk ",
    "walk 1",
    "walk  ",
    "walk (plan 1 1 1)\\n(level (box 1))\\n(end)\\n",
    "walk  1 (plan 1 1 1)\\n(level (box 1))\\n(end)\\n",
    " walk 1 (plan 1 1 1)\\n(level (box 1))\\n(end)\\n",
    "Walk 1 (plan 1 1 1)\\n(level (box 1))\\n(end)\\n",
    "walk x (plan 1 1 1)\\n(level (box 1))\\n(end)\\n",
    "walk -1 (plan 1 1 1)\\n(level (box 1))\\n(end)\\n",
    "walk -0 (plan 1 1 1)\\n(level (box 1))\\n(end)\\n",
    "walk +1 (plan 1 1 1)\\n(level (box 1))\\n(end)\\n",
    "walk 01 (plan 1 1 1)\\n(level (box 1))\\n(end)\\n",
    "walk 1.0 (plan 1 1 1)\\n(level (box 1))\\n(end)\\n",
    "walk 18446744073709551616 (plan 1 1 1)\\n(level (box 1))\\n(end)\\n",
    "walk 1 (plan 1 1 1)\\n(level (box 1))\\n(end)\\n\\q",
    "walk 1 (plan 1 1 1)\\n(level (box 1))\\n(end)\\",
    "walk 1 \\x2",
];

/// Walks at the edges of the form.
const EDGES: [&str; 10] = [
    "walk 1 ",
    "walk 1  ",
    "walk 1 strict (plan 1 1 1)\\n(level (box 1))\\n(end)\\n",
    "walk 1 1 (plan 1 1 1)\\n(level (box 1))\\n(end)\\n",
    "walk 0 ",
    "walk 18446744073709551615 ",
    "walk 0 (plan 1 1 1)\\n(level (box 1))\\n(end)\\n",
    "walk 18446744073709551615 (plan 1 1 1)\\n(level (box 1))\\n(end)\\n",
    "walk 1 \\x28plan 2 1 1)\\x0A(level (box 1))\\x0a(level (box 1))\\n(end)\\n",
    "walk 2 \\x28plan 2 1 1)\\x0A(level (box 1))\\x0a(level (box 1))\\n(end)\\n",
];

/// Walks along a level of a text, or along one after another; or a line at the edge of the form, or beyond. Texts have ratings
/// (E5) or not.
pub(crate) fn lines(random: &mut Random, is_rated: bool) -> Vec<String> {
    match random.below(12) {
        0 | 1 => return vec![random.pick(&NO_WALKS).to_string()],
        2 => return vec![random.pick(&EDGES).to_string()],
        _ => {}
    }
    let plan_text = if is_rated { rated_text(random) } else { plan_text(random) };
    let words = escaped(&plan_text);
    let walked = if words.len() > MOST_IN_LINE {
        Vec::new()
    } else if plan_text.len() <= MOST_WITH_ALL_LEVELS && random.once_in(6) {
        (0..levels(&plan_text) + 2).collect()
    } else {
        vec![level(random, &plan_text)]
    };
    walked.iter().map(|level| format!("walk {level} {words}")).collect()
}

/// How many levels a text has.
fn levels(plan_text: &[u8]) -> usize {
    text::read_form(plan_text).map_or(1, |draft| draft.sizes.len())
}

/// A level with inner segments below it, crossed ones if there are; or any that has another below it, or the last or a
/// neighbour of it, or any number at all, some of them with the last bits of a level.
fn level(random: &mut Random, plan_text: &[u8]) -> usize {
    let levels = levels(plan_text);
    let plan = text::read_up_to_check_5(plan_text);
    let walks = |is_told: fn(Walk) -> bool| {
        let is_told = |&l: &usize| plan.as_ref().is_ok_and(|plan| is_told(walk(plan, l - 1)));
        (1..levels).filter(is_told).collect::<Vec<_>>()
    };
    let told = match random.below(8) {
        0 => vec![0, 1, 63, 64, 65, 257, 65_537, (1 << 32) + 1, 1 << 63, usize::MAX - 1, usize::MAX],
        1 => vec![levels.saturating_sub(1), levels, levels + 1],
        2 => Vec::new(),
        3 | 4 => walks(|walk| walk.taken > 0),
        _ => walks(|walk| walk.is_crossed),
    };
    if told.is_empty() {
        1 + random.below(levels.saturating_sub(1))
    } else {
        random.pick(&told)
    }
}

/// A text with cables side by side, few or up to as many as a level holds, at times damaged; or one of another kind.
fn plan_text(random: &mut Random) -> Vec<u8> {
    let kind = match random.below(10) {
        0 | 1 => return text::write_form(&cables::draft(random, cables::FEW)),
        2..=4 => return text::write_form(&cables::draft(random, Plan::MAX_ON_LEVEL)),
        5 | 6 => {
            let draft = cables::draft(random, cables::FEW);
            return damage::damaged(random, draft);
        }
        7 if random.once_in(10) => random.pick(&["wide", "deep", "max", "crossed-max"]),
        _ => random.pick(&["small", "vias", "tangled", "crossed", "damaged", "damaged"]),
    };
    let seed = random.next();
    generate(kind, seed).unwrap_or_default()
}

/// The same with ratings.
fn rated_text(random: &mut Random) -> Vec<u8> {
    match random.below(4) {
        0 => {
            let kind = random.pick(&["rated-vias", "rated-tangled", "rated-crossed", "rated-damaged"]);
            let seed = random.next();
            generate(kind, seed).unwrap_or_default()
        }
        choice => {
            let mut draft = cables::draft(random, cables::FEW);
            ratings::rate(random, &mut draft);
            if choice == 1 {
                damage::damaged_rated(random, draft)
            } else {
                text::write_form(&draft)
            }
        }
    }
}

#[cfg(test)]
mod tests {
    use super::*;
    use crate::script::Script;

    fn answers(line: &str) -> Vec<String> {
        Script::new().answers(line.as_bytes())
    }

    #[test]
    fn lines_at_the_edges_of_the_form() {
        NO_WALKS.iter().for_each(|line| assert_eq!(answers(line), ["unknown"], "{line}"));
        EDGES.iter().for_each(|line| assert_ne!(answers(line), ["unknown"], "{line}"));
    }

    /// How often each answer is met that there can be; those of a walk by the number it took: none, one, two, few, or many.
    #[test]
    fn every_answer_is_met() {
        let random = &mut Random::new("walk lines", 0);
        let all: Vec<String> = (0..6_000).flat_map(|_| lines(random, false)).flat_map(|line| answers(&line)).collect();
        let met = |answer: &str| all.iter().filter(|given| *given == answer).count();
        let taken = |answer: &str, least: u32, most: u32| (least..=most).map(|n| met(&format!("{answer} {n}"))).sum();
        let counts: [usize; 16] = [
            taken("ok clear", 0, 0),
            taken("ok clear", 1, 1),
            taken("ok clear", 2, 12),
            taken("ok clear", 13, 63),
            taken("ok clear", 64, 64),
            taken("ok crossed", 2, 2),
            taken("ok crossed", 3, 12),
            taken("ok crossed", 13, 63),
            taken("ok crossed", 64, 64),
            met("refused 1"),
            met("refused 2"),
            met("refused 3"),
            met("refused 4"),
            met("refused 5"),
            met("refused 7"),
            met("unknown"),
        ];
        assert!(counts.iter().all(|&count| count >= 10), "{counts:?}");
        assert_eq!(counts.iter().sum::<usize>(), all.len());
    }

    /// The walk minds no ratings; check 2 does, and a segment twice is refused with 4 whatever its ratings.
    #[test]
    fn walks_of_rated_texts() {
        let random = &mut Random::new("rated walk lines", 0);
        let lines: Vec<String> = (0..2_000).flat_map(|_| lines(random, true)).collect();
        let all: Vec<String> = lines.iter().flat_map(|line| answers(line)).collect();
        let met = |start: &str| all.iter().filter(|given| given.starts_with(start)).count();
        let counts = ["ok clear", "ok crossed", "refused 1", "refused 2", "refused 4", "refused 5"].map(met);
        assert!(counts.iter().all(|&count| count >= 10), "{counts:?}");
    }
}
