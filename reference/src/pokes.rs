//! Random pokes: small and large damage to a sheet's record, each with the poke that repairs it.

use std::fmt::Display;

use crate::place_run::MAX_POSITION;
use crate::plan::Plan;
use crate::random::Random;
use crate::sheet::{Sheet, Stage};
use crate::stored::{StoredBox, StoredVertex};

/// A poke, and the one that takes it back.
pub(crate) struct Damage {
    pub poke: String,
    pub repair: String,
}

/// Which pokes there are.
#[derive(Clone, Copy)]
pub(crate) struct Pokes {
    /// Those of what a sheet remembers (E1). A plan that grows needs one of them.
    pub tangled: bool,
    /// Those of ratings (E5). Without them a poke of a segment makes its rating 1, and so does its repair.
    pub rated: bool,
}

/// One kind of damage, which may take several pokes.
pub(crate) fn damage(random: &mut Random, sheet: &Sheet, pokes: Pokes) -> Vec<Damage> {
    if pokes.rated && random.once_in(8) {
        return rating(random, sheet);
    }
    match random.below(if pokes.tangled { 23 } else { 18 }) {
        0 | 1 => vec![stage(random, sheet)],
        2 => vec![levels(random, sheet)],
        3 => vec![gap(random, sheet)],
        4 => vec![spacing(random, sheet)],
        5 => vec![size(random, sheet)],
        6 => shift_size(random, sheet),
        7 | 8 => vec![vertex(random, sheet)],
        9 => vec![segment(random, sheet, pokes)],
        10 => exchange_segments(random, sheet, pokes),
        11 => exchange_lower_ends(random, sheet, pokes),
        12 if pokes.tangled => grow(sheet),
        13 | 14 => vec![position(random, sheet)],
        15 => vec![placing(random, sheet)],
        18 | 19 => vec![number(random, sheet)],
        20 | 21 => exchange_numbers(random, sheet),
        22 => vec![way(random, sheet)],
        _ => listed_box(random, sheet).map_or_else(Vec::new, |damage| vec![damage]),
    }
}

/// Pokes that differ in their last words: a new value and the old one.
fn change<T: Display>(what: &str, new: T, old: T) -> Damage {
    Damage { poke: format!("poke 1 {what} {new}"), repair: format!("poke 1 {what} {old}") }
}

/// One more, one less, or one of the others.
fn near(random: &mut Random, value: u64, others: &[u64]) -> u64 {
    match random.below(4) {
        0 => value.saturating_add(1),
        1 => value.saturating_sub(1),
        _ => random.pick(others),
    }
}

/// The counts of the stage, 0 where it has none.
fn counts(stage: Stage) -> (u64, u64, u64) {
    match stage {
        Stage::Empty => (0, 0, 0),
        Stage::Loaded { vertices, segments } => (vertices, segments, 0),
        Stage::Drawn { vertices, segments, placings } => (vertices, segments, placings),
    }
}

/// An entry in use, or seldom any that the record holds.
fn index(random: &mut Random, used: u64, held: usize) -> usize {
    let used = usize::try_from(used).unwrap_or(held).clamp(1, held);
    let (inside, any) = (random.below(used), random.below(held));
    if random.once_in(8) {
        random.pick(&[used - 1, used.min(held - 1), held - 1, any])
    } else {
        inside
    }
}

// ---------------------------------------------------------------------------------------------------------------------
// Stage

fn stage(random: &mut Random, sheet: &Sheet) -> Damage {
    let (v, e, p) = counts(sheet.stage);
    let huge = [0, 1, 1_024, 1_025, 2_048, 2_049, u64::MAX];
    let new = match random.below(8) {
        0 => Stage::Empty,
        1 => Stage::Loaded { vertices: v, segments: e },
        2 => Stage::Drawn { vertices: v, segments: e, placings: p },
        3 => Stage::Loaded { vertices: near(random, v, &huge), segments: e },
        4 => Stage::Loaded { vertices: v, segments: near(random, e, &huge) },
        5 => Stage::Drawn { vertices: near(random, v, &huge), segments: e, placings: p },
        6 => Stage::Drawn { vertices: v, segments: near(random, e, &huge), placings: p },
        _ => Stage::Drawn { vertices: v, segments: e, placings: near(random, p, &huge) },
    };
    change("stage", new, sheet.stage)
}

// ---------------------------------------------------------------------------------------------------------------------
// Plan

fn levels(random: &mut Random, sheet: &Sheet) -> Damage {
    let old = sheet.plan.levels;
    let new = near(random, old, &[0, 1, 64, 65, 10_001, 65_535]);
    change("k", new, old)
}

fn gap(random: &mut Random, sheet: &Sheet) -> Damage {
    let old = sheet.plan.gap;
    let new = near(random, old, &[0, 1, 50, 100, 101, 65_535]);
    change("g", new, old)
}

fn spacing(random: &mut Random, sheet: &Sheet) -> Damage {
    let old = sheet.plan.spacing;
    let new = near(random, old, &[0, 1, 500, 10_000, 10_001, 65_535]);
    change("s", new, old)
}

fn size(random: &mut Random, sheet: &Sheet) -> Damage {
    let level = index(random, sheet.plan.levels, Plan::MAX_LEVELS);
    let new = near(random, sheet.plan.sizes[level], &[0, 1, 64, 65, 255]);
    size_change(sheet, level, new)
}

fn size_change(sheet: &Sheet, level: usize, new: u64) -> Damage {
    change(&format!("size {level}"), new, sheet.plan.sizes[level])
}

/// A vertex goes over to the next level, so that sizes add up as before.
fn shift_size(random: &mut Random, sheet: &Sheet) -> Vec<Damage> {
    let level = index(random, sheet.plan.levels.saturating_sub(1), Plan::MAX_LEVELS - 1);
    let (here, below) = (sheet.plan.sizes[level], sheet.plan.sizes[level + 1]);
    vec![size_change(sheet, level, here.saturating_sub(1)), size_change(sheet, level + 1, below.saturating_add(1))]
}

/// Another kind, another half-width, or both.
fn vertex(random: &mut Random, sheet: &Sheet) -> Damage {
    let v = index(random, counts(sheet.stage).0, Plan::MAX_VERTICES);
    let old = sheet.plan.vertices[v];
    let half_width = near(random, old.half_width, &[0, 1, 50, 51, 200, 201, 255]);
    let new = match random.below(3) {
        0 => StoredVertex { is_via: !old.is_via, ..old },
        1 => StoredVertex { half_width, ..old },
        _ => StoredVertex { is_via: !old.is_via, half_width: u64::from(old.is_via) },
    };
    change(&format!("vertex {v}"), vertex_words(new), vertex_words(old))
}

fn vertex_words(vertex: StoredVertex) -> String {
    format!("{} {}", if vertex.is_via { "via" } else { "box" }, vertex.half_width)
}

/// Another end, or both exchanged.
fn segment(random: &mut Random, sheet: &Sheet, pokes: Pokes) -> Damage {
    let (v, e, _) = counts(sheet.stage);
    let i = index(random, e, Plan::MAX_SEGMENTS);
    let (upper, lower) = sheet.plan.segments[i];
    let others = [0, v.min(65_535), 1_024, 65_535];
    let new = match random.below(3) {
        0 => (lower, upper),
        1 => (near(random, upper, &others), lower),
        _ => (upper, near(random, lower, &others)),
    };
    segment_change(sheet, pokes, i, new)
}

/// Other ends of a segment, which keeps its rating where pokes have ratings.
fn segment_change(sheet: &Sheet, pokes: Pokes, i: usize, new: (u64, u64)) -> Damage {
    let (old, rating) = (sheet.plan.segments[i], sheet.plan.ratings[i]);
    if pokes.rated {
        return rated_change(sheet, i, new, rating);
    }
    let pair = |(upper, lower)| format!("{upper} {lower}");
    change(&format!("seg {i}"), pair(new), pair(old))
}

/// Other ends and another rating of a segment; a rating of 1 is said from every other upper end on.
fn rated_change(sheet: &Sheet, i: usize, new: (u64, u64), rating: u64) -> Damage {
    let words = |(upper, lower): (u64, u64), rating: u64| {
        if rating == 1 && upper % 2 == 0 {
            format!("{upper} {lower}")
        } else {
            format!("{upper} {lower} {rating}")
        }
    };
    change(&format!("seg {i}"), words(new, rating), words(sheet.plan.segments[i], sheet.plan.ratings[i]))
}

/// Another rating of a segment, within its limits or not, or two segments exchange theirs.
fn rating(random: &mut Random, sheet: &Sheet) -> Vec<Damage> {
    let i = index(random, counts(sheet.stage).1.saturating_sub(1), Plan::MAX_SEGMENTS - 1);
    let change = |i: usize, rating: u64| rated_change(sheet, i, sheet.plan.segments[i], rating);
    if random.once_in(4) {
        return vec![change(i, sheet.plan.ratings[i + 1]), change(i + 1, sheet.plan.ratings[i])];
    }
    vec![change(i, near(random, sheet.plan.ratings[i], &[0, 1, 2, 7, 100, 101, 255, 65_535, u64::MAX]))]
}

/// Two segments that follow each other change places.
fn exchange_segments(random: &mut Random, sheet: &Sheet, pokes: Pokes) -> Vec<Damage> {
    let i = index(random, counts(sheet.stage).1.saturating_sub(1), Plan::MAX_SEGMENTS - 1);
    let [first, second] = [sheet.plan.segments[i], sheet.plan.segments[i + 1]];
    vec![segment_change(sheet, pokes, i, second), segment_change(sheet, pokes, i + 1, first)]
}

/// Two segments from the same level exchange their lower ends: inner ones then cross, or cease to.
fn exchange_lower_ends(random: &mut Random, sheet: &Sheet, pokes: Pokes) -> Vec<Damage> {
    let i = index(random, counts(sheet.stage).1.saturating_sub(1), Plan::MAX_SEGMENTS - 1);
    let [first, second] = [sheet.plan.segments[i], sheet.plan.segments[i + 1]];
    let (one, other) = ((first.0, second.1), (second.0, first.1));
    vec![segment_change(sheet, pokes, i, one), segment_change(sheet, pokes, i + 1, other)]
}

/// The last level gains a box at its right end, remembered by its own number; no placing is listed any more. All of it
/// together is an acceptable plan.
pub(crate) fn grow(sheet: &Sheet) -> Vec<Damage> {
    let (v, e, _) = counts(sheet.stage);
    let (Ok(last), Ok(next)) = (usize::try_from(sheet.plan.levels.wrapping_sub(1)), usize::try_from(v)) else {
        return Vec::new();
    };
    if last >= Plan::MAX_LEVELS || next >= Plan::MAX_VERTICES {
        return Vec::new();
    }
    let old = sheet.plan.vertices[next];
    let new = StoredVertex { is_via: false, half_width: 7 };
    let stage = Stage::Drawn { vertices: v + 1, segments: e, placings: 0 };
    vec![
        size_change(sheet, last, sheet.plan.sizes[last].saturating_add(1)),
        change(&format!("vertex {next}"), vertex_words(new), vertex_words(old)),
        number_change(sheet, next, v),
        change("stage", stage, sheet.stage),
    ]
}

// ---------------------------------------------------------------------------------------------------------------------
// What is remembered of the loading

/// Another number for a vertex, which is then remembered twice or not at all.
fn number(random: &mut Random, sheet: &Sheet) -> Damage {
    let v = index(random, counts(sheet.stage).0, Plan::MAX_VERTICES);
    let new = near(random, sheet.loading.numbers[v], &[0, 1, 1_023, 1_024, 65_535, u64::MAX]);
    number_change(sheet, v, new)
}

fn number_change(sheet: &Sheet, v: usize, new: u64) -> Damage {
    change(&format!("mem {v}"), new, sheet.loading.numbers[v])
}

/// Two vertices that follow each other, or seldom any two, exchange their numbers: those of a level are still its own then.
fn exchange_numbers(random: &mut Random, sheet: &Sheet) -> Vec<Damage> {
    let used = counts(sheet.stage).0.saturating_sub(1);
    let v = index(random, used, Plan::MAX_VERTICES - 1);
    let w = if random.once_in(4) { index(random, used, Plan::MAX_VERTICES) } else { v + 1 };
    let numbers = &sheet.loading.numbers;
    vec![number_change(sheet, v, numbers[w]), number_change(sheet, w, numbers[v])]
}

/// The way, the other one or the same.
fn way(random: &mut Random, sheet: &Sheet) -> Damage {
    change("tangled", u8::from(random.once_in(2)), u8::from(sheet.loading.tangled))
}

// ---------------------------------------------------------------------------------------------------------------------
// Drawing

fn far(random: &mut Random, old: i64) -> i64 {
    let most = MAX_POSITION;
    match random.below(3) {
        0 => old.saturating_add(random.within(-9, 9)),
        1 => random.within(-100, 100),
        _ => random.pick(&[most, most + 1, -most, -most - 1, i64::MAX, i64::MIN, 0]),
    }
}

fn position(random: &mut Random, sheet: &Sheet) -> Damage {
    let v = index(random, counts(sheet.stage).0, Plan::MAX_VERTICES);
    let (name, old) =
        if random.once_in(2) { ("pre", sheet.drawing.preliminary[v]) } else { ("pos", sheet.drawing.position[v]) };
    change(&format!("{name} {v}"), far(random, old), old)
}

fn placing(random: &mut Random, sheet: &Sheet) -> Damage {
    let i = index(random, counts(sheet.stage).2, sheet.drawing.placings.len());
    let old = sheet.drawing.placings[i];
    if random.once_in(2) {
        let new = near(random, old.pass, &[0, 1, 2, 3, 4, 255]);
        change(&format!("pass {i}"), new, old.pass)
    } else {
        let new = near(random, old.level, &[0, 1, 2, 64, 65, 255]);
        change(&format!("level {i}"), new, old.level)
    }
}

/// Another number or position of a listed box; none if no box is listed where it was looked for.
fn listed_box(random: &mut Random, sheet: &Sheet) -> Option<Damage> {
    let i = index(random, counts(sheet.stage).2, sheet.drawing.placings.len());
    let k = random.below(usize::try_from(sheet.drawing.placings[i].boxes).ok()?);
    let old = sheet.drawing.boxes[sheet.drawing.place_of_box(i, k as u64)?];
    let new = if random.once_in(2) {
        StoredBox { vertex: near(random, old.vertex, &[0, 1_023, 1_024, 65_535]), ..old }
    } else {
        StoredBox { position: far(random, old.position), ..old }
    };
    let words = |listed: StoredBox| format!("{} {}", listed.vertex, listed.position);
    Some(change(&format!("box {i} {k}"), words(new), words(old)))
}
