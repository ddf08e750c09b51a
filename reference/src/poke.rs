//! The command poke: alters the stored record of a sheet, so that scripts reach sheets handed in.

use crate::sheet::{Sheet, Stage};
use crate::stored::{StoredBox, StoredPlan, StoredVertex};
use crate::words::number;

/// Alters the record as the words say; none, and nothing altered, if they are no poke. What is stored may be any number
/// of 64 bits; indexes stay within the record.
pub(crate) fn poke(sheet: &mut Sheet, words: &[&str]) -> Option<()> {
    let Sheet { stage, plan, loading, drawing } = sheet;
    match *words {
        ["stage", ref words @ ..] => *stage = stage_in(words)?,
        ["k", k] => plan.levels = number(k)?,
        ["g", g] => plan.gap = number(g)?,
        ["s", s] => plan.spacing = number(s)?,
        ["size", level, size] => *entry(&mut plan.sizes, level)? = number(size)?,
        ["vertex", i, kind, half_width] => *entry(&mut plan.vertices, i)? = vertex_in(kind, half_width)?,
        ["seg", i, a, b] => poke_segment(plan, i, [a, b, "1"])?,
        ["seg", i, a, b, rating] => poke_segment(plan, i, [a, b, rating])?,
        ["mem", i, number_in_text] => *entry(&mut loading.numbers, i)? = number(number_in_text)?,
        ["tangled", "0"] => loading.tangled = false,
        ["tangled", "1"] => loading.tangled = true,
        ["pre", i, x] => *entry(&mut drawing.preliminary, i)? = number(x)?,
        ["pos", i, x] => *entry(&mut drawing.position, i)? = number(x)?,
        ["pass", i, pass] => entry(&mut drawing.placings, i)?.pass = number(pass)?,
        ["level", i, level] => entry(&mut drawing.placings, i)?.level = number(level)?,
        ["box", placing, k, vertex, x] => {
            let place = drawing.place_of_box(number(placing)?, number(k)?)?;
            drawing.boxes[place] = StoredBox { vertex: number(vertex)?, position: number(x)? };
        }
        _ => return None,
    }
    Some(())
}

/// The entry that a word names.
fn entry<'a, T>(entries: &'a mut [T], index: &str) -> Option<&'a mut T> {
    entries.get_mut(number::<usize>(index)?)
}

/// The ends and the rating of a segment; none, and nothing altered, if a word is no number.
fn poke_segment(plan: &mut StoredPlan, index: &str, [a, b, rating]: [&str; 3]) -> Option<()> {
    let (ends, rating) = ((number(a)?, number(b)?), number(rating)?);
    *entry(&mut plan.segments, index)? = ends;
    *entry(&mut plan.ratings, index)? = rating;
    Some(())
}

fn stage_in(words: &[&str]) -> Option<Stage> {
    match *words {
        ["empty"] => Some(Stage::Empty),
        ["loaded", v, e] => Some(Stage::Loaded { vertices: number(v)?, segments: number(e)? }),
        ["drawn", v, e, p] => Some(Stage::Drawn { vertices: number(v)?, segments: number(e)?, placings: number(p)? }),
        _ => None,
    }
}

fn vertex_in(kind: &str, half_width: &str) -> Option<StoredVertex> {
    let is_via = match kind {
        "box" => false,
        "via" => true,
        _ => return None,
    };
    Some(StoredVertex { is_via, half_width: number(half_width)? })
}
