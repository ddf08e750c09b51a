//! Damaged plan texts. Some damage is done to what a text says, so that checks 2 to 6 meet it, some to its lines and
//! bytes, most of which check 1 meets.

use crate::plan::{Draft, Plan, Segment, Vertex};
use crate::random::Random;
use crate::text;

/// The text of a draft, damaged in one way or several or, seldom, not at all.
pub(crate) fn damaged(random: &mut Random, mut draft: Draft) -> Vec<u8> {
    let way = random.below(8);
    if way < 5 {
        damage_draft(random, &mut draft);
    }
    let mut text = text::write_form(&draft);
    if way == 4 || way == 5 {
        damage_line(random, &mut text);
    }
    if way == 6 {
        damage_bytes(random, &mut text);
    }
    text
}

/// The same of a draft with ratings, whose damage may be to a rating.
pub(crate) fn damaged_rated(random: &mut Random, mut draft: Draft) -> Vec<u8> {
    if random.once_in(3) {
        change_rating(random, &mut draft);
        return text::write_form(&draft);
    }
    damaged(random, draft)
}

// ---------------------------------------------------------------------------------------------------------------------
// What the text says

fn damage_draft(random: &mut Random, draft: &mut Draft) {
    match random.below(16) {
        0 => draft.levels = random.pick(&[0, 1, 64, 65, 99_999]),
        1 => draft.gap = random.pick(&[0, Plan::MAX_GAP, Plan::MAX_GAP + 1, 99_999]),
        2 => draft.spacing = random.pick(&[0, Plan::MAX_SPACING, Plan::MAX_SPACING + 1, 99_999]),
        3 => change_half_width(random, draft),
        4 => add_levels(random, draft),
        5 => crowd_level(random, draft),
        6 => repeat_segments(random, draft),
        7 => change_kind(random, draft),
        8 | 9 => change_segment(random, draft),
        10 | 11 => disorder_segments(random, draft),
        12 | 13 => loosen_via(random, draft),
        _ => cross(random, draft),
    }
}

fn change_half_width(random: &mut Random, draft: &mut Draft) {
    let v = random.below(draft.vertices.len());
    if !draft.vertices[v].is_via {
        draft.vertices[v].half_width = random.pick(&[0, Plan::MAX_HALF_WIDTH, Plan::MAX_HALF_WIDTH + 1, 99_999]);
    }
}

/// Adds levels at the bottom, one or as many as make up some number of vertices.
fn add_levels(random: &mut Random, draft: &mut Draft) {
    let most = Plan::MAX_VERTICES;
    let vertices = random.pick(&[draft.vertices.len() + 1, most, most + 1]);
    while draft.vertices.len() < vertices {
        let size = (vertices - draft.vertices.len()).min(Plan::MAX_ON_LEVEL);
        draft.vertices.extend(vec![Vertex::new_box(1); size]);
        draft.sizes.push(size);
    }
    if !random.once_in(4) {
        draft.levels = draft.sizes.len() as i64;
    }
}

/// Fills up the last level, at times with one box too many.
fn crowd_level(random: &mut Random, draft: &mut Draft) {
    let size = Plan::MAX_ON_LEVEL + random.below(2);
    if let Some(last) = draft.sizes.last_mut() {
        let more = size.saturating_sub(*last);
        draft.vertices.extend(vec![Vertex::new_box(1); more]);
        *last += more;
    }
}

/// Repeats a segment until there are as many as a plan may have, or more, or too many for a text.
fn repeat_segments(random: &mut Random, draft: &mut Draft) {
    let count = random.pick(&[draft.segments.len() + 1, Plan::MAX_SEGMENTS, Plan::MAX_SEGMENTS + 1, 8_000]);
    if let Some(&segment) = draft.segments.last() {
        draft.segments.resize(count, segment);
    }
}

/// Turns a box into a via, or the other way round.
fn change_kind(random: &mut Random, draft: &mut Draft) {
    let vertex = random.below(draft.vertices.len());
    let is_via = draft.vertices[vertex].is_via;
    draft.vertices[vertex] = if is_via { Vertex::new_box(1) } else { Vertex::via() };
}

/// Gives a segment a wrong end: no vertex, one of another level, or both ends exchanged.
fn change_segment(random: &mut Random, draft: &mut Draft) {
    if draft.segments.is_empty() {
        return;
    }
    let vertices = draft.vertices.len();
    let i = random.below(draft.segments.len());
    let segment = &mut draft.segments[i];
    let (upper, lower) = segment.ends();
    let wrong = random.pick(&[0, upper, lower, vertices - 1, vertices, 1_024, 99_999]);
    (segment.upper, segment.lower) = match random.below(3) {
        0 => (lower, upper),
        1 => (wrong, lower),
        _ => (upper, wrong),
    };
    if random.once_in(2) {
        draft.segments.sort_unstable();
    }
}

/// Writes a rating at a limit or past it, or repeats a segment with another rating, a higher or a lower one.
fn change_rating(random: &mut Random, draft: &mut Draft) {
    if draft.segments.is_empty() {
        return;
    }
    let i = random.below(draft.segments.len());
    if random.once_in(4) {
        let rating = draft.segments[i].rating();
        let other = if rating < Plan::MAX_RATING { rating + 1 } else { rating - 1 };
        let repeated = Segment::rated(draft.segments[i].ends(), other);
        draft.segments.insert(i + random.below(2), repeated);
    } else {
        draft.segments[i].written = Some(random.pick(&[0, 1, 2, Plan::MAX_RATING, Plan::MAX_RATING + 1, 99_999]));
    }
}

/// Exchanges two segments, neighbours or any, or repeats one.
fn disorder_segments(random: &mut Random, draft: &mut Draft) {
    if draft.segments.is_empty() {
        return;
    }
    let i = random.below(draft.segments.len());
    let j = random.below(draft.segments.len());
    match random.below(3) {
        0 => draft.segments.insert(i, draft.segments[i]),
        1 => draft.segments.swap(i, j),
        _ => draft.segments.swap(i, i.saturating_sub(1)),
    }
}

/// Takes away a segment of a via, or adds one; all else stays in order.
fn loosen_via(random: &mut Random, draft: &mut Draft) {
    let at_via = |&i: &usize| {
        let Segment { upper, lower, .. } = draft.segments[i];
        [upper, lower].iter().any(|&v| draft.vertices.get(v).is_some_and(|vertex| vertex.is_via))
    };
    let choice: Vec<usize> = (0..draft.segments.len()).filter(at_via).collect();
    if choice.is_empty() {
        return;
    }
    let i = random.pick(&choice);
    let Segment { upper, lower, .. } = draft.segments[i];
    match random.below(3) {
        0 => drop(draft.segments.remove(i)),
        1 => draft.segments.push(Segment::new((upper.saturating_sub(1), lower))),
        _ => draft.segments.push(Segment::new((upper, lower + 1))),
    }
    draft.segments.sort_unstable();
    draft.segments.dedup_by_key(|segment| segment.ends());
}

/// Exchanges the lower ends of two segments, inner ones if there are two between the same levels.
fn cross(random: &mut Random, draft: &mut Draft) {
    let is_via = |v: usize| draft.vertices.get(v).is_some_and(|vertex| vertex.is_via);
    let inner = |&i: &usize| is_via(draft.segments[i].upper) && is_via(draft.segments[i].lower);
    let choice: Vec<usize> = (0..draft.segments.len()).filter(inner).collect();
    if choice.len() < 2 {
        return;
    }
    // Inner segments that follow each other are most likely between the same levels.
    let k = random.below(choice.len() - 1);
    let (i, j) = (choice[k], choice[k + 1]);
    let lower = draft.segments[i].lower;
    draft.segments[i].lower = draft.segments[j].lower;
    draft.segments[j].lower = lower;
    draft.segments.sort_unstable();
}

// ---------------------------------------------------------------------------------------------------------------------
// Lines and bytes

fn damage_line(random: &mut Random, text: &mut Vec<u8>) {
    let mut lines: Vec<Vec<u8>> = text.split_inclusive(|&byte| byte == b'\n').map(<[u8]>::to_vec).collect();
    let i = random.below(lines.len());
    let j = random.below(lines.len());
    match random.below(8) {
        0 => drop(lines.remove(i)),
        1 => lines.insert(j, lines[i].clone()),
        2 => lines.swap(i, j),
        3 => lines.truncate(i),
        4 => lines.insert(i, b"\n".to_vec()),
        5 => lines.insert(i, b"(level)\n".to_vec()),
        _ => change_number(random, &mut lines[i]),
    }
    *text = lines.concat();
}

/// Numbers at the edge of a limit or of the form.
const NUMBERS: [&str; 16] =
    ["0", "1", "5", "64", "65", "101", "201", "10001", "99999", "100000", "00", "07", "-1", "+1", "", "1 1"];

fn change_number(random: &mut Random, line: &mut Vec<u8>) {
    let digits: Vec<usize> = (0..line.len()).filter(|&i| line[i].is_ascii_digit()).collect();
    if digits.is_empty() {
        return;
    }
    let digit = random.pick(&digits);
    let is_other = |byte: &u8| !byte.is_ascii_digit();
    let start = line[..digit].iter().rposition(is_other).map_or(0, |i| i + 1);
    let end = line[digit..].iter().position(is_other).map_or(line.len(), |i| digit + i);
    line.splice(start..end, random.pick(&NUMBERS).bytes());
}

fn damage_bytes(random: &mut Random, text: &mut Vec<u8>) {
    let i = random.below(text.len());
    let byte = random.pick(b"0123456789()  \n\n\r\t-+;plevxsegnd\0\x80\xff");
    match random.below(6) {
        0 => text[i] = byte,
        1 => text.insert(i, byte),
        2 => drop(text.remove(i)),
        3 => text.truncate(i),
        4 => text.push(byte),
        _ if random.once_in(8) => text.resize(random.pick(&[text::MAX_BYTES, text::MAX_BYTES + 1, 100_000]), byte),
        _ => drop(text.pop()),
    }
}
