//! The plan text: reading it (check 1 here, checks 2 to 6 in [`crate::plan`]) and writing it.
//!
//! ```text
//! (plan K G S)
//! (level (box 3) (via))     one line per level, at least one vertex in each
//! (seg A B)                 with a rating other than 1 (seg A B W)
//! (end)
//! ```

use crate::cursor::Cursor;
use crate::plan::{Draft, Plan, Segment, Vertex};
use crate::{refusal, Refusal};

/// A text of more bytes is refused with 1.
pub const MAX_BYTES: usize = 65_536;

/// Digits of the longest number in a plan text.
pub(crate) const MAX_DIGITS: usize = 5;

/// Reads a plan text; each check goes over the whole text before the next begins.
pub fn read(text: &[u8]) -> Result<Plan, Refusal> {
    Plan::new(read_form(text).ok_or(refusal::FORM)?)
}

/// The same without check 6, see [`Plan::up_to_check_5`].
pub(crate) fn read_up_to_check_5(text: &[u8]) -> Result<Plan, Refusal> {
    Plan::up_to_check_5(read_form(text).ok_or(refusal::FORM)?)
}

/// What the text says, if it is in the text's form (check 1).
pub fn read_form(text: &[u8]) -> Option<Draft> {
    if text.len() > MAX_BYTES {
        return None;
    }
    let mut cursor = Cursor::new(text);
    let mut draft = read_head(&mut cursor)?;
    while cursor.take(b"(level") {
        let before = draft.vertices.len();
        read_level(&mut cursor, &mut draft.vertices)?;
        draft.sizes.push(draft.vertices.len() - before);
    }
    while cursor.take(b"(seg ") {
        draft.segments.push(read_segment(&mut cursor)?);
    }
    cursor.expect(b"(end)\n")?;
    cursor.at_end().then_some(draft)
}

fn read_head(cursor: &mut Cursor) -> Option<Draft> {
    cursor.expect(b"(plan ")?;
    let levels = cursor.number(MAX_DIGITS)?;
    cursor.expect(b" ")?;
    let gap = cursor.number(MAX_DIGITS)?;
    cursor.expect(b" ")?;
    let spacing = cursor.number(MAX_DIGITS)?;
    cursor.expect(b")\n")?;
    Some(Draft { levels, gap, spacing, sizes: Vec::new(), vertices: Vec::new(), segments: Vec::new() })
}

/// The vertices of a level, at least one, and the line's end.
fn read_level(cursor: &mut Cursor, vertices: &mut Vec<Vertex>) -> Option<()> {
    loop {
        cursor.expect(b" (")?;
        vertices.push(read_vertex(cursor)?);
        if cursor.take(b")\n") {
            return Some(());
        }
    }
}

fn read_vertex(cursor: &mut Cursor) -> Option<Vertex> {
    if cursor.take(b"via)") {
        return Some(Vertex::via());
    }
    cursor.expect(b"box ")?;
    let half_width = cursor.number(MAX_DIGITS)?;
    cursor.expect(b")")?;
    Some(Vertex::new_box(half_width))
}

/// The two ends, a rating if there is one, and the line's end. The form allows any rating, also a written 1; check 2 does not.
fn read_segment(cursor: &mut Cursor) -> Option<Segment> {
    let upper = cursor.number(MAX_DIGITS)?;
    cursor.expect(b" ")?;
    let lower = cursor.number(MAX_DIGITS)?;
    let written = if cursor.take(b" ") { Some(cursor.number(MAX_DIGITS)?) } else { None };
    cursor.expect(b")\n")?;
    Some(Segment { upper: upper as usize, lower: lower as usize, written })
}

/// The text of a plan. Reading it gives the plan back.
pub fn write(plan: &Plan) -> Vec<u8> {
    write_form(plan.draft())
}

/// The text that says what the draft says.
pub fn write_form(draft: &Draft) -> Vec<u8> {
    let mut text = Vec::with_capacity(16 * (draft.vertices.len() + draft.segments.len()));
    let mut vertices = draft.vertices.iter();
    push_line(&mut text, b"(plan", &[draft.levels, draft.gap, draft.spacing]);
    for &size in &draft.sizes {
        text.extend_from_slice(b"(level");
        vertices.by_ref().take(size).for_each(|vertex| push_vertex(&mut text, vertex));
        text.extend_from_slice(b")\n");
    }
    for &Segment { upper, lower, written } in &draft.segments {
        let ends = [upper as i64, lower as i64];
        match written {
            None => push_line(&mut text, b"(seg", &ends),
            Some(rating) => push_line(&mut text, b"(seg", &[ends[0], ends[1], rating]),
        }
    }
    text.extend_from_slice(b"(end)\n");
    text
}

fn push_vertex(text: &mut Vec<u8>, vertex: &Vertex) {
    if vertex.is_via {
        text.extend_from_slice(b" (via)");
    } else {
        text.extend_from_slice(b" (box ");
        push_number(text, vertex.half_width);
        text.push(b')');
    }
}

/// One line: `head`, the numbers, a closing bracket and LF.
pub(crate) fn push_line(text: &mut Vec<u8>, head: &[u8], numbers: &[i64]) {
    text.extend_from_slice(head);
    for &number in numbers {
        text.push(b' ');
        push_number(text, number);
    }
    text.extend_from_slice(b")\n");
}

/// A number in decimal, a minus sign before negatives.
pub(crate) fn push_number(text: &mut Vec<u8>, number: i64) {
    let mut digits = [0; 20];
    let mut first = digits.len();
    let mut rest = number.unsigned_abs();
    loop {
        first -= 1;
        digits[first] = b'0' + (rest % 10) as u8;
        rest /= 10;
        if rest == 0 {
            break;
        }
    }
    if number < 0 {
        text.push(b'-');
    }
    text.extend_from_slice(&digits[first..]);
}
