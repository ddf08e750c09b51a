//! The report: printing a drawing, and reading a printed one.

use crate::cursor::Cursor;
use crate::passes::{self, Drawing, Placing};
use crate::plan::Plan;
use crate::tangled::{self, Loaded};
use crate::text::{self, push_line, push_number};
use crate::Refusal;

/// What the counter program prints for a text: the report, or the one line of a refusal.
pub fn answer(text: &[u8]) -> Vec<u8> {
    match text::read(text) {
        Ok(plan) => lines(&plan, &passes::draw(&plan)),
        Err(number) => refused(number),
    }
}

/// The same for a text that may be tangled, in the numbers of the text.
pub fn answer_tangled(text: &[u8]) -> Vec<u8> {
    match tangled::read(text) {
        Ok(loaded) => remembered_lines(&loaded, &passes::draw(&loaded.plan)),
        Err(number) => refused(number),
    }
}

/// The line of a refusal.
pub fn refused(number: Refusal) -> Vec<u8> {
    let mut line = Vec::new();
    push_line(&mut line, b"(refused", &[i64::from(number)]);
    line
}

/// All report lines of a drawing, in the plan's own numbers.
pub fn lines(plan: &Plan, drawing: &Drawing) -> Vec<u8> {
    let own: Vec<usize> = (0..plan.vertices()).collect();
    lines_by(plan, &own, drawing)
}

/// All report lines of a drawing in the remembered numbers. E1: "Report lines use those numbers, at-lines in their order,
/// placings left to right."
pub fn remembered_lines(loaded: &Loaded, drawing: &Drawing) -> Vec<u8> {
    lines_by(&loaded.plan, &loaded.numbers, drawing)
}

/// All report lines, vertex v printed as `numbers[v]`; the numbers are all that there are, once each.
fn lines_by(plan: &Plan, numbers: &[usize], drawing: &Drawing) -> Vec<u8> {
    let mut report = Vec::with_capacity(64 + 32 * plan.vertices() + 24 * drawing.placed.len());
    push_line(&mut report, b"(drawing", &[plan.vertices() as i64, drawing.placings.len() as i64]);
    for (number, v) in tangled::inverse(numbers).into_iter().enumerate() {
        let (preliminary, position) = (drawing.preliminary[v], drawing.position[v]);
        push_line(&mut report, b"(at", &[printed(number), preliminary, position, plan.height(plan.level_of(v))]);
    }
    for placing in &drawing.placings {
        push_placing(&mut report, placing, drawing.boxes(placing), numbers);
    }
    report.extend_from_slice(b"(end)\n");
    report
}

fn push_placing(report: &mut Vec<u8>, placing: &Placing, boxes: &[(usize, i64)], numbers: &[usize]) {
    report.extend_from_slice(b"(place ");
    push_number(report, i64::from(placing.pass));
    report.push(b' ');
    push_number(report, placing.level as i64);
    for &(v, position) in boxes {
        report.extend_from_slice(b" (");
        push_number(report, printed(numbers[v]));
        report.push(b' ');
        push_number(report, position);
        report.push(b')');
    }
    report.extend_from_slice(b")\n");
}

/// A vertex's number as it is printed.
fn printed(number: usize) -> i64 {
    number as i64
}

/// Digits of the longest number taken from a report.
const MAX_DIGITS: usize = 18;

/// The drawing of which this is the report, if it has the form of a report of this plan, vertices in order and each at
/// the height of its level. Positions and placings may be any.
pub fn read(plan: &Plan, report: &[u8]) -> Option<Drawing> {
    let mut cursor = Cursor::new(report);
    let [vertices, placings] = read_numbers(&mut cursor, b"(drawing ")?;
    cursor.expect(b")\n")?;
    let mut drawing =
        Drawing { preliminary: Vec::new(), position: Vec::new(), placings: Vec::new(), placed: Vec::new() };
    for v in 0..plan.vertices() {
        let [number, preliminary, position, height] = read_numbers(&mut cursor, b"(at ")?;
        cursor.expect(b")\n")?;
        drawing.preliminary.push(preliminary);
        drawing.position.push(position);
        (number == printed(v) && height == plan.height(plan.level_of(v))).then_some(())?;
    }
    while !cursor.take(b"(end)\n") {
        read_placing(&mut cursor, &mut drawing)?;
    }
    let counts_agree = vertices == plan.vertices() as i64 && placings == drawing.placings.len() as i64;
    (counts_agree && cursor.at_end()).then_some(drawing)
}

fn read_placing(cursor: &mut Cursor, drawing: &mut Drawing) -> Option<()> {
    let [pass, level] = read_numbers(cursor, b"(place ")?;
    let first = drawing.placed.len();
    while !cursor.take(b")\n") {
        let [v, position] = read_numbers(cursor, b" (")?;
        cursor.expect(b")")?;
        drawing.placed.push((usize::try_from(v).ok()?, position));
    }
    let (pass, level) = (u32::try_from(pass).ok()?, usize::try_from(level).ok()?);
    drawing.placings.push(Placing { pass, level, boxes: first..drawing.placed.len() });
    Some(())
}

/// `head`, then numbers with single spaces between.
fn read_numbers<const N: usize>(cursor: &mut Cursor, head: &[u8]) -> Option<[i64; N]> {
    cursor.expect(head)?;
    let mut numbers = [0; N];
    for (i, number) in numbers.iter_mut().enumerate() {
        if i > 0 {
            cursor.expect(b" ")?;
        }
        *number = cursor.signed(MAX_DIGITS)?;
    }
    Some(numbers)
}
