//! The exported functions of the proved library `c_calls`, which `vamzsolik.h` declares for C. A slice passes as a pointer and then a
//! length.

use reference::marks::{Mark, Point};
use reference::requests::Request;

/// No report has more bytes.
pub const MAX_REPORT: usize = 119_834;

/// No picture has more bytes.
pub const MAX_PICTURE: usize = 1_306_334;

/// No plan has a longer text.
pub const MAX_TEXT: usize = 51_738;

/// No plan has more vertices.
pub const MAX_VERTICES: usize = 1_024;

/// Numbers of a mark in a buffer.
pub const NUMBERS: usize = 5;

/// No plan has more marks.
pub const MAX_MARKS: usize = MAX_VERTICES + 2_048;

extern "C" {
    #[allow(clippy::too_many_arguments)]
    fn place_run_c(
        r: u64,
        has_left: u32,
        left: i64,
        has_right: u32,
        right: i64,
        old: *const i64,
        old_len: usize,
        distances: *const u64,
        distances_len: usize,
        counts: *const u64,
        counts_len: usize,
        neighbours: *const i64,
        neighbours_len: usize,
        ratings: *const u64,
        ratings_len: usize,
        answer: *mut i64,
        answer_len: usize,
    ) -> u32;

    fn reread_c(text: *const u8, text_len: usize, out: *mut u8, out_len: usize) -> i64;

    fn report_c(text: *const u8, text_len: usize, out: *mut u8, out_len: usize) -> i64;

    fn report_tangled_c(text: *const u8, text_len: usize, out: *mut u8, out_len: usize) -> i64;

    fn text_back_c(text: *const u8, text_len: usize, out: *mut u8, out_len: usize) -> i64;

    fn untangle_c(
        text: *const u8,
        text_len: usize,
        out: *mut u8,
        out_len: usize,
        numbers: *mut u16,
        numbers_len: usize,
    ) -> i64;

    fn picture_c(
        text: *const u8,
        text_len: usize,
        names: *const u8,
        names_len: usize,
        out: *mut u8,
        out_len: usize,
    ) -> i64;

    fn marks_c(text: *const u8, text_len: usize, out: *mut f64, out_len: usize) -> i64;

    fn script_c(script: *const u8, script_len: usize, out: *mut u8, out_len: usize) -> i64;

    fn draw_c(text: *const u8, text_len: usize, out: *mut i64, out_len: usize) -> i64;
}

/// The proved place-run: 0 if accepted, 8 if refused. The request's own answer buffer stays; `answer` is written.
pub fn place_run(q: &Request, answer: &mut [i64]) -> u32 {
    // The function reads and writes the lent slices alone, within their lengths.
    unsafe {
        place_run_c(
            q.r,
            q.left.flag,
            q.left.value,
            q.right.flag,
            q.right.value,
            q.old.as_ptr(),
            q.old.len(),
            q.distances.as_ptr(),
            q.distances.len(),
            q.counts.as_ptr(),
            q.counts.len(),
            q.neighbours.as_ptr(),
            q.neighbours.len(),
            q.ratings.as_ptr(),
            q.ratings.len(),
            answer.as_mut_ptr(),
            answer.len(),
        )
    }
}

fn answer(code: i64) -> Result<usize, u32> {
    usize::try_from(code).map_err(|_| code.unsigned_abs() as u32)
}

/// The proved reader and writer: how many bytes of the plan's text were written into the buffer. Else the number of the
/// refusal, 14 if the buffer is too short, and the buffer is as it was.
pub fn reread(text: &[u8], out: &mut [u8]) -> Result<usize, u32> {
    // The function reads and writes the lent slices alone, within their lengths.
    answer(unsafe { reread_c(text.as_ptr(), text.len(), out.as_mut_ptr(), out.len()) })
}

/// Writes the report of a plan's text into the buffer: how many bytes it has. Else as for `reread`.
pub fn write_report(text: &[u8], out: &mut [u8]) -> Result<usize, u32> {
    // The function reads and writes the lent slices alone, within their lengths.
    answer(unsafe { report_c(text.as_ptr(), text.len(), out.as_mut_ptr(), out.len()) })
}

/// Writes the report of a text that may be tangled into the buffer, in the numbers of the text: how many bytes it has. Else as for
/// `reread`.
pub fn write_tangled_report(text: &[u8], out: &mut [u8]) -> Result<usize, u32> {
    // The function reads and writes the lent slices alone, within their lengths.
    answer(unsafe { report_tangled_c(text.as_ptr(), text.len(), out.as_mut_ptr(), out.len()) })
}

/// Loads a text that may be tangled and writes it back into the buffer, from the rearranged plan and its remembered numbers: how many
/// bytes it has. Else as for `reread`.
pub fn write_text_back(text: &[u8], out: &mut [u8]) -> Result<usize, u32> {
    // The function reads and writes the lent slices alone, within their lengths.
    answer(unsafe { text_back_c(text.as_ptr(), text.len(), out.as_mut_ptr(), out.len()) })
}

/// Writes the text of the rearranged plan into the buffer, and each vertex's number in the text given into the other: how many bytes
/// the text has. Else as for `reread`.
pub fn write_untangled(text: &[u8], out: &mut [u8], numbers: &mut [u16]) -> Result<usize, u32> {
    // The function reads and writes the lent slices alone, within their lengths.
    answer(unsafe {
        untangle_c(
            text.as_ptr(),
            text.len(),
            out.as_mut_ptr(),
            out.len(),
            numbers.as_mut_ptr(),
            numbers.len(),
        )
    })
}

/// Writes the answers to a script's commands into the buffer: how many bytes they have. Else 14, and the buffer is as it was.
pub fn write_answers(script: &[u8], out: &mut [u8]) -> Result<usize, u32> {
    // The function reads and writes the lent slices alone, within their lengths.
    answer(unsafe { script_c(script.as_ptr(), script.len(), out.as_mut_ptr(), out.len()) })
}

/// Writes the picture of a plan's drawing, its boxes named, into the buffer: how many bytes it has. Else as for `reread`; names that are
/// refused are told by 100 and their line.
pub fn write_picture(text: &[u8], names: &[u8], out: &mut [u8]) -> Result<usize, u32> {
    // The function reads and writes the lent slices alone, within their lengths.
    answer(unsafe {
        picture_c(
            text.as_ptr(),
            text.len(),
            names.as_ptr(),
            names.len(),
            out.as_mut_ptr(),
            out.len(),
        )
    })
}

/// Writes the marks of a plan's drawing into the buffer, five numbers each: how many marks there are. Else as for `reread`.
pub fn write_marks(text: &[u8], out: &mut [f64]) -> Result<usize, u32> {
    // The function reads and writes the lent slices alone, within their lengths.
    answer(unsafe { marks_c(text.as_ptr(), text.len(), out.as_mut_ptr(), out.len()) })
}

/// Preliminary and final positions, one after the other, at the front of `out`: how many vertices there are, or the refusal's
/// number below 0.
pub fn draw(text: &[u8], out: &mut [i64]) -> i64 {
    // The function reads and writes the lent slices alone, within their lengths.
    unsafe { draw_c(text.as_ptr(), text.len(), out.as_mut_ptr(), out.len()) }
}

/// The report of a plan's text, or the number of its refusal.
pub fn report(text: &[u8]) -> Result<Vec<u8>, u32> {
    let mut out = vec![0; MAX_REPORT];
    let length = write_report(text, &mut out)?;
    out.truncate(length);
    Ok(out)
}

/// The picture of a plan's drawing with these names, or the number of the refusal.
pub fn picture(text: &[u8], names: &[u8]) -> Result<Vec<u8>, u32> {
    let mut out = vec![0; MAX_PICTURE];
    let length = write_picture(text, names, &mut out)?;
    out.truncate(length);
    Ok(out)
}

/// The marks of a plan's drawing, or the number of the text's refusal.
pub fn marks(text: &[u8]) -> Result<Vec<Mark>, u32> {
    let mut out = vec![0.0; NUMBERS * MAX_MARKS];
    let count = write_marks(text, &mut out)?;
    Ok(out.chunks_exact(NUMBERS).take(count).map(mark).collect())
}

fn mark(numbers: &[f64]) -> Mark {
    let (p, q) = (
        Point {
            x: numbers[1],
            y: numbers[2],
        },
        Point {
            x: numbers[3],
            y: numbers[4],
        },
    );
    match numbers[0] {
        0.0 => Mark::Box(p, q.x),
        1.0 => Mark::Bend(p),
        _ => Mark::Line(p, q),
    }
}
