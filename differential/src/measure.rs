//! What the benchmarks share.

use reference::{generate, text};
use std::time::Instant;

/// Seconds that one call takes, over calls enough to be measured.
pub fn seconds(calls: usize, mut call: impl FnMut()) -> f64 {
    let began = Instant::now();
    for _ in 0..calls {
        call();
    }
    began.elapsed().as_secs_f64() / calls as f64
}

/// The median of some times.
pub fn median(mut values: Vec<f64>) -> f64 {
    values.sort_by(f64::total_cmp);
    values[values.len() / 2]
}

/// The least of some times.
fn least(values: Vec<f64>) -> f64 {
    values.into_iter().fold(f64::INFINITY, f64::min)
}

/// Rounds of which the shortest counts.
const TIMED_ROUNDS: usize = 400;

/// Seconds that such a round is to take, if one call does not take longer.
const TIMED_ROUND: f64 = 20e-6;

/// Nanoseconds that a call takes, in the shortest of many short rounds.
pub fn nanoseconds(mut call: impl FnMut()) -> f64 {
    let calls = (TIMED_ROUND / seconds(10, &mut call)).ceil() as usize;
    least(
        (0..TIMED_ROUNDS)
            .map(|_| seconds(calls, &mut call))
            .collect(),
    ) * 1e9
}

/// Whether the program was asked for `--times`, the times of the proved library alone for the script `compare-builds`; anything else that it
/// was asked for ends it.
pub fn asked_for_times(program: &str) -> bool {
    let words: Vec<String> = std::env::args().skip(1).collect();
    match words.iter().map(String::as_str).collect::<Vec<_>>()[..] {
        [] => false,
        ["--times"] => true,
        _ => {
            eprintln!("{program} [--times]");
            std::process::exit(2);
        }
    }
}

/// The first random plan of the kind that has this many vertices, give or take one in forty.
pub fn about(kind: &str, vertices: usize) -> Option<Vec<u8>> {
    let is_near = |plan_text: &Vec<u8>| {
        text::read(plan_text).is_ok_and(|plan| plan.vertices().abs_diff(vertices) <= vertices / 40)
    };
    (0..2_000)
        .filter_map(|seed| generate::generate(kind, seed))
        .find(is_near)
}
