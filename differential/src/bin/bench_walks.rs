//! How long reading takes on plans whose levels are full of vias, where check 6 has the most to do: beside the reference, in one process;
//! or, with `--times`, how long the proved library alone takes on these and on every vector, for the script `compare-builds`.

use differential::measure::{asked_for_times, median, nanoseconds, seconds};
use differential::{proved, vectors};
use reference::plan::{Draft, Plan, Segment, Vertex};
use reference::text;
use std::fs;
use std::hint::black_box;
use std::path::Path;

/// Rounds so short that other work on the machine falls into few of them.
const ROUNDS: usize = 820;

/// The number of a buffer that is too short.
const SHORT: u32 = 14;

/// Vertices on each level.
const WIDE: usize = Plan::MAX_ON_LEVEL;

/// Sixteen levels, which is as many as can be full.
const LEVELS: usize = Plan::MAX_VERTICES / WIDE;

/// Cables side by side from the boxes of the top level to those of the bottom level. With a crossing, the segments from that place of that
/// level and from the next exchange their lower ends; places and levels count from 0.
fn side_by_side(crossing: Option<(usize, usize)>) -> Vec<u8> {
    let vertex = |v: usize| match v / WIDE {
        level if level == 0 || level == LEVELS - 1 => Vertex::new_box(1),
        _ => Vertex::via(),
    };
    let mut segments: Vec<(usize, usize)> =
        (0..(LEVELS - 1) * WIDE).map(|v| (v, v + WIDE)).collect();
    if let Some((level, place)) = crossing {
        let first = level * WIDE + place;
        (segments[first].1, segments[first + 1].1) = (segments[first + 1].1, segments[first].1);
    }
    text::write_form(&Draft {
        levels: LEVELS as i64,
        gap: 1,
        spacing: 1,
        sizes: vec![WIDE; LEVELS],
        vertices: (0..Plan::MAX_VERTICES).map(vertex).collect(),
        segments: segments.into_iter().map(Segment::new).collect(),
    })
}

/// The plans with their names: no crossing, one of the last two segments between vias, one of the first two.
fn walk_plans() -> [(String, Vec<u8>); 3] {
    [
        ("walk-clear", None),
        ("walk-crossed-at-end", Some((LEVELS - 3, WIDE - 2))),
        ("walk-crossed-at-start", Some((1, 0))),
    ]
    .map(|(name, crossing)| (name.to_string(), side_by_side(crossing)))
}

/// Has the proved library read a text: the number that refuses it, or 14, because the plan has no buffer to be written into.
fn read(plan_text: &[u8], accepted: bool) -> u32 {
    let answer = if accepted {
        proved::reread(plan_text, &mut [])
    } else {
        proved::write_report(plan_text, &mut [])
    };
    answer.expect_err("nothing is written")
}

/// Whether the reference accepts a text; the proved library must give the same refusal.
fn is_accepted(name: &str, plan_text: &[u8]) -> bool {
    let refusal = text::read(plan_text).err();
    assert_eq!(
        read(plan_text, refusal.is_none()),
        refusal.unwrap_or(SHORT),
        "{name}"
    );
    refusal.is_none()
}

/// Both from the same text to the plan, or to its refusal.
fn beside_reference(name: &str, plan_text: &[u8]) {
    let accepted = is_accepted(name, plan_text);
    let calls = 200_000 / plan_text.len() + 1;
    let mut times = [Vec::new(), Vec::new()];
    for _ in 0..ROUNDS {
        times[0].push(seconds(calls, || {
            black_box(read(black_box(plan_text), accepted));
        }));
        times[1].push(seconds(calls, || {
            black_box(text::read(black_box(plan_text)).is_ok());
        }));
    }
    let [proved, reference] = times.map(median);
    let (length, ratio) = (plan_text.len(), proved / reference);
    println!(
        "read {name:21} {length:5} bytes  proved {:7.2} us  reference {:7.2} us  ratio {ratio:.2}",
        proved * 1e6,
        reference * 1e6
    );
}

fn vector(file: &Path) -> (String, Vec<u8>) {
    let name = file
        .file_stem()
        .expect("a name")
        .to_string_lossy()
        .into_owned();
    (name, fs::read(file).expect("a plan"))
}

fn main() {
    if !asked_for_times("bench_walks") {
        for (name, plan_text) in walk_plans() {
            beside_reference(&name, &plan_text);
        }
        return;
    }
    let vectors = vectors::plans().into_iter().map(|file| vector(&file));
    for (name, plan_text) in walk_plans().into_iter().chain(vectors) {
        let accepted = is_accepted(&name, &plan_text);
        let time = nanoseconds(|| {
            black_box(read(black_box(&plan_text), accepted));
        });
        println!("{time:.1} {name}");
    }
}
