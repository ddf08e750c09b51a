//! How long the proved draw takes from text to final positions, beside the reference, in one process: ratios, with absolute
//! times beside them; or, with `--times`, how long the proved draw alone takes, for the script `compare-builds`.

use differential::measure::{about, asked_for_times, median, nanoseconds, seconds};
use differential::proved;
use differential::vectors;
use reference::plan::Plan;
use reference::{passes, text};
use std::fs;
use std::hint::black_box;

const ROUNDS: usize = 21;

/// Both from the same text to final positions.
fn beside_reference(name: &str, plan_text: &[u8]) {
    let plan = text::read(plan_text).expect("an acceptable plan");
    let vertices = plan.vertices();
    let mut out = vec![0; 2 * vertices];
    let calls = 20_000 / (vertices + 10) + 1;
    let (mut proved_times, mut reference_times) = (Vec::new(), Vec::new());
    for _ in 0..ROUNDS {
        proved_times.push(seconds(calls, || {
            black_box(proved::draw(black_box(plan_text), &mut out));
        }));
        reference_times.push(seconds(calls, || {
            let plan = text::read(black_box(plan_text)).expect("an acceptable plan");
            black_box(passes::draw(&plan));
        }));
    }
    assert_eq!(out[vertices..], passes::draw(&plan).position);
    let (a, b) = (median(proved_times), median(reference_times));
    println!(
        "draw {name:16} V={vertices:4} E={:4}  proved {:9.1} us  reference {:9.1} us  ratio {:.2}",
        plan.segments().len(),
        a * 1e6,
        b * 1e6,
        a / b
    );
}

/// The proved draw alone.
fn time(name: &str, plan_text: &[u8]) {
    let mut out = vec![0; 2 * Plan::MAX_VERTICES];
    let time = nanoseconds(|| {
        black_box(proved::draw(black_box(plan_text), &mut out));
    });
    println!("{time:.1} {}", name.replace(' ', "-"));
}

fn main() {
    let measure = if asked_for_times("bench_draw") {
        time
    } else {
        beside_reference
    };
    for (kind, vertices) in [
        ("medium", 100),
        ("vias", 100),
        ("wide", 100),
        ("deep", 100),
        ("wide", 300),
        ("deep", 300),
        ("max", 1_000),
        ("rated-medium", 100),
        ("rated-vias", 100),
        ("rated-wide", 300),
        ("rated-deep", 300),
        ("rated-max", 1_000),
    ] {
        measure(
            &format!("{kind} {vertices}"),
            &about(kind, vertices).expect("a plan"),
        );
    }
    for name in [
        "max-1",
        "max-2",
        "max-3",
        "far",
        "longest",
        "staircase",
        "stairs-1",
        "stairs-2",
        "stairs-3",
        "stairs-4",
        "zigzag",
        "chains-1",
        "chains-2",
        "chains-4",
        "chains-6",
        "wide-1",
        "wide-2",
        "wide-3",
        "deep-1",
        "deep-2",
        "deep-3",
        "deep-4",
    ] {
        let plan_text = fs::read(vectors::plan(name)).expect("a vector");
        measure(name, &plan_text);
    }
}
