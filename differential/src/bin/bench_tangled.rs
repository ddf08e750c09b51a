//! How long a tangled plan takes, in one process: its report beside that of the rearranged plan's text, which takes the first way, and
//! beside the reference; and rearranging alone, of plans with as many segments as there may be.

use differential::measure::{median, seconds};
use differential::proved::{self, MAX_REPORT, MAX_TEXT, MAX_VERTICES};
use reference::generate::generate;
use reference::plan::{Draft, Segment, Vertex};
use reference::{report, tangled, text};
use std::hint::black_box;

const ROUNDS: usize = 41;

/// Plans of the kind `crossed-max` that are measured, and how many of them with ratings besides.
const PLANS: u64 = 12;
const RATED_PLANS: u64 = 6;

/// The report of a tangled plan against that of its rearranged text, and the reference's.
fn reports(name: &str, plan_text: &[u8]) {
    let plan = tangled::read(plan_text)
        .expect("a plan that may be tangled")
        .plan;
    let straight = text::write(&plan);
    let mut out = vec![0; MAX_REPORT];
    let mut times = [Vec::new(), Vec::new(), Vec::new()];
    // Either way is measured after the reference: what ran before has left its traces in the caches.
    for _ in 0..ROUNDS {
        times[0].push(seconds(5, || {
            black_box(proved::write_tangled_report(black_box(plan_text), &mut out))
                .expect("a plan");
        }));
        times[2].push(seconds(5, || {
            black_box(report::answer_tangled(black_box(plan_text)));
        }));
        times[1].push(seconds(5, || {
            black_box(proved::write_report(black_box(&straight), &mut out)).expect("a plan");
        }));
        times[2].push(seconds(5, || {
            black_box(report::answer_tangled(black_box(plan_text)));
        }));
    }
    let [tangled, first_way, reference] = times.map(median);
    println!(
        "tangled report {name:19} V={:4} E={:4}  proved {:8.1} us  first way {:8.1} us  ratio {:.2}  reference {:8.1} us  ratio {:.2}",
        plan.vertices(),
        plan.segments().len(),
        tangled * 1e6,
        first_way * 1e6,
        tangled / first_way,
        reference * 1e6,
        tangled / reference
    );
}

/// Rearranging, from text to text.
fn rearranging(name: &str, plan_text: &[u8]) {
    let (mut out, mut numbers) = (vec![0; MAX_TEXT], vec![0; MAX_VERTICES]);
    let mut times = [Vec::new(), Vec::new()];
    for _ in 0..ROUNDS {
        times[0].push(seconds(5, || {
            black_box(proved::write_untangled(
                black_box(plan_text),
                &mut out,
                &mut numbers,
            ))
            .expect("a plan");
        }));
        times[1].push(seconds(5, || {
            black_box(
                tangled::read(black_box(plan_text))
                    .map(|loaded| text::write(&loaded.plan))
                    .expect("a plan"),
            );
        }));
    }
    let [proved, reference] = times.map(median);
    println!(
        "untangle {name:19}  proved {:8.1} us  reference {:8.1} us  ratio {:.2}",
        proved * 1e6,
        reference * 1e6,
        proved / reference
    );
}

/// A plan whose segments are as far from sorted as can be: 16 vias at each end of a level change places across 32 boxes, which have
/// nearly all segments.
fn far_from_sorted() -> Vec<u8> {
    let (boxes, vias) = (
        |count| vec![Vertex::new_box(1); count],
        |count| vec![Vertex::via(); count],
    );
    let straight = (0..32).map(|i| (i, 32 + i));
    let crossed = (0..32).map(|i| (32 + i, if i < 16 { 127 - i } else { 95 - i }));
    let ends = (0..64).flat_map(|i| match i {
        16..48 => (0..61).map(|k| (64 + i, 128 + k)).collect(),
        _ => vec![(64 + i, 128 + i)],
    });
    let draft = Draft {
        levels: 4,
        gap: 1,
        spacing: 1,
        sizes: vec![32, 32, 64, 64],
        vertices: [
            boxes(32),
            vias(32),
            vias(16),
            boxes(32),
            vias(16),
            boxes(64),
        ]
        .concat(),
        segments: straight
            .chain(crossed)
            .chain(ends)
            .map(Segment::new)
            .collect(),
    };
    text::write_form(&draft)
}

fn main() {
    let named = |kind: &'static str, seed: u64| {
        (
            format!("{kind} {seed}"),
            generate(kind, seed).expect("a kind"),
        )
    };
    let crossed = (0..PLANS)
        .map(|seed| named("crossed-max", seed))
        .chain((0..RATED_PLANS).map(|seed| named("rated-crossed-max", seed)));
    let plans: Vec<(String, Vec<u8>)> = crossed
        .filter(|(_, plan_text)| text::read(plan_text).is_err())
        .collect();
    for (name, plan_text) in &plans {
        reports(name, plan_text);
    }
    let unsorted = ("far from sorted".to_string(), far_from_sorted());
    for (name, plan_text) in plans.iter().chain([&unsorted]) {
        rearranging(name, plan_text);
    }
}
