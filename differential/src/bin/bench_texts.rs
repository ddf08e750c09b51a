//! How long reading a plan text and writing it again takes, beside the reference, in one process: ratios, with absolute times beside them.

use differential::measure::{median, seconds};
use differential::proved;
use reference::generate::generate;
use reference::text;
use std::hint::black_box;

const ROUNDS: usize = 41;

/// Both from the text to the text written again.
fn plan_text(name: &str, bytes: &[u8]) {
    let mut out = vec![0; bytes.len()];
    // Rounds so short that other work on the machine falls into few of them.
    let calls = 200_000 / bytes.len() + 1;
    let mut times = [Vec::new(), Vec::new()];
    for _ in 0..20 * ROUNDS {
        times[0].push(seconds(calls, || {
            assert!(black_box(proved::reread(black_box(bytes), &mut out)).is_ok())
        }));
        times[1].push(seconds(calls, || {
            black_box(
                text::read(black_box(bytes))
                    .map(|plan| text::write(&plan))
                    .expect("an acceptable plan"),
            );
        }));
    }
    assert_eq!(out, bytes);
    let [proved, reference] = times.map(median);
    let (length, ratio) = (bytes.len(), proved / reference);
    println!(
        "reread {name:11} {length:5} bytes  proved {:7.2} us  reference {:7.2} us  ratio {ratio:.2}",
        proved * 1e6,
        reference * 1e6
    );
}

fn main() {
    let large = [
        (
            "longest",
            include_bytes!("../../../reference/tests/vectors/longest.plan").to_vec(),
        ),
        ("max 0", generate("max", 0).expect("a kind")),
        ("max 1", generate("max", 1).expect("a kind")),
        ("max 2", generate("max", 2).expect("a kind")),
        ("rated-max 0", generate("rated-max", 0).expect("a kind")),
        ("rated-max 1", generate("rated-max", 1).expect("a kind")),
        ("rated-max 2", generate("rated-max", 2).expect("a kind")),
    ];
    for (name, bytes) in large {
        plan_text(name, &bytes);
    }
    plan_text(
        "case 1",
        include_bytes!("../../../reference/tests/vectors/case-1.plan"),
    );
}
