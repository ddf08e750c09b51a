//! How long the way from a text to its report and its marks takes, beside the reference, in one process; and the whole program
//! `counter`, from its start to its end, beside the reference's.

use differential::measure::{about, median, seconds};
use differential::proved::{self, MAX_MARKS, MAX_REPORT, NUMBERS};
use differential::vectors;
use reference::{marks, passes, report, text};
use std::fs::{self, File};
use std::hint::black_box;
use std::path::{Path, PathBuf};
use std::process::{Command, Stdio};

const ROUNDS: usize = 41;

/// How often a program is started.
const STARTS: usize = 101;

fn print(what: &str, name: &str, vertices: usize, proved: f64, reference: f64) {
    println!(
        "{what:8} {name:14} V={vertices:4}  proved {:9.1} us  reference {:9.1} us  ratio {:.2}",
        proved * 1e6,
        reference * 1e6,
        proved / reference
    );
}

/// Both from the same text to the report, and to the marks.
fn measure(name: &str, plan_text: &[u8]) {
    let plan = text::read(plan_text).expect("an acceptable plan");
    let mut out = vec![0; MAX_REPORT];
    let mut numbers = vec![0.0; NUMBERS * MAX_MARKS];
    let calls = 10_000 / (plan.vertices() + 10) + 1;
    let mut times = [Vec::new(), Vec::new(), Vec::new(), Vec::new()];
    for _ in 0..ROUNDS {
        times[0].push(seconds(calls, || {
            black_box(proved::write_report(black_box(plan_text), &mut out))
                .expect("an acceptable plan");
        }));
        times[1].push(seconds(calls, || {
            black_box(report::answer(black_box(plan_text)));
        }));
        times[2].push(seconds(calls, || {
            black_box(proved::write_marks(black_box(plan_text), &mut numbers))
                .expect("an acceptable plan");
        }));
        times[3].push(seconds(calls, || {
            let plan = text::read(black_box(plan_text)).expect("an acceptable plan");
            black_box(marks::marks(&plan, &passes::draw(&plan)));
        }));
    }
    let [report, report_reference, marks, marks_reference] = times.map(median);
    print("report", name, plan.vertices(), report, report_reference);
    print("marks", name, plan.vertices(), marks, marks_reference);
}

/// Seconds from the program's start to its end.
fn process(program: &Path, words: &[&str], plan: &Path) -> f64 {
    seconds(1, || {
        let input = File::open(plan).expect("a plan");
        let mut command = Command::new(program);
        let status = command
            .args(words)
            .stdin(input)
            .stdout(Stdio::null())
            .status()
            .expect("the program");
        assert!(status.success());
    })
}

fn measure_process(name: &str, root: &Path, plan: &Path) {
    let (counter, reference) = (
        root.join("crates/counter/out/counter"),
        root.join("reference/target/release/reference"),
    );
    let (mut proved_times, mut reference_times) = (Vec::new(), Vec::new());
    for _ in 0..STARTS {
        proved_times.push(process(&counter, &[], plan));
        reference_times.push(process(&reference, &["report"], plan));
    }
    let vertices = text::read(&fs::read(plan).expect("a plan"))
        .expect("an acceptable plan")
        .vertices();
    print(
        "process",
        name,
        vertices,
        median(proved_times),
        median(reference_times),
    );
}

fn main() {
    for (kind, vertices) in [
        ("medium", 100),
        ("vias", 100),
        ("wide", 100),
        ("deep", 100),
        ("wide", 300),
        ("deep", 300),
        ("max", 1_000),
        ("rated-wide", 300),
        ("rated-deep", 300),
        ("rated-max", 1_000),
    ] {
        measure(
            &format!("{kind} {vertices}"),
            &about(kind, vertices).expect("a plan"),
        );
    }
    let root = PathBuf::from(env!("CARGO_MANIFEST_DIR")).join("..");
    let plans = [
        "case-1",
        "max-1",
        "max-2",
        "max-3",
        "far",
        "longest",
        "staircase",
        "zigzag",
        "chains-1",
    ]
    .map(|name| (name, vectors::plan(name)));
    for (name, plan) in &plans {
        measure(name, &fs::read(plan).expect("a plan"));
    }
    for (name, plan) in &plans {
        measure_process(name, &root, plan);
    }
}
