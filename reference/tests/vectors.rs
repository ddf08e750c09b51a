//! Every NAME.plan of the vectors gives NAME.report, and its drawing keeps demand 3.

use std::fs;
use std::path::{Path, PathBuf};

use reference::{check, half_steps, passes, report, text};

fn plans() -> Vec<PathBuf> {
    let folder = Path::new(env!("CARGO_MANIFEST_DIR")).join("tests/vectors");
    let files = fs::read_dir(folder).expect("the vectors").map(|entry| entry.expect("a file").path());
    files.filter(|file| file.extension().is_some_and(|extension| extension == "plan")).collect()
}

#[test]
fn reports_are_those_of_the_vectors() {
    let plans = plans();
    assert_eq!(plans.len(), 181);
    for plan in plans {
        let expected = fs::read(plan.with_extension("report")).expect("a report");
        assert_eq!(report::answer(&fs::read(&plan).expect("a plan")), expected, "{}", plan.display());
    }
}

#[test]
fn drawings_of_the_vectors_keep_demand_3() {
    for file in plans() {
        let Ok(plan) = text::read(&fs::read(&file).expect("a plan")) else { continue };
        let printed = fs::read(file.with_extension("report")).expect("a report");
        let drawing = report::read(&plan, &printed).expect("a report of the plan");
        assert_eq!(check::judge(&plan, &drawing), [], "{}", file.display());
    }
}

#[test]
fn vectors_are_drawn_the_same_by_half_steps() {
    for file in plans() {
        let Ok(plan) = text::read(&fs::read(&file).expect("a plan")) else { continue };
        let (drawing, steps) = passes::draw_and_count(&plan);
        if steps > 300_000 {
            continue;
        }
        let mut counted = 0;
        let by_half_steps = passes::draw_by(&plan, |run, answer| {
            let (positions, steps) = half_steps::place(run);
            answer.copy_from_slice(&positions);
            counted += steps;
        });
        assert_eq!((by_half_steps, counted), (drawing, steps), "{}", file.display());
    }
}
