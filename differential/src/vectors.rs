//! The vectors of the reference.

use std::fs;
use std::path::{Path, PathBuf};

/// The plan of that name.
pub fn plan(name: &str) -> PathBuf {
    folder("vectors").join(name).with_extension("plan")
}

/// All plans; beside each stands its report.
pub fn plans() -> Vec<PathBuf> {
    files("vectors", "plan")
}

/// All scripts; beside each stand its answers.
pub fn scripts() -> Vec<PathBuf> {
    files("scripts", "script")
}

fn files(folder_name: &str, extension: &str) -> Vec<PathBuf> {
    let files = fs::read_dir(folder(folder_name))
        .expect("the vectors")
        .map(|entry| entry.expect("a file").path());
    files
        .filter(|file| file.extension().is_some_and(|found| found == extension))
        .collect()
}

fn folder(name: &str) -> PathBuf {
    Path::new(env!("CARGO_MANIFEST_DIR"))
        .join("../reference/tests")
        .join(name)
}
