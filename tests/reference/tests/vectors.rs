//! The event program's output on every vector.

use std::collections::BTreeSet;
use std::fs;
use std::path::{Path, PathBuf};

fn inputs() -> Vec<PathBuf> {
    let folder = Path::new(env!("CARGO_MANIFEST_DIR")).join("../vectors");
    let entries = fs::read_dir(folder).expect("tests/vectors");
    let paths = entries.map(|entry| entry.unwrap().path());
    let mut inputs: Vec<PathBuf> = paths.filter(|path| path.extension().is_some_and(|e| e == "in")).collect();
    inputs.sort();
    inputs
}

#[test]
fn every_vector() {
    let inputs = inputs();
    assert!(inputs.len() >= 166, "only {} vectors", inputs.len());
    for path in &inputs {
        let found = reference::program::run(&fs::read(path).unwrap());
        let expected = fs::read_to_string(path.with_extension("out")).unwrap();
        assert_eq!(found, expected, "{}", path.display());
    }
    println!("{} vectors", inputs.len());
}

/// 1 and 2 cannot come from the event program.
#[test]
fn vectors_show_every_refusal() {
    let mut seen = BTreeSet::new();
    for path in inputs() {
        let output = fs::read_to_string(path.with_extension("out")).unwrap();
        for line in output.lines().skip(1) {
            seen.extend(line.split(' ').nth(2).and_then(|answer| answer.parse::<u32>().ok()));
        }
    }
    let missing: Vec<u32> = (3..=22).chain([32, 33]).filter(|number| !seen.contains(number)).collect();
    assert!(missing.is_empty(), "no vector shows {missing:?}");
}
