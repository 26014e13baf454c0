//! That what is compiled is what `docs/src` says.

use std::fs;
use std::path::{Path, PathBuf};

const SOURCE: &str = "../docs/src/shuttle-engine/src";

fn built(path: &str) -> Vec<u8> {
    fs::read(Path::new(env!("OUT_DIR")).join("engine").join(path)).expect("the build laid it there")
}

#[test]
fn the_two_files_are_compiled_unchanged() {
    let text = |path: &str| fs::read(Path::new(SOURCE).join(path)).expect("docs/src has it");
    assert_eq!(built("runtime/task/clock.rs"), text("runtime/task/clock.rs"));
    let (semaphore, original) = (built("future/batch_semaphore.rs"), text("future/batch_semaphore.rs"));
    let (same, after) = semaphore.split_at(original.len());
    assert_eq!(same, original);
    assert_eq!(after, b"\npub mod reading;\n");
}

/// Every stretch of a stand-in that says where it was taken from is the text that stands there.
#[test]
fn the_taken_texts_are_the_sources() {
    let mut stretches = 0;
    for path in standins(Path::new("src/standins")) {
        let text = fs::read_to_string(&path).expect("a stand-in is text");
        let lines: Vec<&str> = text.lines().map(str::trim).collect();
        for (at, line) in lines.iter().enumerate() {
            let Some(place) = line.strip_prefix("// Taken: ") else {
                continue;
            };
            let source = taken_lines(place);
            let here = &lines[at + 1..at + 1 + source.len()];
            assert_eq!(here, source, "{}: {place}", path.display());
            stretches += 1;
        }
    }
    assert_eq!(stretches, 36, "a stretch was added, or one is not found");
}

/// The lines that `FILE FIRST-LAST` names.
fn taken_lines(place: &str) -> Vec<String> {
    let (file, range) = place.split_once(' ').expect("file and lines");
    let (first, last) = range.split_once('-').expect("first and last line");
    let (first, last): (usize, usize) = (first.parse().unwrap(), last.parse().unwrap());
    let text = fs::read_to_string(Path::new(SOURCE).join(file)).expect("docs/src has it");
    let lines = text.lines().skip(first - 1).take(last + 1 - first);
    lines.map(|line| line.trim().to_string()).collect()
}

fn standins(directory: &Path) -> Vec<PathBuf> {
    let mut files = Vec::new();
    for entry in fs::read_dir(directory).expect("the stand-ins can be listed") {
        let path = entry.expect("an entry").path();
        if path.is_dir() {
            files.extend(standins(&path));
        } else {
            files.push(path);
        }
    }
    files
}
