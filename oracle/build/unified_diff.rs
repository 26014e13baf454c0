//! Applies a unified diff. Every line that a hunk keeps or removes must be the file's own, at the place
//! that the hunk names or, if the file has moved on, at one place only: a patch that no longer fits must
//! not pass for a fault that was tried.

use std::fs;
use std::path::Path;

/// Apply `patch` to the files below `root`; the names in the patch carry the usual first `a/`, `b/`.
pub fn apply(patch: &str, root: &Path) -> Result<(), String> {
    let mut lines = patch.lines().peekable();
    let mut files = 0;
    while let Some(line) = lines.next() {
        let Some(name) = line.strip_prefix("+++ b/") else {
            continue;
        };
        let path = root.join(name);
        let mut text = fs::read_to_string(&path).map_err(|e| format!("cannot read {name}: {e}"))?;
        while let Some(header) = lines.next_if(|line| line.starts_with("@@ ")) {
            let mut body = Vec::new();
            while let Some(line) = lines.next_if(|line| line.starts_with([' ', '-', '+'])) {
                body.push(line);
            }
            text = with_hunk(&text, header, &body).map_err(|e| format!("{name}: {e}"))?;
        }
        fs::write(&path, text).map_err(|e| format!("cannot write {name}: {e}"))?;
        files += 1;
    }
    if files == 0 {
        return Err("the patch names no file".to_string());
    }
    Ok(())
}

fn with_hunk(text: &str, header: &str, body: &[&str]) -> Result<String, String> {
    let without = |marks: &[char]| -> Vec<&str> {
        let stays = |line: &&&str| !line.starts_with(marks);
        body.iter().filter(stays).map(|line| &line[1..]).collect()
    };
    let (old, new) = (without(&['+']), without(&['-']));
    let lines: Vec<&str> = text.lines().collect();
    let at = place(&lines, &old, header)?;
    let after = &lines[at + old.len()..];
    Ok([&lines[..at], &new, after].concat().join("\n") + "\n")
}

/// Where the old lines of a hunk stand.
fn place(lines: &[&str], old: &[&str], header: &str) -> Result<usize, String> {
    // "@@ -first,count +first,count @@", counted from 1. The hunks before this one have been applied, so
    // it stands where the new file has it.
    let named: Option<usize> = header
        .split_once('+')
        .and_then(|(_, rest)| rest.split([',', ' ']).next())
        .and_then(|first| first.parse().ok());
    let matches = |at: &usize| lines[*at..].starts_with(old);
    if let Some(at) = named
        .and_then(|first| first.checked_sub(1))
        .filter(|at| *at <= lines.len())
    {
        if matches(&at) {
            return Ok(at);
        }
    }
    let places: Vec<usize> = (0..lines.len()).filter(matches).collect();
    match places[..] {
        [at] => Ok(at),
        [] => Err(format!("the hunk {header} does not fit")),
        _ => Err(format!("the hunk {header} fits in several places")),
    }
}
