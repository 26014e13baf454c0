//! The recorded sample is what this build prints.

use oracle::known;
use oracle::sample::check;
use oracle::semtrace::{run_watched, Options};
use oracle::situations::Tally;
use std::fs;
use std::path::Path;

/// Where the program that replays it has it.
const SAMPLE: &str = "../crates/replay/data";

/// The scripts of the sample, in order.
fn scripts() -> Vec<String> {
    let script = |number| fs::read_to_string(format!("{SAMPLE}/{number:03}.script")).ok();
    (0..).map_while(script).collect()
}

#[test]
fn nothing_differs() {
    let checked = check(Path::new(SAMPLE)).expect("the sample can be read");
    let replayed = fs::read_to_string("../crates/replay/stdout").expect("what the gate's program prints");
    assert!(
        replayed.starts_with(&format!("{} scripts, ", checked.scripts)),
        "as many as are replayed in the gate"
    );
    assert_eq!(checked.scripts, scripts().len(), "no number is left out");
    assert_eq!(checked.different, Vec::<String>::new());
}

#[test]
fn every_known_script_is_there() {
    let scripts = scripts();
    let missing: Vec<String> = known::first()
        .chain(known::last())
        .filter(|script| !scripts.contains(script))
        .collect();
    assert_eq!(missing, Vec::<String>::new());
}

#[test]
fn every_situation_is_reached() {
    let mut tally = Tally::default();
    for script in scripts() {
        run_watched(
            &mut String::new(),
            script.as_bytes(),
            Options::default(),
            &mut |happening| tally.add(happening),
        );
    }
    let missing: Vec<&str> = tally
        .counts()
        .filter(|(_, count)| *count == 0)
        .map(|(name, _)| name)
        .collect();
    assert_eq!(missing, Vec::<&str>::new());
}
