//! The recorded sample: scripts and what the oracle printed for them with `--state`.

use crate::generator::{self, Wish};
use crate::known;
use crate::semtrace::{run, run_caught, run_watched, Options};
use crate::situations::Tally;
use crate::tell::{self, Differing};
use std::collections::BTreeMap;
use std::path::{Path, PathBuf};
use std::{fs, io};

/// Each situation is wanted in so many scripts.
const WANTED: usize = 5;
/// The generated scripts are at least so many.
const FEWEST: usize = 200;
/// So many seeds are looked at.
const SEEDS: u64 = 12_000;
/// Larger texts are taken only for what nothing else reaches.
const LARGE: usize = 6_000;

const OPTIONS: Options = Options { state: true };

pub struct Recorded {
    pub script: String,
    pub state: String,
}

/// The known scripts that come first, then generated ones, so that together they reach every situation several
/// times; then the other known ones.
pub fn chosen() -> Vec<Recorded> {
    let mut chosen = Chosen::default();
    for script in known::first() {
        let (recorded, tally) = record(script);
        chosen.take(recorded, &tally);
    }
    let fewest = chosen.sample.len() + FEWEST;
    let mut spare = Vec::new();
    for seed in 0..SEEDS {
        let wish = Wish {
            seed,
            lines: 10 + (seed as usize * 7) % 31,
        };
        let (recorded, tally) = record(generator::script(wish));
        let small = recorded.state.len() <= LARGE;
        if chosen.wants(&tally, if small { WANTED } else { 1 }) {
            chosen.take(recorded, &tally);
        } else if small && spare.len() < FEWEST {
            spare.push(recorded);
        }
    }
    let missing = fewest.saturating_sub(chosen.sample.len());
    chosen.sample.extend(spare.into_iter().take(missing));
    chosen.sample.extend(known::last().map(|script| record(script).0));
    chosen.sample
}

#[derive(Default)]
struct Chosen {
    sample: Vec<Recorded>,
    /// In how many of its scripts each situation comes up.
    reached: BTreeMap<&'static str, usize>,
}

impl Chosen {
    /// Whether a script has a situation that comes up in fewer than `wanted` scripts so far.
    fn wants(&self, tally: &Tally, wanted: usize) -> bool {
        tally
            .names()
            .any(|name| self.reached.get(name).copied().unwrap_or(0) < wanted)
    }

    fn take(&mut self, recorded: Recorded, tally: &Tally) {
        self.sample.push(recorded);
        for name in tally.names() {
            *self.reached.entry(name).or_default() += 1;
        }
    }
}

fn record(script: String) -> (Recorded, Tally) {
    let (mut state, mut tally) = (String::new(), Tally::default());
    run_watched(&mut state, script.as_bytes(), OPTIONS, &mut |happening| {
        tally.add(happening)
    });
    (Recorded { script, state }, tally)
}

/// Write the sample to a directory, as `NNN.script` and `NNN.state`, in the place of what was there.
pub fn write(directory: &Path) -> io::Result<usize> {
    fs::create_dir_all(directory)?;
    for path in scripts(directory)? {
        fs::remove_file(path.with_extension("state"))?;
        fs::remove_file(path)?;
    }
    let sample = chosen();
    for (number, recorded) in sample.iter().enumerate() {
        fs::write(directory.join(format!("{number:03}.script")), &recorded.script)?;
        fs::write(directory.join(format!("{number:03}.state")), &recorded.state)?;
    }
    Ok(sample.len())
}

/// Write what this build prints for the scripts of a directory in the place of what was recorded for them.
pub fn rewrite(directory: &Path) -> io::Result<usize> {
    let paths = scripts(directory)?;
    for path in &paths {
        fs::write(path.with_extension("state"), run(&fs::read(path)?, OPTIONS).0)?;
    }
    Ok(paths.len())
}

/// The scripts of a directory, in order.
fn scripts(directory: &Path) -> io::Result<Vec<PathBuf>> {
    let entries = fs::read_dir(directory)?.map(|entry| Ok(entry?.path()));
    let mut paths = entries.collect::<io::Result<Vec<PathBuf>>>()?;
    paths.retain(|path| path.extension().is_some_and(|ending| ending == "script"));
    paths.sort();
    Ok(paths)
}

#[derive(Default)]
pub struct Checked {
    pub scripts: usize,
    /// The names of the scripts for which this build prints something else.
    pub different: Vec<String>,
    /// Where the first of them differs: what was recorded, and what is printed.
    pub first: Option<Differing>,
}

/// Run the scripts of a directory, and hold what is printed against what was recorded. A panic is a
/// difference too: a build with a deliberate fault may well panic.
pub fn check(directory: &Path) -> io::Result<Checked> {
    let mut checked = Checked::default();
    for path in scripts(directory)? {
        let recorded = fs::read_to_string(path.with_extension("state"))?;
        let (printed, _) = run_caught(&fs::read(&path)?, OPTIONS);
        checked.scripts += 1;
        if printed != recorded {
            let name = path.file_stem().unwrap_or_default();
            checked.different.push(name.to_string_lossy().into_owned());
            checked
                .first
                .get_or_insert_with(|| tell::differing(&recorded, &printed));
        }
    }
    Ok(checked)
}
