//! Thousands of generated scripts: the Rust never panics on an accepted step, and no state is broken.

use oracle::generator::{script, Wish};
use oracle::script::fresh;
use oracle::soak::soak;
use oracle::step::Fresh;

fn wish(seed: u64, lines: usize) -> Wish {
    Wish { seed, lines }
}

#[test]
fn short_scripts() {
    let soaked = soak(wish(0, 40), 1_500);
    assert!(
        soaked.count.left_out * 10 < soaked.count.steps,
        "most steps are accepted"
    );
}

#[test]
fn long_scripts_reach_every_situation() {
    let soaked = soak(wish(1_000_000, 120), 900);
    let missing: Vec<&str> = soaked
        .tally
        .counts()
        .filter(|(_, count)| *count == 0)
        .map(|(name, _)| name)
        .collect();
    assert_eq!(missing, Vec::<&str>::new());
}

#[test]
fn the_seed_decides() {
    assert_eq!(script(wish(7, 60)), script(wish(7, 60)));
    assert_ne!(script(wish(7, 60)), script(wish(8, 60)));
}

/// The first lines of so many seeds.
fn first_lines(seeds: u64) -> impl Iterator<Item = String> {
    (0..seeds).map(|seed| script(wish(seed, 1)).lines().next().unwrap_or_default().to_string())
}

fn is_symmetric(clocks: &[u32], tasks: usize) -> bool {
    (0..tasks * tasks).all(|i| clocks[i] == clocks[i % tasks * tasks + i / tasks])
}

#[test]
fn half_of_the_scripts_give_their_clocks() {
    let accepted = |line: String| fresh(line.as_bytes()).filter(|fresh| !fresh.is_refused());
    let starts: Vec<Fresh> = first_lines(2_000).filter_map(accepted).collect();
    let given: Vec<(&[u32], usize)> = starts
        .iter()
        .filter_map(|fresh| Some((fresh.clocks.as_deref()?, fresh.tasks as usize)))
        .collect();
    assert!(given.len() > 950 && starts.len() - given.len() > 950);
    assert!(
        given
            .iter()
            .all(|(clocks, tasks)| *tasks == 1 || !is_symmetric(clocks, *tasks)),
        "rows can be told from columns"
    );
    let at_the_largest = |(clocks, _): &&(&[u32], usize)| clocks.contains(&u32::MAX);
    assert!(given.iter().filter(at_the_largest).count() > 100);
}

#[test]
fn some_first_lines_have_a_wrong_number_of_entries() {
    let entries = |line: &String| line.split(' ').count().saturating_sub(4);
    let (good, bad): (Vec<String>, Vec<String>) = first_lines(10_000)
        .filter(|line| entries(line) > 0)
        .partition(|line| fresh(line.as_bytes()).is_some());
    let tasks = |line: &String| line.split(' ').nth(3).and_then(|tasks| tasks.parse::<usize>().ok());
    let off_by = |line: &String| Some(entries(line) as isize - (tasks(line)? * tasks(line)?) as isize);
    assert!(bad.iter().any(|line| off_by(line) == Some(-1)), "one short");
    assert!(bad.iter().any(|line| off_by(line) == Some(1)), "one too many");
    assert!(bad.iter().any(|line| tasks(line) == Some(0)), "none fit no tasks");
    assert!(bad.iter().any(|line| tasks(line) == Some(17)));
    assert!(
        good.iter().any(|line| tasks(line) == Some(17)),
        "all of them, and refused"
    );
}
