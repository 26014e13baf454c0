//! Document 01 and the Rust agree: answer, grants, points and every field of the state, step by step.

mod rules;

use oracle::generator::{script, Wish};
use oracle::machine::with_machine;
use oracle::script::{fresh, lines, step};
use oracle::step::Step;

/// Run a script by the Rust and by the rules, and compare after each accepted step.
fn compare(text: &str) -> usize {
    let mut given = lines(text.as_bytes()).flatten();
    let Some(first) = given.next().and_then(fresh).filter(|fresh| !fresh.is_refused()) else {
        return 0;
    };
    let steps: Vec<Step> = given.filter_map(step).collect();
    let mut expected = rules::fresh(&first);
    let mut compared = 0;
    with_machine(&first, |machine| {
        assert_eq!(machine.state(), expected, "{text}");
        for step in &steps {
            let Ok(outcome) = machine.step(step) else { continue };
            let (expected_outcome, after) = rules::step(&expected, step);
            assert_eq!(outcome, expected_outcome, "{step:?} in {text}");
            assert_eq!(machine.state(), after, "{step:?} in {text}");
            assert_eq!(machine.available(), after.available());
            assert_eq!(machine.is_closed(), after.closed);
            expected = after;
            compared += 1;
        }
    });
    compared
}

fn compare_generated(seeds: std::ops::Range<u64>, lines: usize) -> usize {
    seeds.map(|seed| compare(&script(Wish { seed, lines }))).sum()
}

#[test]
fn on_short_scripts() {
    assert!(compare_generated(0..2_500, 40) > 50_000);
}

#[test]
fn on_long_scripts() {
    assert!(compare_generated(5_000_000..5_000_200, 300) > 20_000);
}

#[test]
#[ignore = "takes a minute or two"]
fn on_millions_of_steps() {
    let short = compare_generated(10_000_000..10_070_000, 40);
    let long = compare_generated(11_000_000..11_004_000, 200);
    assert!(short + long > 2_000_000);
}

#[test]
fn on_the_known_scripts() {
    let known = oracle::known::first().chain(oracle::known::last());
    assert!(known.map(|text| compare(&text)).sum::<usize>() > 300);
}
