//! What the tests share; none of them uses all of it.
#![allow(dead_code)]

use oracle::semtrace::{run, Options};
use oracle::tell::words;

/// What is printed, with the whole states, for a script with `/` in the place of line feeds.
pub fn whole(script: &str) -> String {
    run((script.replace('/', "\n") + "\n").as_bytes(), Options { state: true }).0
}

/// The same script from clocks that are all zero, as document 01's runs have them.
pub fn from_zeros(script: &str) -> String {
    let (first, rest) = script.split_once('/').unwrap_or((script, ""));
    let tasks: usize = first
        .split(' ')
        .nth(3)
        .and_then(|tasks| tasks.parse().ok())
        .expect("a task count");
    format!("{first}{}/{rest}", " 0".repeat(tasks * tasks))
}

/// The printed lines, without the states.
pub fn lines(script: &str) -> Vec<String> {
    let answers = |line: &&str| !line.starts_with(' ');
    whole(script).lines().filter(answers).map(str::to_string).collect()
}

/// The last printed line.
pub fn last(script: &str) -> String {
    lines(script).pop().expect("something is printed")
}

/// The answers: the first word of each printed line.
pub fn answers(script: &str) -> Vec<String> {
    let first_word = |line: &String| line.split(' ').next().unwrap_or_default().to_string();
    lines(script).iter().map(first_word).collect()
}

/// What the last whole state says of `name`, in words.
pub fn state(script: &str, name: &str) -> String {
    let told = words(&whole(script));
    let states: Vec<&str> = told.split("\n point").collect();
    let last = format!(" point{}", states[states.len() - 1]);
    let of_name = |line: &str| Some(line.strip_prefix(&format!(" {name} "))?.to_string());
    let found: Vec<String> = last.lines().filter_map(of_name).collect();
    assert!(!found.is_empty(), "no {name} in {told}");
    found.join(", ")
}
