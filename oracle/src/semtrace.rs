//! The script program, run on the Rust.

use crate::machine::{with_machine, Machine};
use crate::printed;
use crate::rows::rows;
use crate::script;
use crate::situations::Happening;
use crate::step::{Answer, Outcome, Points};
use std::panic::{self, AssertUnwindSafe};

#[derive(Clone, Copy, Default)]
pub struct Options {
    /// Print the whole state after each accepted line.
    pub state: bool,
}

/// How many steps were left out because document 01 refuses them, of how many.
#[derive(Clone, Copy, Debug, Default, PartialEq, Eq)]
pub struct Count {
    pub steps: usize,
    pub left_out: usize,
}

/// What the program prints for a script.
pub fn run(script: &[u8], options: Options) -> (String, Count) {
    let mut output = String::new();
    let count = run_watched(&mut output, script, options, &mut |_| ());
    (output, count)
}

/// Like [`run`]; a panic of the Rust shows as a line of its own, so that it is a difference.
pub fn run_caught(script: &[u8], options: Options) -> (String, Count) {
    let mut output = String::new();
    let ran = panic::catch_unwind(AssertUnwindSafe(|| {
        run_watched(&mut output, script, options, &mut |_| ())
    }));
    let count = ran.unwrap_or_else(|_| {
        output.push_str("the Rust panicked\n");
        Count::default()
    });
    (output, count)
}

/// Like [`run`], line by line, so that a panic of the Rust leaves what came before it, and showing
/// each step to `watch`.
pub fn run_watched(
    output: &mut String,
    script: &[u8],
    options: Options,
    watch: &mut dyn FnMut(&Happening<'_>),
) -> Count {
    let mut count = Count::default();
    if script.len() > script::MOST_BYTES {
        output.push_str("long\n");
        return count;
    }
    let mut lines = script::lines(script);
    let Some(first) = lines.next() else {
        return count;
    };
    let Some(fresh) = first.and_then(script::fresh) else {
        output.push_str("bad\n");
        return count;
    };
    if fresh.is_refused() {
        output.push_str("r12\n");
        return count;
    }
    with_machine(&fresh, |machine| {
        let start = machine.state();
        print(output, &Ok(FRESH), machine, options);
        for line in lines {
            let Some(step) = line.and_then(script::step) else {
                output.push_str("bad\n");
                continue;
            };
            let before = machine.state();
            let result = machine.step(&step);
            watch(&Happening {
                fresh: &fresh,
                start: &start,
                before: &before,
                step: &step,
                result: &result,
                after: &machine.state(),
            });
            count.steps += 1;
            count.left_out += usize::from(result.is_err());
            print(output, &result, machine, options);
        }
    });
    count
}

/// What an accepted first line gives.
const FRESH: Outcome = Outcome {
    answer: Answer::Done,
    grants: Vec::new(),
    points: Points::NotAsked,
};

fn print(output: &mut String, result: &Result<Outcome, u8>, machine: &Machine<'_>, options: Options) {
    output.push_str(&printed::line(result, machine));
    if let (true, Ok(outcome)) = (options.state, result) {
        output.push_str(&rows(outcome, &machine.state()));
    }
}
