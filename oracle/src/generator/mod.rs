//! Writes scripts at random, the same for the same seed. It takes each step on the Rust as it goes, so
//! that it can choose the next one by the state.

mod draw;
mod malformed;
mod mood;
mod opportunity;

use crate::events;
use crate::machine::{with_machine, Machine};
use crate::random::Random;
use crate::refusals::refusal;
use crate::script;
use crate::state::State;
use crate::step::{Fresh, Step, LARGEST, MOST_TASKS};
use mood::Mood;

/// Lines after a close, in a script that is about something else.
const LINES_AFTER_CLOSE: usize = 10;

/// A script up to so many lines may end as soon as it likes.
const SHORT: usize = 40;

/// No line is longer than this, so that a script never gets too long to be read.
const LONGEST_LINE: usize = 64;

#[derive(Clone, Copy)]
pub struct Wish {
    pub seed: u64,
    /// At most so many lines, the first one included.
    pub lines: usize,
}

pub fn script(wish: Wish) -> String {
    let mut random = Random::new(wish.seed);
    let mood = Mood::draw(&mut random);
    if mood == Mood::Noise && random.chance(12) {
        let first = match random.chance(50) {
            true => malformed::first_line(&mut random),
            false => malformed::refused_first_line(&mut random),
        };
        return format!("{first}\nA 0 1\n");
    }
    let fresh = fresh(&mut random, mood, gives_clocks(wish.seed));
    let mut text = script::fresh_line(&fresh) + "\n";
    with_machine(&fresh, |machine| {
        steps(&mut text, &mut random, mood, machine, wish.lines)
    });
    if mood == Mood::Noise && random.chance(30) {
        text.pop(); // a last line that nothing ends
    }
    text
}

/// The scripts of odd seeds give their starting clocks, those of even ones spawn: both ways are common.
fn gives_clocks(seed: u64) -> bool {
    seed % 2 == 1
}

/// So many steps from a start, all of them accepted, none of which ends a run: or as many as come before
/// nobody can act.
pub fn accepted_steps(seed: u64, fresh: &Fresh, steps: usize) -> Vec<Step> {
    const DRAWS: usize = 1000;
    let mut random = Random::new(seed);
    let mut next = |state: &State| {
        (0..DRAWS).find_map(|_| {
            let drawn = random
                .chance(25)
                .then(|| opportunity::step(&mut random, state))
                .flatten();
            let step = drawn.unwrap_or_else(|| draw::step(&mut random, Mood::Ordinary, state));
            (refusal(state, &step).is_none() && !draw::is_ending(state, &step)).then_some(step)
        })
    };
    let mut all = Vec::new();
    with_machine(fresh, |machine| {
        while all.len() < steps {
            let Some(step) = next(&machine.state()) else {
                return;
            };
            machine.take(&step);
            events::take();
            all.push(step);
        }
    });
    all
}

fn fresh(random: &mut Random, mood: Mood, with_clocks: bool) -> Fresh {
    let tasks = match random.below(100) {
        0..8 => 1,
        8..60 => 2 + random.below(2),
        60..90 => 4 + random.below(3),
        _ => 7 + random.below(MOST_TASKS - 6),
    };
    let stock = match mood {
        Mood::Limits => LARGEST - random.pick(&[0, 0, 1, 2, 3, LARGEST / 2, LARGEST]),
        Mood::Batches => random.below(2),
        Mood::Passing => random.below(4),
        _ => random.pick(&[0, 0, 0, 1, 1, 2, 3, 5]),
    };
    Fresh {
        strictly_fair: mood.strictly_fair(random),
        stock: stock as u32,
        maker: (!random.chance(30)).then(|| random.below(tasks) as u32),
        tasks: tasks as u32,
        clocks: with_clocks.then(|| clocks(random, tasks)),
    }
}

/// Row by row. Row 0 is never column 0, so that taking columns for rows shows at once.
fn clocks(random: &mut Random, tasks: usize) -> Vec<u32> {
    let mut entries: Vec<u32> = (0..tasks * tasks).map(|_| clock_entry(random)).collect();
    if tasks > 1 && entries[1] == entries[tasks] {
        entries[1] ^= 1;
    }
    entries
}

fn clock_entry(random: &mut Random) -> u32 {
    match random.below(100) {
        0..10 => u32::MAX - random.below(4) as u32,
        _ => random.below(6) as u32,
    }
}

fn steps(text: &mut String, random: &mut Random, mood: Mood, machine: &mut Machine<'_>, lines: usize) {
    let mut after_close = 0;
    for _ in 1..lines {
        if text.len() + LONGEST_LINE > script::MOST_BYTES {
            return;
        }
        if random.chance(mood.malformed()) {
            *text += malformed::line(random);
            *text += "\n";
            continue;
        }
        let state = machine.state();
        if !(0..state.tasks.len()).any(|task| state.runnable(task)) && !random.chance(50) {
            return;
        }
        after_close += usize::from(state.closed);
        if after_close > LINES_AFTER_CLOSE && mood != Mood::Endings {
            return;
        }
        let step = kept_step(random, mood, machine, lines);
        *text += &script::step_line(&step);
        *text += "\n";
        let _ = machine.step(&step); // a refused step stays in the text, and nothing else
    }
}

/// A step that is accepted, or, as often as the mood has it, one that is refused.
fn kept_step(random: &mut Random, mood: Mood, machine: &Machine<'_>, lines: usize) -> Step {
    let state = machine.state();
    if random.chance(25) {
        if let Some(step) = opportunity::step(random, &state) {
            return step;
        }
    }
    for _ in 0..40 {
        let step = draw::step(random, mood, &state);
        if draw::is_ending(&state, &step) && random.below(lines.max(SHORT)) >= SHORT {
            continue; // or long scripts would end early
        }
        if refusal(&state, &step).is_none() || random.chance(mood.refusals_kept()) {
            return step;
        }
    }
    draw::step(random, mood, &state)
}
