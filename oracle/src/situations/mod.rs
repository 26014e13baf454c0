//! What scripts reach: situations of the rules, by name. They choose the recorded sample and
//! show what a run of generated scripts has left out; nothing is compared by them.

mod ending;
mod happening;
mod points;
mod polling;
mod refusing;
mod starting;
mod taking;
mod waiting;

pub use happening::Happening;

use std::collections::BTreeMap;

type Situation = (&'static str, fn(&Happening<'_>) -> bool);

/// How often each situation came up.
#[derive(Default)]
pub struct Tally {
    counts: BTreeMap<&'static str, usize>,
}

impl Tally {
    pub fn add(&mut self, happening: &Happening<'_>) {
        for (name, holds) in all() {
            *self.counts.entry(name).or_default() += usize::from(holds(happening));
        }
    }

    /// What came up at all.
    pub fn names(&self) -> impl Iterator<Item = &'static str> + '_ {
        self.counts().filter(|(_, count)| *count > 0).map(|(name, _)| name)
    }

    pub fn counts(&self) -> impl Iterator<Item = (&'static str, usize)> + '_ {
        self.counts.iter().map(|(name, count)| (*name, *count))
    }
}

pub fn all() -> impl Iterator<Item = Situation> {
    let parts = [
        starting::STARTING,
        taking::MAKING,
        taking::TAKING,
        taking::DIRECT,
        taking::TRYING,
        polling::RESERVING,
        polling::PLAIN,
        waiting::RELEASING,
        waiting::SCANNING,
        waiting::WAKING,
        waiting::REBLOCKING,
        ending::DROPPING,
        ending::CLOSING,
        ending::TASKS,
        points::POINTS,
        refusing::REFUSALS,
    ];
    parts.into_iter().flatten().copied()
}
