//! Many generated scripts in one go: the Rust must not panic, no state may be broken, and the list of
//! situations shows what was reached.

use crate::broken::broken;
use crate::generator::{self, Wish};
use crate::semtrace::{run_watched, Count, Options};
use crate::situations::Tally;

pub struct Soaked {
    pub count: Count,
    pub tally: Tally,
}

/// Run `scripts` scripts, with the seeds from that of `wish` on.
pub fn soak(wish: Wish, scripts: u64) -> Soaked {
    let options = Options { state: true };
    let mut soaked = Soaked {
        count: Count::default(),
        tally: Tally::default(),
    };
    for seed in wish.seed..wish.seed + scripts {
        let script = generator::script(Wish { seed, ..wish });
        let count = run_watched(&mut String::new(), script.as_bytes(), options, &mut |happening| {
            if let Some(ground) = broken(happening.after) {
                panic!("seed {seed}: {ground}");
            }
            soaked.tally.add(happening);
        });
        soaked.count.steps += count.steps;
        soaked.count.left_out += count.left_out;
    }
    soaked
}
