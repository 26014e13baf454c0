//! The refusals.

use super::{Happening, Situation};
use crate::state::Run;

/// The refusals that a step of a script can meet, each with its letter.
pub const REFUSALS: &[Situation] = &[
    ("refused: 1 A", |h| refused(h, 1, "A")),
    ("refused: 1 B", |h| refused(h, 1, "B")),
    ("refused: 1 R", |h| refused(h, 1, "R")),
    ("refused: 1 U", |h| refused(h, 1, "U")),
    ("refused: 1 P", |h| refused(h, 1, "P")),
    ("refused: 1 T", |h| refused(h, 1, "T")),
    ("refused: 1 V", |h| refused(h, 1, "V")),
    ("refused: 1 L", |h| refused(h, 1, "L")),
    ("refused: 1 D", |h| refused(h, 1, "D")),
    ("refused: 1 C, Z or F", |h| refused(h, 1, "CZF")),
    ("refused: 2, blocked", |h| {
        refused(h, 2, "ABRUPTVLDCZF") && h.before.tasks[h.actor()].run == Run::Blocked
    }),
    ("refused: 2, sleeping", |h| {
        refused(h, 2, "ABRUPTVLDCZF") && h.before.tasks[h.actor()].run == Run::Sleeping
    }),
    ("refused: 2, finished", |h| {
        refused(h, 2, "ABRUPTVLDCZF") && h.before.tasks[h.actor()].run == Run::Finished
    }),
    ("refused: 3 P", |h| refused(h, 3, "P")),
    ("refused: 3 D", |h| refused(h, 3, "D")),
    ("refused: 4 P", |h| refused(h, 4, "P")),
    ("refused: 5 P", |h| refused(h, 5, "P")),
    ("refused: 5 T", |h| refused(h, 5, "T")),
    ("refused: 6 R", |h| refused(h, 6, "R")),
    ("refused: 7 R", |h| refused(h, 7, "R")),
    ("refused: 7 U", |h| refused(h, 7, "U")),
    ("refused: 7 V", |h| refused(h, 7, "V")),
    ("refused: 8 A or B", |h| refused(h, 8, "AB")),
    ("refused: 8 R", |h| refused(h, 8, "R")),
    ("refused: 8 U", |h| refused(h, 8, "U")),
    ("refused: 9 L", |h| refused(h, 9, "L")),
    ("refused: 9 D", |h| refused(h, 9, "D")),
    ("refused: 10 L", |h| refused(h, 10, "L")),
    ("refused: 10 D", |h| refused(h, 10, "D")),
    ("refused: 11 P", |h| refused(h, 11, "P")),
    ("refused: 11 T", |h| refused(h, 11, "T")),
    ("refused: 11 V", |h| refused(h, 11, "V")),
    ("refused: 11 L", |h| refused(h, 11, "L")),
    ("refused: 11 D", |h| refused(h, 11, "D")),
];

fn refused(h: &Happening<'_>, number: u8, letters: &str) -> bool {
    *h.result == Err(number) && letters.contains(h.letter())
}
