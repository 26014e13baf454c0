//! What a generated script is about. Each mood makes some rules common that chance would seldom reach.

use crate::random::Random;

#[derive(Clone, Copy, Debug, PartialEq, Eq)]
pub enum Mood {
    Ordinary,
    /// All 32 slots get filled.
    Crowded,
    /// Many small releases, up to 64 batches.
    Batches,
    /// Counts near 4,294,967,295.
    Limits,
    /// Unfair, with reserving requests.
    Reservations,
    /// Strictly fair, with requests that jump the queue.
    Upgrades,
    /// Strictly fair, with requests that are passed.
    Passing,
    /// Tasks sleep and finish, the semaphore closes.
    Endings,
    /// Refused steps and lines that say nothing.
    Noise,
}

/// The letters of a script.
#[derive(Clone, Copy, Debug, PartialEq, Eq)]
pub enum Letter {
    A,
    B,
    R,
    U,
    P,
    T,
    V,
    L,
    D,
    C,
    Z,
    F,
}

impl Mood {
    pub fn draw(random: &mut Random) -> Self {
        random.weighted(&[
            (Self::Ordinary, 20),
            (Self::Crowded, 3),
            (Self::Batches, 4),
            (Self::Limits, 9),
            (Self::Reservations, 20),
            (Self::Upgrades, 12),
            (Self::Passing, 12),
            (Self::Endings, 14),
            (Self::Noise, 6),
        ])
    }

    /// How often each kind of step is tried.
    pub fn weights(self, strictly_fair: bool) -> Vec<(Letter, usize)> {
        use Letter::*;
        let weights: [usize; 12] = match self {
            //                    A   B   R   U    P   T   V    L   D   C   Z   F
            Self::Ordinary => [100, 60, 70, 50, 260, 60, 40, 180, 80, 4, 40, 10],
            Self::Crowded => [300, 200, 150, 150, 60, 10, 10, 20, 20, 1, 5, 2],
            Self::Batches => [40, 20, 20, 10, 80, 20, 10, 800, 8, 0, 5, 2],
            Self::Limits => [80, 40, 50, 40, 200, 80, 50, 220, 80, 3, 20, 6],
            Self::Reservations => [60, 30, 160, 80, 300, 50, 30, 150, 90, 3, 50, 20],
            Self::Upgrades => [60, 30, 0, 140, 260, 50, 80, 160, 80, 3, 30, 10],
            Self::Passing => [100, 160, 0, 40, 280, 60, 30, 160, 90, 3, 30, 12],
            Self::Endings => [100, 60, 80, 50, 260, 50, 40, 120, 100, 25, 120, 50],
            Self::Noise => [80, 60, 60, 60, 200, 60, 60, 140, 80, 6, 40, 10],
        };
        let letters = [A, B, R, U, P, T, V, L, D, C, Z, F];
        let reserving_is_refused = strictly_fair && self != Self::Noise;
        letters
            .into_iter()
            .zip(weights)
            .filter(|(letter, _)| !(reserving_is_refused && *letter == R))
            .collect()
    }

    /// Percent of the refused steps that stay in the script all the same.
    pub fn refusals_kept(self) -> usize {
        match self {
            Self::Noise => 60,
            Self::Limits | Self::Crowded | Self::Batches => 20,
            _ => 3,
        }
    }

    /// Percent of the lines that are malformed.
    pub fn malformed(self) -> usize {
        if self == Self::Noise {
            15
        } else {
            0
        }
    }

    pub fn strictly_fair(self, random: &mut Random) -> bool {
        match self {
            Self::Reservations => false,
            Self::Upgrades | Self::Passing => true,
            _ => random.chance(50),
        }
    }
}
