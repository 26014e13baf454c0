//! The questions about scheduling points.

use super::Situation;
use crate::state::Request;
use crate::step::Points;

pub const POINTS: &[Situation] = &[
    ("point: first poll, yes", |h| h.pointed(Points::One(true)) && h.did('P')),
    ("point: first poll, no", |h| {
        h.pointed(Points::One(false)) && h.polled().is_some_and(|(_, request)| !request.polled)
    }),
    ("point: later poll, no", |h| {
        h.pointed(Points::One(false)) && h.polled().is_some_and(|(_, request)| request.polled)
    }),
    ("point: first poll, unfair, exactly the least available", |h| {
        h.pointed(Points::One(true))
            && !h.strict()
            && h.polled()
                .is_some_and(|(_, request)| request.least == h.before.available() && !h.before.closed)
    }),
    ("point: first poll, the least fits and is reserved", |h| {
        let fits = |request: &Request| !request.polled && 0 < request.least && request.least <= h.before.stock;
        h.before.reserved.is_some() && h.polled().is_some_and(|(_, request)| fits(request))
    }),
    ("point: drop, first", |h| h.pointed(Points::Two(true, false))),
    ("point: drop, second", |h| h.pointed(Points::Two(false, true))),
    ("point: drop, none", |h| h.pointed(Points::Two(false, false))),
];
