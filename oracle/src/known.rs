//! Scripts worth keeping whatever the generator does: those that the documents give or describe, and those that
//! show what is easily missed in the Rust. `/` stands for a line feed.

/// The known scripts that come first in the sample.
pub fn first() -> impl Iterator<Item = String> {
    texts(KNOWN).chain(k16())
}

/// Those that come last.
pub fn last() -> impl Iterator<Item = String> {
    texts(WITH_CLOCKS)
        .chain([full_queue(), full_twice(), slot_is_no_task()])
        .chain(texts(STARTS))
        .chain([seventeen(288), seventeen(289), widest()])
}

fn texts(known: &'static [(&str, &str)]) -> impl Iterator<Item = String> {
    known.iter().map(|(_, script)| text(script))
}

/// Name and script. Document 01's runs start from zero clocks; here their steps come after a spawned start.
const KNOWN: &[(&str, &str)] = &[
    ("worked", "S 2 0 2/A 0 2/P 0 0/A 1 1/P 1 1/L 0 1/P 1 1/"),
    ("k1", "S 0 0 2/T 0 1/"),
    ("k2", "S 3 0 2/T 0 4/T 0 3/"),
    ("k3", "S 1 0 2/A 0 0/P 0 0/T 0 0/C 0/P 0 0/T 0 0/"),
    ("k6", "S 0 0 2/U 0 1 2/U 0 1 2/P 0 0/P 0 1/L 0 1/"),
    ("k7", "S 0 0 2/B 0 3/A 0 1/A 0 2/P 0 0/P 0 1/P 0 2/L 0 2/"),
    ("k8 and k9", "U 0 0 2/U 0 1 3/P 0 0/L 0 1/T 0 1/L 0 1/P 0 0/"),
    ("k14", "S 4294967294 0 2/L 0 1/L 0 1/"),
    ("k15", "S 0 0 2/L 0 1/T 1 1/"),
    (
        "a finished task's queued request still holds back",
        "S 1 0 2/A 1 2/P 1 0/F 1/T 0 1/L 0 1/T 0 1/",
    ),
    (
        "a drop that does not scan, though the front fits",
        "S 1 0 3/A 1 2/P 1 0/A 2 1/P 2 1/A 0 1/P 0 2/F 1/D 0 2/",
    ),
    (
        "a queued Front polled again does not move, and stays Pending",
        "S 1 0 2/U 0 1 3/P 0 0/U 0 1 4/P 0 1/P 0 0/P 0 1/L 0 1/P 0 0/V 0 1 3/",
    ),
    (
        "reblock blocks a task whose other request fits, and keeps its woken mark",
        "U 0 0 2/A 1 1/P 1 0/A 1 2/P 1 1/L 0 2/T 0 1/",
    ),
    ("reblock blocks a sleeping task", "U 0 0 2/A 1 2/P 1 0/Z 1/L 0 1/T 0 1/"),
    (
        "taking the reservation reblocks one whose least fits; its grant wakes and does not reblock",
        "U 1 0 3/A 1 2/P 1 0/A 2 9/P 2 1/L 0 1/U 0 1 5/P 0 2/L 0 3/P 0 2/",
    ),
    (
        "a finished task's reservation stands until a release clears it",
        "U 0 0 3/U 1 1 3/P 1 0/A 2 1/P 2 1/F 1/T 0 1/L 0 1/P 0 0/",
    ),
    (
        "a reservation follows the task that polled it last",
        "U 0 0 3/U 1 1 3/P 1 0/P 2 0/Z 2/L 0 2/P 0 0/",
    ),
    (
        "dropping a reservation wakes a request of least 0 at stock 0",
        "U 0 0 3/U 1 1 3/P 1 0/U 2 1 2/P 2 1/Z 2/D 1 0/",
    ),
    (
        "last-acquire gets the request's own clock, and the last poller joins",
        "S 0 0 3/L 1 1/A 1 2/L 1 1/P 2 0/A 1 2/P 2 1/P 0 1/L 0 2/T 0 1/",
    ),
    (
        "a failed try ticks and a release adds on a closed semaphore",
        "S 0 0 2/C 0/T 1 1/L 1 2/L 1 0/",
    ),
    ("late set-up", "S 2 - 2/T 0 3/L 0 0/A 1 1/P 1 0/L 0 2/"),
    ("late set-up by a release", "U 2 - 2/L 1 3/T 0 4/"),
    ("waking reaches the actor", "U 0 0 1/A 0 1/P 0 0/L 0 1/Z 0/Z 0/"),
    (
        "a grant not yet polled survives a close",
        "S 0 0 2/A 1 2/P 1 0/L 0 2/C 0/P 1 0/D 1 0/",
    ),
    (
        "a grant dropped on a closed semaphore releases",
        "S 0 0 2/A 1 2/P 1 0/L 0 2/C 0/D 0 0/",
    ),
    ("taking joins the touched batches alone", "S 3 0 2/T 0 1/T 0 1/T 1 1/"),
    ("a failed try sets nothing up", "S 1 - 1/T 0 2/"),
    ("empty", ""),
    ("only a line feed", "/"),
    ("refused first line", "S 1 2 2/T 0 1/"),
    ("bad first line", "S 1 0 2 0/T 0 1/"),
    ("last line unended", "S 1 0 2/T 0 1"),
];

/// Scripts whose first line has starting clocks.
const WITH_CLOCKS: &[(&str, &str)] = &[
    (
        "k14: own entry at its largest",
        "S 1 0 2 4294967295 0 0 0/L 0 1/T 0 1/A 0 1/P 0 0/L 0 0/L 1 1/T 1 1/D 0 0/",
    ),
    (
        "an entry that reaches its largest",
        "U 2 0 2 4294967294 7 3 0/T 0 3/T 0 1/T 1 2/",
    ),
    (
        "rows of their own, and the maker's in the first batch",
        "S 2 1 3 1 2 3 4 5 6 7 8 9/T 0 1/A 2 1/P 1 0/T 2 1/",
    ),
    ("no maker", "U 1 - 2 5 6 7 8/L 1 1/T 0 2/"),
    ("an entry short", "S 1 0 2 0 0 0/T 0 1/"),
    ("an entry that is no number", "S 1 0 2 0 x 0 0/T 0 1/"),
];

/// How tasks start: document 02, No. 2.
const STARTS: &[(&str, &str)] = &[
    (
        "a child's batch has its starting clock, and the last child is level with task 0",
        "S 1 1 3/T 2 1/",
    ),
    ("k15 from its zero clocks", "S 0 0 2 0 0 0 0/L 0 1/T 1 1/"),
    ("rows are not columns", "S 1 1 2 0 7 5 0/T 0 1/"),
    ("11 in a run of one task", "S 1 - 1 4294967295/T 0 1/L 0 1/L 0 0/"),
    (
        "11 wherever task 0 would tick",
        "S 1 - 2 4294967295 0 0 0/T 0 1/T 0 9/V 0 1 2/L 0 1/A 0 1/P 0 0/P 1 0/A 0 1/P 0 1/L 1 1/D 0 1/P 0 1/D 0 1/",
    ),
    (
        "11 at a poll that would take, reserving",
        "U 0 - 2 4294967295 0 0 0/R 0 0 2/P 0 0/L 1 2/P 0 0/D 0 0/R 0 1 2/P 0 0/P 1 0/",
    ),
    (
        "an elder child learns from a younger one's batch",
        "S 2 2 4/T 1 1/T 0 1/",
    ),
    ("16 tasks", "U 2 7 16/T 3 1/T 15 2/"),
    ("one task with its one entry", "S 1 0 1 1/T 0 1/"),
    ("an entry short, no maker", "S 1 - 2 0 0 0/T 0 1/"),
    ("an entry too many", "S 1 - 2 0 0 0 0 0/T 0 1/"),
    ("a space at the end", "S 1 - 2 0 0 0 0 /T 0 1/"),
    ("a leading zero in an entry", "S 1 - 2 0 0 0 00/T 0 1/"),
    ("an entry where none fits", "S 1 - 0 5/T 0 1/"),
    ("a square that is 1 in 32 bits", "S 0 - 2147483649 0/T 0 1/"),
    ("an entry short, and no such maker", "S 1 9 2 0 0 0/T 0 1/"),
    ("all entries, and no such maker", "S 1 9 2 0 0 0 0/T 0 1/"),
];

/// The text of a known script.
fn text(script: &str) -> String {
    script.replace('/', "\n")
}

/// K16: 64 batches, with a grant that lies there and cannot be given back; and 32 slots.
fn k16() -> [String; 2] {
    let batches = "L 0 1/".repeat(64);
    [
        text(&format!("S 0 0 2/A 1 1/P 1 0/L 0 1/{batches}L 0 1/D 0 0/T 0 1/L 0 1/")),
        text(&format!("S 0 0 1/{}", "A 0 1/".repeat(33))),
    ]
}

/// All 32 slots queued, then granted by one release; and what only the last slot shows.
fn full_queue() -> String {
    let makes = "A 0 1/".repeat(32);
    let polls: String = (0..32).map(|slot| format!("P 0 {slot}/")).collect();
    text(&format!(
        "S 0 0 1/{makes}{polls}L 0 32/P 0 31/D 0 31/B 0 2/P 0 31/D 0 31/"
    ))
}

/// A release that meets 9 and 10 gives 10.
fn full_twice() -> String {
    text(&format!("S 4294967232 0 1/{}L 0 1/T 0 1/L 0 1/", "L 0 1/".repeat(63)))
}

/// Slot 1 is dropped by task 0, and task 1's own entry is at its largest.
fn slot_is_no_task() -> String {
    text("S 0 0 2 0 0 0 4294967295/A 0 9/A 0 1/P 0 1/L 0 1/D 0 1/L 1 1/")
}

/// 17 tasks are too many, and have 289 entries.
fn seventeen(entries: usize) -> String {
    text(&format!("S 1 - 17{}/T 0 1/", " 0".repeat(entries)))
}

/// 16 tasks with 256 entries of ten digits, the last of them the largest.
fn widest() -> String {
    let entries: String = (0..256).rev().map(|below| format!(" {}", u32::MAX - below)).collect();
    text(&format!("S 2 5 16{entries}/T 3 1/L 15 1/T 0 1/"))
}
