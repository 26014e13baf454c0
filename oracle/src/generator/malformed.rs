//! Lines that are bad, and first lines that are refused.

use crate::random::Random;

pub fn line(random: &mut Random) -> &'static str {
    random.pick(&LINES)
}

pub fn first_line(random: &mut Random) -> String {
    match random.chance(40) {
        true => random.pick(&FIRST_LINES).to_string(),
        false => wrong_clocks(random),
    }
}

/// Starting clocks that are neither all nor none: one entry short, one too many, or another number of them.
fn wrong_clocks(random: &mut Random) -> String {
    let tasks: usize = random.pick(&[0, 1, 2, 3, 15, 16, 17]);
    let all = tasks * tasks;
    let mut entries = random.pick(&[all + 1, all.saturating_sub(1), tasks, 256]);
    if entries == 0 || entries == all {
        entries = all + 1;
    }
    let maker = random.pick(&["-", "0", "99"]);
    with_entries(random, &format!("S 1 {maker} {tasks}"), entries)
}

/// Well formed, and refused with 12.
pub fn refused_first_line(random: &mut Random) -> String {
    match random.below(10) {
        0 => with_entries(random, "S 1 - 17", 17 * 17),
        1 => with_entries(random, "U 1 2 2", 2 * 2),
        _ => random.pick(&REFUSED_FIRST_LINES).to_string(),
    }
}

fn with_entries(random: &mut Random, line: &str, entries: usize) -> String {
    (0..entries).fold(line.to_string(), |line, _| format!("{line} {}", random.below(3)))
}

const LINES: [&str; 35] = [
    "",
    " ",
    "A",
    "A ",
    "A 0",
    "A 0 1 2",
    " A 0 1",
    "A 0 1 ",
    "A  0 1",
    "A 0 01",
    "A 00 1",
    "A 0 4294967296",
    "A 4294967296 1",
    "A 0 99999999999999999999",
    "A 0 -1",
    "A 0 +1",
    "A 0 1x",
    "A 0 1\r",
    "A\t0 1",
    "a 0 1",
    "AA 0 1",
    "X 0 1",
    "S 2 0 2",
    "R 0 1",
    "U 0 1",
    "V 0 1",
    "P 0",
    "P 0 -",
    "T 0",
    "L 0",
    "D 0",
    "C",
    "C 0 0",
    "Z",
    "F 0 1",
];

const FIRST_LINES: [&str; 16] = [
    "",
    "S",
    "S 1 0",
    "S 1 0 2 0",
    "s 1 0 2",
    "S 01 0 2",
    "S 1 + 2",
    "S 1 - -",
    "A 0 1",
    "S 4294967296 0 2",
    "S 1 - 2 ",
    "S 1 - 2 0 0 0 0 ",
    "S 1 - 2 0 0 0 00",
    "S 1 - 2 0 0 0 4294967296",
    "S 1 - 2 0 x 0 0",
    "S 0 - 2147483649 0",
];

const REFUSED_FIRST_LINES: [&str; 6] = [
    "S 1 0 0",
    "U 1 - 0",
    "S 1 - 17",
    "U 0 2 2",
    "S 3 4294967295 16",
    "U 2 0 4294967295",
];
