//! The text of scripts: document 01, "The script program", and document 02, No. 2, for the first line.

use oracle::semtrace::{run, Options};

fn printed(script: &[u8]) -> String {
    run(script, Options::default()).0
}

#[test]
fn empty_input_prints_nothing_and_a_line_feed_is_a_bad_first_line() {
    assert_eq!(printed(b""), "");
    assert_eq!(printed(b"\n"), "bad\n");
    assert_eq!(printed(b"\nS 1 0 1\n"), "bad\n");
}

#[test]
fn a_bad_first_line_ends_the_program() {
    for first in [
        "S 1 0",
        "S 1 0 1 0 0",
        "s 1 0 1",
        "S 1 0 01",
        "S 1 00 1",
        "S 1  1",
        " S 1 0 1",
        "S 1 0 1 ",
        "S -1 0 1",
        "S 1 -1 1",
        "S 1 0 -",
        "S - 0 1",
        "S 4294967296 0 1",
        "X 1 0 1",
        "S\t1 0 1",
        "S 1 0 1\r",
        "T 0 1",
    ] {
        assert_eq!(printed(format!("{first}\nT 0 1\n").as_bytes()), "bad\n", "{first}");
    }
    assert_eq!(printed(b"S 1 0 1"), "bad\n", "an unended first line");
}

#[test]
fn a_refused_first_line_prints_r12_and_ends_the_program() {
    for first in [
        "S 1 0 0",
        "S 1 - 0",
        "S 1 0 17",
        "U 1 - 4294967295",
        "S 1 2 2",
        "S 1 4294967295 2",
    ] {
        assert_eq!(printed(format!("{first}\nT 0 1\n").as_bytes()), "r12\n", "{first}");
    }
}

#[test]
fn other_lines_that_say_nothing_print_bad_and_change_nothing() {
    for line in [
        "",
        " ",
        "A",
        "A 0",
        "A 0 1 1",
        "A 0 1 ",
        " A 0 1",
        "A  0 1",
        "A 0 01",
        "A 00 1",
        "A 0 +1",
        "A 0 -1",
        "A 0 x",
        "A 0 4294967296",
        "A 4294967296 0",
        "a 0 1",
        "AB 0 1",
        "X 0",
        "R 0 1",
        "R 0 1 1 1",
        "U 0 1",
        "V 0 1",
        "P 0",
        "T 0",
        "L 0",
        "D 0",
        "C",
        "C 0 0",
        "Z",
        "Z 0 0",
        "F",
        "F 0 0",
        "S 1 0 1",
        "A\t0 1",
        "A 0 1\r",
    ] {
        let script = format!("S 1 0 1\n{line}\nT 0 1\n");
        assert_eq!(
            printed(script.as_bytes()),
            "done 1 1 0 0 -\nbad\ngranted 0 0 0 0 t\n",
            "{line:?}"
        );
    }
    assert_eq!(printed(b"S 1 0 1\nT 0 \xff\n"), "done 1 1 0 0 -\nbad\n");
}

#[test]
fn what_follows_the_last_line_feed_is_bad_unless_it_is_empty() {
    assert_eq!(printed(b"S 1 0 1\nT 0 1"), "done 1 1 0 0 -\nbad\n");
    assert_eq!(printed(b"S 1 0 1\nT 0 1\n"), "done 1 1 0 0 -\ngranted 0 0 0 0 t\n");
}

#[test]
fn the_largest_numbers_are_numbers() {
    let script = b"S 4294967295 - 1\nA 4294967295 4294967295\nP 0 4294967295\nT 0 4294967295\n";
    let expected = "\
done 4294967295 4294967295 0 0 -
r1 4294967295 4294967295 0 0 -
r3 4294967295 4294967295 0 0 -
granted 0 0 0 0 t
";
    assert_eq!(printed(script), expected);
}

#[test]
fn more_than_65536_bytes_print_only_long() {
    let line = "L 0 0\n";
    let mut script = "S 0 0 1\n".to_string() + &line.repeat((65_536 - 8) / line.len());
    script += &"\n".repeat(65_536 - script.len());
    assert!(printed(script.as_bytes()).starts_with("done 0 0 0 0 -\n"));
    script += "\n";
    assert_eq!(printed(script.as_bytes()), "long\n");
}

/// A first line with so many zeros behind it.
fn with_zeros(line: &str, entries: usize) -> String {
    line.to_string() + &" 0".repeat(entries)
}

/// What is printed for a first line and a try of 1 by task 0.
fn started(first: &str) -> String {
    printed(format!("{first}\nT 0 1\n").as_bytes())
}

#[test]
fn the_starting_clocks_come_row_by_row() {
    let whole = run(b"S 1 0 2 5 6 7 8\nT 1 1\n", Options { state: true }).0;
    assert!(whole.contains("\n 3 1 1\n 4 0 5 6\n"), "{whole}");
    assert!(whole.contains("\n 9 0 5 6\n 9 1 7 8\n"), "{whole}");
    assert!(whole.contains("\n 9 0 5 6\n 9 1 7 9\n"), "{whole}");
    assert_eq!(started("S 1 0 1 1"), "done 1 1 0 0 -\ngranted 0 0 0 0 t\n");
}

#[test]
fn starting_clocks_are_all_or_none() {
    for first in [
        "S 1 - 2 0 0 0",
        "S 1 - 2 0 0 0 0 0",
        "S 1 - 1 0 0",
        "S 1 - 0 5",
        "S 1 - 3 0",
        "S 0 - 2147483649 0",
        "S 0 - 4294967295 0",
        "S 0 - 65536 0",
        "S 1 9 2 0 0 0",
    ] {
        assert_eq!(started(first), "bad\n", "{first}");
    }
    for entries in [1, 255, 256, 257, 288, 290] {
        assert_eq!(started(&with_zeros("S 1 - 17", entries)), "bad\n", "{entries}");
    }
    for entries in [1, 255, 257, 289] {
        assert_eq!(started(&with_zeros("S 1 - 16", entries)), "bad\n", "{entries}");
    }
    for entries in [0, 256] {
        assert!(started(&with_zeros("S 1 - 16", entries)).starts_with("done 1 1 0 0 -\n"));
    }
}

#[test]
fn every_entry_is_a_number_of_the_script() {
    for entries in [
        "0 0 0 0 ",
        " 0 0 0 0",
        "0 0  0 0",
        "0 0 0 00",
        "0 0 01 0",
        "0 0 0 4294967296",
        "99999999999999999999 0 0 0",
        "0 x 0 0",
        "0 -1 0 0",
        "0 - 0 0",
        "0 0 0 0\r",
        "0\t0 0 0 0",
        "0,0,0,0",
    ] {
        assert_eq!(started(&format!("S 1 - 2 {entries}")), "bad\n", "{entries:?}");
    }
    assert_eq!(started("S 1 - 2 "), "bad\n", "a space, and no entry");
    assert!(started("S 1 - 2 0 0 0 4294967295").starts_with("done"));
}

#[test]
fn bad_comes_before_12() {
    assert_eq!(started("S 1 9 2 0 0 0"), "bad\n");
    assert_eq!(started("S 1 9 2 0 0 0 0"), "r12\n");
    assert_eq!(started("S 1 - 0 5"), "bad\n");
    assert_eq!(started("S 1 - 0"), "r12\n");
    assert_eq!(started("S 1 - 17"), "r12\n");
    assert_eq!(started(&with_zeros("S 1 - 17", 288)), "bad\n");
    assert_eq!(started(&with_zeros("S 1 - 17", 289)), "r12\n");
    assert_eq!(started(&with_zeros("S 1 - 180", 180 * 180)), "r12\n", "32,400 entries");
    assert_eq!(started(&with_zeros("S 1 - 180", 180 * 180 - 1)), "bad\n");
}
