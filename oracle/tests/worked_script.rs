//! Document 01's worked script, whole.

use oracle::semtrace::{run, Options};

#[test]
fn prints_what_document_01_says() {
    let script = "S 2 0 2\nA 0 2\nP 0 0\nA 1 1\nP 1 1\nL 0 1\nP 1 1\n";
    let expected = "\
done 2 2 0 0 -
s0 2 2 0 0 -
granted 0 0 0 0 0
s1 0 0 0 0 -
pending 0 0 0 1 -
done 0 0 0 0 1
granted 0 0 0 0 -
";
    assert_eq!(run(script.as_bytes(), Options::default()).0, expected);
}

#[test]
fn prints_the_whole_state_after_each_accepted_line() {
    let script = "S 2 0 2\nA 1 2\nT 0 1\nT 9 1\nL 1 1\n";
    let expected = "\
done 2 2 0 0 -
 0
 1
 2 0 0 2
 3 1 2
 4 0 1 0
 5 0 0
 6
 7
 8 0 0 0
 8 1 0 0
 9 0 1 0
 9 1 1 0
s0 2 2 0 0 -
 0
 1
 2 0 0 2
 3 1 2
 4 0 1 0
 5 0 0
 6
 7
 8 0 0 0
 8 1 0 0
 9 0 1 0
 9 1 1 0
 10 0 1 2 2 0 0 1 0 0 0 0
 11 0 1 0
granted 1 1 0 0 t
 0 1
 1 256 1 0
 2 0 0 1
 3 1 1
 4 0 1 0
 5 1 0
 6
 7
 8 0 0 0
 8 1 0 0
 9 0 2 0
 9 1 1 0
 10 0 1 2 2 0 0 1 0 0 0 0
 11 0 1 0
r1 1 1 0 0 -
done 2 2 0 0 -
 0 1
 1
 2 0 0 2
 3 1 1 1
 4 0 1 0
 4 1 1 1
 5 1 0
 6
 7
 8 0 0 0
 8 1 0 0
 9 0 2 0
 9 1 1 1
 10 0 1 2 2 0 0 1 0 0 0 0
 11 0 1 0
";
    let (printed, count) = run(script.as_bytes(), Options { state: true });
    assert_eq!(printed, expected);
    assert_eq!((count.left_out, count.steps), (1, 4));
}
