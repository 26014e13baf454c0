//! Rows in words, and where two texts differ.

use oracle::tell::{differing, words};

#[test]
fn every_kind_of_row_is_told() {
    let rows = "\
granted 0 1 0 1 t
 0
 0 1 0
 1 256 1 0 3 2 1
 2 1 0 1
 3 0
 3 1
 3 1 2 1
 4 1 0 7
 5 0 4294967295
 6
 6 3 0
 7 1
 8 1 2 1
 9 1 0 7
 10 3 1 2 1 2 0 1 1 0 0 1
 11 3 0 7
";
    let told = "\
granted 0 1 0 1 t
 point -
 point 1 0
 grants 1 to a try (task 0 joins), 2 to slot 3 (task 1 joins)
 sem unfair, closed 0, stock 1
 batches not set up
 batches -
 batches 2 1
 batch 1 clock 0,7
 last 0,4294967295
 queue -
 queue 3 0
 reserved 1
 task 1 Sleeping, woken 1
 task 1 clock 0,7
 slot 3 Front, asked 2, least 1, reserving 0, task 1, queued 1, holding 0, completed 0, polled 1
 slot 3 clock 0,7
";
    assert_eq!(words(rows), told);
}

#[test]
fn what_is_no_row_stays_as_it_stands() {
    for text in [
        "bad\n",
        " 8 1 4 0\n",
        " 8 1 01 0\n",
        " 12\n",
        " 7 1 2\n",
        " 2 0 0\n",
        " \n",
        " 0",
        "",
    ] {
        assert_eq!(words(text), text);
    }
}

#[test]
fn of_the_first_line_that_differs_the_rows_that_differ() {
    let one = "s0 1\n 0\n 6\ndone 2\n 0 1\n 8 0 0 0\n 8 1 0 0\ndone 3\n";
    let other = "s0 1\n 0\n 6\ndone 2\n 0 1\n 8 0 0 0\n 8 1 3 0\n 9 0 1\ndone 4\n";
    let differs = differing(one, other);
    assert_eq!(differs.line, 2);
    assert_eq!(differs.one, "done 2\n task 1 Runnable, woken 0\n");
    assert_eq!(differs.other, "done 2\n task 1 Finished, woken 0\n task 0 clock 1\n");
}

#[test]
fn a_text_that_ends_early_and_rows_in_another_order() {
    let early = differing("done 2\n 0\n", "done 2\n 0\nr1\n");
    assert_eq!(
        (early.line, early.one, early.other),
        (2, "nothing\n".to_string(), "r1\n".to_string())
    );
    let moved = differing("done 2\n 6\n 7\n", "done 2\n 7\n 6\n");
    assert_eq!(moved.one, "done 2\n queue -\n reserved -\n");
    assert_eq!(moved.other, "done 2\n reserved -\n queue -\n");
}
