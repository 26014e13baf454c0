//! A script that differs is cut down to the lines that it needs.

use oracle::compare::cut_down;

#[test]
fn only_what_differs_is_left() {
    let script: String = (0..100).map(|number| format!("{number}\n")).collect();
    let needs = ["7\n", "41\n", "99\n"];
    let has_all = |script: &str| {
        let lines: Vec<&str> = script.split_inclusive('\n').collect();
        needs.iter().all(|line| lines.contains(line))
    };
    let smallest = cut_down(&script, &mut |script| Ok(has_all(script))).expect("nothing is read");
    assert_eq!(smallest, "0\n7\n41\n99\n");
}

#[test]
fn a_request_goes_with_its_slot_number() {
    let polls_the_bypassable = ["A 0 1\nB 0 1\nP 0 1\n", "S 0 0 1\nB 0 1\nP 0 0\n"];
    let differs = |script: &str| polls_the_bypassable.iter().any(|text| script.ends_with(text));
    let smallest = cut_down("S 0 0 1\nA 0 1\nB 0 1\nP 0 1\n", &mut |script| Ok(differs(script)));
    assert_eq!(smallest.expect("nothing is read"), "S 0 0 1\nB 0 1\nP 0 0\n");
}

#[test]
fn the_first_line_stays() {
    let smallest = cut_down("0\n1\n2", &mut |_| Ok(true)).expect("nothing is read");
    assert_eq!(smallest, "0\n");
}
