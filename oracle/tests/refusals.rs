//! Document 01's refusals and their order.

mod common;

use common::{answers, last};
use oracle::step::Fresh;

fn refused(script: &str) -> String {
    answers(script).pop().expect("something is printed")
}

#[test]
fn each_number() {
    for letter_and_numbers in [
        "A 2 1", "B 2 1", "R 2 1 1", "U 2 1 2", "P 2 0", "T 2 1", "V 2 1 2", "L 2 1", "D 2 0", "C 2", "Z 2", "F 2",
    ] {
        assert_eq!(refused(&format!("U 1 0 2/{letter_and_numbers}")), "r1");
        let of_sleeper = letter_and_numbers.replacen('2', "1", 1);
        assert_eq!(refused(&format!("U 1 0 2/Z 1/{of_sleeper}")), "r2");
        assert_eq!(refused(&format!("U 1 0 2/F 1/{of_sleeper}")), "r2");
    }
    assert_eq!(refused("U 1 0 2/A 1 3/P 1 0/T 0 1/P 1 0"), "r2", "blocked");
    assert_eq!(refused("S 1 0 1/P 0 0"), "r3");
    assert_eq!(refused("S 1 0 1/A 0 1/P 0 32"), "r3");
    assert_eq!(refused("S 1 0 1/A 0 1/D 0 0/D 0 0"), "r3");
    assert_eq!(refused("S 1 0 1/A 0 1/P 0 0/P 0 0"), "r4");
    assert_eq!(refused("S 1 0 1/A 0 1/C 0/P 0 0/P 0 0"), "r4");
    assert_eq!(refused("S 1 0 1/T 0 0"), "r5");
    assert_eq!(refused("S 1 0 1/R 0 1 1"), "r6");
    assert_eq!(refused("U 1 0 1/R 0 0 0"), "r7");
    assert_eq!(refused("U 1 0 1/R 0 2 1"), "r7");
    assert_eq!(refused("U 1 0 1/U 0 0 1"), "r7");
    assert_eq!(refused("U 1 0 1/V 0 1 1"), "r7");
    assert_eq!(refused("S 1 0 1/V 0 2 1"), "r7");
}

#[test]
fn the_order_of_several() {
    assert_eq!(refused("S 1 0 2/F 0/A 2 1"), "r1");
    assert_eq!(refused("S 1 0 2/F 0/P 0 0"), "r2", "before 3");
    assert_eq!(refused("S 1 0 2/R 0 3 0"), "r6", "before 7");
    let full = "/A 0 1".repeat(32);
    assert_eq!(refused(&format!("S 0 0 1{full}/R 0 1 1")), "r6", "before 8");
    assert_eq!(refused(&format!("S 0 0 1{full}/U 0 1 1")), "r7", "before 8");
    let batches = "/L 0 1".repeat(64);
    assert_eq!(refused(&format!("S 0 0 1{batches}/L 0 4294967295")), "r10", "before 9");
    let clock = "4294967231";
    assert_eq!(refused(&format!("S 0 0 1 {clock}{batches}/L 0 1")), "r9", "before 11");
    assert_eq!(refused("S 0 0 1 4294967295/T 0 0"), "r5", "before 11");
    assert_eq!(refused("S 0 0 1 4294967295/V 0 0 0"), "r7", "before 11");
}

#[test]
fn eleven_is_met_where_the_actor_would_tick() {
    let top = "S 1 - 2 4294967295 0 0 0";
    assert_eq!(refused(&format!("{top}/T 0 1")), "r11");
    assert_eq!(refused(&format!("{top}/T 0 9")), "r11");
    assert_eq!(refused(&format!("{top}/C 1/T 0 9")), "r11");
    assert_eq!(refused(&format!("{top}/V 0 1 2")), "r11");
    assert_eq!(refused(&format!("{top}/L 0 1")), "r11");
    assert_eq!(refused(&format!("{top}/L 0 0")), "done");
    assert_eq!(refused(&format!("{top}/A 0 1/P 0 0")), "r11");
    assert_eq!(
        refused(&format!("{top}/A 0 1/P 1 0")),
        "granted",
        "the actor ticks, not the maker"
    );
    assert_eq!(refused(&format!("{top}/A 0 2/P 0 0")), "pending");
    assert_eq!(
        refused(&format!("{top}/A 0 2/P 0 0/L 1 1/P 0 0")),
        "granted",
        "holding already"
    );
    assert_eq!(refused(&format!("{top}/A 0 2/P 0 0/L 1 1/D 0 0")), "r11");
    assert_eq!(refused(&format!("{top}/A 0 2/P 0 0/C 1/P 0 0")), "closed");
    let unfair = "U 0 - 2 4294967295 0 0 0";
    assert_eq!(
        refused(&format!("{unfair}/R 0 0 2/P 0 0")),
        "pending",
        "reserves, and takes nothing"
    );
    assert_eq!(refused(&format!("{unfair}/R 0 0 2/P 0 0/L 1 2/P 0 0")), "r11");
    assert_eq!(refused(&format!("{unfair}/R 0 1 2/P 0 0/L 1 2/P 0 0")), "r11");
    assert_eq!(
        refused(&format!("{unfair}/R 0 0 2/P 0 0/A 1 1/L 1 1/P 0 1")),
        "pending",
        "reserved"
    );
}

#[test]
fn a_dropped_holder_meets_9_and_10_and_stays() {
    let holder = "S 0 0 2/A 1 1/P 1 0/L 0 1";
    let full = format!("{holder}{}", "/L 0 1".repeat(64));
    assert_eq!(last(&format!("{full}/D 0 0")), "r9 64 64 0 0 -");
    assert_eq!(last(&format!("{full}/D 0 0/P 1 0")), "granted 64 64 0 0 -");
    assert_eq!(last(&format!("{full}/P 1 0/D 0 0")), "done 64 64 0 0 -");
    assert_eq!(
        last(&format!("{holder}/L 0 4294967295/D 0 0")),
        "r10 4294967295 4294967295 0 0 -"
    );
}

/// No script says so, since such a line is bad; whoever makes a fresh state otherwise can.
#[test]
fn twelve_for_a_clock_list_that_is_not_tasks_times_tasks_long() {
    let refused = |entries: usize| {
        let fresh = Fresh {
            strictly_fair: true,
            stock: 1,
            maker: Some(0),
            tasks: 2,
            clocks: Some(vec![0; entries]),
        };
        fresh.is_refused()
    };
    assert_eq!([0, 3, 4, 5].map(refused), [true, true, false, true]);
}
