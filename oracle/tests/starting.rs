//! How tasks start: document 02, No. 2.

mod common;

use common::{lines, state};
use oracle::machine::with_machine;
use oracle::state::Clock;
use oracle::step::Fresh;

/// The clocks of so many tasks that Shuttle's own code spawns.
fn spawned(tasks: u32) -> Vec<Clock> {
    let fresh = Fresh {
        strictly_fair: true,
        stock: 0,
        maker: None,
        tasks,
        clocks: None,
    };
    let clocks = |tasks: Vec<oracle::state::Task>| tasks.into_iter().map(|task| task.clock).collect();
    with_machine(&fresh, |machine| clocks(machine.state().tasks))
}

#[test]
fn task_0_ticks_before_each_child_and_the_child_has_a_copy() {
    assert_eq!(spawned(1), [[0]]);
    assert_eq!(spawned(2), [[1, 0], [1, 0]]);
    assert_eq!(spawned(3), [[2, 0, 0], [1, 0, 0], [2, 0, 0]]);
    let entry_0: Vec<u32> = spawned(16).iter().map(|clock| clock[0]).collect();
    assert_eq!(entry_0, [15, 1, 2, 3, 4, 5, 6, 7, 8, 9, 10, 11, 12, 13, 14, 15]);
    assert!(spawned(16).iter().all(|clock| clock[1..] == [0; 15]));
}

#[test]
fn the_first_batch_has_the_makers_starting_clock() {
    assert_eq!(state("S 1 1 3", "batch 0"), "clock 1,0,0");
    assert_eq!(state("S 1 0 3", "batch 0"), "clock 2,0,0");
    assert_eq!(state("S 1 1 3/T 2 1", "task 2"), "Runnable, woken 0, clock 2,0,1");
    assert_eq!(state("S 1 1 3/T 2 1", "last"), "2,0,0");
    assert_eq!(state("S 1 2 3/T 1 1", "task 1"), "Runnable, woken 0, clock 2,1,0");
    assert_eq!(state("S 1 1 2 0 7 5 0", "batch 0"), "clock 5,0");
    assert_eq!(state("S 1 1 2 0 7 5 0/T 0 1", "task 0"), "Runnable, woken 0, clock 5,7");
    assert_eq!(state("S 1 1 2 0 7 5 0/T 0 1", "last"), "0,7");
}

#[test]
fn a_later_set_up_has_the_empty_clock() {
    assert_eq!(state("S 1 - 3", "batches"), "not set up");
    assert_eq!(state("S 2 - 3/T 1 1", "batch 0"), "clock 0,0,0");
    assert_eq!(state("S 2 - 3/T 1 1", "task 1"), "Runnable, woken 0, clock 1,1,0");
    assert_eq!(state("S 2 - 3/L 1 1", "batch 0"), "clock 0,0,0");
    assert_eq!(state("S 2 - 3/L 1 1", "batch 1"), "clock 1,1,0");
    assert_eq!(state("S 2 - 2 5 6 7 8/L 1 1", "batch 0"), "clock 0,0");
}

#[test]
fn spawned_is_not_zero() {
    assert_eq!(state("S 0 0 2/L 0 1/T 1 1", "task 1"), "Runnable, woken 0, clock 2,1");
    assert_eq!(
        state("S 0 0 2 0 0 0 0/L 0 1/T 1 1", "task 1"),
        "Runnable, woken 0, clock 1,1"
    );
}

#[test]
fn eleven_is_within_reach() {
    assert_eq!(
        lines("S 1 - 1 4294967295/T 0 1/L 0 1/L 0 0"),
        ["done 1 1 0 0 -", "r11 1 1 0 0 -", "r11 1 1 0 0 -", "done 1 1 0 0 -"]
    );
}
