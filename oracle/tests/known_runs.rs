//! Document 01's runs, and what the Rust does that is easy to miss. Where clocks are shown, the runs start from
//! zero clocks, as document 01's do: an entry is then the number of ticks in the run.

mod common;

use common::{answers, from_zeros, last, lines};

fn state(script: &str, name: &str) -> String {
    common::state(&from_zeros(script), name)
}

#[test]
fn k1_a_failed_try_ticks() {
    assert_eq!(last("S 0 0 2/T 0 1"), "none 0 0 0 0 -");
    assert_eq!(state("S 0 0 2/T 0 1", "task 0"), "Runnable, woken 0, clock 1,0");
}

#[test]
fn k2_a_try_takes_what_is_there() {
    assert_eq!(answers("S 3 0 2/T 0 4/T 0 3"), ["done", "none", "granted"]);
}

#[test]
fn k3_asks_of_nothing() {
    assert_eq!(answers("S 1 0 2/A 0 0/P 0 0/T 0 0"), ["done", "s0", "r5", "r5"]);
    assert_eq!(answers("S 1 0 2/B 0 0/P 0 0"), ["done", "s0", "r5"]);
    assert_eq!(
        answers("S 1 0 2/A 0 0/C 0/P 0 0/T 0 0"),
        ["done", "s0", "done", "closed", "r5"]
    );
}

#[test]
fn k6_a_later_upgrade_stands_before_an_earlier_one() {
    assert_eq!(last("S 0 0 2/U 0 1 2/U 0 1 2/P 0 0/P 0 1/L 0 1"), "done 0 0 0 1 1");
}

#[test]
fn k7_a_scan_passes_the_bypassable_and_ends_at_the_first_too_large() {
    assert_eq!(
        last("S 0 0 2/B 0 3/A 0 1/A 0 2/P 0 0/P 0 1/P 0 2/L 0 2"),
        "done 1 1 0 2 1"
    );
}

#[test]
fn k8_k9_an_unfair_upgrade_reserves() {
    let run = "U 0 0 2/U 0 1 3/P 0 0";
    assert_eq!(last(run), "pending 0 0 0 0 -");
    assert_eq!(state(run, "reserved"), "0");
    let run = format!("{run}/L 0 1");
    assert_eq!(last(&run), "done 0 1 0 0 -");
    assert_eq!(last(&format!("{run}/T 0 1")), "none 0 1 0 0 -");
    assert_eq!(last(&format!("{run}/T 0 1/L 0 1/P 0 0")), "granted 0 0 0 0 0");
}

#[test]
fn k14_the_largest_stock_and_the_largest_entry() {
    assert_eq!(answers("S 4294967294 0 2/L 0 1/L 0 1"), ["done", "done", "r10"]);
    assert_eq!(
        answers("S 0 0 1 4294967294/L 0 1/L 0 1/L 0 0"),
        ["done", "done", "r11", "done"]
    );
}

#[test]
fn k15_a_taker_joins_the_releaser() {
    assert_eq!(state("S 0 0 2/L 0 1/T 1 1", "task 1"), "Runnable, woken 0, clock 1,1");
}

#[test]
fn k16_sixty_four_batches_and_thirty_two_slots() {
    let full = format!("S 0 0 2{}", "/L 0 1".repeat(64));
    assert_eq!(last(&full), "done 64 64 0 0 -");
    assert_eq!(last(&format!("{full}/L 0 1")), "r9 64 64 0 0 -");
    assert_eq!(last(&format!("{full}/L 0 0")), "done 64 64 0 0 -");
    assert_eq!(last(&format!("{full}/T 0 1/L 0 1")), "done 64 64 0 0 -");
    assert_eq!(last(&format!("S 0 0 2{}", "/A 0 1".repeat(32))), "s31 0 0 0 0 -");
    assert_eq!(last(&format!("S 0 0 2{}", "/A 0 1".repeat(33))), "r8 0 0 0 0 -");
}

#[test]
fn a_finished_tasks_queued_request_holds_back_until_a_scan_discards_it() {
    assert_eq!(last("S 1 0 2/A 1 2/P 1 0/F 1/T 0 1"), "none 1 1 0 1 -");
    assert_eq!(last("S 1 0 2/A 1 2/P 1 0/F 1/L 0 5"), "done 6 6 0 0 -");
}

#[test]
fn waking_the_unfair_leaves_a_finished_tasks_request_in_the_queue() {
    assert_eq!(last("U 1 0 2/A 1 2/P 1 0/F 1/L 0 5"), "done 6 6 0 1 -");
}

#[test]
fn a_drop_scans_only_if_it_was_first_or_the_new_front_is_bypassable() {
    let run = "S 1 0 3/A 1 2/P 1 0/A 2 1/P 2 1/A 0 1/P 0 2/F 1/D 0 2";
    assert_eq!(last(run), "done 1 1 0 2 -");
    assert_eq!(state(run, "queue"), "0 1");
    assert_eq!(last("S 1 0 3/A 1 2/P 1 0/A 2 1/P 2 1/D 0 0"), "done 0 0 0 0 1");
    assert_eq!(
        last("S 1 0 3/B 1 2/P 1 0/A 1 2/P 1 1/A 2 1/P 2 2/D 0 1"),
        "done 0 0 0 1 2"
    );
}

#[test]
fn a_queued_request_of_a_strict_semaphore_is_pending_at_every_poll() {
    let run = "S 1 0 2/U 0 1 3/P 0 0/U 0 1 4/P 0 1";
    assert_eq!(state(run, "queue"), "1 0");
    assert_eq!(state(&format!("{run}/P 0 0"), "queue"), "1 0");
    // Slot 0 would fit and is Front, and a try-upgrade of as much succeeds.
    assert_eq!(last(&format!("{run}/L 0 1/P 0 0")), "pending 2 2 0 2 -");
    assert_eq!(last(&format!("{run}/L 0 1/V 0 1 3")), "granted 0 0 0 2 t");
}

#[test]
fn reblock_goes_by_request() {
    let run = "U 0 0 2/A 1 1/P 1 0/A 1 2/P 1 1/L 0 2/T 0 1";
    assert_eq!(
        state(run, "task 1"),
        "Blocked, woken 1, clock 0,0",
        "though its request of 1 fits"
    );
    let run = "U 0 0 2/A 1 2/P 1 0/Z 1/L 0 1/T 0 1";
    assert_eq!(state(run, "task 1"), "Blocked, woken 0, clock 0,0", "though it slept");
}

#[test]
fn taking_the_reservation_reblocks_and_its_grant_does_not() {
    let run = "U 1 0 2/A 1 2/P 1 0/L 0 1/U 0 1 5/P 0 1";
    assert_eq!(
        state(run, "task 1"),
        "Blocked, woken 1, clock 0,0",
        "though its least fits"
    );
    let run = format!("{run}/L 0 2/P 0 1");
    assert_eq!(last(&run), "granted 0 0 0 1 1");
    assert_eq!(
        state(&run, "task 1"),
        "Blocked, woken 1, clock 0,0",
        "stock 0 wakes nobody, and nothing is blocked again"
    );
    let left = "U 0 0 2/U 0 1 3/P 0 0/A 1 2/P 1 1/L 0 3/P 0 0";
    assert_eq!(
        state(left, "task 1"),
        "Runnable, woken 0, clock 0,0",
        "2 are not left, and it is not blocked for that"
    );
}

#[test]
fn a_finished_tasks_reservation_stands_until_waking_clears_it() {
    let run = "U 0 0 3/U 1 1 3/P 1 0/A 2 1/P 2 1/F 1/T 0 1";
    assert_eq!(state(run, "reserved"), "0");
    let run = format!("{run}/L 0 1");
    assert_eq!(state(&run, "reserved"), "-");
    assert_eq!(
        state(&run, "task 2"),
        "Runnable, woken 1, clock 0,0,0",
        "the queue is woken in the same step"
    );
    assert_eq!(last(&format!("{run}/P 0 0")), "pending 0 1 0 1 -");
    assert_eq!(state(&format!("{run}/P 0 0"), "reserved"), "0");
}

#[test]
fn a_reservation_follows_the_task_that_polled_it_last() {
    let run = "U 0 0 3/U 1 1 3/P 1 0/P 2 0/Z 2/L 0 2";
    assert_eq!(state(run, "task 1"), "Runnable, woken 0, clock 0,0,0");
    assert_eq!(state(run, "task 2"), "Runnable, woken 1, clock 0,0,0");
    assert_eq!(
        state(&format!("{run}/P 0 0"), "grants"),
        "2 to slot 0 (task 0 joins)",
        "and whoever polls takes"
    );
}

#[test]
fn least_0_is_woken_at_stock_0() {
    let run = "U 0 0 3/U 1 1 3/P 1 0/U 2 1 2/P 2 1/Z 2/D 1 0";
    assert_eq!(state(run, "task 2"), "Runnable, woken 1, clock 0,0,0");
}

#[test]
fn last_acquire_gets_the_takers_clock_from_before_the_tick() {
    assert_eq!(state("S 2 0 2/T 0 1", "last"), "0,0");
    assert_eq!(state("S 2 0 2/T 0 1/T 0 1", "last"), "1,0");
    assert_eq!(
        state("S 3 0 2/T 0 1/T 0 1/T 1 1", "task 1"),
        "Runnable, woken 0, clock 0,1"
    );
}

#[test]
fn a_queue_grant_uses_the_makers_clock_and_the_last_pollers_task() {
    let run = "S 0 0 3/L 1 1/A 1 2/L 1 1/T 1 2/P 2 0/L 0 2";
    assert_eq!(last(run), "done 0 0 0 0 0");
    assert_eq!(state(run, "grants"), "2 to slot 0 (task 2 joins)");
    assert_eq!(
        state(run, "slot 0"),
        "Back, asked 2, least 2, reserving 0, task 2, queued 0, holding 1, completed 0, polled 1, clock 0,1,0"
    );
    assert_eq!(
        state(run, "last"),
        "0,2,0",
        "the try's clock; the request's own has less"
    );
    assert_eq!(
        state(run, "task 2"),
        "Runnable, woken 1, clock 1,0,0",
        "joins the batch, and does not tick"
    );
    assert_eq!(state(run, "task 1"), "Runnable, woken 0, clock 0,3,0");
}

#[test]
fn in_a_poll_the_actor_joins_and_the_recorded_task_stays() {
    let run = "U 0 0 3/A 1 1/P 1 0/L 0 1/P 2 0";
    assert_eq!(state(run, "grants"), "1 to slot 0 (task 2 joins)");
    assert_eq!(state(run, "task 2"), "Runnable, woken 0, clock 1,0,1");
    assert_eq!(state(run, "task 1"), "Runnable, woken 1, clock 0,0,0");
    assert_eq!(
        state(run, "slot 0"),
        "Back, asked 1, least 1, reserving 0, task 1, queued 0, holding 1, completed 1, polled 1, clock 0,0,0"
    );
}

#[test]
fn a_closed_semaphore_still_ticks_and_takes_releases() {
    let run = "S 0 0 2/C 0/T 1 1/L 1 2/L 1 0";
    assert_eq!(
        lines(run)[2..],
        ["closed 0 0 1 0 -", "done 2 2 1 0 -", "done 2 2 1 0 -"]
    );
    assert_eq!(state(run, "task 1"), "Runnable, woken 0, clock 0,2");
    assert_eq!(state(run, "batches"), "2");
    assert_eq!(state(run, "batch 0"), "clock 0,2");
    assert_eq!(state(run, "point"), "1");
}

#[test]
fn late_set_up_comes_with_a_taking_or_a_release_above_0() {
    assert_eq!(state("S 1 - 1/T 0 2", "batches"), "not set up");
    assert_eq!(state("S 1 - 1/L 0 0", "batches"), "not set up");
    assert_eq!(state("S 1 - 1/A 0 2/P 0 0", "batches"), "not set up");
    assert_eq!(state("S 2 - 1/T 0 1", "batches"), "1");
    assert_eq!(state("S 2 - 1/T 0 1", "batch 0"), "clock 0");
    assert_eq!(state("S 2 - 1/L 0 3", "batches"), "2 3");
    assert_eq!(state("S 2 - 1/L 0 3", "batch 0"), "clock 0");
    assert_eq!(state("S 2 - 1/L 0 3", "batch 1"), "clock 1");
    assert_eq!(state("S 0 - 1/L 0 3", "batches"), "3");
    assert_eq!(state("S 0 - 1/L 0 3", "batch 0"), "clock 1");
    assert_eq!(state("S 2 0 1/T 0 2", "batches"), "-");
}

#[test]
fn waking_reaches_the_actor() {
    assert_eq!(
        state("U 0 0 1/A 0 1/P 0 0/L 0 1/Z 0", "task 0"),
        "Runnable, woken 0, clock 1"
    );
    assert_eq!(
        state("U 0 0 1/A 0 1/P 0 0/L 0 1/Z 0/Z 0", "task 0"),
        "Sleeping, woken 0, clock 1"
    );
}

#[test]
fn a_grant_not_yet_polled_survives_a_close_and_its_drop_releases() {
    let run = "S 0 0 2/A 1 2/P 1 0/L 0 2/C 0";
    assert_eq!(last(&format!("{run}/P 1 0")), "granted 0 0 1 0 -");
    let dropped = format!("{run}/D 0 0");
    assert_eq!(last(&dropped), "done 2 2 1 0 -");
    assert_eq!(state(&dropped, "task 0"), "Runnable, woken 0, clock 2,0");
    assert_eq!(state(&dropped, "point"), "0 1");
    assert_eq!(state(&dropped, "batches"), "2");
    assert_eq!(state(&dropped, "batch 0"), "clock 2,0");
}

#[test]
fn points_of_a_poll() {
    // Never polled, and strictly fair, or holding, or closed, or the least available.
    assert_eq!(state("S 0 0 1/A 0 1/P 0 0", "point"), "1");
    assert_eq!(state("S 0 0 1/A 0 1/P 0 0/P 0 0", "point"), "0");
    assert_eq!(state("U 0 0 1/A 0 1/P 0 0", "point"), "0");
    assert_eq!(state("U 1 0 1/A 0 1/P 0 0", "point"), "1");
    assert_eq!(state("U 0 0 1/A 0 1/C 0/P 0 0", "point"), "1");
    assert_eq!(state("U 1 0 1/R 0 1 3/P 0 0", "point"), "1");
    assert_eq!(state("U 1 0 1/R 0 2 3/P 0 0", "point"), "0");
    assert_eq!(
        state("U 1 0 2/U 1 1 9/P 1 0/A 0 1/P 0 1", "point"),
        "0",
        "reserved: none is available"
    );
    assert_eq!(
        state("U 1 0 2/U 1 1 9/P 1 0/U 0 1 2/P 0 1", "point"),
        "1",
        "0 is available, and the least"
    );
}

#[test]
fn points_of_other_steps() {
    assert_eq!(state("S 0 0 1/L 0 0", "point"), "1");
    assert_eq!(state("S 0 0 1/C 0/C 0", "point"), "1");
    assert_eq!(state("S 0 0 1/A 0 1", "point"), "-");
    assert_eq!(state("S 0 0 1/Z 0", "point"), "-");
    assert_eq!(state("S 0 0 1/F 0", "point"), "-");
    assert_eq!(state("S 0 0 1/A 0 1/D 0 0", "point"), "0 0");
    assert_eq!(state("S 0 0 1/A 0 1/P 0 0/D 0 0", "point"), "1 0");
    assert_eq!(state("U 0 0 1/U 0 1 2/P 0 0/D 0 0", "point"), "1 0");
    assert_eq!(state("S 0 0 1/A 0 1/P 0 0/L 0 1/D 0 0", "point"), "0 1");
    assert_eq!(state("S 1 0 1/A 0 1/P 0 0/D 0 0", "point"), "0 0");
}

#[test]
fn a_finish_leaves_the_woken_mark() {
    assert_eq!(
        state("U 0 0 2/A 1 1/P 1 0/L 0 1/F 1", "task 1"),
        "Finished, woken 1, clock 0,0"
    );
}

#[test]
fn a_close_unblocks_and_wakes_all_that_wait_and_are_not_finished() {
    let run = "U 1 0 4/A 1 2/P 1 0/A 2 2/P 2 1/F 2/U 3 1 3/P 3 2/Z 3/C 0";
    assert_eq!(last(run), "done 1 1 1 0 -");
    assert_eq!(state(run, "task 1"), "Runnable, woken 1, clock 0,0,0,0");
    assert_eq!(state(run, "task 2"), "Finished, woken 0, clock 0,0,0,0");
    assert_eq!(state(run, "task 3"), "Runnable, woken 1, clock 0,0,0,0");
}
