//! The line that is printed for a line of a script.

use crate::machine::Machine;
use crate::step::{Answer, Grant, Outcome, Taker};

/// The line for a step: its answer or refusal, and what document 01 has stand after it.
pub fn line(result: &Result<Outcome, u8>, machine: &Machine<'_>) -> String {
    let state = machine.state();
    let (answer, grants) = match result {
        Ok(outcome) => (answer(outcome.answer), granted(&outcome.grants)),
        Err(number) => (format!("r{number}"), "-".to_string()),
    };
    let (available, closed) = (machine.available(), u8::from(machine.is_closed()));
    format!(
        "{answer} {available} {} {closed} {} {grants}\n",
        state.stock,
        state.queue.len()
    )
}

fn answer(answer: Answer) -> String {
    match answer {
        Answer::Done => "done".to_string(),
        Answer::Granted => "granted".to_string(),
        Answer::Pending => "pending".to_string(),
        Answer::Closed => "closed".to_string(),
        Answer::NoPermits => "none".to_string(),
        Answer::Slot(slot) => format!("s{slot}"),
    }
}

fn granted(grants: &[Grant]) -> String {
    if grants.is_empty() {
        return "-".to_string();
    }
    let takers: Vec<String> = grants.iter().map(|grant| taker(grant.to)).collect();
    takers.join(",")
}

fn taker(taker: Taker) -> String {
    match taker {
        Taker::Slot(slot) => slot.to_string(),
        Taker::Try => "t".to_string(),
    }
}
