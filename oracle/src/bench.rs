//! The Rust's side of the measurement of speed: steps in records of eight bytes, run one after the other
//! with nothing observed, and a sum of the answers. `bench/run` counts the instructions.
//!
//! A record: the kind, the actor, two numbers of two bytes each with the lower byte first, and two bytes
//! of nothing. The first record is the start: 0 for strictly fair, the maker or 255, the task count, the
//! stock. Only accepted steps are handed over: the Rust knows no refusals.

use crate::generator;
use crate::machine::with_machine;
use crate::script;
use crate::step::{Act, Answer, Fresh, Step};

const RECORD: usize = 8;
const NOBODY: u8 = 255;
const REQUESTS: usize = 32;

/// A workload: how it starts, the steps up to where it is measured, and the steps that are repeated.
pub struct Workload {
    pub name: &'static str,
    start: String,
    before: String,
    repeated: String,
    /// How often the repeated steps come in the shorter of the two runs; twice as often in the longer.
    repeats: usize,
}

/// Every workload of the measurement but the long mixed runs.
pub fn workloads() -> Vec<Workload> {
    let every = |line: &dyn Fn(usize) -> String| (0..REQUESTS).map(line).collect::<Vec<_>>().join("/");
    let tasks = |slot: usize| 1 + slot % 15;
    let full = |ask: usize| {
        let asks = every(&|slot| format!("A {} {ask}", tasks(slot)));
        let polls = every(&|slot| format!("P {} {slot}", tasks(slot)));
        format!("{asks}/{polls}")
    };
    let releases = |n: usize| vec!["L 0 1"; n].join("/");
    let polled = every(&|slot| format!("P {} {slot}", tasks(slot)));
    let dropped = every(&|slot| format!("D {} {slot}", tasks(slot)));
    let scan_of_all = format!("{}/L 0 32/{polled}/{dropped}", full(1));
    [
        (
            "strict, nobody waits, one batch: take, release",
            "S 1 0 2",
            "",
            "T 0 1/L 0 1",
        ),
        (
            "unfair, nobody waits, one batch: take, release",
            "U 1 0 2",
            "",
            "T 0 1/L 0 1",
        ),
        (
            "strict, 64 batches: take, release",
            "S 0 0 2",
            &releases(64),
            "T 0 1/L 0 1",
        ),
        (
            "unfair, 64 batches: take, release",
            "U 0 0 2",
            &releases(64),
            "T 0 1/L 0 1",
        ),
        (
            "strict, one waits: a scan that grants none",
            "S 0 0 2",
            "A 1 5/P 1 0",
            "L 0 1/V 0 1 2",
        ),
        (
            "strict, 32 wait: a scan that grants none",
            "S 0 0 16",
            &full(5),
            "L 0 1/V 0 1 2",
        ),
        (
            "strict: a scan that grants one",
            "S 0 0 2",
            "",
            "A 1 1/P 1 0/L 0 1/P 1 0/D 1 0",
        ),
        ("strict: a scan that grants 32", "S 0 0 16", "", &scan_of_all),
        (
            "unfair, 32 wait: waking all, reblocking all",
            "U 0 0 16",
            &full(1),
            "L 0 1/T 0 1",
        ),
        ("strict: tries that fail", "S 0 0 2", "", "T 0 1"),
        ("unfair: tries that fail, 16 tasks", "U 0 0 16", "", "T 0 1"),
        ("strict: polls that stay pending", "S 0 0 2", "A 1 1/P 1 0", "P 1 0"),
        ("unfair: polls that stay pending", "U 0 0 2", "A 1 1/P 1 0", "P 1 0"),
        (
            "strict, 32 wait: polls that stay pending",
            "S 0 0 16",
            &full(5),
            "P 1 0",
        ),
        ("making and dropping a request", "S 0 0 2", "", "A 0 1/D 0 0"),
        (
            "unfair: a reservation made, met and dropped",
            "U 1 0 2",
            "",
            "U 0 1 3/P 0 0/L 0 1/P 0 0/D 0 0/L 0 1/T 0 1",
        ),
    ]
    .into_iter()
    .map(|(name, start, before, repeated)| Workload {
        name,
        start: start.to_string(),
        before: before.to_string(),
        repeated: repeated.to_string(),
        repeats: 1000_usize.div_ceil(repeated.split('/').count()),
    })
    .collect()
}

impl Workload {
    /// Its records, with the repeated steps `times` as often as in the shorter run.
    pub fn records(&self, times: usize) -> Vec<u8> {
        let mut records = start_record(&script::fresh(self.start.as_bytes()).expect("a first line"));
        records.extend(step_records(&self.before));
        let repeated = step_records(&self.repeated);
        for _ in 0..self.repeats * times {
            records.extend(&repeated);
        }
        records
    }

    /// How many steps the longer run has more than the shorter.
    pub fn steps(&self) -> usize {
        self.repeats * self.repeated.split('/').count()
    }
}

/// A run of so many accepted steps from the generator.
pub fn mixed(seed: u64, strictly_fair: bool, steps: usize) -> Vec<u8> {
    let fresh = Fresh {
        strictly_fair,
        stock: 2,
        maker: Some(0),
        tasks: 4,
        clocks: None,
    };
    let mut records = start_record(&fresh);
    for step in generator::accepted_steps(seed, &fresh, steps) {
        records.extend(record(&step));
    }
    records
}

fn step_records(lines: &str) -> Vec<u8> {
    let step = |line: &str| script::step(line.as_bytes()).expect("a step");
    let lines = lines.split('/').filter(|line| !line.is_empty());
    lines.flat_map(|line| record(&step(line))).collect()
}

fn start_record(fresh: &Fresh) -> Vec<u8> {
    let maker = fresh.maker.map_or(NOBODY, |maker| maker as u8);
    let fairness = u8::from(!fresh.strictly_fair);
    encoded(fairness, maker, fresh.tasks, fresh.stock).to_vec()
}

fn record(step: &Step) -> [u8; RECORD] {
    let (kind, a, b) = match step.act {
        Act::Request { asked } => (0, asked, 0),
        Act::Bypassable { asked } => (1, asked, 0),
        Act::Reserving { least, asked } => (2, least, asked),
        Act::Upgrade { held, wanted } => (3, held, wanted),
        Act::Poll { slot } => (4, slot, 0),
        Act::Try { asked } => (5, asked, 0),
        Act::TryUpgrade { held, wanted } => (6, held, wanted),
        Act::Release { count } => (7, count, 0),
        Act::Drop { slot } => (8, slot, 0),
        Act::Close => (9, 0, 0),
        Act::Sleep => (10, 0, 0),
        Act::Finish => (11, 0, 0),
    };
    encoded(kind, step.actor as u8, a, b)
}

fn encoded(kind: u8, actor: u8, a: u32, b: u32) -> [u8; RECORD] {
    let low = |n: u32| u16::try_from(n).expect("the measured counts are small").to_le_bytes();
    let ([a0, a1], [b0, b1]) = (low(a), low(b));
    [kind, actor, a0, a1, b0, b1, 0, 0]
}

/// Run the records; the sum of the answers.
pub fn run(records: &[u8]) -> u64 {
    let mut all = records.chunks_exact(RECORD);
    let first = all.next().expect("a start");
    let fresh = Fresh {
        strictly_fair: first[0] == 0,
        stock: number(first, 4),
        maker: (first[1] != NOBODY).then(|| first[1].into()),
        tasks: number(first, 2),
        clocks: None,
    };
    with_machine(&fresh, |machine| {
        let mut sum = 0_u64;
        for record in all {
            sum = sum.wrapping_add(weight(machine.take(&decoded(record))));
        }
        sum
    })
}

fn number(record: &[u8], at: usize) -> u32 {
    u16::from_le_bytes([record[at], record[at + 1]]).into()
}

fn decoded(record: &[u8]) -> Step {
    let (a, b) = (number(record, 2), number(record, 4));
    let act = match record[0] {
        0 => Act::Request { asked: a },
        1 => Act::Bypassable { asked: a },
        2 => Act::Reserving { least: a, asked: b },
        3 => Act::Upgrade { held: a, wanted: b },
        4 => Act::Poll { slot: a },
        5 => Act::Try { asked: a },
        6 => Act::TryUpgrade { held: a, wanted: b },
        7 => Act::Release { count: a },
        8 => Act::Drop { slot: a },
        9 => Act::Close,
        10 => Act::Sleep,
        _ => Act::Finish,
    };
    Step {
        actor: record[1].into(),
        act,
    }
}

/// What an answer counts for in the sum; the other side counts the same.
fn weight(answer: Answer) -> u64 {
    match answer {
        Answer::Done => 1,
        Answer::Granted => 2,
        Answer::Pending => 3,
        Answer::Closed => 4,
        Answer::NoPermits => 5,
        Answer::Slot(slot) => 10 + slot as u64,
    }
}
