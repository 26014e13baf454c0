//! Rows of numbers in words, and where two texts differ: for whoever reads a difference.

use crate::rows::*;

/// The first line of a script for which two texts differ, and what differs there, in words.
pub struct Differing {
    pub line: usize,
    pub one: String,
    pub other: String,
}

/// Where two texts that differ do so first.
pub fn differing(one: &str, other: &str) -> Differing {
    let (ones, others) = (blocks(one), blocks(other));
    let alike = ones.iter().zip(&others).take_while(|(one, other)| one == other).count();
    let [one, other] = [&ones, &others].map(|blocks| blocks.get(alike).map_or("nothing\n", String::as_str));
    Differing {
        line: alike + 1,
        one: words(&unlike(one, other)),
        other: words(&unlike(other, one)),
    }
}

/// The text for each line of a script: its printed line, and the rows behind it.
fn blocks(text: &str) -> Vec<String> {
    let mut blocks: Vec<String> = Vec::new();
    for line in text.split_inclusive('\n') {
        match blocks.last_mut() {
            Some(block) if is_row(line) => block.push_str(line),
            _ => blocks.push(line.to_string()),
        }
    }
    blocks
}

fn is_row(line: &str) -> bool {
    line.starts_with(' ')
}

/// The printed line, and of the rows those that the other has not; the whole block where only their order differs.
fn unlike(block: &str, other: &str) -> String {
    let [here, there] = [block, other].map(|text| text.split_inclusive('\n').collect::<Vec<&str>>());
    let has_all = |these: &[&str], those: &[&str]| those.iter().all(|line| these.contains(line));
    if has_all(&here, &there) && has_all(&there, &here) {
        return block.to_string();
    }
    here.into_iter()
        .filter(|line| !is_row(line) || !there.contains(line))
        .collect()
}

/// A text with its rows in words, and all else as it stands.
pub fn words(text: &str) -> String {
    let told = |line: &str| row_in_words(line).map_or_else(|| line.to_string(), |words| format!(" {words}\n"));
    text.split_inclusive('\n').map(told).collect()
}

/// A row in words; none for what is no row.
fn row_in_words(line: &str) -> Option<String> {
    Some(match *numbers(line)? {
        [POINTS, ref came @ ..] if came.len() <= 2 => format!("point {}", list(came, " ", "-")),
        [GRANTS, ref grants @ ..] if grants.len() % 3 == 0 => {
            let grants: Vec<String> = grants.chunks(3).map(grant).collect();
            format!("grants {}", list(&grants, ", ", "-"))
        }
        [SEM, fairness, closed, stock] => {
            let fairness = ["strictly fair", "unfair"].get(fairness)?;
            format!("sem {fairness}, closed {closed}, stock {stock}")
        }
        [BATCHES, 0] => "batches not set up".to_string(),
        [BATCHES, 1, ref sizes @ ..] => format!("batches {}", list(sizes, " ", "-")),
        [BATCH_CLOCK, number, ref clock @ ..] => format!("batch {number} clock {}", entries(clock)),
        [LAST, ref clock @ ..] => format!("last {}", entries(clock)),
        [QUEUE, ref slots @ ..] => format!("queue {}", list(slots, " ", "-")),
        [RESERVED, ref slot @ ..] if slot.len() <= 1 => format!("reserved {}", list(slot, " ", "-")),
        [TASK, number, run, woken] => {
            let run = ["Runnable", "Blocked", "Sleeping", "Finished"].get(run)?;
            format!("task {number} {run}, woken {woken}")
        }
        [TASK_CLOCK, number, ref clock @ ..] => format!("task {number} clock {}", entries(clock)),
        [SLOT, number, 1, ref request @ ..] => format!("slot {number} {}", slot(request)?),
        [SLOT_CLOCK, number, ref clock @ ..] => format!("slot {number} clock {}", entries(clock)),
        _ => return None,
    })
}

/// The numbers of a row, which stand there as they are printed.
fn numbers(line: &str) -> Option<Vec<usize>> {
    let words = line.strip_suffix('\n')?.strip_prefix(' ')?.split(' ');
    let number = |word: &str| word.parse().ok().filter(|number: &usize| number.to_string() == word);
    words.map(number).collect()
}

fn grant(grant: &[usize]) -> String {
    let taker = match grant[0] {
        BY_TRY => "a try".to_string(),
        slot => format!("slot {slot}"),
    };
    format!("{} to {taker} (task {} joins)", grant[1], grant[2])
}

fn slot(request: &[usize]) -> Option<String> {
    let [asked, least, kind, reserving, task, queued, holding, completed, polled] = *request else {
        return None;
    };
    let kind = ["Back", "Bypassable", "Front"].get(kind)?;
    Some(format!(
        "{kind}, asked {asked}, least {least}, reserving {reserving}, task {task}, queued {queued}, \
         holding {holding}, completed {completed}, polled {polled}"
    ))
}

fn entries(clock: &[usize]) -> String {
    list(clock, ",", "")
}

fn list<T: ToString>(items: &[T], between: &str, empty: &str) -> String {
    if items.is_empty() {
        return empty.to_string();
    }
    let texts: Vec<String> = items.iter().map(T::to_string).collect();
    texts.join(between)
}
