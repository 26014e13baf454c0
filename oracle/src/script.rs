//! The text of a script: document 01, "The script program", and document 02, No. 2, for the first line.

use crate::step::{Act, Fresh, Step};

/// A script above this is not read.
pub const MOST_BYTES: usize = 65_536;

/// The lines of a script. A line that no line feed ends comes as `None`: it says nothing.
pub fn lines(script: &[u8]) -> impl Iterator<Item = Option<&[u8]>> {
    script
        .split_inclusive(|byte| *byte == b'\n')
        .map(|line| line.strip_suffix(b"\n"))
}

/// The first line, with the starting clocks after the task count, row by row, all or none.
pub fn fresh(line: &[u8]) -> Option<Fresh> {
    let fields: Vec<&[u8]> = fields(line).collect();
    let [letter, stock, maker, tasks, entries @ ..] = &fields[..] else {
        return None;
    };
    let tasks = number(tasks)?;
    let entries: Vec<u32> = entries.iter().map(|entry| number(entry)).collect::<Option<_>>()?;
    let all = u64::from(tasks) * u64::from(tasks); // the product of two numbers of 32 bits fits 64
    if !entries.is_empty() && entries.len() as u64 != all {
        return None;
    }
    Some(Fresh {
        strictly_fair: match *letter {
            b"S" => true,
            b"U" => false,
            _ => return None,
        },
        stock: number(stock)?,
        maker: match *maker {
            b"-" => None,
            maker => Some(number(maker)?),
        },
        tasks,
        clocks: (!entries.is_empty()).then_some(entries),
    })
}

/// Every other line.
pub fn step(line: &[u8]) -> Option<Step> {
    let mut fields = fields(line);
    let letter = fields.next()?;
    let numbers: Vec<u32> = fields.map(number).collect::<Option<_>>()?;
    let (actor, act) = match (letter, &numbers[..]) {
        (b"A", &[actor, asked]) => (actor, Act::Request { asked }),
        (b"B", &[actor, asked]) => (actor, Act::Bypassable { asked }),
        (b"R", &[actor, least, asked]) => (actor, Act::Reserving { least, asked }),
        (b"U", &[actor, held, wanted]) => (actor, Act::Upgrade { held, wanted }),
        (b"P", &[actor, slot]) => (actor, Act::Poll { slot }),
        (b"T", &[actor, asked]) => (actor, Act::Try { asked }),
        (b"V", &[actor, held, wanted]) => (actor, Act::TryUpgrade { held, wanted }),
        (b"L", &[actor, count]) => (actor, Act::Release { count }),
        (b"D", &[actor, slot]) => (actor, Act::Drop { slot }),
        (b"C", &[actor]) => (actor, Act::Close),
        (b"Z", &[actor]) => (actor, Act::Sleep),
        (b"F", &[actor]) => (actor, Act::Finish),
        _ => return None,
    };
    Some(Step { actor, act })
}

fn fields(line: &[u8]) -> impl Iterator<Item = &[u8]> {
    line.split(|byte| *byte == b' ')
}

/// A decimal number up to 4,294,967,295 without leading zeros.
fn number(field: &[u8]) -> Option<u32> {
    let leads_with_zero = field.len() > 1 && field[0] == b'0';
    if leads_with_zero || field.is_empty() || !field.iter().all(u8::is_ascii_digit) {
        return None;
    }
    std::str::from_utf8(field).ok()?.parse().ok()
}

/// The line, without its line feed, that says `fresh`.
pub fn fresh_line(fresh: &Fresh) -> String {
    let letter = if fresh.strictly_fair { 'S' } else { 'U' };
    let maker = fresh.maker.map_or("-".to_string(), |maker| maker.to_string());
    let clocks: String = fresh.clocks.iter().flatten().map(|entry| format!(" {entry}")).collect();
    format!("{letter} {} {maker} {}{clocks}", fresh.stock, fresh.tasks)
}

/// The line, without its line feed, that says `step`.
pub fn step_line(step: &Step) -> String {
    let actor = step.actor;
    match step.act {
        Act::Request { asked } => format!("A {actor} {asked}"),
        Act::Bypassable { asked } => format!("B {actor} {asked}"),
        Act::Reserving { least, asked } => format!("R {actor} {least} {asked}"),
        Act::Upgrade { held, wanted } => format!("U {actor} {held} {wanted}"),
        Act::Poll { slot } => format!("P {actor} {slot}"),
        Act::Try { asked } => format!("T {actor} {asked}"),
        Act::TryUpgrade { held, wanted } => format!("V {actor} {held} {wanted}"),
        Act::Release { count } => format!("L {actor} {count}"),
        Act::Drop { slot } => format!("D {actor} {slot}"),
        Act::Close => format!("C {actor}"),
        Act::Sleep => format!("Z {actor}"),
        Act::Finish => format!("F {actor}"),
    }
}
