//! Both sides on the same generated scripts, whole states compared, and a difference cut down.

use crate::generator::{self, Wish};
use crate::script;
use crate::semtrace::{run_caught, Count, Options};
use crate::step::SLOTS;
use crate::tell::{self, Differing};
use std::io::{self, Read, Write};
use std::process::{Command, Stdio};
use std::thread;

/// So many scripts are given to the other side in one run of it.
const AT_ONCE: u64 = 250;
/// What the other side prints behind the text for a script.
const END: &str = "end\n";

const OPTIONS: Options = Options { state: true };

#[derive(Default)]
pub struct Compared {
    pub scripts: u64,
    /// Those whose first line gives the starting clocks; the others that start spawn their tasks.
    pub with_clocks: u64,
    /// Those that have every line that was wished for; the others end early.
    pub whole: u64,
    pub lines: usize,
    pub bytes: usize,
    pub count: Count,
    pub difference: Option<Difference>,
}

pub struct Difference {
    pub seed: u64,
    /// The script as it was generated, and the smallest that still differs.
    pub script: String,
    pub smallest: String,
    /// Where the two sides, the Rust first, differ for the smallest.
    pub differing: Differing,
}

/// Compare `scripts` scripts, with the seeds from that of `wish` on, up to the first difference.
pub fn compare(program: &str, wish: Wish, scripts: u64) -> io::Result<Compared> {
    let mut compared = Compared::default();
    let mut seed = wish.seed;
    while compared.difference.is_none() && seed < wish.seed + scripts {
        let until = (seed + AT_ONCE).min(wish.seed + scripts);
        let texts: Vec<String> = (seed..until)
            .map(|seed| generator::script(Wish { seed, ..wish }))
            .collect();
        let rust: Vec<String> = texts.iter().map(|text| rust_side(text, &mut compared.count)).collect();
        let printed = other_side(program, &texts)?;
        let same = printed_alike(&rust, &printed);
        compared.scripts += same as u64;
        compared.with_clocks += texts[..same].iter().filter(|text| gives_clocks(text)).count() as u64;
        let lengths: Vec<usize> = texts[..same].iter().map(|text| text.lines().count()).collect();
        compared.whole += lengths.iter().filter(|length| **length == wish.lines).count() as u64;
        compared.lines += lengths.iter().sum::<usize>();
        compared.bytes += rust[..same].iter().map(String::len).sum::<usize>();
        if same < texts.len() {
            compared.difference = Some(difference(program, seed + same as u64, &texts[same])?);
        }
        seed = until;
    }
    Ok(compared)
}

fn gives_clocks(script: &str) -> bool {
    let first = script::lines(script.as_bytes()).next().flatten();
    first
        .and_then(script::fresh)
        .is_some_and(|fresh| fresh.clocks.is_some())
}

/// What the Rust gives.
fn rust_side(script: &str, count: &mut Count) -> String {
    let (output, more) = run_caught(script.as_bytes(), OPTIONS);
    count.steps += more.steps;
    count.left_out += more.left_out;
    output
}

/// What the other side prints for all the scripts.
fn other_side(program: &str, scripts: &[String]) -> io::Result<Vec<u8>> {
    let mut child = Command::new(program)
        .arg("many")
        .stdin(Stdio::piped())
        .stdout(Stdio::piped())
        .spawn()?;
    let mut input = child.stdin.take().expect("its input is a pipe");
    let mut framed = Vec::new();
    for script in scripts {
        let length = u16::try_from(script.len()).map_err(io::Error::other)?;
        framed.extend(length.to_be_bytes());
        framed.extend(script.as_bytes());
    }
    let writer = thread::spawn(move || input.write_all(&framed));
    let mut printed = Vec::new();
    child
        .stdout
        .take()
        .expect("its output is a pipe")
        .read_to_end(&mut printed)?;
    child.wait()?;
    writer.join().expect("the writer does not panic").map(|()| printed)
}

/// For how many scripts, from the first on, both sides print the same.
fn printed_alike(rust: &[String], printed: &[u8]) -> usize {
    let mut rest = printed;
    for (number, text) in rust.iter().enumerate() {
        let behind = rest
            .strip_prefix(text.as_bytes())
            .and_then(|rest| rest.strip_prefix(END.as_bytes()));
        match behind {
            Some(behind) => rest = behind,
            None => return number,
        }
    }
    rust.len()
}

fn both(program: &str, script: &str) -> io::Result<(String, String)> {
    let rust = rust_side(script, &mut Count::default());
    let printed = other_side(program, &[script.to_string()])?;
    let printed = String::from_utf8_lossy(&printed).into_owned();
    let other = printed.strip_suffix(END).unwrap_or(&printed).to_string();
    Ok((rust, other))
}

fn difference(program: &str, seed: u64, script: &str) -> io::Result<Difference> {
    let smallest = cut_down(script, &mut |script| {
        let (rust, other) = both(program, script)?;
        Ok(rust != other)
    })?;
    let (rust, other) = both(program, &smallest)?;
    Ok(Difference {
        seed,
        script: script.to_string(),
        smallest,
        differing: tell::differing(&rust, &other),
    })
}

/// The smallest script that still differs: no line can go, and no request, with the later slots counted
/// down by one.
pub fn cut_down(script: &str, differs: &mut dyn FnMut(&str) -> io::Result<bool>) -> io::Result<String> {
    let mut smallest = without_lines(script, differs)?;
    while let Some(fewer) = without_a_request(&smallest, differs)? {
        smallest = without_lines(&fewer, differs)?;
    }
    Ok(smallest)
}

/// The script without every line that it can spare: whole stretches first, then line by line, until no
/// single line can go. The first line stays.
fn without_lines(script: &str, differs: &mut dyn FnMut(&str) -> io::Result<bool>) -> io::Result<String> {
    let mut lines: Vec<&str> = script.split_inclusive('\n').collect();
    let mut stretch = lines.len().max(1);
    loop {
        let mut cut = false;
        let mut from = lines.len();
        while from > 1 {
            let start = from.saturating_sub(stretch).max(1);
            let fewer: Vec<&str> = [&lines[..start], &lines[from..]].concat();
            if differs(&fewer.concat())? {
                lines = fewer;
                cut = true;
            }
            from = start;
        }
        if stretch == 1 && !cut {
            return Ok(lines.concat());
        }
        stretch = (stretch / 2).max(1);
    }
}

/// The script without the line that makes some request, if it still differs once the slots above that
/// request's are counted down in the lines behind.
fn without_a_request(script: &str, differs: &mut dyn FnMut(&str) -> io::Result<bool>) -> io::Result<Option<String>> {
    let lines: Vec<&str> = script.split_inclusive('\n').collect();
    for (number, line) in lines.iter().enumerate().skip(1) {
        if !line.starts_with(['A', 'B', 'R', 'U']) {
            continue;
        }
        for slot in 0..SLOTS {
            let behind = lines[number + 1..].iter().map(|line| counted_down(line, slot));
            let fewer: String = lines[..number]
                .iter()
                .map(|line| line.to_string())
                .chain(behind)
                .collect();
            if differs(&fewer)? {
                return Ok(Some(fewer));
            }
        }
    }
    Ok(None)
}

/// A poll or a drop of a slot above `gone` is one of the slot below it.
fn counted_down(line: &str, gone: usize) -> String {
    let fields: Vec<&str> = line.trim_end().split(' ').collect();
    match fields[..] {
        [letter @ ("P" | "D"), actor, slot] => match slot.parse::<usize>() {
            Ok(slot) if slot > gone => format!("{letter} {actor} {}\n", slot - 1),
            _ => line.to_string(),
        },
        _ => line.to_string(),
    }
}
