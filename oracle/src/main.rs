//! The command line.

use oracle::compare::{self, Difference};
use oracle::generator::{self, Wish};
use oracle::semtrace::{run_watched, Options};
use oracle::tell::{self, Differing};
use oracle::{bench, fault, sample, soak};
use std::io::{self, Read, Write};
use std::panic::{self, AssertUnwindSafe};
use std::path::Path;
use std::process::ExitCode;

const USAGE: &str = "\
usage:
  oracle [--state] [--count] < SCRIPT
  oracle gen --seed N --lines L
  oracle soak --seed N --scripts K --lines L
  oracle compare PROGRAM --seed N --scripts K --lines L
  oracle tell < ROWS
  oracle sample DIRECTORY
  oracle record DIRECTORY
  oracle check DIRECTORY
  oracle workloads DIRECTORY
  oracle bench < RECORDS";

/// The exit codes: what was compared differs, wrong use, and the Rust panicked on an accepted step.
const DIFFERENT: u8 = 1;
const WRONG_USE: u8 = 2;
const PANICKED: u8 = 3;

fn main() -> ExitCode {
    let arguments: Vec<String> = std::env::args().skip(1).collect();
    let mut words = arguments.iter().map(String::as_str).peekable();
    let command = words.next_if(|word| !word.starts_with("--"));
    let done = match command {
        None => unless_unobserved().and_then(|()| run_script(&Flags::read(words)?)),
        Some("gen" | "soak" | "sample" | "record" | "check") if cfg!(feature = "unobserved") => {
            unless_unobserved().map(|()| ExitCode::SUCCESS)
        }
        Some("gen") => unless_faulty().and_then(|()| generate(&Flags::read(words)?)),
        Some("soak") => unless_faulty().and_then(|()| run_soak(&Flags::read(words)?)),
        Some("compare") => unless_faulty().and_then(|()| {
            let program = words.next().ok_or(USAGE)?;
            run_compare(program, &Flags::read(words)?)
        }),
        Some("sample") => unless_faulty().and_then(|()| write_sample(words.next().ok_or(USAGE)?)),
        Some("record") => unless_faulty().and_then(|()| record_states(words.next().ok_or(USAGE)?)),
        Some("tell") => tell_rows(),
        Some("workloads") => unless_faulty().and_then(|()| write_workloads(words.next().ok_or(USAGE)?)),
        Some("bench") => run_records(),
        Some("check") => words.next().ok_or(USAGE.to_string()).and_then(check_sample),
        Some(_) => Err(USAGE.to_string()),
    };
    done.unwrap_or_else(|message| {
        eprintln!("{message}");
        ExitCode::from(WRONG_USE)
    })
}

#[derive(Default)]
struct Flags {
    state: bool,
    count: bool,
    seed: u64,
    scripts: u64,
    lines: usize,
}

impl Flags {
    fn read<'a>(mut words: impl Iterator<Item = &'a str>) -> Result<Self, String> {
        let mut flags = Self::default();
        while let Some(word) = words.next() {
            let mut number = || words.next().and_then(|n| n.parse().ok()).ok_or(USAGE);
            match word {
                "--state" => flags.state = true,
                "--count" => flags.count = true,
                "--seed" => flags.seed = number()?,
                "--scripts" => flags.scripts = number()?,
                "--lines" => flags.lines = number()? as usize,
                _ => return Err(USAGE.to_string()),
            }
        }
        Ok(flags)
    }

    fn wish(&self) -> Wish {
        Wish {
            seed: self.seed,
            lines: self.lines,
        }
    }
}

/// Nothing may be generated or recorded by a build with a deliberate fault.
fn unless_faulty() -> Result<(), String> {
    match fault() {
        Some(name) => Err(format!("FAULT {name}: this build carries a deliberate fault")),
        None => Ok(()),
    }
}

/// A build that observes nothing can only be measured.
fn unless_unobserved() -> Result<(), String> {
    match cfg!(feature = "unobserved") {
        true => Err("this build observes nothing: it has `workloads` and `bench` alone".to_string()),
        false => Ok(()),
    }
}

fn run_script(flags: &Flags) -> Result<ExitCode, String> {
    let mut script = Vec::new();
    io::stdin().read_to_end(&mut script).map_err(|e| e.to_string())?;
    let mut output = String::new();
    if let Some(name) = fault() {
        output += &format!("FAULT {name}: this build carries a deliberate fault\n");
    }
    let options = Options { state: flags.state };
    let ran = panic::catch_unwind(AssertUnwindSafe(|| {
        run_watched(&mut output, &script, options, &mut |_| ())
    }));
    io::stdout().write_all(output.as_bytes()).map_err(|e| e.to_string())?;
    let Ok(count) = ran else {
        let answered = output.lines().filter(|line| !line.starts_with(' ')).count();
        eprintln!("the Rust panicked on an accepted step, after {answered} lines of output that answer a line");
        return Ok(ExitCode::from(PANICKED));
    };
    if flags.count {
        eprintln!("left out {} of {} steps", count.left_out, count.steps);
    }
    Ok(ExitCode::SUCCESS)
}

fn generate(flags: &Flags) -> Result<ExitCode, String> {
    print!("{}", generator::script(flags.wish()));
    Ok(ExitCode::SUCCESS)
}

fn run_soak(flags: &Flags) -> Result<ExitCode, String> {
    let soaked = soak::soak(flags.wish(), flags.scripts);
    for (name, count) in soaked.tally.counts() {
        println!("{count:8}  {name}");
    }
    let count = soaked.count;
    println!(
        "left out {} of {} steps; no panic, no broken state",
        count.left_out, count.steps
    );
    Ok(ExitCode::SUCCESS)
}

fn run_compare(program: &str, flags: &Flags) -> Result<ExitCode, String> {
    panic::set_hook(Box::new(|_| ())); // a panic of the Rust shows as a difference
    let compared = compare::compare(program, flags.wish(), flags.scripts).map_err(|e| format!("{program}: {e}"))?;
    let count = compared.count;
    println!(
        "{} scripts the same, from seed {} on: {} lines; {} steps, of which {} were refused and left out; {} bytes of states",
        compared.scripts, flags.seed, compared.lines, count.steps, count.left_out, compared.bytes
    );
    println!(
        "{} of them have all {} lines, {} of them starting clocks",
        compared.whole,
        flags.wish().lines,
        compared.with_clocks
    );
    match &compared.difference {
        None => {
            println!("no difference");
            Ok(ExitCode::SUCCESS)
        }
        Some(difference) => {
            print_difference(difference);
            Ok(ExitCode::from(DIFFERENT))
        }
    }
}

fn print_difference(difference: &Difference) {
    let Difference {
        seed,
        script,
        smallest,
        differing,
    } = difference;
    println!("\nFIRST DIFFERENCE, with seed {seed}. The script:\n\n{script}");
    println!("The smallest that still differs:\n\n{smallest}");
    print_differing(differing, "The Rust", "The other side");
}

/// What differs, in words, and whose it is.
fn print_differing(differing: &Differing, one_side: &str, other_side: &str) {
    let Differing { line, one, other } = differing;
    println!("At line {line}, of the state only what differs. {one_side}:\n\n{one}\n{other_side}:\n\n{other}");
}

fn tell_rows() -> Result<ExitCode, String> {
    let rows = io::read_to_string(io::stdin()).map_err(|e| e.to_string())?;
    print!("{}", tell::words(&rows));
    Ok(ExitCode::SUCCESS)
}

fn record_states(directory: &str) -> Result<ExitCode, String> {
    let scripts = sample::rewrite(Path::new(directory)).map_err(|e| e.to_string())?;
    println!("wrote the states of {scripts} scripts");
    Ok(ExitCode::SUCCESS)
}

fn write_sample(directory: &str) -> Result<ExitCode, String> {
    let scripts = sample::write(Path::new(directory)).map_err(|e| e.to_string())?;
    println!("wrote {scripts} scripts and their states");
    Ok(ExitCode::SUCCESS)
}

fn check_sample(directory: &str) -> Result<ExitCode, String> {
    panic::set_hook(Box::new(|_| ())); // a panic counts as a difference, and is not told each time
    let checked = sample::check(Path::new(directory)).map_err(|e| e.to_string())?;
    if let Some(name) = fault() {
        println!("FAULT {name}: this build carries a deliberate fault");
    }
    println!("{} of {} scripts differ", checked.different.len(), checked.scripts);
    let Some(first) = &checked.first else {
        return Ok(ExitCode::SUCCESS);
    };
    println!("{}\n\nThe first of them:", checked.different.join(" "));
    print_differing(first, "Recorded", "This build");
    Ok(ExitCode::from(DIFFERENT))
}

/// Seeds of the long mixed runs, and how many steps the two runs of each have.
const MIXED: [(&str, u64, bool); 2] = [
    ("strict: a long mixed run", 1, true),
    ("unfair: a long mixed run", 2, false),
];
const MIXED_STEPS: [usize; 2] = [20_000, 120_000];

/// Two files of records for each workload, and a line: their names, how many steps they differ by, what it is.
fn write_workloads(directory: &str) -> Result<ExitCode, String> {
    let write = |name: String, records: Vec<u8>| {
        std::fs::write(Path::new(directory).join(&name), records).map_err(|e| e.to_string())?;
        Ok::<_, String>(name)
    };
    for (i, workload) in bench::workloads().iter().enumerate() {
        let short = write(format!("{i}.short"), workload.records(1))?;
        let long = write(format!("{i}.long"), workload.records(2))?;
        println!("{short} {long} {} {}", workload.steps(), workload.name);
    }
    for (i, (name, seed, strictly_fair)) in MIXED.into_iter().enumerate() {
        let [few, many] = MIXED_STEPS.map(|steps| bench::mixed(seed, strictly_fair, steps));
        let short = write(format!("mixed{i}.short"), few)?;
        let long = write(format!("mixed{i}.long"), many)?;
        println!("{short} {long} {} {name}", MIXED_STEPS[1] - MIXED_STEPS[0]);
    }
    Ok(ExitCode::SUCCESS)
}

fn run_records() -> Result<ExitCode, String> {
    let mut records = Vec::new();
    io::stdin().read_to_end(&mut records).map_err(|e| e.to_string())?;
    print!("{}", bench::run(&records));
    Ok(ExitCode::SUCCESS)
}
