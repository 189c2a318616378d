//! Compares the crates interval, linear and run with the Rust that they follow: function by function, the pieces of a
//! run, whole runs question by question, calls that must be refused, and whole sheets; and the one spelling of a sheet
//! with that by its text alone. A NaN equals a NaN, other numbers compare by bits, refusals by number. Of what differs
//! the smallest case that is found is printed, as a case of the fixed list. The exit status is 1 where any answer
//! differs, or where runs or sheets never show what they must.

#[path = "../../rust/src/archive.rs"]
mod archive;
mod bench;
mod hostile;
mod interval;
mod linear;
mod parts;
mod programs;
mod progress;
mod run;
mod run_c;
mod runs;
mod sheets;
mod shrink;
mod spellings;
mod words;

use std::process::ExitCode;

/// How many calls and runs are drawn.
#[derive(Clone, Copy)]
struct Scale {
    /// Of each function of `interval`, of each function of `linear`, and of each piece of a run.
    scalars: u64,
    linear: u64,
    pieces: u64,
    /// Whole runs.
    runs: u64,
    /// Hostile calls, at least.
    hostile: u64,
    /// Sheets that are accepted; damaged ones go with them.
    sheets: u64,
    /// Sheets that are spelled, each in several ways; damaged ones go with them.
    spellings: u64,
}

impl Scale {
    /// What the test command compares, for so many random operands of each function of `interval`.
    fn test(random: u64) -> Scale {
        Scale {
            scalars: random,
            linear: random / 25,
            pieces: random / 10,
            runs: random / 30,
            hostile: random / 5 * 2,
            sheets: random / 50,
            spellings: random / 10,
        }
    }

    /// More runs, hostile calls, sheets and spellings.
    fn full(random: u64) -> Scale {
        Scale {
            runs: random / 10,
            hostile: random * 10,
            sheets: random / 10,
            spellings: random / 2,
            ..Scale::test(random)
        }
    }
}

struct Settings {
    /// Nothing is compared, times are printed.
    bench: bool,
    seed: u64,
    scale: Scale,
    lists: Vec<(String, String)>,
}

/// What was compared, and how much of it differs.
#[derive(Default)]
struct Count {
    compared: u64,
    differ: u64,
}

impl std::ops::AddAssign for Count {
    fn add_assign(&mut self, other: Count) {
        self.compared += other.compared;
        self.differ += other.differ;
    }
}

fn refuse(why: &str) -> ! {
    eprintln!(
        "compare: {why}: --seed N, --random N, --scale test|full, --progress, --write-list CRATE=FILE"
    );
    std::process::exit(2)
}

fn number(name: &str, value: &str) -> u64 {
    value
        .parse()
        .unwrap_or_else(|_| refuse(&format!("{name} wants a whole number")))
}

fn scale_named(value: &str) -> fn(u64) -> Scale {
    match value {
        "test" => Scale::test,
        "full" => Scale::full,
        _ => refuse("--scale wants test or full"),
    }
}

fn crate_and_file(value: &str) -> (String, String) {
    let Some((name, file)) = value.split_once('=') else {
        refuse("--write-list wants CRATE=FILE")
    };
    (name.to_string(), file.to_string())
}

fn settings() -> Settings {
    let (mut bench, mut seed, mut random) = (false, 1, 1_000_000);
    let mut scale: fn(u64) -> Scale = Scale::test;
    let mut lists = Vec::new();
    let mut args = std::env::args().skip(1);
    while let Some(name) = args.next() {
        if name == "--progress" {
            progress::ask();
            continue;
        }
        if name == "--bench" {
            bench = true;
            continue;
        }
        let Some(value) = args.next() else {
            refuse(&format!("{name} wants a value"))
        };
        match name.as_str() {
            "--seed" => seed = number(&name, &value),
            "--random" => random = number(&name, &value),
            "--scale" => scale = scale_named(&value),
            "--write-list" => lists.push(crate_and_file(&value)),
            _ => refuse(&format!("no option {name}")),
        }
    }
    let scale = scale(random);
    Settings {
        bench,
        seed,
        scale,
        lists,
    }
}

fn write_list(name: &str, path: &str, seed: u64) {
    if name == "sheets" {
        let written = programs::write(path);
        let count = written.unwrap_or_else(|error| panic!("{path}: {error}"));
        println!("what {count} sheets print written to {path}");
        return;
    }
    if let Some(printed) = programs::printed(name) {
        std::fs::write(path, printed).unwrap_or_else(|error| panic!("{path}: {error}"));
        println!("what {name} prints written to {path}");
        return;
    }
    let lines = match name {
        "interval_replay" => interval::list::lines(seed),
        "linear_replay" => linear::list::lines(seed),
        "run_replay" => runs::list::runs(seed),
        _ => refuse(&format!("no list for {name}")),
    };
    std::fs::write(path, lines.concat()).unwrap_or_else(|error| panic!("{path}: {error}"));
    println!("{} entries written to {path}", lines.len());
}

/// A case as the list of a crate has it: with the Rust's answers, and with the Rattle's.
fn case(of: &str, rust: &str, rattle: &str) -> String {
    format!("case of {of}, the Rust:\n{rust}case of {of}, the Rattle:\n{rattle}end of case\n")
}

fn main() -> ExitCode {
    let Settings {
        bench,
        seed,
        scale,
        lists,
    } = settings();
    if bench {
        bench::print();
        return ExitCode::SUCCESS;
    }
    for (name, path) in &lists {
        write_list(name, path, seed);
    }
    if !lists.is_empty() {
        return ExitCode::SUCCESS;
    }
    let mut total = interval::compare(seed, scale.scalars);
    total += linear::compare(seed, scale.linear);
    total += run::compare(seed, scale.pieces);
    total += runs::compare(seed, scale.runs);
    total += hostile::compare(seed, scale.hostile);
    total += programs::compare();
    total += sheets::compare(seed, scale.sheets);
    total += spellings::compare(seed, scale.spellings);
    println!("{} compared, {} differ", total.compared, total.differ);
    if total.differ == 0 {
        ExitCode::SUCCESS
    } else {
        ExitCode::FAILURE
    }
}
