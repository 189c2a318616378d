//! How long the Rattle takes beside the Rust, in one process: scalars, list functions, whole runs on fixed corpora of
//! frames, and whole sheets. Each task is done by both in turn, round after round, and the least time of each counts.
//! Both must give the same words. What one call takes is timed of the Rattle alone.

mod lists;
mod scalars;
mod settled;
mod sheets;

use std::time::{Duration, Instant};

/// So many rounds.
const ROUNDS: usize = 200;

/// A part of a task, done by one side: what it gives, summed, and how long it took.
type Timed<'a> = Box<dyn FnMut() -> (u64, Duration) + 'a>;

/// What both sides do, in parts that are timed one by one.
struct Task<'a> {
    name: String,
    /// What is done so often in the parts together.
    times: usize,
    /// The greatest ratio that is wanted.
    goal: Option<f64>,
    parts: Vec<[Timed<'a>; 2]>,
}

fn timed<'a>(mut work: impl FnMut() -> u64 + 'a) -> Timed<'a> {
    Box::new(move || {
        let start = Instant::now();
        let sum = work();
        (sum, start.elapsed())
    })
}

/// One word of many.
fn mixed(sum: u64, word: u64) -> u64 {
    sum.rotate_left(1) ^ word
}

/// The least times of the Rust and of the Rattle, summed over the parts.
fn least(task: &mut Task) -> [Duration; 2] {
    let mut least = vec![[Duration::MAX; 2]; task.parts.len()];
    for _ in 0..ROUNDS {
        for (part, least) in task.parts.iter_mut().zip(&mut least) {
            let [(rust, by_rust), (rattle, by_rattle)] = part.each_mut().map(|side| side());
            assert!(
                rust == rattle,
                "{}: the two give different words",
                task.name
            );
            *least = [least[0].min(by_rust), least[1].min(by_rattle)];
        }
    }
    [0, 1].map(|side| least.iter().map(|times| times[side]).sum())
}

fn line(task: &mut Task) -> String {
    let [rust, rattle] = least(task).map(|time| time.as_nanos() as f64 / task.times as f64);
    let goal = task.goal.map_or(String::new(), |goal| format!("{goal}"));
    let ratio = rattle / rust;
    format!(
        "| {} | {rust:.1} | {rattle:.1} | {ratio:.2} | {goal} |",
        task.name
    )
}

pub fn print() {
    println!("| What | Rust, ns | Rattle, ns | Ratio | Goal |");
    println!("|---|---|---|---|---|");
    let (lists, settled) = (lists::Lists::drawn(), settled::Corpora::drawn());
    let sheets = sheets::Sheets::drawn();
    let mut tasks = scalars::tasks();
    tasks.extend(lists.tasks());
    tasks.extend(settled.tasks());
    tasks.push(sheets.task());
    for mut task in tasks {
        println!("{}", line(&mut task));
    }
    for (name, time) in settled.calls() {
        println!("| {name} |  | {:.1} |  |  |", time.as_nanos() as f64);
    }
}
