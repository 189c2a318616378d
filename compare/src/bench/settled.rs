//! Whole runs: frames of several sizes, each with the replies that its questions get, worked out beforehand. So no
//! evaluation is in the time. The Rust is given evaluations, whose copies are made before the clock starts; the Rattle
//! is lent their numbers. Frames of one size tell what a small drawing takes and what one call takes, which a caller
//! waits for.

use super::{ROUNDS, Task, Timed, mixed};
use crate::archive::Run;
use crate::interval::operands::Random;
use crate::run::pieces::scalars;
use crate::run::rust::finished;
use crate::runs::frame::Frame;
use crate::runs::problem::{Problem, Source};
use crate::runs::rattle::{self, AREA};
use crate::runs::rust::{History, evaluated, history_of};
use geop_core_math::scalars::Scalar;
use geop_core_math::solvers::least_squares::{Euclidean, Evaluation, Options, minimize};
use std::cell::RefCell;
use std::time::{Duration, Instant};

/// So many frames, each for so many iterations at most.
pub const FRAMES: usize = 60;
pub const LIMIT: usize = 30;
/// A frame has at least so many variables.
pub const VARIABLES: usize = 4;
/// So many frames of one size.
const SIZED: usize = 16;
/// The sizes whose runs are timed, and those whose calls are.
const RUN_SIZES: [usize; 2] = [2, 4];
const CALL_SIZES: [usize; 2] = [2, 12];

struct Corpus(Vec<History>);

/// The next frame whose number of variables is wanted.
pub fn frame(random: &mut Random, wanted: &impl Fn(usize) -> bool) -> Frame {
    loop {
        let frame = Frame::drawn(random);
        if wanted(frame.start.len()) {
            return frame;
        }
    }
}

fn run_of(frame: Frame, random: &mut Random) -> History {
    let mut sizes = frame.sizes(random);
    sizes.limit = LIMIT;
    history_of(Problem {
        sizes,
        max_step: frame.reach(random),
        start: frame.start.clone(),
        source: Source::Frame(frame),
    })
}

fn words(numbers: &[f64]) -> u64 {
    numbers.iter().fold(0, |sum, x| mixed(sum, x.to_bits()))
}

fn rust(run: &History) -> (u64, Duration) {
    let given = run
        .replies
        .iter()
        .map(|reply| reply.as_ref().map(|rows| evaluated(run.sizes, rows)));
    let given: Vec<Option<Evaluation>> = given.collect();
    let start: Vec<Scalar> = scalars(&run.start);
    let options = Options {
        max_iterations: run.sizes.limit,
        max_step: run.max_step,
    };
    let replies = RefCell::new(given.into_iter());
    let evaluate = async |_: &Vec<Scalar>| replies.borrow_mut().next().flatten();
    let clock = Instant::now();
    let end = finished(minimize(&Euclidean, evaluate, start, options));
    let time = clock.elapsed();
    let point: Vec<f64> = end.map_or(Vec::new(), |end| {
        end.x.iter().flat_map(|x| [x.lo, x.hi]).collect()
    });
    (words(&point), time)
}

/// The run by the Rattle, with what is done after each call; where it has ended, what it ended as.
fn called(run: &History, area: &mut [f64], mut after: impl FnMut()) -> Option<Run> {
    let (mut state, _) = rattle::begin(run.sizes, &run.start, run.max_step, area);
    after();
    let mut over = false;
    for reply in &run.replies {
        let (next, told) = rattle::reply(state, area, reply.as_ref());
        after();
        state = next;
        over = told.which == 1;
    }
    over.then_some(state)
}

fn rattle(run: &History, area: &mut [f64]) -> (u64, Duration) {
    let clock = Instant::now();
    let end = called(run, area, || ());
    let time = clock.elapsed();
    let sum = end.map_or(0, |state| words(rattle::point(state, area)));
    (sum, time)
}

impl Corpus {
    fn drawn(seed: u64, count: usize, wanted: impl Fn(usize) -> bool) -> Corpus {
        let mut random = Random::new(seed);
        let run = |_| {
            let frame = frame(&mut random, &wanted);
            run_of(frame, &mut random)
        };
        Corpus((0..count).map(run).collect())
    }

    fn sized(n: usize) -> (usize, Corpus) {
        (n, Corpus::drawn(4, SIZED, |variables| variables == n))
    }

    fn task(&self, name: String, times: usize, goal: Option<f64>) -> Task<'_> {
        let parts = self.0.iter().map(|run| {
            let mut area = vec![0.0; AREA];
            let sides: [Timed; 2] = [
                Box::new(|| rust(run)),
                Box::new(move || rattle(run, &mut area)),
            ];
            sides
        });
        Task {
            name,
            times,
            goal,
            parts: parts.collect(),
        }
    }

    /// The mean of the least times of the calls.
    fn call(&self) -> Duration {
        let mut area = vec![0.0; AREA];
        let mut least: Vec<Duration> = Vec::new();
        for run in &self.0 {
            let first = least.len();
            least.resize(first + 1 + run.replies.len(), Duration::MAX);
            for _ in 0..ROUNDS {
                let mut times = least[first..].iter_mut();
                let mut clock = Instant::now();
                called(run, &mut area, || {
                    let time = clock.elapsed();
                    let least = times.next().expect("a time for each call");
                    *least = time.min(*least);
                    clock = Instant::now();
                });
            }
        }
        least.iter().sum::<Duration>() / least.len() as u32
    }
}

/// Frames of all sizes, and of one size each.
pub struct Corpora {
    frames: Corpus,
    runs: [(usize, Corpus); 2],
    calls: [(usize, Corpus); 2],
}

impl Corpora {
    pub fn drawn() -> Corpora {
        Corpora {
            frames: Corpus::drawn(3, FRAMES, |variables| variables >= VARIABLES),
            runs: RUN_SIZES.map(Corpus::sized),
            calls: CALL_SIZES.map(Corpus::sized),
        }
    }

    pub fn tasks(&self) -> Vec<Task<'_>> {
        let questions = self.frames.0.iter().map(|run| run.replies.len()).sum();
        let name = format!("a question of {FRAMES} whole runs");
        let mut tasks = vec![self.frames.task(name, questions, Some(0.5))];
        for (n, corpus) in &self.runs {
            tasks.push(corpus.task(format!("a run of {n} variables"), SIZED, None));
        }
        tasks
    }

    /// What one call takes of the Rattle: the Rust has none between two questions.
    pub fn calls(&self) -> impl Iterator<Item = (String, Duration)> {
        let calls = self.calls.iter();
        calls.map(|(n, corpus)| (format!("a call of {n} variables"), corpus.call()))
    }
}
