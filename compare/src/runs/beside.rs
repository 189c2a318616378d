//! The Rattle beside a run of the Rust: the same beginning and the same replies, with refused replies in between.

use crate::archive::Run;
use crate::interval::operands::Random;
use crate::run::pieces::CONSTRAINTS;
use crate::runs::answers::Answer;
use crate::runs::area::{self, Stood};
use crate::runs::problem::{MOST, Rows, Sizes};
use crate::runs::rattle::{self, AREA, bits, run_bits};
use crate::runs::rust::History;
use crate::runs::text;

/// One question in so many gets a refused reply first.
const REFUSED: u64 = 8;

/// What is compared of a run.
#[derive(Default)]
pub struct Compared {
    pub answers: u64,
    /// Refused replies in between, by what was wrong with them: rows, ends, area, m.
    pub refused: [u64; 4],
    /// The answer at which it differs first, and how.
    pub differs: Option<(usize, String)>,
    /// The run as a case of the list, with the answers that are expected and with those that are given.
    pub texts: Option<[String; 2]>,
}

#[derive(Clone)]
pub struct Held {
    pub run: Run,
    pub area: Vec<f64>,
}

/// A reply that is refused: its rows, how many numbers of the area are lent, and the number.
type Bad = (Rows, usize, u64);

/// With any m that a reply may have. 0: rows of another length; 1: an end outside the domain, where there is an end; 2:
/// an area one short; 3: an m above 12, with numbers for it or without, which comes before the lengths.
pub fn bad_reply(sizes: Sizes, random: &mut Random, which: usize) -> Option<Bad> {
    let m = random.below(CONSTRAINTS as u64 + 1) as usize;
    let of = |numbers: Vec<f64>| Rows { m, numbers };
    let count = sizes.row_numbers(m);
    let mut rows = vec![1.0; count];
    match which {
        0 if count == 0 => Some((of(vec![1.0]), AREA, 2)),
        0 => {
            rows.pop();
            Some((of(rows), AREA, 2))
        }
        1 if count == 0 => None,
        1 => {
            let i = random.below(count as u64 / 2) as usize;
            let above = f64::from_bits(MOST.to_bits() + 1);
            let ends = match random.below(6) {
                0 => [f64::NAN, 1.0],
                1 => [1.0, f64::INFINITY],
                2 => [2.0, 1.0],
                3 => [-above, 0.0],
                4 => [0.0, f64::NAN],
                _ => [0.0, above],
            };
            rows[2 * i..2 * i + 2].copy_from_slice(&ends);
            Some((of(rows), AREA, 3))
        }
        2 => Some((of(rows), AREA - 1, 2)),
        _ => {
            let m = CONSTRAINTS + 1 + random.below(3) as usize;
            let count = sizes.row_numbers(m) - usize::from(random.at_odds(2));
            let numbers = vec![1.0; count];
            Some((Rows { m, numbers }, AREA, 1))
        }
    }
}

impl Compared {
    fn differ(&mut self, at: usize, text: String) {
        self.differs.get_or_insert((at, text));
    }

    /// What is called, and what it is answered.
    fn tell(&mut self, call: impl Fn() -> String, expected: &Answer, given: &Answer) {
        if let Some(texts) = &mut self.texts {
            for (text, answer) in texts.iter_mut().zip([expected, given]) {
                *text += &format!("{}{}\n", call(), answer.line());
            }
        }
    }

    /// A refused reply leaves the run and the area as they were.
    fn refuse(&mut self, at: usize, held: &mut Held, history: &History, random: &mut Random) {
        let which = random.below(4) as usize;
        let Some((rows, lent, number)) = bad_reply(history.sizes, random, which) else {
            return;
        };
        self.refused[which] += 1;
        let rows = if which == 2 && random.at_odds(2) {
            None
        } else {
            Some(&rows)
        };
        let before = bits(&held.area);
        let (run, told) = rattle::reply(held.run, &mut held.area[..lent], rows);
        let answer = rattle::answer(run, &held.area, told);
        // The list has no areas.
        if lent == AREA {
            let reply = rows.cloned();
            self.tell(|| text::reply(&reply), &Answer::Refused(number), &answer);
        }
        if answer != Answer::Refused(number) {
            self.differ(
                at,
                format!("a reply to be refused by {number}: {}", answer.line()),
            );
        }
        if run_bits(&run) != run_bits(&held.run) || bits(&held.area) != before {
            self.differ(
                at,
                format!("a reply refused by {number} changed the run or the area"),
            );
        }
        held.run = run;
    }

    /// An answer, and the area after it.
    fn answer(
        &mut self,
        at: usize,
        held: &Held,
        answer: &Answer,
        history: &History,
        stood: &Stood,
    ) {
        self.answers += 1;
        let expected = &history.answers[at];
        if answer != expected {
            self.differ(
                at,
                format!("{expected:X?} expected, the Rattle gives {answer:X?}"),
            );
        } else if let Some(fault) = area::fault(&held.run, &held.area, history, stood) {
            self.differ(at, fault.to_string());
        }
    }

    /// With the run over, a reply is refused.
    fn after_the_end(&mut self, held: &mut Held, history: &History) {
        let before = bits(&held.area);
        let (run, told) = rattle::reply(held.run, &mut held.area, None);
        let same = run_bits(&run) == run_bits(&held.run) && bits(&held.area) == before;
        let answer = rattle::answer(run, &held.area, told);
        self.tell(|| text::reply(&None), &Answer::Refused(4), &answer);
        if answer != Answer::Refused(4) || !same {
            let text = "a reply after the end is not refused by 4, or changes something";
            self.differ(history.replies.len(), text.to_string());
        }
    }
}

/// How the Rattle is run beside the Rust.
#[derive(Clone, Copy, Default)]
pub struct Manner {
    /// Of what its area holds before, and of the refused replies.
    pub word: u64,
    /// Whether there are refused replies in between.
    pub refuses: bool,
    /// Whether it is told as a case of the list.
    pub tells: bool,
}

/// Plays the Rattle against a run of the Rust, from an area of any bits; `seen` is shown the state before each reply,
/// and at the end.
pub fn compared(history: &History, manner: Manner, mut seen: impl FnMut(&Held, usize)) -> Compared {
    let mut random = Random::new(manner.word);
    let mut compared = Compared {
        texts: manner.tells.then(Default::default),
        ..Compared::default()
    };
    let mut stood = Stood::default();
    let mut area = vec![f64::from_bits(random.word()); AREA];
    let (run, told) = rattle::begin(history.sizes, &history.start, history.max_step, &mut area);
    let mut held = Held { run, area };
    let answer = rattle::answer(run, &held.area, told);
    let beginning = || text::beginning(history.sizes, history.max_step, &history.start);
    compared.tell(beginning, &history.answers[0], &answer);
    compared.answer(0, &held, &answer, history, &stood);
    for (i, reply) in history.replies.iter().enumerate() {
        if compared.differs.is_some() {
            break;
        }
        if random.at_odds(REFUSED) && manner.refuses {
            compared.refuse(i, &mut held, history, &mut random);
        }
        seen(&held, i);
        let (run, told) = rattle::reply(held.run, &mut held.area, reply.as_ref());
        held.run = run;
        let answer = rattle::answer(run, &held.area, told);
        stood.stands(history, run.standing);
        compared.tell(|| text::reply(reply), &history.answers[i + 1], &answer);
        compared.answer(i + 1, &held, &answer, history, &stood);
    }
    if compared.differs.is_none() && history.is_over() {
        seen(&held, history.replies.len());
        compared.after_the_end(&mut held, history);
    }
    for text in compared.texts.iter_mut().flatten() {
        *text += "end\n";
    }
    compared
}
