//! What occurred in the runs of the Rust: stops, rejections, refusals by arithmetic and corrections. Each that can
//! occur must.

use crate::runs::answers::{Answer, REJECTIONS, STOPS};
use crate::runs::rust::History;
use geop_core_math::trace::Event;
use std::collections::BTreeMap;

/// Names of what occurred, and how often.
#[derive(Clone, Default)]
pub struct Tally(BTreeMap<String, u64>);

const JUDGED: [&str; 2] = ["undecided with no step before", "undecided and taken"];
const RETRIED: [&str; 2] = [
    "tried again without curvature",
    "stopped as first after that",
];
const CHANGED: [&str; 6] = [
    "up",
    "down",
    "to none",
    "within corrections",
    "taken with more",
    "taken with fewer",
];
const ENDED: [&str; 3] = ["answered none", "not nearer", "no further point"];

/// The stops, with the rejections that they can tell: Damped always follows one.
fn stops() -> Vec<String> {
    let mut names: Vec<String> = [0, 2, 3, 5].map(|stop| STOPS[stop].to_string()).into();
    names.extend(REJECTIONS.map(|why| format!("nochange {why}")));
    names.extend(REJECTIONS[1..].iter().map(|why| format!("damped {why}")));
    names
}

fn owned(names: &[&str]) -> Vec<String> {
    names.iter().map(|name| name.to_string()).collect()
}

/// What must occur, in groups.
pub fn expected() -> Vec<(&'static str, Vec<String>)> {
    let turned = REJECTIONS[1..].iter().map(|why| format!("turned {why}"));
    let kept = (0..=4).map(|kept| format!("{kept} kept"));
    vec![
        ("stops", stops()),
        ("turn-downs", turned.chain(owned(&RETRIED)).collect()),
        ("judgements", owned(&JUDGED)),
        ("corrections of a trial", kept.collect()),
        ("corrections ended", owned(&ENDED)),
        ("refusals", owned(&["5", "6"])),
        ("constraint rows change", owned(&CHANGED)),
        (
            "stops of such runs",
            STOPS[1..].iter().map(changing).collect(),
        ),
    ]
}

fn stop_name(answer: &Answer) -> String {
    match answer {
        Answer::Finish(finish) => {
            let stop = STOPS[usize::from(finish.stop)];
            match finish.stop {
                1 | 4 => format!("{stop} {}", REJECTIONS[usize::from(finish.rejected)]),
                _ => stop.to_string(),
            }
        }
        Answer::Error(number, _) => number.to_string(),
        _ => "no end".to_string(),
    }
}

/// How the corrections of each landed trial went: how many were kept, and what ended them before the fourth.
fn corrections(history: &History) -> Vec<String> {
    let mut names = Vec::new();
    let mut question = 0;
    // The events of each trial, from its question to the next trial or the end.
    for trial in history.events.split(|&event| event == Event::Trial).skip(1) {
        let count = |wanted: Event| trial.iter().filter(|&&event| event == wanted).count();
        let (asked, kept) = (count(Event::Correction), count(Event::Kept));
        question += 1;
        let answered = |question: usize| history.replies[question].is_some();
        if answered(question) {
            names.push(format!("{kept} kept"));
        }
        question += asked;
        if asked > kept {
            let ended = if answered(question) {
                ENDED[1]
            } else {
                ENDED[0]
            };
            names.push(ended.to_string());
        } else if 0 < kept && kept < 4 {
            names.push(ENDED[2].to_string());
        }
    }
    names
}

fn turn_downs(history: &History) -> Vec<String> {
    let mut names = Vec::new();
    for event in &history.events {
        let name = match event {
            Event::NotPositive => "turned notpositive",
            Event::Infeasible => "turned infeasible",
            Event::Unresolved => "turned unresolved",
            Event::NotLower => "turned notlower",
            Event::Retried => RETRIED[0],
            Event::Unstopped => JUDGED[0],
            Event::Contracts => JUDGED[1],
            _ => continue,
        };
        names.push(name.to_string());
    }
    // The last iteration's events: after a retry Flat and Undecided are still told of a first proposal.
    let events = history.events.rsplit(|&event| event == Event::Stands);
    let retried = events
        .take(1)
        .flatten()
        .any(|&event| event == Event::Retried);
    let first =
        matches!(history.last(), Answer::Finish(finish) if finish.stop == 2 || finish.stop == 3);
    if retried && first {
        names.push(RETRIED[1].to_string());
    }
    names
}

fn changing(stop: &&str) -> String {
    format!("{stop} with changing counts")
}

/// Whether two of its answers have different numbers of constraint rows.
pub fn changes(history: &History) -> bool {
    let mut counts = history.replies.iter().flatten().map(|rows| rows.m);
    let first = counts.next();
    counts.any(|m| Some(m) != first)
}

/// How the counts of constraint rows change from one answer to the next, and from a standing point to the one after.
fn changed(history: &History) -> Vec<String> {
    let mut names = Vec::new();
    if !changes(history) {
        return names;
    }
    let count = |question: usize| history.rows(question).map(|rows| rows.m);
    for question in 1..history.replies.len() {
        let (Some(before), Some(m)) = (count(question - 1), count(question)) else {
            continue;
        };
        let kind = match &history.answers[question] {
            Answer::Question(asked) => asked.kind,
            _ => continue,
        };
        let occurs = [
            before < m,
            m < before,
            before > 0 && m == 0,
            kind == 2 && before != m,
        ];
        let occurs = CHANGED.iter().zip(occurs).filter(|(_, occurs)| *occurs);
        names.extend(occurs.map(|(name, _)| name.to_string()));
    }
    let standing = history.answers.iter().filter_map(|answer| match answer {
        Answer::Question(asked) => Some(asked.standing),
        Answer::Finish(finish) => Some(finish.standing),
        _ => None,
    });
    let mut before = 0;
    for question in standing {
        if let (Some(left), Some(m)) = (count(before), count(question)) {
            let occurs = [left < m, m < left];
            let occurs = CHANGED[4..]
                .iter()
                .zip(occurs)
                .filter(|(_, occurs)| *occurs);
            names.extend(occurs.map(|(name, _)| name.to_string()));
        }
        before = question;
    }
    if let Answer::Finish(finish) = history.last() {
        names.push(changing(&STOPS[usize::from(finish.stop)]));
    }
    names
}

/// What a run shows, as often as it does.
pub fn shown(history: &History) -> Vec<String> {
    let mut names = vec![stop_name(history.last())];
    names.extend(turn_downs(history));
    names.extend(corrections(history));
    names.extend(changed(history));
    names
}

impl Tally {
    pub fn add(&mut self, names: Vec<String>) {
        for name in names {
            *self.0.entry(name).or_default() += 1;
        }
    }

    pub fn join(&mut self, other: Tally) {
        for (name, count) in other.0 {
            *self.0.entry(name).or_default() += count;
        }
    }

    pub fn count(&self, name: &str) -> u64 {
        self.0.get(name).copied().unwrap_or(0)
    }

    /// A line for each group, and the names of what never occurred.
    pub fn lines(&self) -> (Vec<String>, Vec<String>) {
        let (mut lines, mut missing) = (Vec::new(), Vec::new());
        for (group, names) in expected() {
            let counts: Vec<String> = names
                .iter()
                .map(|name| format!("{name}: {}", self.count(name)))
                .collect();
            lines.push(format!("  {group:<22} {}", counts.join(", ")));
            let never = names.into_iter().filter(|name| self.count(name) == 0);
            missing.extend(never.map(|name| format!("{group} {name}")));
        }
        (lines, missing)
    }
}
