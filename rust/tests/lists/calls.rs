//! The calls on the fixed list of runs.

use crate::file;
use crate::runs::{Listed, line, runs};
use yadzvego::{AREA, begin, point, reply, reply_none};

/// How many calls return something else than the list has.
fn differ(listed: &Listed) -> usize {
    let Listed { n, s, limit, .. } = *listed;
    let mut area = vec![0.0; AREA];
    let mut now = begin(n, s, limit, &listed.start, listed.max_step, &mut area);
    let mut differ = 0;
    for (i, expected) in listed.answers.iter().enumerate() {
        differ += usize::from(line(now.event, point(now.run, &area)) != *expected);
        match listed.replies.get(i) {
            Some(Some(rows)) => now = reply(now.run, &mut area, rows.m, &rows.ends),
            Some(None) => now = reply_none(now.run, &mut area),
            None => {}
        }
    }
    differ
}

#[test]
fn answers_are_the_lists() {
    let runs = runs();
    let calls: usize = runs.iter().map(|run| run.answers.len()).sum();
    let differ: usize = runs.iter().map(differ).sum();
    let said = format!("{} runs, {calls} calls, {differ} differ\n", runs.len());
    assert_eq!(said, file("crates/run_replay/stdout"));
}

/// One digit of one answer is another: that answer differs, and no other.
#[test]
fn another_list_differs() {
    for mut run in runs() {
        for i in 0..run.answers.len() {
            let answer = run.answers[i].clone();
            let last = if answer.ends_with('0') { "1" } else { "0" };
            run.answers[i].replace_range(answer.len() - 1.., last);
            assert_eq!(differ(&run), 1, "{answer}");
            run.answers[i] = answer;
        }
    }
}
