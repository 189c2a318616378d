//! Smaller texts that still differ: lines and bytes left out, digits lowered.

use crate::shrink::{Case, smallest};
use std::fmt::Display;

#[derive(Clone)]
struct Text(Vec<u8>);

impl Text {
    fn lines(&self) -> Vec<&[u8]> {
        self.0.split_inclusive(|&byte| byte == b'\n').collect()
    }

    /// Without its i-th line; a count that tells it is one less where `counted`.
    fn without_line(&self, i: usize, counted: bool) -> Option<Text> {
        let mut lines = self.lines();
        let gone = lines.remove(i);
        let is_point = gone.starts_with(b"at=");
        let key: &[u8] = if is_point { b"points=" } else { b"rules=" };
        let mut text = Vec::new();
        for line in lines {
            match line.strip_prefix(key) {
                Some(count) if counted => {
                    let count = std::str::from_utf8(count).ok()?.trim().parse::<usize>();
                    let less = count.ok()?.checked_sub(1)?;
                    text.extend_from_slice(key);
                    text.extend(format!("{less}\n").bytes());
                }
                _ => text.extend_from_slice(line),
            }
        }
        (text.len() < self.0.len()).then_some(Text(text))
    }

    /// A half, a quarter and so on of the bytes left out: zeros and digits come in long rows.
    fn without_bytes(&self, mut change: usize) -> Option<Text> {
        let mut size = self.0.len() / 2;
        while size > 0 {
            let blocks = self.0.len().div_ceil(size);
            if change < blocks {
                let from = change * size;
                let to = self.0.len().min(from + size);
                return Some(Text([&self.0[..from], &self.0[to..]].concat()));
            }
            change -= blocks;
            size /= 2;
        }
        None
    }

    fn blocks(&self) -> usize {
        let mut count = 0;
        let mut size = self.0.len() / 2;
        while size > 0 {
            count += self.0.len().div_ceil(size);
            size /= 2;
        }
        count
    }

    fn lower(&self, i: usize, digit: u8) -> Option<Text> {
        let mut text = self.0.clone();
        let lower = text[i].is_ascii_digit() && digit < text[i];
        text[i] = digit;
        lower.then_some(Text(text))
    }
}

impl Case for Text {
    fn changes(&self) -> usize {
        2 * self.lines().len() + self.blocks() + 2 * self.0.len()
    }

    fn changed(&self, change: usize) -> Option<Text> {
        let lines = self.lines().len();
        if let Some(change) = change.checked_sub(2 * lines) {
            let blocks = self.blocks();
            return match change.checked_sub(blocks) {
                None => self.without_bytes(change),
                Some(change) => self.lower(change / 2, b"01"[change % 2]),
            };
        }
        self.without_line(change / 2, change % 2 == 0)
    }
}

/// The smallest text found that differs, and how.
pub fn least<F: Display>(
    text: Vec<u8>,
    fault: F,
    mut fault_of: impl FnMut(&[u8]) -> Option<F>,
) -> String {
    let least = smallest(Text(text), |text| fault_of(&text.0).is_some());
    let fault = fault_of(&least.0).unwrap_or(fault);
    let (bytes, text) = (least.0.len(), least.0.escape_ascii());
    format!("sheet of {bytes} bytes: \"{text}\"\n{fault}\n")
}
