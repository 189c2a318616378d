//! Smaller calls: a row or a column less, a mark less, simpler numbers.

use crate::linear::functions::{Axis, Call, Function};
use crate::shrink::{Case, changes_in, simpler_in, without};

/// A call of a function, with what its output holds before.
#[derive(Clone)]
pub struct Smaller<'a> {
    pub function: &'a Function,
    pub call: Call,
    pub before: f64,
}

impl Smaller<'_> {
    fn sizes(&self, axes: [Axis; 2]) -> [usize; 2] {
        axes.map(|axis| match axis {
            Axis::One => 1,
            Axis::Rows => self.call.m,
            Axis::Columns => self.call.n,
        })
    }

    /// Without the i-th of all that counts along an axis.
    fn less(&self, along: Axis, i: usize) -> Self {
        let mut less = self.clone();
        for (input, &axes) in less.call.inputs.iter_mut().zip(self.function.inputs) {
            let mut sizes = self.sizes(axes);
            if axes[0] == along {
                *input = without(input, sizes, i, true);
                sizes[0] -= 1;
            }
            if axes[1] == along {
                *input = without(input, sizes, i, false);
            }
        }
        if along == Axis::Rows {
            less.call.m -= 1;
        } else {
            less.call.n -= 1;
            if self.function.marks {
                less.call.marks.remove(i);
            }
        }
        less
    }

    fn unmarked(&self, i: usize) -> Option<Self> {
        let mut less = self.clone();
        std::mem::take(&mut less.call.marks[i]).then_some(less)
    }
}

impl Case for Smaller<'_> {
    fn changes(&self) -> usize {
        let Call {
            m,
            n,
            inputs,
            marks,
        } = &self.call;
        let numbers: usize = inputs.iter().map(|input| changes_in(input)).sum();
        m + n + marks.len() + numbers
    }

    fn changed(&self, mut change: usize) -> Option<Self> {
        let Call {
            m,
            n,
            inputs,
            marks,
        } = &self.call;
        if change < *m {
            return Some(self.less(Axis::Rows, change));
        }
        change -= m;
        if change < *n {
            return Some(self.less(Axis::Columns, change));
        }
        change -= n;
        if change < marks.len() {
            return self.unmarked(change);
        }
        change -= marks.len();
        for (i, input) in inputs.iter().enumerate() {
            if change < changes_in(input) {
                let mut simpler = self.clone();
                simpler.call.inputs[i] = simpler_in(input, change)?;
                return Some(simpler);
            }
            change -= changes_in(input);
        }
        None
    }
}
