//! Begins with counts, lengths and ends at the limits and beyond, and replies to a run that has not begun.

use crate::archive::EventNumbers;
use crate::hostile::call::{Fault, same_bits};
use crate::hostile::{Kind, Sum, rule};
use crate::runs::area::is_canonical;
use crate::runs::problem::{MOST, Rows, Sizes};
use crate::runs::rattle::{self, AREA};
use crate::runs::text::beginning;
use geop_core_math::scalars::Scalar;

/// What a begin is given.
struct Begin<'a> {
    sizes: Sizes,
    start: &'a [f64],
    max_step: Scalar,
    area: usize,
}

impl Begin<'_> {
    fn expected(&self) -> Option<u64> {
        rule::begin_refusal(self.sizes, self.start, self.max_step, self.area)
    }

    /// As a case of the list, which has no areas.
    fn case(&self, told: &EventNumbers, fault: &Fault) -> String {
        let text = beginning(self.sizes, self.max_step, self.start);
        let expected = self
            .expected()
            .map_or("q 0 0 0 ..".to_string(), |number| format!("x {number:X}"));
        let [rust, rattle] =
            [expected, format!("{told:?}")].map(|answer| format!("{text}{answer}\nend\n"));
        crate::case("run_replay", &rust, &rattle) + &format!("area of {}: {fault}\n", self.area)
    }
}

impl Sum {
    fn begin(&mut self, begin: Begin) {
        let mut lent = vec![f64::from_bits(0x7FF0_0000_0000_1234); begin.area];
        let before = lent.clone();
        let (run, told) = rattle::begin(begin.sizes, begin.start, begin.max_step, &mut lent);
        self.count(Kind::Begin, &told);
        let refused = (told.which == 2).then_some(told.number as u64);
        let fault = if refused != begin.expected() {
            Some("it is not answered as the rule says")
        } else if refused.is_none() {
            (!is_canonical(&run, &lent)).then_some("the area is not canonical")
        } else if !same_bits(&lent, &before) {
            Some("it is refused, and the area is altered")
        } else if rule::refusal(&run, AREA, None) != Some(4) {
            Some("it is refused, and gives a run")
        } else {
            None
        };
        if let Some(fault) = fault {
            self.differ(|| begin.case(&told, &fault.to_string()));
        }
        if refused.is_some() {
            let rows = Rows {
                m: 0,
                numbers: Vec::new(),
            };
            self.both(Kind::Begin, &run, &[0.0; AREA], &rows);
        }
    }

    fn begin_counts(&mut self, fit: Sizes) {
        let most = usize::MAX;
        for count in [0, 1, 12, 13, 24, 25, 200, 201, 1 << 32, 1 << 63, most] {
            let of_limit = Sizes {
                limit: count,
                ..fit
            };
            let counts = [Sizes { n: count, ..fit }, Sizes { s: count, ..fit }];
            for sizes in counts.into_iter().chain([of_limit]) {
                let start = vec![1.0; 2 * sizes.n.min(30)];
                for (start, max_step, area) in [
                    (start.as_slice(), Scalar::ONE, AREA),
                    (&start, Scalar::ONE, AREA - 1),
                    (&[], Scalar::ZERO, AREA),
                ] {
                    self.begin(Begin {
                        sizes,
                        start,
                        max_step,
                        area,
                    });
                }
            }
        }
    }

    fn begin_ends(&mut self, sizes: Sizes) {
        let (above, infinity) = (f64::from_bits(MOST.to_bits() + 1), f64::INFINITY);
        #[rustfmt::skip]
        let ends = [0.0, -0.0, 1.0, -1.0, MOST, -MOST, above, -above, f64::NAN, infinity, -infinity, f64::from_bits(1)];
        for (lo, hi) in ends.into_iter().flat_map(|lo| ends.map(|hi| (lo, hi))) {
            for (start, max_step) in [
                (&[1.0, 1.0, lo, hi][..], Scalar::ONE),
                (&[1.0; 4], Scalar { lo, hi }),
                (&[1.0; 3], Scalar { lo, hi }),
            ] {
                self.begin(Begin {
                    sizes,
                    start,
                    max_step,
                    area: AREA,
                });
            }
        }
    }

    pub fn begins(&mut self) {
        let fit = Sizes {
            n: 2,
            s: 2,
            limit: 5,
        };
        self.begin_counts(fit);
        self.begin_ends(fit);
    }
}
