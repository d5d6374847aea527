//! How a day opens, and what a list leaves for the day after it.

use crate::boundary::{Case, STAGES};

/// Hours in state are counted up to this number, which 7 allows.
const ELAPSED_MOST: u16 = 10_000;

/// The state of the unit before hour 1, by the names of [`Case`].
#[derive(Clone, Copy, Debug, PartialEq, Eq)]
pub struct Opening {
    /// p(0), the output before hour 1, in MW.
    pub initial: u16,
    /// h, the hours on-line (p(0) above 0) or off-line (p(0) 0) before hour 1.
    pub elapsed: u16,
    /// Start-up stage: 0, or i below UD where the day opens on PU(i).
    pub upstage: u8,
    /// Shut-down stage: 0, or i from 2 to DD where the day opens on PD(i).
    pub downstage: u8,
}

impl Case {
    /// The opening that a list which passes leaves for the next day: its last output; how many hours the unit
    /// has then been on-line or off-line, counted up to 10,000; and the stage of the start-up or of the
    /// shut-down that the day closes in. An accepted case has its own opening after no hours.
    ///
    /// ```
    /// use giqapsun::{best, check, read, Opening, Verdict};
    ///
    /// // Case 7's unit closes two hours in a shut-down, on PD(2).
    /// let mut today = read(include_bytes!("../../../cases/case7.case"))?;
    /// today.hours = 2;
    /// let plan = best(&today)?;
    /// assert_eq!((&plan.outputs[..], plan.profit), (&[2, 1][..], -44));
    /// let opening = today.opening_after(&plan.outputs);
    /// assert_eq!(opening, Opening { initial: 1, elapsed: 4, upstage: 0, downstage: 2 });
    ///
    /// // The next day has the stop in its hour 1, and C with it: the two earn what one day of both would.
    /// let mut tomorrow = today.opened(opening);
    /// tomorrow.hours = 1;
    /// assert_eq!(check(&tomorrow, &[0])?, Verdict::Passes { profit: -9 });
    /// assert_eq!(check(&tomorrow, &[1])?, Verdict::Breaks { hour: 0, rule: 2 });
    /// # Ok::<(), giqapsun::Refusal>(())
    /// ```
    pub fn opening_after(&self, list: &[u16]) -> Opening {
        let (mut initial, mut elapsed) = (self.initial, self.elapsed);
        for &output in list {
            let changes = (output > 0) != (initial > 0);
            elapsed = if changes { 1 } else { elapsed.saturating_add(1).min(ELAPSED_MOST) };
            initial = output;
        }
        let hours = if initial > 0 { usize::from(elapsed) } else { usize::MAX };
        let upstage = if hours < self.rises { hours as u8 } else { 0 };
        let downstage = if hours > self.rises { self.stage_of(initial) } else { 0 };
        Opening { initial, elapsed, upstage, downstage }
    }

    /// The case with another opening.
    pub fn opened(&self, opening: Opening) -> Case {
        let Opening { initial, elapsed, upstage, downstage } = opening;
        Case { initial, elapsed, upstage, downstage, ..*self }
    }

    /// The stage of a shut-down, 2 or later, with this output; 0 where there is none.
    fn stage_of(&self, output: u16) -> u8 {
        let stages = (1..).zip(&self.fall[..self.falls.min(STAGES)]).skip(1);
        stages.filter(|(_, &fall)| fall == output).map(|(stage, _)| stage).next().unwrap_or(0)
    }
}
