//! Document 01, The list: samples, halving, intervals and the count. The finder
//! sees only the yes or no.

/// A window and its step, ms, with t0 < t1 ≤ 2,678,400,000 and a step of at least 1.
#[derive(Debug, Clone, Copy, PartialEq, Eq)]
pub struct Window {
    pub t0: u64,
    pub t1: u64,
    pub step: u64,
}

/// How many intervals were found and how many instants were asked.
#[derive(Debug, Clone, Copy, PartialEq, Eq)]
pub struct Found {
    pub intervals: u64,
    pub asked: u64,
}

/// Halves a step whose ends differ until its ends are neighbours: low, high and
/// the number of halvings. `at_low` is the low end's answer.
#[inline]
pub fn halve(
    mut low: u64,
    mut high: u64,
    at_low: bool,
    answer: &impl Fn(u64) -> bool,
) -> (u64, u64, u64) {
    let mut halvings = 0;
    while high - low > 1 {
        let middle = (low + high) / 2;
        if answer(middle) == at_low {
            low = middle;
        } else {
            high = middle;
        }
        halvings += 1;
    }
    (low, high, halvings)
}

/// Hands every interval's first and last to `interval`, in order.
///
/// Samples: t0, t0+step, .., and t1 last; the last step may be shorter.
/// Asked: n+1 samples and one per halving.
#[inline]
pub fn find(
    window: Window,
    answer: impl Fn(u64) -> bool,
    mut interval: impl FnMut(u64, u64),
) -> Found {
    let Window { t0, t1, step } = window;
    let mut intervals = 0;
    let (mut before, mut was, mut asked) = (t0, answer(t0), 1);
    // The open interval's first; counts only while `was` is yes.
    let mut first = t0;
    while before < t1 {
        let sample = (before + step).min(t1);
        let is = answer(sample);
        asked += 1;
        if is != was {
            let (low, high, halvings) = halve(before, sample, was, &answer);
            asked += halvings;
            if is {
                first = high;
            } else {
                interval(first, low);
                intervals += 1;
            }
        }
        (before, was) = (sample, is);
    }
    if was {
        interval(first, t1);
        intervals += 1;
    }
    Found { intervals, asked }
}
